/* finish < REQUESTS: how a thread's open operation goes on when this thread alone takes steps.
 *
 * A request is a thread byte, a version byte, a two-byte big-endian count and that many records. The answer is a line
 *
 *     REFUSAL RECORDS ROWS REFUSAL RECORDS ROWS
 *
 * what the library says of a schedule of these records, and of the same with steps of the thread behind them, as
 * many as a schedule holds.
 */
#include <stdio.h>
#include <string.h>

#include "nuxalder.h"

/* A record has 2 bytes in version 1 and 4 in versions 2 and 3, the row buffer 2 and 7 for each. */
enum { RECORDS_MOST = 4096, HEADER = 3, WIDTH_MOST = 4, ROOM_MOST = 7 };

static uint8_t schedule[HEADER + WIDTH_MOST * RECORDS_MOST];
static uint8_t rows[ROOM_MOST * RECORDS_MOST];

static void answer(size_t count, size_t width, char after) {
    uint64_t report[NUXALDER_RUN_FIELDS];

    schedule[1] = (uint8_t)(count >> 8);
    schedule[2] = (uint8_t)count;
    nuxalder_run(schedule, HEADER + width * count, rows, sizeof rows, report);
    printf("%llu %llu %llu%c", (unsigned long long)report[NUXALDER_RUN_REFUSAL],
           (unsigned long long)report[NUXALDER_RUN_RECORDS], (unsigned long long)report[NUXALDER_RUN_ROWS], after);
}

int main(void) {
    uint8_t head[4];

    while (fread(head, 1, sizeof head, stdin) == sizeof head) {
        size_t width = head[1] == 2 || head[1] == 3 ? 4 : 2, count = 256u * head[2] + head[3], i;
        if (count > RECORDS_MOST || fread(schedule + HEADER, width, count, stdin) != count) return 1;
        schedule[0] = head[1];
        answer(count, width, ' ');
        memset(schedule + HEADER + width * count, 0, width * (RECORDS_MOST - count));
        for (i = count; i < RECORDS_MOST; i++) schedule[HEADER + width * i] = (uint8_t)(16 * head[0]);
        answer(RECORDS_MOST, width, '\n');
        fflush(stdout);
    }
    return 0;
}
