/* histories history < SCHEDULE, histories judge < FILES: what the proved library answers.
 *
 * history: a line `history REFUSAL LENGTH` by nuxalder_history, then that many bytes.
 * judge: for each file on standard input, which stands after its length in four bytes, the low one first, a line
 * `judged REFUSAL ACCEPTED OPERATIONS` and twelve numbers, the order, by nuxalder_judge.
 */
#include <stdio.h>
#include <stdlib.h>
#include <string.h>

#include "nuxalder.h"

enum { FILE_ROOM = 1 << 19 };

static uint8_t file[FILE_ROOM];
static uint8_t history[NUXALDER_HISTORY_BUFFER];

static int write_history(void) {
    uint64_t report[NUXALDER_HISTORY_FIELDS];
    size_t length = fread(file, 1, sizeof file, stdin);

    nuxalder_history(file, length, history, sizeof history, report);
    printf("history %llu %llu\n", (unsigned long long)report[NUXALDER_HISTORY_REFUSAL],
           (unsigned long long)report[NUXALDER_HISTORY_LENGTH]);
    fwrite(history, 1, (size_t)report[NUXALDER_HISTORY_LENGTH], stdout);
    return 0;
}

static int judge_all(void) {
    uint64_t report[NUXALDER_JUDGE_FIELDS];
    uint8_t order[NUXALDER_JUDGE_ORDER], head[4];
    size_t length, i;

    while (fread(head, 1, sizeof head, stdin) == sizeof head) {
        length = head[0] | (size_t)head[1] << 8 | (size_t)head[2] << 16 | (size_t)head[3] << 24;
        if (length > sizeof file || fread(file, 1, length, stdin) != length) {
            fprintf(stderr, "histories: a file is not whole\n");
            return 1;
        }
        nuxalder_judge(file, length, order, report);
        printf("judged %llu %llu %llu", (unsigned long long)report[NUXALDER_JUDGE_REFUSAL],
               (unsigned long long)report[NUXALDER_JUDGE_ACCEPTED],
               (unsigned long long)report[NUXALDER_JUDGE_OPERATIONS]);
        for (i = 0; i < NUXALDER_JUDGE_ORDER; i++)
            printf(" %u", order[i]);
        putchar('\n');
    }
    return 0;
}

int main(int argc, char **argv) {
    if (argc == 2 && strcmp(argv[1], "history") == 0)
        return write_history();
    if (argc == 2 && strcmp(argv[1], "judge") == 0)
        return judge_all();
    fprintf(stderr, "usage: histories history | judge\n");
    return 2;
}
