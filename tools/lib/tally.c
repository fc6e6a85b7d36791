/* tally < FILES: what the library's Tally answers for a season of schedule files, one tally lent to all of them.
 *
 * A file on standard input stands after its length in four bytes, the low one first; it is answered before the next one is
 * read:
 *
 *     file REFUSAL RECORDS TALLY      Run's refusal, the records done, and 0 or 19
 *
 * and at the end of the input
 *
 *     cells N0 N1 ..                  every number of the tally, which was begun empty
 *     average ACTION STEPS OPERATIONS for each action, by nuxalder_average
 *     end
 *
 * The library may be a build under test, so what it prints itself goes to standard error. A line that starts with
 * "tally: " there says what is wrong.
 */
#include <stdio.h>
#include <stdlib.h>
#include <string.h>
#include <unistd.h>

#include "nuxalder.h"

enum { FILE_ROOM = 1 << 18, UNTOUCHED = 0xA5 };

static uint8_t schedule[FILE_ROOM], rows[NUXALDER_ROWS_BUFFER];
static union {
    struct nuxalder_tally tally;
    uint32_t cells[sizeof(struct nuxalder_tally) / sizeof(uint32_t)];
} season;
static FILE *out;

static void fail(const char *what) {
    fflush(out);
    fprintf(stderr, "tally: %s\n", what);
    exit(1);
}

static void add(size_t length) {
    uint64_t report[NUXALDER_TALLY_FIELDS];
    size_t row = length > 0 && schedule[0] == NUXALDER_FILE_VERSION ? NUXALDER_ROW_SIZE : NUXALDER_DEEP_ROW_SIZE, at;

    memset(rows, UNTOUCHED, sizeof rows);
    memset(report, 0xFF, sizeof report);
    nuxalder_tally(schedule, length, rows, sizeof rows, &season.tally, report);
    if (report[NUXALDER_RUN_RECORDS] > NUXALDER_RECORDS_MOST) fail("more records done than a schedule holds");
    if (report[NUXALDER_RUN_ROWS] > NUXALDER_RECORDS_MOST / 2) fail("more rows than a schedule can have");
    for (at = row * (size_t)report[NUXALDER_RUN_ROWS]; at < sizeof rows; at++)
        if (rows[at] != UNTOUCHED) fail("bytes after the rows were written");
    fprintf(out, "file %llu %llu %llu\n", (unsigned long long)report[NUXALDER_RUN_REFUSAL],
            (unsigned long long)report[NUXALDER_RUN_RECORDS], (unsigned long long)report[NUXALDER_TALLY_REFUSAL]);
    fflush(out);
}

int main(void) {
    uint64_t average[NUXALDER_AVERAGE_FIELDS];
    uint8_t head[4];
    size_t length, i;

    out = fdopen(dup(STDOUT_FILENO), "w");
    if (out == NULL) return 1;
    dup2(STDERR_FILENO, STDOUT_FILENO);
    while (fread(head, 1, sizeof head, stdin) == sizeof head) {
        length = head[0] | (size_t)head[1] << 8 | (size_t)head[2] << 16 | (size_t)head[3] << 24;
        if (length > sizeof schedule || fread(schedule, 1, length, stdin) != length) fail("a file is not whole");
        add(length);
    }
    fprintf(out, "cells");
    for (i = 0; i < sizeof season.cells / sizeof season.cells[0]; i++) fprintf(out, " %lu", (unsigned long)season.cells[i]);
    putc('\n', out);
    for (i = NUXALDER_LOOKUP; i <= NUXALDER_RANGE; i++) {
        nuxalder_average(&season.tally, (uint8_t)i, average);
        fprintf(out, "average %zu %llu %llu\n", i, (unsigned long long)average[NUXALDER_AVERAGE_STEPS],
                (unsigned long long)average[NUXALDER_AVERAGE_OPERATIONS]);
    }
    fprintf(out, "end\n");
    return fflush(out) == 0 ? 0 : 1;
}
