/* merge LENGTH < FILES: what the proved library's Merge answers for two schedule files, the first of which is the
 * first LENGTH bytes of standard input and the second the rest. It prints one of
 *
 *     merged LENGTH                 a newline, then the merged file: what Merge wrote and, after it, the part
 *     refused NUMBER FILE RECORD    the file at fault, 1 or 2, or 0 for both; its record, from 1, or 0 for none
 *
 * Which file and which record are found by asking Merge again: a file with the empty schedule beside it, and for
 * refusal 17 that file cut to its first records.
 */
#include <stdio.h>
#include <stdlib.h>
#include <string.h>

#include "nuxalder.h"

enum { HEADER = 3, RECORDS_MOST = 4096, FILE_ROOM = 1 << 18, OUT_ROOM = HEADER + 2 * RECORDS_MOST };

static uint8_t files[2 * FILE_ROOM], out[OUT_ROOM];
static const uint8_t empty[HEADER] = {1, 0, 0};
static uint64_t report[NUXALDER_MERGE_FIELDS];

static void fail(const char *what) {
    fprintf(stderr, "merge: %s\n", what);
    exit(1);
}

/* The refusal of one file with the empty schedule for the other. */
static uint64_t refusal_alone(const uint8_t *file, size_t length, int second) {
    if (second)
        nuxalder_merge(empty, HEADER, file, length, out, sizeof out, report);
    else
        nuxalder_merge(file, length, empty, HEADER, out, sizeof out, report);
    return report[NUXALDER_MERGE_REFUSAL];
}

/* The first record that is refused with 17. */
static size_t foreign_record(uint8_t *file, size_t length, int second) {
    size_t n;

    for (n = 1; HEADER + 2 * n <= length; n++) {
        file[1] = (uint8_t)(n >> 8);
        file[2] = (uint8_t)n;
        if (refusal_alone(file, HEADER + 2 * n, second) != 0) return n;
    }
    return 0;
}

int main(int argc, char **argv) {
    size_t all, first_length, second_length, left;
    uint8_t *first = files, *second;
    uint64_t refusal, alone;
    int file;

    if (argc != 2) fail("usage: merge LENGTH < FILES");
    first_length = strtoul(argv[1], NULL, 10);
    all = fread(files, 1, sizeof files, stdin);
    if (all == sizeof files || first_length > all) fail("the files are far longer than any schedule");
    second = files + first_length;
    second_length = all - first_length;

    nuxalder_merge(first, first_length, second, second_length, out, sizeof out, report);
    refusal = report[NUXALDER_MERGE_REFUSAL];
    if (refusal == 0) {
        left = (size_t)report[NUXALDER_MERGE_LENGTH];
        all -= HEADER;
        printf("merged %zu\n", all);
        fwrite(out, 1, all - left, stdout);
        fwrite((report[NUXALDER_MERGE_FILE] == 0 ? first : second) + report[NUXALDER_MERGE_START], 1, left, stdout);
        return fflush(stdout) == 0 ? 0 : 1;
    }
    for (file = 0; file < 2; file++) {
        uint8_t *asked = file == 0 ? first : second;
        size_t length = file == 0 ? first_length : second_length;

        alone = refusal_alone(asked, length, file);
        if (alone == refusal) {
            printf("refused %u %d %zu\n", (unsigned)refusal, file + 1,
                   refusal == 17 ? foreign_record(asked, length, file) : (size_t)0);
            return 0;
        }
    }
    printf("refused %u 0 0\n", (unsigned)refusal);
    return 0;
}
