/* Two schedules into one, and its run: `merge FIRST SECOND` reads two schedule files, the first for threads 0
 * and 1, the second for 2 and 3, merges them, appends what is left over of the longer one, and runs the result.
 *
 *     cc -I include examples/merge.c target/staticlib/libnuxalder.a -o target/merge
 *     tools/schedule encode examples/merge-first.txt -o target/first.schedule
 *     tools/schedule encode examples/merge-second.txt -o target/second.schedule
 *     target/merge target/first.schedule target/second.schedule
 */
#include <inttypes.h>
#include <stdio.h>
#include <stdlib.h>
#include <string.h>

#include "nuxalder.h"

enum { HEADER = 3, RECORDS_MOST = 4096, FILE_MOST = HEADER + 2 * RECORDS_MOST };

/* A byte more than the longest schedule: a file that fills it is refused for its length. */
static uint8_t first[FILE_MOST + 1], second[FILE_MOST + 1], merged[FILE_MOST], rows[2 * RECORDS_MOST];

static size_t read_file(const char *name, uint8_t *bytes)
{
    FILE *file = fopen(name, "rb");
    if (file == NULL) {
        perror(name);
        exit(2);
    }
    size_t length = fread(bytes, 1, FILE_MOST + 1, file);
    fclose(file);
    return length;
}

int main(int argc, char **argv)
{
    if (argc != 3) {
        fprintf(stderr, "usage: merge FIRST SECOND\n");
        return 2;
    }
    size_t first_length = read_file(argv[1], first), second_length = read_file(argv[2], second);

    uint64_t report[NUXALDER_MERGE_FIELDS];
    nuxalder_merge(first, first_length, second, second_length, merged, sizeof merged, report);
    if (report[NUXALDER_MERGE_REFUSAL] != 0) {
        printf("refusal %" PRIu64 "\n", report[NUXALDER_MERGE_REFUSAL]);
        return 1;
    }

    /* The part of the longer file goes after what Merge wrote: together they have all records of both. */
    const uint8_t *longer = report[NUXALDER_MERGE_FILE] == 0 ? first : second;
    size_t start = (size_t)report[NUXALDER_MERGE_START], left = (size_t)report[NUXALDER_MERGE_LENGTH];
    size_t length = first_length + second_length - HEADER;
    memcpy(merged + (length - left), longer + start, left);
    printf("%zu bytes written, %zu of the %s file appended\n", length - left, left,
           longer == first ? "first" : "second");

    uint64_t run[NUXALDER_RUN_FIELDS];
    nuxalder_run(merged, length, rows, sizeof rows, run);
    printf("records %" PRIu64 " of %zu refusal %" PRIu64 "\n", run[NUXALDER_RUN_RECORDS], (length - HEADER) / 2,
           run[NUXALDER_RUN_REFUSAL]);
    for (uint64_t i = 0; i < run[NUXALDER_RUN_ROWS]; i++)
        printf("t%u action %u station %u answer %u\n", rows[4 * i], rows[4 * i + 1], rows[4 * i + 2],
               rows[4 * i + 3]);
    return 0;
}
