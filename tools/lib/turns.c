/* turns FROM TO [scan] < SCHEDULE: what the library answers for a schedule file, whole and turn by turn.
 *
 * Turn N is the file cut to its first N records. Every answer printed is one of nuxalder_run or nuxalder_list:
 *
 *     whole REFUSAL RECORDS STORED USED      the whole file; after refusals 1 to 4 only the end follows
 *     turn N STORED USED                     each turn FROM to TO that was carried out
 *     end                                    all was answered
 *
 * After each of the first two come the rows that are new since the one before (the whole file and turn FROM:
 * all rows) and the listing where it is not the same as at the one before:
 *
 *     row THREAD ACTION STATION ANSWER          and in versions 2 and 3 the row's DEPTH and SET
 *     list LENGTH, a newline and that many bytes of text
 *
 * With `scan` the whole file is not asked for, so that a build that comes to grief on it is followed up to there. A
 * turn that the library refuses ends the scan with the line `refused REFUSAL RECORDS`.
 *
 * Built with ONE_WRITER it asks nuxalder_run_one_writer in place of nuxalder_run. List knows no barred record, so where one
 * ended the run it is asked for the file cut before it.
 *
 * The library may be a build under test, so nothing it hands back is believed that would lead out of a buffer,
 * and what it prints itself goes to standard error. A line that starts with "turns: " there says what is wrong.
 */
#include <stdio.h>
#include <stdlib.h>
#include <string.h>
#include <unistd.h>

#include "nuxalder.h"

enum { RECORDS_MOST = 4096, HEADER = 3, FILE_ROOM = 1 << 18, ACTIONS = 7, THREADS = 4, UNTOUCHED = 0xA5 };

#ifdef ONE_WRITER
#define RUN nuxalder_run_one_writer
#define IS_BARRED(refusal) ((refusal) == NUXALDER_REFUSED_WRITER)
#else
#define RUN nuxalder_run
#define IS_BARRED(refusal) 0
#endif

/* What the versions of a schedule file differ in: bytes of a record, of a row, of both buffers. */
struct sizes { size_t record, row, rows, text; };

static const struct sizes one = {2, 4, 2 * RECORDS_MOST, 4096}, two = {4, 14, 7 * RECORDS_MOST, 8192};
static const struct sizes *is = &one; /* those of the file that is asked for */

static uint8_t schedule[FILE_ROOM];
static uint8_t rows[7 * RECORDS_MOST];
static uint8_t text[2][8192];
static uint64_t report[NUXALDER_RUN_FIELDS];
static FILE *out;

static void fail(const char *what) {
    fflush(out);
    fprintf(stderr, "turns: %s\n", what);
    exit(1);
}

static void print_number(const char *before, uint64_t value) {
    fprintf(out, "%s%llu", before, (unsigned long long)value);
}

/* Whether the bytes of a lent buffer from `from` on are as they were lent. */
static int untouched(const uint8_t *buffer, size_t from, size_t length) {
    while (from < length && buffer[from] == UNTOUCHED) from++;
    return from == length;
}

static void run(size_t length) {
    uint64_t i;

    memset(rows, UNTOUCHED, is->rows);
    memset(report, 0xFF, sizeof report);
    RUN(schedule, length, rows, is->rows, report);
    if (report[NUXALDER_RUN_RECORDS] > RECORDS_MOST) fail("more records done than a schedule holds");
    if (report[NUXALDER_RUN_ROWS] > is->rows / is->row) fail("more rows than the row buffer holds");
    if (!untouched(rows, (size_t)report[NUXALDER_RUN_ROWS] * is->row, is->rows)) fail("bytes after the rows were written");
    for (i = 0; i < report[NUXALDER_RUN_ROWS]; i++) {
        const uint8_t *row = rows + is->row * i;
        if (row[0] >= THREADS || row[1] == 0 || row[1] >= ACTIONS) fail("a row with a thread or an action that is none");
    }
}

/* A number of `length` bytes, the high one first. */
static uint64_t number_at(const uint8_t *bytes, size_t length) {
    uint64_t value = 0;

    while (length-- > 0) value = value << 8 | *bytes++;
    return value;
}

static void print_row(const uint8_t *row) {
    fprintf(out, "row %u %u %u %u", row[0], row[1], row[2], row[3]);
    if (is == &two) {
        print_number(" ", number_at(row + 4, 2));
        print_number(" ", number_at(row + 6, 8));
    }
    putc('\n', out);
}

/* Cuts the file to its first n records; gives its length. */
static size_t cut(size_t n) {
    schedule[1] = (uint8_t)(n >> 8);
    schedule[2] = (uint8_t)n;
    return HEADER + is->record * n;
}

/* Prints the stored count and the numbers used of the last run, its rows after the first `rows_before` and,
 * unless it is the text of length `text_before` in the other buffer, the listing. Gives the listing's length. */
static size_t print_state(size_t length, uint64_t rows_before, size_t text_before, int at) {
    uint64_t list[NUXALDER_LIST_FIELDS] = {UINT64_MAX, UINT64_MAX}, refusal = report[NUXALDER_RUN_REFUSAL], i;
    size_t text_now;

    print_number(" ", report[NUXALDER_RUN_STORED]);
    print_number(" ", report[NUXALDER_RUN_USED]);
    putc('\n', out);
    for (i = rows_before; i < report[NUXALDER_RUN_ROWS]; i++) print_row(rows + is->row * i);

    memset(text[at], UNTOUCHED, is->text);
    if (IS_BARRED(refusal)) {
        length = cut((size_t)report[NUXALDER_RUN_RECORDS]);
        refusal = 0;
    }
    nuxalder_list(schedule, length, text[at], is->text, list);
    if (list[NUXALDER_LIST_REFUSAL] != refusal) fail("run and list give different refusals");
    if (list[NUXALDER_LIST_LENGTH] > is->text) fail("a listing longer than its buffer");
    text_now = (size_t)list[NUXALDER_LIST_LENGTH];
    if (!untouched(text[at], text_now, is->text)) fail("bytes after the listing were written");
    if (text_now != text_before || memcmp(text[0], text[1], text_now) != 0) {
        fprintf(out, "list %zu\n", text_now);
        fwrite(text[at], 1, text_now, out);
    }
    /* What was answered is not lost where the library ends the process. */
    fflush(out);
    return text_now;
}

static void whole(size_t length, size_t *to) {
    run(length);
    print_number("whole ", report[NUXALDER_RUN_REFUSAL]);
    print_number(" ", report[NUXALDER_RUN_RECORDS]);
    if (report[NUXALDER_RUN_REFUSAL] >= 1 && report[NUXALDER_RUN_REFUSAL] <= 4) {
        fprintf(out, " 0 0\nend\n");
        exit(fflush(out) == 0 ? 0 : 1);
    }
    if (*to > report[NUXALDER_RUN_RECORDS]) *to = (size_t)report[NUXALDER_RUN_RECORDS];
    print_state(length, 0, 0, 0);
}

int main(int argc, char **argv) {
    size_t from, to, n, length, text_before = 0;
    uint64_t rows_before = 0;
    int at = 0, scan = argc == 4 && strcmp(argv[3], "scan") == 0;

    out = fdopen(dup(STDOUT_FILENO), "w");
    if ((argc != 3 && !scan) || out == NULL) {
        fprintf(stderr, "turns: usage: turns FROM TO [scan] < SCHEDULE\n");
        return 1;
    }
    dup2(STDERR_FILENO, STDOUT_FILENO);
    from = strtoul(argv[1], NULL, 10);
    to = strtoul(argv[2], NULL, 10);
    length = fread(schedule, 1, sizeof schedule, stdin);
    if (length == sizeof schedule) fail("the file is far longer than any schedule");
    if (length > 0 && (schedule[0] == 2 || schedule[0] == 3)) is = &two;
    if (!scan) whole(length, &to);

    for (n = from; n <= to; n++, at = !at) {
        length = cut(n);
        run(length);
        if (scan && report[NUXALDER_RUN_REFUSAL] != 0) {
            print_number("refused ", report[NUXALDER_RUN_REFUSAL]);
            print_number(" ", report[NUXALDER_RUN_RECORDS]);
            putc('\n', out);
            break;
        }
        if (report[NUXALDER_RUN_REFUSAL] != 0 || report[NUXALDER_RUN_RECORDS] != n)
            fail("the start of a run is not carried out as the whole run is");
        if (report[NUXALDER_RUN_ROWS] < rows_before) fail("a row of an earlier turn is gone");
        print_number("turn ", n);
        text_before = print_state(length, rows_before, text_before, at);
        rows_before = report[NUXALDER_RUN_ROWS];
    }
    fprintf(out, "end\n");
    return fflush(out) == 0 ? 0 : 1;
}
