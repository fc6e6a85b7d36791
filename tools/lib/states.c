/* states FROM TO < SCHEDULE: what the library's run of a schedule file hands back, and its states turn by turn.
 *
 * Every answer printed is one of nuxalder_run or nuxalder_state:
 *
 *     whole REFUSAL RECORDS      the whole file; after refusals 1 to 4 only the end follows
 *     row THREAD ACTION STATION ANSWER, and in versions 2 and 3 the row's DEPTH and SET: all rows, in order
 *     turn N                     each turn FROM to TO that was carried out: the state after N records
 *     end                        all was answered
 *
 * After each turn come the parts of the state that are not as at the turn before (at turn FROM: all parts), in hexadecimal
 * digits without the zeros at their end:
 *
 *     head HEX, thread T HEX, node X HEX, store J HEX
 *
 * Built with ONE_WRITER it asks nuxalder_run_one_writer in place of nuxalder_run; up to a barred record both have the same states.
 *
 * The library may be a build under test, so nothing it hands back is believed that would lead out of a buffer, and what it
 * prints itself goes to standard error. A line that starts with "states: " there says what is wrong.
 */
#include <stdio.h>
#include <stdlib.h>
#include <string.h>
#include <unistd.h>

#include "nuxalder.h"

enum { FILE_ROOM = 1 << 18, UNTOUCHED = 0xA5, ACTIONS = 7, SLACK = 64 };

#ifdef ONE_WRITER
#define RUN nuxalder_run_one_writer
#else
#define RUN nuxalder_run
#endif

static uint8_t schedule[FILE_ROOM];
static uint8_t rows[NUXALDER_ROWS_BUFFER];
static uint8_t states[2][NUXALDER_STATE_BUFFER + SLACK];
static FILE *out;

static void fail(const char *what) {
    fflush(out);
    fprintf(stderr, "states: %s\n", what);
    exit(1);
}

static uint64_t number_at(const uint8_t *bytes, size_t length) {
    uint64_t value = 0;

    while (length-- > 0) value = value << 8 | *bytes++;
    return value;
}

/* The whole run: its refusal, its records and its rows. Gives the records done; -1 where the file is refused. */
static long whole(size_t length) {
    const size_t size = length > 0 && schedule[0] != 1 ? NUXALDER_DEEP_ROW_SIZE : NUXALDER_ROW_SIZE;
    uint64_t report[NUXALDER_RUN_FIELDS], i;

    memset(report, 0xFF, sizeof report);
    RUN(schedule, length, rows, sizeof rows, report);
    fprintf(out, "whole %llu %llu\n", (unsigned long long)report[NUXALDER_RUN_REFUSAL], (unsigned long long)report[NUXALDER_RUN_RECORDS]);
    if (report[NUXALDER_RUN_REFUSAL] >= 1 && report[NUXALDER_RUN_REFUSAL] <= 4) return -1;
    if (report[NUXALDER_RUN_RECORDS] > NUXALDER_RECORDS_MOST) fail("more records done than a schedule holds");
    if (report[NUXALDER_RUN_ROWS] > sizeof rows / size) fail("more rows than the row buffer holds");
    for (i = 0; i < report[NUXALDER_RUN_ROWS]; i++) {
        const uint8_t *row = rows + size * i;

        if (row[0] >= NUXALDER_THREADS || row[1] == 0 || row[1] >= ACTIONS) fail("a row with a thread or an action that is none");
        fprintf(out, "row %u %u %u %u", row[0], row[1], row[2], row[3]);
        if (size == NUXALDER_DEEP_ROW_SIZE)
            fprintf(out, " %llu %llu", (unsigned long long)number_at(row + 4, 2), (unsigned long long)number_at(row + 6, 8));
        putc('\n', out);
    }
    return (long)report[NUXALDER_RUN_RECORDS];
}

/* A part of a state, unless it is the one of the state before. */
static void print_part(const char *name, int number, const uint8_t *part, const uint8_t *before, size_t size) {
    static const char digits[] = "0123456789abcdef";
    size_t i;

    if (before != NULL && memcmp(part, before, size) == 0) return;
    while (size > 0 && part[size - 1] == 0) size--;
    fputs(name, out);
    if (number >= 0) fprintf(out, " %d", number);
    putc(' ', out);
    for (i = 0; i < size; i++) {
        putc(digits[part[i] >> 4], out);
        putc(digits[part[i] & 15], out);
    }
    putc('\n', out);
}

/* The state after n records, with nothing in it that would lead out of its buffer. */
static uint8_t *state_of(size_t length, size_t n, int at) {
    uint64_t report[NUXALDER_STATE_FIELDS], i;
    uint8_t *state = states[at];
    unsigned used;

    memset(state, UNTOUCHED, sizeof states[at]);
    memset(report, 0xFF, sizeof report);
    nuxalder_state(schedule, length, n, state, NUXALDER_STATE_BUFFER, report);
    if (report[NUXALDER_STATE_REFUSAL] != 0 || report[NUXALDER_STATE_RECORDS] != n)
        fail("the start of a run is not carried out as the whole run is");
    if (report[NUXALDER_STATE_LENGTH] > NUXALDER_STATE_BUFFER) fail("a state longer than its buffer");
    for (i = report[NUXALDER_STATE_LENGTH]; i < sizeof states[at]; i++)
        if (state[i] != UNTOUCHED) fail("bytes after the state were written");
    if (state[NUXALDER_HEAD_LAYOUT] != NUXALDER_STATE_LAYOUT) fail("a state in another layout");
    used = nuxalder_state_two(state + NUXALDER_HEAD_USED);
    if (used < 1 || used > NUXALDER_NODES_MOST || state[NUXALDER_HEAD_SHOWN] > NUXALDER_STORES_MOST) fail("a state with more nodes or stores than there are");
    if (report[NUXALDER_STATE_LENGTH] != NUXALDER_HEAD_SIZE + NUXALDER_THREADS * NUXALDER_THREAD_SIZE + used * NUXALDER_NODE_SIZE + state[NUXALDER_HEAD_SHOWN] * NUXALDER_STORE_SIZE)
        fail("a state whose length is not that of its parts");
    return state;
}

static void print_state(const uint8_t *state, const uint8_t *before) {
    const int used = (int)nuxalder_state_two(state + NUXALDER_HEAD_USED), shown = state[NUXALDER_HEAD_SHOWN];
    const int used_before = before ? (int)nuxalder_state_two(before + NUXALDER_HEAD_USED) : 0, shown_before = before ? before[NUXALDER_HEAD_SHOWN] : 0;
    int i;

    print_part("head", -1, state, before, NUXALDER_HEAD_SIZE);
    for (i = 0; i < NUXALDER_THREADS; i++)
        print_part("thread", i, nuxalder_state_thread(state, i), before ? nuxalder_state_thread(before, i) : NULL, NUXALDER_THREAD_SIZE);
    for (i = 0; i < used; i++)
        print_part("node", i, nuxalder_state_node(state, i), i < used_before ? nuxalder_state_node(before, i) : NULL, NUXALDER_NODE_SIZE);
    for (i = 0; i < shown; i++)
        print_part("store", i, nuxalder_state_store(state, i), i < shown_before ? nuxalder_state_store(before, i) : NULL, NUXALDER_STORE_SIZE);
    fflush(out);
}

int main(int argc, char **argv) {
    size_t from, to, n, length;
    const uint8_t *before = NULL;
    long done;

    out = fdopen(dup(STDOUT_FILENO), "w");
    if (argc != 3 || out == NULL) {
        fprintf(stderr, "states: usage: states FROM TO < SCHEDULE\n");
        return 1;
    }
    dup2(STDERR_FILENO, STDOUT_FILENO);
    from = strtoul(argv[1], NULL, 10);
    to = strtoul(argv[2], NULL, 10);
    length = fread(schedule, 1, sizeof schedule, stdin);
    if (length == sizeof schedule) fail("the file is far longer than any schedule");
    done = whole(length);
    for (n = from; done >= 0 && n <= to && n <= (size_t)done; n++) {
        const uint8_t *state = state_of(length, n, n % 2);

        fprintf(out, "turn %zu\n", n);
        print_state(state, before);
        before = state;
    }
    fprintf(out, "end\n");
    return fflush(out) == 0 ? 0 : 1;
}
