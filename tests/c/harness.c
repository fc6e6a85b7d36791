/* The C test harness: the paper's runs through include/nuxalder.h, and buffers of every interesting length
 * in guarded memory. Ends with the counts of passed and failed checks. */
#define _DEFAULT_SOURCE
#include "guard.h"
#include "nuxalder.h"
#include "plan.h"

#include <inttypes.h>
#include <stdarg.h>

enum { MEMORY = 8 * GUARD_PAGE };

/* What List needs for a schedule of version 1. */
enum { LIST_ROOM = 4096 };

static unsigned long passed, failed;
static struct guard schedule_memory, rows_memory, text_memory, tally_memory;

/* What the last calls handed back. */
static uint64_t run[NUXALDER_RUN_FIELDS];
static const uint8_t *rows;
static uint64_t listing[NUXALDER_LIST_FIELDS];
static const uint8_t *text;

__attribute__((format(printf, 2, 3))) static void check(int holds, const char *format, ...)
{
    if (holds) {
        passed++;
        return;
    }
    failed++;
    va_list arguments;
    va_start(arguments, format);
    fputs("FAILED: ", stdout);
    vprintf(format, arguments);
    putchar('\n');
    va_end(arguments);
}

/* A copy of the file in guarded memory. */
static const uint8_t *lend_file(const uint8_t *file, size_t length, int at_start)
{
    guard_fill(schedule_memory);
    uint8_t *copy = guard_lend(schedule_memory, length, at_start);
    if (length > 0)
        memcpy(copy, file, length);
    return copy;
}

static void file_kept(const uint8_t *copy, const uint8_t *file, size_t length)
{
    check((length == 0 || memcmp(copy, file, length) == 0) && guard_kept(schedule_memory, copy, length),
          "the schedule was written to");
}

typedef void runner(const uint8_t *, size_t, uint8_t *, size_t, uint64_t *);

/* Calls a run with a row buffer of `room` bytes; what the paper leaves alone must be as before. */
static void call_runner(runner *does, const uint8_t *file, size_t length, size_t room, int at_start)
{
    const uint8_t *copy = lend_file(file, length, at_start);
    guard_fill(rows_memory);
    uint8_t *buffer = guard_lend(rows_memory, room, at_start);
    uint64_t around[NUXALDER_RUN_FIELDS + 2];
    memset(around, 0x5A, sizeof around);
    uint64_t canary = around[0];
    does(copy, length, buffer, room, around + 1);
    memcpy(run, around + 1, sizeof run);
    rows = buffer;
    check(around[0] == canary && around[NUXALDER_RUN_FIELDS + 1] == canary, "Run wrote outside its report");
    size_t row = length > 0 && (file[0] == 2 || file[0] == 3) ? NUXALDER_DEEP_ROW_SIZE : NUXALDER_ROW_SIZE;
    size_t written = row * (size_t)run[NUXALDER_RUN_ROWS];
    check(written <= room && guard_kept(rows_memory, buffer, written), "Run touched bytes after its rows");
    file_kept(copy, file, length);
}

static void call_run(const uint8_t *file, size_t length, size_t room, int at_start)
{
    call_runner(nuxalder_run, file, length, room, at_start);
}

static void call_one_writer(const uint8_t *file, size_t length, size_t room, int at_start)
{
    call_runner(nuxalder_run_one_writer, file, length, room, at_start);
}

/* The same for List with a text buffer of `room` bytes. */
static void call_list(const uint8_t *file, size_t length, size_t room, int at_start)
{
    const uint8_t *copy = lend_file(file, length, at_start);
    guard_fill(text_memory);
    uint8_t *buffer = guard_lend(text_memory, room, at_start);
    uint64_t around[NUXALDER_LIST_FIELDS + 2];
    memset(around, 0x5A, sizeof around);
    uint64_t canary = around[0];
    nuxalder_list(copy, length, buffer, room, around + 1);
    memcpy(listing, around + 1, sizeof listing);
    text = buffer;
    check(around[0] == canary && around[NUXALDER_LIST_FIELDS + 1] == canary, "List wrote outside its report");
    size_t written = (size_t)listing[NUXALDER_LIST_LENGTH];
    check(written <= room && guard_kept(text_memory, buffer, written), "List touched bytes past its length");
    file_kept(copy, file, length);
}

static void expect_run(const char *name, uint64_t refusal, uint64_t records, uint64_t row_count, uint64_t set,
                       uint64_t stored, uint64_t used)
{
    static const char *const fields[] = {"refusal", "records", "rows", "set", "stored", "used"};
    const uint64_t expected[] = {refusal, records, row_count, set, stored, used};
    for (size_t i = 0; i < NUXALDER_RUN_FIELDS; i++)
        check(run[i] == expected[i], "%s: %s is %" PRIu64 ", not %" PRIu64, name, fields[i], run[i],
              expected[i]);
}

static void expect_row(const char *name, size_t index, unsigned thread, unsigned action, unsigned station,
                       unsigned answer)
{
    const uint8_t expected[4] = {(uint8_t)thread, (uint8_t)action, (uint8_t)station, (uint8_t)answer};
    check(index < run[NUXALDER_RUN_ROWS] && memcmp(rows + 4 * index, expected, 4) == 0, "%s: row %zu", name,
          index);
}

static void expect_list(const char *name, uint64_t refusal, const char *expected)
{
    size_t length = strlen(expected);
    check(listing[NUXALDER_LIST_REFUSAL] == refusal, "%s: List's refusal is %" PRIu64, name,
          listing[NUXALDER_LIST_REFUSAL]);
    check(listing[NUXALDER_LIST_LENGTH] == length && memcmp(text, expected, length) == 0,
          "%s: the listing is\n%.*s", name, (int)listing[NUXALDER_LIST_LENGTH], (const char *)text);
}

static void call_both(const struct plan *p)
{
    call_run(p->file, p->length, 2 * plan_count(p), 0);
    call_list(p->file, p->length, LIST_ROOM, 0);
}

static uint64_t bit(unsigned station)
{
    return UINT64_C(1) << station;
}

static void examples(void)
{
    static struct plan p;

    plan_empty(&p);
    call_both(&p);
    expect_run("empty schedule", 0, 0, 0, 0, 0, 1);
    expect_list("empty schedule", 0, "0 normal -\nset -\n");

    plan_alone(&p, 0, INSERT, 9, 3);
    call_both(&p);
    expect_run("insert 9", 0, 4, 1, bit(9), 1, 2);
    expect_row("insert 9", 0, 0, INSERT, 9, 1);
    expect_list("insert 9", 0, "0 normal 9\nset 9\n");
    call_run(p.file, p.length, 7, 0);
    expect_run("insert 9 with 7 bytes", 5, 0, 0, 0, 0, 0);
    plan_alone(&p, 0, INSERT, 9, 3);
    call_both(&p);
    expect_run("insert 9 twice", 0, 8, 2, bit(9), 1, 3);
    expect_row("insert 9 twice", 1, 0, INSERT, 9, 0);

    plan_empty(&p);
    plan_alone(&p, 0, INSERT, 3, 0);
    plan_alone(&p, 1, INSERT, 9, 0);
    plan_steps(&p, 0, 2);
    plan_steps(&p, 1, 2);
    plan_steps(&p, 0, 1);
    plan_steps(&p, 1, 4);
    call_both(&p);
    expect_run("race, one step short", 0, 11, 1, bit(3), 1, 2);
    plan_steps(&p, 1, 1);
    call_both(&p);
    expect_run("race", 0, 12, 2, bit(3) | bit(9), 2, 3);
    expect_row("race", 0, 0, INSERT, 3, 1);
    expect_row("race", 1, 1, INSERT, 9, 1);

    plan_empty(&p);
    plan_alone(&p, 0, INSERT, 3, 3);
    plan_alone(&p, 0, SPLIT, 3, 2);
    call_both(&p);
    expect_run("split of one station", 0, 7, 2, bit(3), 1, 2);
    expect_row("split of one station", 1, 0, SPLIT, 3, NUXALDER_LACKING);

    plan_printed_run(&p);
    call_both(&p);
    expect_run("printed run", 0, 12, 3, bit(3) | bit(9), 2, 6);
    expect_list("printed run", 0, "0 route 9\n1 normal 3\n1 normal 9\nset 3 9\n");
    plan_alone(&p, 0, JOIN, 3, 18);
    call_both(&p);
    expect_run("join, halfway", 0, 31, 3, bit(3) | bit(9), 2, 9);
    expect_list("join, halfway", 0, "0 route 9\n1 main 3\n1 neighbour 3 9\nset 3 9\n");
    plan_steps(&p, 0, 2);
    call_both(&p);
    expect_run("join, one step short", 0, 33, 3, bit(3) | bit(9), 2, 9);
    plan_steps(&p, 0, 1);
    call_both(&p);
    expect_run("join", 0, 34, 4, bit(3) | bit(9), 2, 9);
    expect_row("join", 3, 0, JOIN, 3, 1);
    expect_list("join", 0, "0 neighbour 3 9\nset 3 9\n");

    plan_printed_run(&p);
    plan_alone(&p, 0, JOIN, 3, 7);
    call_list(p.file, p.length, LIST_ROOM, 0);
    expect_list("join under way", 0, "0 route 9\n1 main 3\n1 normal 9\nset 3 9\n");
    plan_alone(&p, 1, INSERT, 4, 8);
    call_both(&p);
    expect_run("killing insert, one step short", 0, 29, 3, bit(3) | bit(9), 2, 7);
    plan_steps(&p, 1, 1);
    plan_steps(&p, 0, 9);
    call_both(&p);
    expect_run("killed join", 0, 39, 5, bit(3) | bit(4) | bit(9), 3, 9);
    expect_row("killed join", 3, 1, INSERT, 4, 1);
    expect_row("killed join", 4, 0, JOIN, 3, NUXALDER_STOOD_DOWN);

    plan_printed_run(&p);
    plan_alone(&p, 1, LOOKUP, 3, 1);
    plan_alone(&p, 0, JOIN, 3, 21);
    plan_alone(&p, 0, REMOVE, 3, 3);
    plan_steps(&p, 1, 1);
    call_both(&p);
    expect_run("lookup of an earlier moment", 0, 41, 6, bit(9), 1, 10);
    expect_row("lookup of an earlier moment", 5, 1, LOOKUP, 3, 1);
    expect_list("lookup of an earlier moment", 0, "0 normal 9\nset 9\n");
}

/* A split or join that did nothing says why; where it lacks something and its base is blocked, the first. */
static void reasons(void)
{
    static struct plan p;

    plan_empty(&p);
    plan_alone(&p, 0, JOIN, 3, 2);
    call_both(&p);
    expect_row("join at the root", 0, 0, JOIN, 3, NUXALDER_LACKING);

    plan_printed_run(&p);
    plan_alone(&p, 0, JOIN, 3, 7);
    plan_alone(&p, 1, JOIN, 3, 3);
    plan_alone(&p, 1, SPLIT, 3, 3);
    plan_alone(&p, 1, JOIN, 9, 7);
    call_both(&p);
    expect_row("join of a main", 3, 1, JOIN, 3, NUXALDER_BLOCKED);
    expect_row("split of a main of one station", 4, 1, SPLIT, 3, NUXALDER_LACKING);
    expect_row("join beside a main", 5, 1, JOIN, 9, NUXALDER_NEIGHBOUR_BLOCKED);

    plan_printed_run(&p);
    plan_alone(&p, 0, JOIN, 3, 20);
    plan_alone(&p, 1, SPLIT, 3, 2);
    plan_alone(&p, 1, JOIN, 3, 2);
    call_both(&p);
    expect_row("split of a union node", 3, 1, SPLIT, 3, NUXALDER_BLOCKED);
    expect_row("join of a union node at the root", 4, 1, JOIN, 3, NUXALDER_LACKING);

    plan_printed_run(&p);
    plan_alone(&p, 0, INSERT, 4, 5);
    plan_alone(&p, 0, SPLIT, 3, 4);
    plan_alone(&p, 2, JOIN, 3, 3);
    plan_alone(&p, 3, JOIN, 3, 6);
    plan_alone(&p, 1, INSERT, 5, 5);
    plan_steps(&p, 0, 1);
    plan_steps(&p, 2, 2);
    plan_steps(&p, 3, 1);
    call_both(&p);
    expect_row("split that loses at 11", 5, 0, SPLIT, 3, NUXALDER_LOST);
    expect_row("join that finds its base gone at 21", 6, 2, JOIN, 3, NUXALDER_LOST);
    expect_row("join that loses at 25", 7, 3, JOIN, 3, NUXALDER_LOST);
}

static void refused_records(void)
{
    static const struct {
        unsigned first, second, refusal;
    } cases[] = {{0x40, 0, 7},  {0x46, 99, 7}, {0xFF, 0, 7}, {0x30, 0, 12}, {0x06, 0, 8},
                 {0x3F, 99, 8}, {0x02, 64, 9}, {0x05, 255, 9}, {0x00, 1, 10}, {0x02, 63, 0}};
    static struct plan p;
    for (size_t i = 0; i < sizeof cases / sizeof cases[0]; i++) {
        plan_printed_run(&p);
        plan_record(&p, cases[i].first, cases[i].second);
        plan_alone(&p, 1, INSERT, 5, 0);
        call_both(&p);
        expect_run("refused record", cases[i].refusal, cases[i].refusal == 0 ? 14 : 12, 3, bit(3) | bit(9), 2,
                   6);
        expect_list("refused record", cases[i].refusal, "0 route 9\n1 normal 3\n1 normal 9\nset 3 9\n");
    }
    plan_printed_run(&p);
    plan_alone(&p, 2, LOOKUP, 3, 1);
    plan_alone(&p, 2, LOOKUP, 3, 1);
    call_both(&p);
    expect_run("busy thread", 11, 14, 3, bit(3) | bit(9), 2, 6);
}

static void longest(void)
{
    static struct plan p;
    plan_empty(&p);
    for (unsigned i = 0; i < 255; i++)
        plan_alone(&p, 0, INSERT, 9, 3);
    call_both(&p);
    expect_run("255 inserts", 0, 1020, 255, bit(9), 1, 256);
    plan_alone(&p, 0, INSERT, 9, 3);
    call_both(&p);
    expect_run("256 inserts", 13, 1023, 255, bit(9), 1, 256);
    expect_list("256 inserts", 13, "0 normal 9\nset 9\n");

    plan_empty(&p);
    for (unsigned i = 0; i < MOST_RECORDS / 2; i++)
        plan_alone(&p, 3, LOOKUP, 63, 1);
    check(p.length == 8195, "the longest schedule has %zu bytes", p.length);
    call_both(&p);
    expect_run("4096 records", 0, MOST_RECORDS, MOST_RECORDS / 2, 0, 0, 1);
    plan_alone(&p, 3, LOOKUP, 63, 0);
    call_both(&p);
    expect_run("4097 records", 3, 0, 0, 0, 0, 0);
    expect_list("4097 records", 3, "");
}

/* Every length of the row buffer around the one needed, and of the file around the one stated. */
static void buffer_lengths(int at_start)
{
    static const size_t rooms[] = {0, 1, 4094, 4095, 4096, 4097, 5000, 8192, 8193};
    static struct plan p;
    plan_printed_run(&p);
    size_t need = 2 * plan_count(&p);
    for (size_t room = 0; room <= 3 * need; room++) {
        call_run(p.file, p.length, room, at_start);
        if (room < need)
            expect_run("short row buffer", 5, 0, 0, 0, 0, 0);
        else
            expect_run("row buffer", 0, 12, 3, bit(3) | bit(9), 2, 6);
    }
    for (size_t i = 0; i < sizeof rooms / sizeof rooms[0]; i++) {
        call_list(p.file, p.length, rooms[i], at_start);
        if (rooms[i] < LIST_ROOM)
            expect_list("short text buffer", 6, "");
        else
            expect_list("text buffer", 0, "0 route 9\n1 normal 3\n1 normal 9\nset 3 9\n");
    }
    for (size_t length = 0; length <= p.length + 2; length++) {
        uint64_t refusal = length < 3 ? 1 : length == p.length ? 0 : 4;
        call_run(p.file, length, refusal == 0 ? need : 0, at_start);
        check(run[NUXALDER_RUN_REFUSAL] == refusal, "a file cut to %zu bytes gets %" PRIu64, length,
              run[NUXALDER_RUN_REFUSAL]);
        call_list(p.file, length, refusal == 0 ? LIST_ROOM : 0, at_start);
        check(listing[NUXALDER_LIST_REFUSAL] == refusal, "a listed file cut to %zu bytes gets %" PRIu64, length,
              listing[NUXALDER_LIST_REFUSAL]);
    }
}

/* Headers with several faults get the first number in the paper's order. */
static void headers(int at_start)
{
    static const struct {
        uint8_t file[5];
        size_t length;
        uint64_t refusal;
    } cases[] = {{{2, 255, 255}, 2, 1}, {{4, 255, 255}, 3, 2},     {{0, 0, 0}, 3, 2},
                 {{255, 0, 0}, 4, 2},   {{1, 16, 1}, 3, 3},        {{1, 255, 255}, 3, 3},
                 {{1, 16, 0}, 3, 4},    {{1, 0, 1, 64, 0}, 4, 4},  {{1, 0, 0}, 4, 4},
                 {{1, 0, 1}, 3, 4},     {{1, 0, 1, 64, 0}, 5, 7}};
    for (size_t i = 0; i < sizeof cases / sizeof cases[0]; i++) {
        call_run(cases[i].file, cases[i].length, 0, at_start);
        uint64_t expected = cases[i].refusal == 7 ? 5 : cases[i].refusal;
        expect_run("header", expected, 0, 0, 0, 0, 0);
        call_list(cases[i].file, cases[i].length, 0, at_start);
        expect_list("header", cases[i].refusal == 7 ? 6 : cases[i].refusal, "");
        call_list(cases[i].file, cases[i].length, LIST_ROOM, at_start);
        expect_list("header", cases[i].refusal, cases[i].refusal == 7 ? "0 normal -\nset -\n" : "");
    }
}

/* History of the runs' first kinds with buffers of every length around what it needs; bytes after it stay. */
static void histories(int at_start)
{
    static const struct {
        uint8_t file[17];
        size_t length;
        uint64_t refusal;
        uint8_t history[19];
        size_t written;
    } cases[] = {
        {{1, 0, 0}, 3, 0, {1, 0, 0}, 3},
        {{1, 0, 4, 2, 9, 0, 0, 0, 0, 0, 0}, 11, 0, {1, 0, 2, 0, 2, 9, 0, 0, 2, 9, 2}, 11},
        {{1, 0, 6, 2, 3, 0, 0, 17, 3, 16, 0, 0, 0, 0, 0}, 15, 0,
         {1, 0, 4, 0, 2, 3, 0, 1, 1, 3, 0, 1, 1, 3, 1, 0, 2, 3, 2}, 19},
        {{1, 0, 4, 2, 3, 0, 0, 16, 0, 17, 3}, 11, 12, {1, 0, 1, 0, 2, 3, 0}, 7},
        {{1, 0, 7, 2, 3, 0, 0, 0, 0, 0, 0, 4, 3, 0, 0, 0, 0}, 17, 0,
         {1, 0, 4, 0, 2, 3, 0, 0, 2, 3, 2, 0, 4, 3, 0, 0, 4, 3, 3}, 19},
        {{1, 0}, 2, 1, {0}, 0},
        {{2, 0, 0}, 3, 2, {0}, 0},
        {{2, 0, 1, 2, 9, 0, 0}, 7, 2, {0}, 0},
        {{1, 16, 1}, 3, 3, {0}, 0},
        {{1, 0, 1}, 3, 4, {0}, 0},
    };
    for (size_t i = 0; i < sizeof cases / sizeof cases[0]; i++) {
        size_t need = 3 + 4 * ((cases[i].length - 3) / 2);
        for (size_t room = 0; room <= 40; room++) {
            const uint8_t *copy = lend_file(cases[i].file, cases[i].length, at_start);
            guard_fill(rows_memory);
            uint8_t *buffer = guard_lend(rows_memory, room, at_start);
            uint64_t report[NUXALDER_HISTORY_FIELDS + 1] = {99, 99, 99};
            int refused = cases[i].refusal >= 1 && cases[i].refusal <= 4;
            int is_short = !refused && room < need;
            size_t written = refused || is_short ? 0 : cases[i].written;
            nuxalder_history(copy, cases[i].length, buffer, room, report);
            check(report[NUXALDER_HISTORY_REFUSAL] == (is_short ? 5 : cases[i].refusal) &&
                      report[NUXALDER_HISTORY_LENGTH] == written && report[2] == 99,
                  "history %zu with %zu bytes: refusal %" PRIu64 ", length %" PRIu64, i, room,
                  report[NUXALDER_HISTORY_REFUSAL], report[NUXALDER_HISTORY_LENGTH]);
            check(memcmp(buffer, cases[i].history, written) == 0 && guard_kept(rows_memory, buffer, written),
                  "history %zu with %zu bytes: a byte is wrong or was written outside it", i, room);
            file_kept(copy, cases[i].file, cases[i].length);
        }
    }
}

/* Judge on small histories: verdicts, the first order, and refusals in their order. */
static void judged(int at_start)
{
    static const struct {
        const char *name;
        uint8_t file[27];
        size_t length;
        uint64_t report[NUXALDER_JUDGE_FIELDS];
        uint8_t order[NUXALDER_JUDGE_ORDER];
    } cases[] = {
        {"no events", {1, 0, 0}, 3, {0, 1, 0}, {0}},
        {"a lookup before the insert it overlaps",
         {1, 0, 4, 0, 1, 5, 0, 1, 2, 5, 0, 0, 1, 5, 1, 1, 2, 5, 2}, 19, {0, 1, 2}, {0, 1}},
        {"a lookup after the insert it overlaps",
         {1, 0, 4, 0, 1, 5, 0, 1, 2, 5, 0, 0, 1, 5, 2, 1, 2, 5, 2}, 19, {0, 1, 2}, {1, 0}},
        {"a lookup that misses a finished insert",
         {1, 0, 4, 1, 2, 5, 0, 1, 2, 5, 2, 0, 1, 5, 0, 0, 1, 5, 1}, 19, {0, 0, 2}, {0}},
        {"a remove between two inserts",
         {1, 0, 6, 2, 3, 7, 0, 0, 2, 7, 0, 1, 2, 7, 0, 0, 2, 7, 2, 1, 2, 7, 2, 2, 3, 7, 2}, 27, {0, 1, 3}, {1, 0, 2}},
        {"two bytes", {2, 0}, 2, {1, 0, 0}, {0}},
        {"version 2", {2, 0, 9}, 3, {2, 0, 0}, {0}},
        {"a length", {1, 0, 1, 4, 0, 0}, 6, {4, 0, 0}, {0}},
        {"a thread over 3", {1, 0, 1, 4, 2, 5, 0}, 7, {21, 0, 0}, {0}},
        {"an action under 1", {1, 0, 1, 0, 0, 5, 0}, 7, {21, 0, 0}, {0}},
        {"an action over 3", {1, 0, 1, 0, 4, 5, 0}, 7, {21, 0, 0}, {0}},
        {"a station over 63", {1, 0, 1, 0, 2, 64, 0}, 7, {21, 0, 0}, {0}},
        {"a mark over 2", {1, 0, 1, 0, 2, 5, 3}, 7, {21, 0, 0}, {0}},
        {"a finish of an idle thread", {1, 0, 1, 0, 2, 5, 1}, 7, {21, 0, 0}, {0}},
        {"a start of a busy thread", {1, 0, 2, 0, 2, 5, 0, 0, 2, 5, 0}, 11, {21, 0, 0}, {0}},
        {"a finish of another station", {1, 0, 2, 0, 2, 5, 0, 0, 2, 6, 2}, 11, {21, 0, 0}, {0}},
        {"an unfinished operation", {1, 0, 1, 0, 2, 5, 0}, 7, {23, 0, 0}, {0}},
    };
    for (size_t i = 0; i < sizeof cases / sizeof cases[0]; i++) {
        const uint8_t *copy = lend_file(cases[i].file, cases[i].length, at_start);
        guard_fill(rows_memory);
        uint8_t *order = guard_lend(rows_memory, NUXALDER_JUDGE_ORDER, at_start);
        uint64_t report[NUXALDER_JUDGE_FIELDS + 1] = {99, 99, 99, 99};
        nuxalder_judge(copy, cases[i].length, order, report);
        check(memcmp(report, cases[i].report, sizeof cases[i].report) == 0 && report[NUXALDER_JUDGE_FIELDS] == 99,
              "%s: %" PRIu64 " %" PRIu64 " %" PRIu64, cases[i].name, report[0], report[1], report[2]);
        check(memcmp(order, cases[i].order, NUXALDER_JUDGE_ORDER) == 0 &&
                  guard_kept(rows_memory, order, NUXALDER_JUDGE_ORDER),
              "%s: another order, or a byte written outside it", cases[i].name);
        file_kept(copy, cases[i].file, cases[i].length);
    }
    /* twelve operations one after another, thirteen, and thirteen with the last one open */
    static uint8_t many[3 + 4 * 26];
    for (size_t events = 24; events <= 26; events++) {
        many[0] = 1;
        many[2] = (uint8_t)events;
        for (size_t e = 0; e < events; e++) {
            const uint8_t event[] = {0, 1, 5, e % 2};
            memcpy(many + 3 + 4 * e, event, sizeof event);
        }
        uint8_t order[NUXALDER_JUDGE_ORDER];
        uint64_t report[NUXALDER_JUDGE_FIELDS];
        nuxalder_judge(many, 3 + 4 * events, order, report);
        int fine = report[0] == (events == 24 ? 0 : 22);
        for (size_t n = 0; n < NUXALDER_JUDGE_ORDER; n++)
            fine = fine && order[n] == (events == 24 ? n : 0);
        check(fine, "%zu events of operations one after another get %" PRIu64, events, report[0]);
    }
}

static void expect_deep_row(const char *name, size_t index, unsigned thread, unsigned action, unsigned station,
                            unsigned answer, unsigned depth)
{
    const uint8_t expected[NUXALDER_DEEP_ROW_SIZE] = {(uint8_t)thread, (uint8_t)action, (uint8_t)station,
                                                      (uint8_t)answer, (uint8_t)(depth >> 8), (uint8_t)depth};
    const uint8_t *row = rows + NUXALDER_DEEP_ROW_SIZE * index;
    check(index < run[NUXALDER_RUN_ROWS] && memcmp(row, expected, sizeof expected) == 0, "%s: row %zu", name, index);
    check(NUXALDER_ROW_DEPTH(row) == depth, "%s: the depth in row %zu", name, index);
}

static void call_deep(const struct deep_plan *p, int at_start)
{
    call_run(p->file, p->length, 7 * deep_count(p), at_start);
    call_list(p->file, p->length, NUXALDER_LIST_BUFFER, at_start);
}

/* Version 2: depths in rows and lines, a second insert, a split and a join that carry them. */
static void depths(int at_start)
{
    static struct deep_plan p;
    deep_empty(&p);
    call_deep(&p, at_start);
    expect_run("empty, version 2", 0, 0, 0, 0, 0, 1);
    expect_list("empty, version 2", 0, "0 normal -\nset -\n");
    deep_two_bases(&p);
    deep_alone(&p, 1, LOOKUP, 9, 0, 2);
    call_deep(&p, at_start);
    expect_run("printed run with depths", 0, 15, 4, bit(3) | bit(9), 2, 6);
    expect_deep_row("printed run with depths", 0, 0, INSERT, 3, 1, 0);
    expect_deep_row("printed run with depths", 2, 0, SPLIT, 3, 1, 0);
    expect_deep_row("printed run with depths", 3, 1, LOOKUP, 9, 1, 9999);
    expect_list("printed run with depths", 0,
                "0 route 9\n1 normal 3=640\n1 normal 9=9999\nset 3=640 9=9999\n");
    deep_alone(&p, 2, LOOKUP, 3, 0, 1);
    deep_alone(&p, 0, JOIN, 3, 0, 21);
    call_deep(&p, at_start);
    expect_list("join with depths", 0, "0 neighbour 3=640 9=9999\nset 3=640 9=9999\n");
    deep_alone(&p, 1, INSERT, 3, 0, 3);
    deep_alone(&p, 2, STEP, 0, 0, 0);
    call_deep(&p, at_start);
    expect_deep_row("a second insert", 5, 1, INSERT, 3, 0, 0);
    expect_deep_row("a lookup that is late", 6, 2, LOOKUP, 3, 1, 640);
    expect_list("a second insert", 0, "0 normal 3=0 9=9999\nset 3=0 9=9999\n");
}

static void expect_found(const char *name, size_t index, unsigned thread, unsigned station, uint64_t set)
{
    const uint8_t first[6] = {(uint8_t)thread, RANGE, (uint8_t)station, set != 0, 0, 0};
    const uint8_t *row = rows + NUXALDER_DEEP_ROW_SIZE * index;
    check(index < run[NUXALDER_RUN_ROWS] && memcmp(row, first, sizeof first) == 0, "%s: row %zu", name, index);
    check(nuxalder_row_set(row) == set && row[13] == (uint8_t)set && row[6] == (uint8_t)(set >> 56),
          "%s: the set in row %zu is %" PRIx64, name, index, nuxalder_row_set(row));
}

/* Range queries: alone, with no station, riding on another's store, helped by an insert, over a route that a join cut
 * out; what they leave in the tree, and what splits and joins say of it. */
static void ranges(int at_start)
{
    static struct deep_plan p;
    const char *both = "0 route 9\n1 range 3=640\n1 range 9=9999\nset 3=640 9=9999\n";
    const char *left = "0 route 9\n1 range 3=640\n1 normal 9=9999\nset 3=640 9=9999\n";
    uint64_t set = bit(3) | bit(9);

    deep_two_bases(&p);
    deep_alone(&p, 0, RANGE, 0, 63, 15);
    call_deep(&p, at_start);
    expect_run("query, one step short", 0, 28, 3, set, 2, 8);
    deep_steps(&p, 0, 1);
    call_deep(&p, at_start);
    expect_run("query", 0, 29, 4, set, 2, 8);
    expect_found("query", 3, 0, 0, set);
    expect_list("query", 0, both);

    deep_two_bases(&p);
    deep_alone(&p, 1, RANGE, 0, 2, 7);
    call_deep(&p, at_start);
    expect_run("query that finds nothing", 0, 20, 4, set, 2, 7);
    expect_found("query that finds nothing", 3, 1, 0, 0);
    expect_list("query that finds nothing", 0, left);

    deep_empty(&p);
    deep_alone(&p, 2, INSERT, 0, 0, 3);
    deep_alone(&p, 2, INSERT, 63, 1, 3);
    deep_alone(&p, 2, RANGE, 0, 63, 5);
    deep_alone(&p, 2, RANGE, 63, 63, 5);
    call_deep(&p, at_start);
    expect_found("first and last station", 2, 2, 0, bit(0) | bit(63));
    expect_found("last station", 3, 2, 63, bit(63));

    deep_two_bases(&p);
    deep_alone(&p, 1, RANGE, 5, 9, 5);
    deep_alone(&p, 2, RANGE, 0, 9, 14);
    deep_steps(&p, 1, 4);
    call_deep(&p, at_start);
    expect_run("query that rides", 0, 37, 5, set, 2, 8);
    expect_found("query that rides", 3, 2, 0, set);
    expect_found("query that was ridden on", 4, 1, 5, bit(9));

    deep_two_bases(&p);
    deep_alone(&p, 1, RANGE, 0, 20, 5);
    deep_alone(&p, 3, JOIN, 3, 0, 3);
    deep_alone(&p, 3, JOIN, 9, 0, 7);
    call_deep(&p, at_start);
    expect_deep_row("join at a range base", 3, 3, JOIN, 3, NUXALDER_BLOCKED, 0);
    expect_deep_row("join beside a range base", 4, 3, JOIN, 9, NUXALDER_NEIGHBOUR_BLOCKED, 0);
    expect_list("joins at a range base", 0, left);
    deep_alone(&p, 2, INSERT, 4, 7, 20);
    call_deep(&p, at_start);
    expect_run("insert that helps, one step short", 0, 51, 5, set, 2, 8);
    deep_steps(&p, 2, 1);
    deep_steps(&p, 1, 4);
    call_deep(&p, at_start);
    expect_run("insert that helps", 0, 56, 7, set | bit(4), 3, 9);
    expect_deep_row("insert that helps", 5, 2, INSERT, 4, 1, 0);
    expect_found("query that was helped", 6, 1, 0, set);
    expect_list("insert that helps", 0, "0 route 9\n1 normal 3=640 4=7\n1 range 9=9999\nset 3=640 4=7 9=9999\n");

    deep_two_bases(&p);
    deep_alone(&p, 1, RANGE, 0, 63, 1);
    deep_alone(&p, 0, JOIN, 9, 0, 20);
    deep_steps(&p, 1, 7);
    call_deep(&p, at_start);
    expect_run("query over a join", 0, 42, 5, set, 2, 10);
    expect_found("query over a join", 4, 1, 0, set);
    expect_list("query over a join", 0, "0 range 3=640 9=9999\nset 3=640 9=9999\n");
}

/* The last store: a query that rides on it needs none, the next one is refused, with 13 if no number is left either. */
static void stores(int at_start)
{
    static struct deep_plan p;
    deep_empty(&p);
    for (unsigned i = 1; i < NUXALDER_STORES_MOST; i++)
        deep_alone(&p, 0, RANGE, 0, 63, 5);
    deep_alone(&p, 0, RANGE, 0, 63, 3);
    deep_alone(&p, 1, RANGE, 7, 63, 5);
    deep_steps(&p, 0, 2);
    call_deep(&p, at_start);
    expect_run("the last store", 0, 390, 65, 0, 0, 65);
    expect_list("the last store", 0, "0 range -\nset -\n");
    struct deep_plan full = p;
    deep_alone(&p, 2, RANGE, 0, 63, 5);
    call_deep(&p, at_start);
    expect_run("no store left", 16, 393, 65, 0, 0, 65);
    expect_list("no store left", 16, "0 range -\nset -\n");
    for (unsigned i = 65; i < NUXALDER_NODES_MOST; i++)
        deep_alone(&full, 3, INSERT, 9, 5, 3);
    deep_alone(&full, 2, RANGE, 0, 63, 5);
    call_deep(&full, at_start);
    expect_run("no number and no store left", 13, 390 + 4 * 191 + 3, 65 + 191, bit(9), 1, 256);
}

/* Every length of the buffers around those that version 2 needs, and of its file; headers and records that are refused. */
static void deep_lengths(int at_start)
{
    static const size_t rooms[] = {0, 4095, 4096, 8191, 8192, 8193, 9000};
    static struct deep_plan p;
    deep_empty(&p);
    deep_alone(&p, 0, INSERT, 9, 640, 3);
    deep_alone(&p, 1, LOOKUP, 9, 0, 1);
    size_t need = 7 * deep_count(&p);
    for (size_t room = 0; room <= 3 * need; room++) {
        call_run(p.file, p.length, room, at_start);
        if (room < need)
            expect_run("short row buffer, version 2", 5, 0, 0, 0, 0, 0);
        else
            expect_run("row buffer, version 2", 0, 6, 2, bit(9), 1, 2);
    }
    for (size_t i = 0; i < sizeof rooms / sizeof rooms[0]; i++) {
        call_list(p.file, p.length, rooms[i], at_start);
        if (rooms[i] < 8192)
            expect_list("short text buffer, version 2", 6, "");
        else
            expect_list("text buffer, version 2", 0, "0 normal 9=640\nset 9=640\n");
    }
    for (size_t length = 0; length <= p.length + 4; length++) {
        uint64_t refusal = length < 3 ? 1 : length == p.length ? 0 : 4;
        call_run(p.file, length, refusal == 0 ? need : 0, at_start);
        check(run[NUXALDER_RUN_REFUSAL] == refusal, "version 2 cut to %zu bytes gets %" PRIu64, length,
              run[NUXALDER_RUN_REFUSAL]);
    }
    static const uint8_t many[] = {2, 255, 255};
    call_run(many, sizeof many, 0, at_start);
    expect_run("a count over 4,096, version 2", 3, 0, 0, 0, 0, 0);
}

/* The refusals of a record in their order, several faults in one; thread 0 is busy. */
static void deep_refusals(int at_start)
{
    static const struct {
        unsigned first, second, extra, refusal;
    } cases[] = {
        {0x42, 64, 10000, 7}, {0x07, 64, 10000, 8}, {0x02, 64, 10000, 9}, {0x01, 64, 1, 9},  {0x12, 63, 10000, 14},
        {0x02, 63, 65535, 14}, {0x01, 63, 1, 10},   {0x13, 63, 256, 10},  {0x04, 63, 9999, 10}, {0x15, 63, 10000, 10},
        {0x02, 63, 9999, 11}, {0x05, 63, 0, 11},    {0x00, 1, 0, 10},     {0x00, 0, 256, 10},   {0x00, 0, 1, 10},
        {0x10, 0, 1, 10},     {0x10, 0, 0, 12},     {0x12, 63, 9999, 0},  {0x13, 63, 0, 0},
        {0x46, 64, 64, 7},    {0x17, 3, 3, 8},      {0x1F, 3, 3, 8},      {0x06, 64, 64, 9},    {0x16, 255, 0, 9},
        {0x16, 3, 64, 15},    {0x16, 3, 2, 15},     {0x06, 3, 2, 15},     {0x16, 0, 256, 15},   {0x16, 63, 65535, 15},
        {0x06, 3, 3, 11},     {0x16, 0, 63, 0},     {0x16, 63, 63, 0},
    };
    static struct deep_plan p;
    for (size_t i = 0; i < sizeof cases / sizeof cases[0]; i++) {
        deep_empty(&p);
        deep_record(&p, 0x02, 5, 9999);
        deep_record(&p, cases[i].first, cases[i].second, cases[i].extra);
        deep_record(&p, 0x30, 0, 0);
        call_deep(&p, at_start);
        uint64_t done = cases[i].refusal == 0 ? 2 : 1;
        expect_run("refused record, version 2", cases[i].refusal == 0 ? 12 : cases[i].refusal, done, 0, 0, 0, 1);
    }
}

/* Version 3: searches that have come far stop joins. */
static void stops(int at_start)
{
    static struct deep_plan p;
    const uint64_t set = 0x1FF;

    /* a lookup below seven routes, then one below eight, which takes two steps more */
    deep_chain(&p);
    deep_alone(&p, 1, LOOKUP, 6, 0, 8);
    deep_alone(&p, 1, LOOKUP, 8, 0, 10);
    call_deep(&p, at_start);
    expect_run("lookup of version 3, one step short", 0, 172, 18, set, 9, 34);
    expect_deep_row("lookup below seven routes", 17, 1, LOOKUP, 6, 1, 640);
    /* between the two steps a join is stopped */
    deep_alone(&p, 0, JOIN, 3, 0, 7);
    deep_steps(&p, 1, 1);
    call_deep(&p, at_start);
    expect_run("a join stopped", 0, 181, 20, set, 9, 34);
    expect_deep_row("a join stopped", 18, 0, JOIN, 3, NUXALDER_STOPPED, 0);
    expect_deep_row("lookup below eight routes", 19, 1, LOOKUP, 8, 1, 640);
    /* after them the same join says yes, at its 31st step */
    deep_alone(&p, 0, JOIN, 3, 0, 30);
    call_deep(&p, at_start);
    expect_run("a join after that, one step short", 0, 212, 20, set, 9, 37);
    deep_steps(&p, 0, 1);
    call_deep(&p, at_start);
    expect_run("a join after that", 0, 213, 21, set, 9, 37);
    expect_deep_row("a join after that", 20, 0, JOIN, 3, NUXALDER_YES, 0);

    /* four are counted; when one is left the join is still stopped, then it is not */
    deep_chain(&p);
    for (unsigned thread = 0; thread < 4; thread++)
        deep_alone(&p, thread, thread == 3 ? INSERT : LOOKUP, 8, 0, 10);
    for (unsigned thread = 0; thread < 3; thread++)
        deep_steps(&p, thread, 1);
    deep_alone(&p, 0, JOIN, 3, 0, 7);
    deep_steps(&p, 3, 1);
    deep_alone(&p, 0, JOIN, 3, 0, 31);
    call_deep(&p, at_start);
    expect_run("four counted", 0, 152 + 44 + 3 + 8 + 1 + 32, 22, set, 9, 37);
    expect_deep_row("four counted", 20, 0, JOIN, 3, NUXALDER_STOPPED, 0);
    expect_deep_row("none counted", 21, 0, JOIN, 3, NUXALDER_YES, 0);

    /* the same records in version 2: the second lookup has its row two steps before, and its 10th step is of an idle thread */
    deep_chain(&p);
    p.file[0] = NUXALDER_DEEP_FILE_VERSION;
    deep_alone(&p, 1, LOOKUP, 8, 0, 10);
    call_deep(&p, at_start);
    expect_run("lookup of version 2", NUXALDER_REFUSED_IDLE, 162, 18, set, 9, 34);

    /* buffers as version 2 needs them; no version 4; the one-writer run takes no version 3 */
    static const struct {
        uint8_t file[7];
        size_t length, room;
        uint64_t refusal;
    } files[] = {{{3, 0}, 2, 0, 1},          {{4, 0, 0}, 3, 0, 2},           {{3, 16, 1}, 3, 0, 3},          {{3, 0, 1, 2, 9}, 5, 7, 4},
                 {{3, 0, 1, 2, 9, 0, 0}, 7, 6, 5}, {{3, 0, 1, 7, 9, 0, 0}, 7, 7, 8}, {{3, 0, 1, 2, 9, 39, 16}, 7, 7, 14},
                 {{3, 0, 1, 6, 9, 0, 8}, 7, 7, 15}, {{3, 0, 1, 6, 9, 0, 9}, 7, 7, 0}};
    for (size_t i = 0; i < sizeof files / sizeof files[0]; i++) {
        uint64_t refusal = files[i].refusal;
        call_run(files[i].file, files[i].length, files[i].room, at_start);
        expect_run("version 3, refusals", refusal, refusal == 0, 0, 0, 0, refusal == 0 || refusal > 5);
        call_one_writer(files[i].file, files[i].length, files[i].room, at_start);
        expect_run("version 3, one writer", files[i].length < 3 ? 1 : 2, 0, 0, 0, 0, 0);
    }
    call_list(files[8].file, files[8].length, 8191, at_start);
    expect_list("short text buffer, version 3", 6, "");
}

/* The one-writer run: what it lets through is as Run has it, and 24 comes after 8 and before 9. */
static void one_writer(int at_start)
{
    /* thread 1 looks up; version 1 has no third and fourth byte, and no queries */
    static const struct {
        unsigned first, second, extra, refusal, plain;
    } cases[] = {
        {0x12, 9, 0, 24, 24},    {0x13, 9, 0, 24, 24},   {0x14, 9, 0, 24, 24},  {0x15, 9, 0, 24, 24},    {0x22, 9, 0, 24, 24},
        {0x35, 9, 0, 24, 24},    {0x12, 9, 640, 24, 24}, {0x22, 64, 0, 24, 24}, {0x33, 255, 1, 24, 24},  {0x23, 9, 1, 24, 24},
        {0x22, 9, 10000, 24, 24}, {0x42, 9, 0, 7, 7},    {0xF5, 9, 0, 7, 7},    {0x46, 9, 0, 7, 7},      {0x06, 3, 9, 24, 8},
        {0x16, 3, 9, 24, 8},     {0x26, 64, 1, 24, 8},   {0x36, 9, 3, 24, 8},   {0x06, 3, 64, 24, 8},    {0x07, 9, 0, 8, 8},
        {0x17, 9, 0, 8, 8},      {0x3F, 9, 0, 8, 8},     {0x11, 9, 0, 11, 11},  {0x21, 64, 0, 9, 9},
        {0x31, 9, 1, 10, 0},     {0x02, 64, 0, 9, 9},    {0x02, 9, 10000, 14, 0}, {0x03, 9, 1, 10, 0},   {0x20, 0, 0, 12, 12},
        {0x10, 1, 0, 10, 10},    {0x00, 0, 0, 12, 12},   {0x02, 9, 9999, 0, 0}, {0x05, 9, 0, 0, 0},      {0x21, 9, 0, 0, 0},
        {0x10, 0, 0, 0, 0},
    };
    static struct plan p;
    static struct deep_plan deep;
    for (size_t i = 0; i < sizeof cases / sizeof cases[0]; i++) {
        /* three records are done; the record after the case is refused with 7 in any case */
        plan_empty(&p);
        plan_record(&p, 0x11, 9);
        plan_alone(&p, 3, LOOKUP, 3, 1);
        plan_record(&p, cases[i].first, cases[i].second);
        plan_record(&p, 0x40, 0);
        call_one_writer(p.file, p.length, 2 * plan_count(&p), at_start);
        /* a lookup of thread 1 that is stepped has its row */
        uint64_t more = cases[i].first == 0x10 && cases[i].refusal == 0;
        expect_run("one writer, version 1", cases[i].plain == 0 ? 7 : cases[i].plain, cases[i].plain == 0 ? 4 : 3, 1 + more, 0, 0, 1);
        expect_row("one writer, version 1", 0, 3, LOOKUP, 3, 0);
        deep_empty(&deep);
        deep_record(&deep, 0x11, 9, 0);
        deep_alone(&deep, 3, LOOKUP, 3, 0, 1);
        deep_record(&deep, cases[i].first, cases[i].second, cases[i].extra);
        deep_record(&deep, 0x40, 0, 0);
        call_one_writer(deep.file, deep.length, 7 * deep_count(&deep), at_start);
        expect_run("one writer, version 2", cases[i].refusal == 0 ? 7 : cases[i].refusal, cases[i].refusal == 0 ? 4 : 3, 1 + more, 0, 0, 1);
        expect_deep_row("one writer, version 2", 0, 3, LOOKUP, 3, 0, 0);
    }

    /* thread 0 writes while the others look up; then thread 2 would write, with buffers of every length around the one needed */
    plan_printed_run(&p);
    plan_alone(&p, 1, LOOKUP, 3, 1);
    plan_alone(&p, 0, JOIN, 3, 21);
    plan_alone(&p, 0, REMOVE, 3, 3);
    plan_steps(&p, 1, 1);
    call_one_writer(p.file, p.length, 2 * plan_count(&p), at_start);
    expect_run("one writer", 0, 41, 6, bit(9), 1, 10);
    expect_row("one writer", 3, 0, JOIN, 3, NUXALDER_YES);
    expect_row("one writer", 5, 1, LOOKUP, 3, NUXALDER_YES);
    plan_alone(&p, 2, INSERT, 4, 3);
    size_t need = 2 * plan_count(&p);
    for (size_t room = need - 3; room <= need + 3; room++) {
        call_one_writer(p.file, p.length, room, at_start);
        if (room < need)
            expect_run("one writer, short row buffer", 5, 0, 0, 0, 0, 0);
        else
            expect_run("a second writer", 24, 41, 6, bit(9), 1, 10);
    }
    call_run(p.file, p.length, need, at_start);
    expect_run("a second writer in Run", 0, 45, 7, bit(4) | bit(9), 2, 11);

    /* the refusals of a whole file are Run's */
    static const struct {
        uint8_t file[5];
        size_t length;
        uint64_t refusal;
    } headers[] = {{{3, 0}, 2, 1},      {{3, 0, 0}, 3, 2},      {{0, 0, 0}, 3, 2},          {{3, 255, 255}, 3, 2},
                   {{1, 16, 1}, 3, 3},  {{2, 255, 255}, 3, 3},  {{1, 0, 1, 0x12, 9}, 4, 4}, {{2, 0, 1, 0x12, 9}, 5, 4},
                   {{1, 0, 1, 0x12, 9}, 5, 5}, {{1, 0, 0}, 3, 0},      {{2, 0, 0}, 3, 0}};
    for (size_t i = 0; i < sizeof headers / sizeof headers[0]; i++) {
        call_one_writer(headers[i].file, headers[i].length, 0, at_start);
        expect_run("one writer, header", headers[i].refusal, 0, 0, 0, 0, headers[i].refusal == 0);
    }
}

/* Tally on a copy of `before` in guarded memory: Run's answers beside it, and cells that are `after`. */
static void call_tally(const char *name, const uint8_t *file, size_t length, size_t room, int at_start,
                       const struct nuxalder_tally *before, const struct nuxalder_tally *after, uint64_t refusal)
{
    uint64_t around[NUXALDER_TALLY_FIELDS + 2];
    uint8_t expected[MEMORY];

    call_run(file, length, room, at_start);
    memcpy(expected, rows_memory.bytes, sizeof expected);
    const uint8_t *copy = lend_file(file, length, at_start);
    guard_fill(rows_memory);
    guard_fill(tally_memory);
    struct nuxalder_tally *lent = (struct nuxalder_tally *)(void *)guard_lend(tally_memory, sizeof *lent, at_start);
    *lent = *before;
    memset(around, 0x5A, sizeof around);
    uint64_t canary = around[0];
    nuxalder_tally(copy, length, guard_lend(rows_memory, room, at_start), room, lent, around + 1);
    check(around[0] == canary && around[NUXALDER_TALLY_FIELDS + 1] == canary, "%s: Tally wrote outside its report", name);
    check(memcmp(around + 1, run, sizeof run) == 0 && memcmp(rows_memory.bytes, expected, sizeof expected) == 0,
          "%s: Tally has other numbers or rows than Run", name);
    check(around[1 + NUXALDER_TALLY_REFUSAL] == refusal, "%s: Tally says %" PRIu64, name, around[1 + NUXALDER_TALLY_REFUSAL]);
    const uint32_t *got = (const uint32_t *)lent, *right = (const uint32_t *)after;
    for (size_t i = 0; i < sizeof *lent / sizeof *got; i++)
        check(got[i] == right[i], "%s: cell %zu is %" PRIu32 ", not %" PRIu32, name, i, got[i], right[i]);
    check(guard_kept(tally_memory, (const uint8_t *)lent, sizeof *lent), "%s: Tally wrote beside the tally", name);
    file_kept(copy, file, length);
}

/* The tally of one file by hand, then two of it, refused files, and each cell in turn so near 32 bits that the file goes past. */
static void tallies(int at_start)
{
    static struct nuxalder_tally empty, one, two, near, after;
    static struct plan p;
    static const uint8_t long_count[] = {1, 16, 1};

    check(sizeof one == 260, "a tally has %zu bytes", sizeof one);
    memset(&one, 0, sizeof one);
    /* the printed run, a join that is killed by an insert, lookups of both answers, a join and a lookup left open */
    plan_printed_run(&p);
    plan_alone(&p, 0, JOIN, 3, 7);
    plan_alone(&p, 1, INSERT, 4, 9);
    plan_steps(&p, 0, 9);
    plan_alone(&p, 2, LOOKUP, 3, 2);
    plan_alone(&p, 2, LOOKUP, 5, 2);
    plan_alone(&p, 2, LOOKUP, 6, 1);
    plan_alone(&p, 3, REMOVE, 9, 6);
    plan_alone(&p, 0, JOIN, 3, 4);
    plan_record(&p, 0x02, 9); /* thread 0 is busy: 11 */
    one.starts[LOOKUP] = 3;
    one.yes[LOOKUP] = one.no[LOOKUP] = one.unfinished[LOOKUP] = 1;
    one.steps[LOOKUP] = 4;
    one.largest[LOOKUP] = 2;
    one.starts[INSERT] = one.yes[INSERT] = 3;
    one.steps[INSERT] = 15;
    one.largest[INSERT] = 9;
    one.starts[REMOVE] = one.yes[REMOVE] = 1;
    one.steps[REMOVE] = one.largest[REMOVE] = 6;
    one.starts[SPLIT] = one.yes[SPLIT] = 1;
    one.steps[SPLIT] = one.largest[SPLIT] = 3;
    one.starts[JOIN] = 2;
    one.no[JOIN] = one.unfinished[JOIN] = 1;
    one.steps[JOIN] = one.largest[JOIN] = 16;
    one.refusals[NUXALDER_REFUSED_BUSY] = 1;
    size_t need = 2 * plan_count(&p);
    call_tally("one file", p.file, p.length, need, at_start, &empty, &one, 0);
    const uint32_t *cells = (const uint32_t *)&one;
    uint32_t *doubled = (uint32_t *)&two, *edge = (uint32_t *)&near, *right = (uint32_t *)&after;
    size_t count = sizeof one / sizeof *cells, largest = 5 * NUXALDER_TALLY_ACTIONS;
    for (size_t i = 0; i < count; i++)
        doubled[i] = i >= largest && i < largest + NUXALDER_TALLY_ACTIONS ? cells[i] : 2 * cells[i];
    call_tally("two files", p.file, p.length, need + 5, at_start, &one, &two, 0);

    after = one;
    after.refusals[NUXALDER_REFUSED_ROWS_BUFFER] = 1;
    call_tally("a short row buffer", p.file, p.length, need - 1, at_start, &one, &after, 0);
    after = one;
    after.refusals[NUXALDER_REFUSED_COUNT] = 1;
    call_tally("a refused file", long_count, sizeof long_count, 0, at_start, &one, &after, 0);

    for (size_t i = 0; i < count; i++) {
        int is_largest = i >= largest && i < largest + NUXALDER_TALLY_ACTIONS;
        memset(&near, 0, sizeof near);
        edge[i] = UINT32_MAX - cells[i];
        after = one;
        right[i] = UINT32_MAX - (is_largest ? cells[i] : 0);
        call_tally("a cell that just fits", p.file, p.length, need, at_start, &near, &after, 0);
        if (cells[i] == 0)
            continue;
        edge[i]++;
        after = is_largest ? one : near;
        right[i] = edge[i];
        call_tally("a cell past 32 bits", p.file, p.length, need, at_start, &near, &after, is_largest ? 0 : 19);
    }

    /* version 2 adds to the same rows */
    static struct deep_plan deep;
    deep_empty(&deep);
    deep_alone(&deep, 0, INSERT, 9, 640, 3);
    deep_alone(&deep, 1, LOOKUP, 9, 0, 1);
    deep_record(&deep, 0x12, 9, 10000);
    after = one;
    after.starts[INSERT]++, after.yes[INSERT]++, after.steps[INSERT] += 3;
    after.starts[LOOKUP]++, after.yes[LOOKUP]++, after.steps[LOOKUP]++;
    after.refusals[NUXALDER_REFUSED_DEPTH]++;
    call_tally("version 2", deep.file, deep.length, 7 * deep_count(&deep), at_start, &one, &after, 0);

    /* its range queries: one that finds both stations, one that finds none, one left open, an upper end that is refused */
    deep_two_bases(&deep);
    deep_alone(&deep, 1, RANGE, 0, 63, 16);
    deep_alone(&deep, 1, RANGE, 0, 2, 7);
    deep_alone(&deep, 2, RANGE, 0, 63, 2);
    deep_record(&deep, 0x36, 9, 3);
    after = one;
    after.starts[INSERT] += 2, after.yes[INSERT] += 2, after.steps[INSERT] += 6;
    after.starts[SPLIT]++, after.yes[SPLIT]++, after.steps[SPLIT] += 3;
    after.starts[RANGE] = 3;
    after.yes[RANGE] = after.no[RANGE] = after.unfinished[RANGE] = 1;
    after.steps[RANGE] = 23;
    after.largest[RANGE] = 16;
    after.refusals[NUXALDER_REFUSED_UPPER_END] = 1;
    call_tally("range queries", deep.file, deep.length, 7 * deep_count(&deep), at_start, &one, &after, 0);
    near = one;
    near.no[RANGE] = UINT32_MAX;
    call_tally("a query past 32 bits", deep.file, deep.length, 7 * deep_count(&deep), at_start, &near, &near, 19);

    /* version 3: a lookup takes two steps more below eight routes, and a join between them is stopped, which is a no */
    deep_chain(&deep);
    deep_alone(&deep, 1, LOOKUP, 8, 0, 10);
    deep_alone(&deep, 0, JOIN, 3, 0, 7);
    deep_steps(&deep, 1, 1);
    after = one;
    after.starts[INSERT] += 9, after.yes[INSERT] += 9, after.steps[INSERT] += 69, after.largest[INSERT] = 12;
    after.starts[SPLIT] += 8, after.yes[SPLIT] += 8, after.steps[SPLIT] += 66, after.largest[SPLIT] = 12;
    after.starts[LOOKUP]++, after.yes[LOOKUP]++, after.steps[LOOKUP] += 11, after.largest[LOOKUP] = 11;
    after.starts[JOIN]++, after.no[JOIN]++, after.steps[JOIN] += 7;
    call_tally("version 3", deep.file, deep.length, 7 * deep_count(&deep), at_start, &one, &after, 0);
    near = one;
    near.no[JOIN] = UINT32_MAX;
    call_tally("a stopped join past 32 bits", deep.file, deep.length, 7 * deep_count(&deep), at_start, &near, &near, 19);
}

/* Steps over operations in lowest terms. */
static void averages(int at_start)
{
    static const struct {
        uint32_t steps, yes, no;
        uint64_t average[NUXALDER_AVERAGE_FIELDS];
    } cases[] = {
        {0, 0, 0, {0, 1}}, {7, 0, 0, {0, 1}}, {0, 9, 0, {0, 1}}, {15, 3, 0, {5, 1}}, {12, 5, 3, {3, 2}}, {9, 2, 3, {9, 5}},
        {UINT32_MAX, UINT32_MAX, UINT32_MAX, {1, 2}}, {UINT32_MAX, UINT32_MAX, 0, {1, 1}}, {1, UINT32_MAX, 1, {1, UINT64_C(4294967296)}},
        {6, 0, 4, {3, 2}}, {4294967291u, 2, 0, {4294967291u, 2}},
    };
    for (size_t i = 0; i < sizeof cases / sizeof cases[0]; i++)
        for (unsigned action = 0; action < 12; action++) {
            uint64_t average[NUXALDER_AVERAGE_FIELDS + 1] = {99, 99, 99};
            guard_fill(tally_memory);
            struct nuxalder_tally *lent = (struct nuxalder_tally *)(void *)guard_lend(tally_memory, sizeof *lent, at_start);
            memset(lent, 0x77, sizeof *lent);
            if (action < NUXALDER_TALLY_ACTIONS) {
                lent->steps[action] = cases[i].steps;
                lent->yes[action] = cases[i].yes;
                lent->no[action] = cases[i].no;
            }
            struct nuxalder_tally before = *lent;
            nuxalder_average(lent, (uint8_t)action, average);
            int none = action == 0 || action > 6;
            check(average[NUXALDER_AVERAGE_STEPS] == (none ? 0 : cases[i].average[0]) &&
                      average[NUXALDER_AVERAGE_OPERATIONS] == (none ? 1 : cases[i].average[1]) && average[2] == 99,
                  "average %zu of action %u is %" PRIu64 "/%" PRIu64, i, action, average[0], average[1]);
            check(memcmp(&before, lent, sizeof before) == 0 && guard_kept(tally_memory, (const uint8_t *)lent, sizeof *lent),
                  "Average wrote to the tally");
        }
}

int main(void)
{
    schedule_memory = guard_new(MEMORY);
    rows_memory = guard_new(MEMORY);
    text_memory = guard_new(MEMORY);
    tally_memory = guard_new(GUARD_PAGE);
    examples();
    reasons();
    refused_records();
    longest();
    for (int at_start = 0; at_start <= 1; at_start++) {
        buffer_lengths(at_start);
        headers(at_start);
        histories(at_start);
        judged(at_start);
        depths(at_start);
        ranges(at_start);
        stores(at_start);
        deep_lengths(at_start);
        deep_refusals(at_start);
        stops(at_start);
        one_writer(at_start);
        tallies(at_start);
        averages(at_start);
    }
    printf("%lu passed, %lu failed\n", passed, failed);
    return failed == 0 && passed > 0 ? EXIT_SUCCESS : EXIT_FAILURE;
}
