/* nuxalder_state through the offsets of include/nuxalder.h: 01's join step by step, a kill, runs alike, a query with its helper, a search
 * that is counted, the longest state; every number of records; buffers and files of every interesting length, flush with
 * forbidden pages; refusals in their order. Ends with the counts of passed and failed checks. */
#define _DEFAULT_SOURCE
#include "guard.h"
#include "nuxalder.h"
#include "plan.h"

#include <inttypes.h>
#include <stdarg.h>

enum { MEMORY = 13 * GUARD_PAGE, FILE_MEMORY = 5 * GUARD_PAGE };

static unsigned long passed, failed;
static struct guard file_memory, state_memory;

/* What the last call handed back. */
static uint64_t report[NUXALDER_STATE_FIELDS];
static const uint8_t *state;

__attribute__((format(printf, 2, 3))) static void check(int holds, const char *format, ...)
{
    if (holds) {
        passed++;
        return;
    }
    failed++;
    va_list arguments;
    va_start(arguments, format);
    fputs("FAILED: ", stdout);
    vprintf(format, arguments);
    putchar('\n');
    va_end(arguments);
}

/* Calls State with a buffer of `room` bytes; what it may not touch must be as before. */
static void call(const uint8_t *file, size_t length, uint64_t records, size_t room, int at_start)
{
    guard_fill(file_memory);
    guard_fill(state_memory);
    uint8_t *copy = guard_lend(file_memory, length, at_start), *buffer = guard_lend(state_memory, room, at_start);
    uint64_t around[NUXALDER_STATE_FIELDS + 2];
    if (length > 0)
        memcpy(copy, file, length);
    memset(around, 0x5A, sizeof around);
    uint64_t canary = around[0];
    nuxalder_state(copy, length, records, buffer, room, around + 1);
    memcpy(report, around + 1, sizeof report);
    state = buffer;
    check(around[0] == canary && around[NUXALDER_STATE_FIELDS + 1] == canary, "State wrote outside its report");
    size_t written = (size_t)report[NUXALDER_STATE_LENGTH];
    check(written <= room && guard_kept(state_memory, buffer, written), "State touched bytes past its length");
    check((length == 0 || memcmp(copy, file, length) == 0) && guard_kept(file_memory, copy, length), "the schedule was written to");
}

static void expect(const char *name, uint64_t refusal, uint64_t records, uint64_t length)
{
    check(report[NUXALDER_STATE_REFUSAL] == refusal && report[NUXALDER_STATE_RECORDS] == records &&
              report[NUXALDER_STATE_LENGTH] == length,
          "%s: refusal %" PRIu64 ", records %" PRIu64 ", length %" PRIu64, name, report[0], report[1], report[2]);
}

static uint64_t length_of(unsigned used, unsigned shown)
{
    return NUXALDER_HEAD_SIZE + NUXALDER_THREADS * NUXALDER_THREAD_SIZE + used * NUXALDER_NODE_SIZE + shown * NUXALDER_STORE_SIZE;
}

/* The head of a state that was written, whole. */
static void expect_head(const char *name, unsigned version, unsigned records, unsigned refusal, unsigned root, unsigned used,
                        unsigned shown, unsigned count)
{
    const uint8_t head[NUXALDER_HEAD_SIZE] = {NUXALDER_STATE_LAYOUT, (uint8_t)version,      (uint8_t)(records >> 8), (uint8_t)records,
                                              (uint8_t)refusal,      (uint8_t)root,         (uint8_t)(used >> 8),    (uint8_t)used,
                                              (uint8_t)shown,        version == 3 ? 1 : 0,  (uint8_t)count};
    expect(name, refusal, records, length_of(used, shown));
    check(memcmp(state, head, sizeof head) == 0, "%s: the head", name);
    check(state[NUXALDER_HEAD_ROOT] == root && nuxalder_state_two(state + NUXALDER_HEAD_USED) == used &&
              nuxalder_state_two(state + NUXALDER_HEAD_RECORDS) == records && state[NUXALDER_HEAD_SHOWN] == shown &&
              state[NUXALDER_HEAD_VERSION] == version && state[NUXALDER_HEAD_COUNT] == count,
          "%s: the head by its offsets", name);
}

static void whole(const struct plan *p)
{
    call(p->file, p->length, UINT64_MAX, NUXALDER_STATE_BUFFER, 0);
}

static void deep_whole(const struct deep_plan *p)
{
    call(p->file, p->length, UINT64_MAX, NUXALDER_STATE_BUFFER, 0);
}

/* A thread's place, and the links that it has there: pairs of offset and number, ended by 0; all others are none. */
static void expect_thread(const char *name, int t, unsigned place, const int *links)
{
    const uint8_t *thread = nuxalder_state_thread(state, t);
    int at;

    check(thread[NUXALDER_THREAD_PLACE] == place, "%s: t%d at %u, not %u", name, t, thread[NUXALDER_THREAD_PLACE], place);
    for (at = NUXALDER_THREAD_ROUTE; at <= NUXALDER_THREAD_OTHER; at += 2) {
        const int *link = links;
        int number = -1;

        for (; *link != 0; link += 2)
            if (link[0] == at)
                number = link[1];
        check(nuxalder_state_link(thread + at) == number, "%s: t%d, byte %d links to %d, not %d", name, t, at,
              nuxalder_state_link(thread + at), number);
    }
}

static int is_zero(const uint8_t *bytes, size_t length)
{
    while (length > 0 && bytes[length - 1] == 0)
        length--;
    return length == 0;
}

/* 01's join after the printed run, after each of its 21 steps. */
static void join(void)
{
    enum { BASE = NUXALDER_THREAD_BASE, PARENT = NUXALDER_THREAD_PARENT, FOUND = NUXALDER_THREAD_FOUND, MAIN = NUXALDER_THREAD_MAIN };
    static const struct {
        unsigned place;
        int links[10];
    } steps[] = {
        {1, {0}},
        {2, {NUXALDER_THREAD_ROUTE, 3, 0}},
        {3, {BASE, 4, 0}},
        {20, {BASE, 4, PARENT, 3, 0}},
        {22, {BASE, 4, PARENT, 3, 0}},
        {24, {BASE, 4, PARENT, 3, FOUND, 5, 0}},
        {25, {BASE, 4, PARENT, 3, FOUND, 5, 0}},
        {26, {PARENT, 3, FOUND, 5, MAIN, 6, 0}},
        {28, {PARENT, 3, FOUND, 5, MAIN, 6, 0}},
        {29, {PARENT, 3, FOUND, 5, MAIN, 6, 0}},
        {30, {PARENT, 3, NUXALDER_THREAD_NEIGHBOUR, 7, MAIN, 6, 0}},
        {31, {PARENT, 3, NUXALDER_THREAD_NEIGHBOUR, 7, MAIN, 6, 0}},
        {34, {PARENT, 3, NUXALDER_THREAD_NEIGHBOUR, 7, MAIN, 6, 0}},
        {35, {PARENT, 3, NUXALDER_THREAD_NEIGHBOUR, 7, MAIN, 6, NUXALDER_THREAD_OTHER, 7, 0}},
        {40, {MAIN, 6, 0}},
        {41, {MAIN, 6, 0}},
        {43, {MAIN, 6, 0}},
        {44, {MAIN, 6, 0}},
        {45, {MAIN, 6, 0}},
        {46, {MAIN, 6, 0}},
        {51, {MAIN, 6, 0}},
        {0, {0}},
    };
    static struct plan p;
    unsigned k;

    plan_printed_run(&p);
    plan_alone(&p, 0, JOIN, 3, 21);
    for (k = 0; k < sizeof steps / sizeof steps[0]; k++) {
        unsigned used = 6 + (k > 6) + (k > 9) + (k > 13), stage = k > 20 ? NUXALDER_DONE : k > 13 ? NUXALDER_DECIDED : NUXALDER_PREPARING;
        const uint8_t *thread, *route, *main, *union_node;

        call(p.file, p.length, 13 + k, NUXALDER_STATE_BUFFER, 0);
        expect_head("the join", 1, 13 + k, 0, k < 20 ? 3 : 8, used, 0, 0);
        expect_thread("the join", 0, steps[k].place, steps[k].links);
        thread = nuxalder_state_thread(state, 0);
        check(thread[NUXALDER_THREAD_ACTION] == (k < 21 ? JOIN : 0) && thread[NUXALDER_THREAD_STATION] == (k < 21 ? 3 : 0),
              "the join: action and station after %u steps", k);
        check(thread[NUXALDER_THREAD_SIDE] == (k > 3 && k < 13 ? 1 : 0) && thread[NUXALDER_THREAD_OWN] == (k > 6 && k < 21),
              "the join: side and owner after %u steps", k);
        check(is_zero(thread + NUXALDER_THREAD_FRAMES, NUXALDER_THREAD_SIZE - NUXALDER_THREAD_FRAMES), "the join: no frames");
        check(is_zero(nuxalder_state_thread(state, 1), 3 * NUXALDER_THREAD_SIZE), "the join: the others are idle");
        route = nuxalder_state_node(state, 3);
        check(route[NUXALDER_NODE_KIND] == NUXALDER_ROUTE && route[NUXALDER_NODE_KEY] == 9 && route[NUXALDER_NODE_LEFT] == (k > 6 ? 6 : 4) &&
                  route[NUXALDER_NODE_RIGHT] == (k > 17 ? 8 : k > 9 ? 7 : 5) && route[NUXALDER_NODE_VALID] == (k < 19) &&
                  nuxalder_state_link(route + NUXALDER_NODE_MARK) == (k > 10 ? 6 : -1),
              "the join: route 3 after %u steps", k);
        check(route[NUXALDER_NODE_REACHABLE] == (k < 20) && nuxalder_state_word(route + NUXALDER_NODE_RANGE) == (k < 20 ? UINT64_MAX : 0),
              "the join: the range of route 3 after %u steps", k);
        if (used < 7)
            continue;
        main = nuxalder_state_node(state, 6);
        check(main[NUXALDER_NODE_KIND] == NUXALDER_MAIN && main[NUXALDER_NODE_STAGE] == stage &&
                  nuxalder_state_link(main + NUXALDER_NODE_PARENT) == 3 && nuxalder_state_word(main + NUXALDER_NODE_CONTAINER) == 8,
              "the join: main 6 after %u steps", k);
        check(nuxalder_state_link(main + NUXALDER_NODE_UNION) == (k > 13 ? 8 : -1) &&
                  nuxalder_state_link(main + NUXALDER_NODE_NEIGHBOUR) == (k > 13 ? 7 : -1) &&
                  nuxalder_state_link(main + NUXALDER_NODE_GRANDPARENT) == -1 &&
                  nuxalder_state_link(main + NUXALDER_NODE_OTHER) == (k > 13 ? 7 : -1),
              "the join: what main 6 agreed on after %u steps", k);
        if (used < 9)
            continue;
        union_node = nuxalder_state_node(state, 8);
        check(union_node[NUXALDER_NODE_KIND] == NUXALDER_NEIGHBOUR && nuxalder_state_link(union_node + NUXALDER_NODE_MAIN) == 6 &&
                  nuxalder_state_link(union_node + NUXALDER_NODE_PARENT) == -1 &&
                  nuxalder_state_word(union_node + NUXALDER_NODE_CONTAINER) == 0x208,
              "the join: node 8 after %u steps", k);
        check(union_node[NUXALDER_NODE_REACHABLE] == (k > 17) &&
                  nuxalder_state_word(union_node + NUXALDER_NODE_RANGE) == (k > 19 ? UINT64_MAX : k > 17 ? ~UINT64_C(0x1FF) : 0),
              "the join: the range of node 8 after %u steps", k);
    }
}

/* 01's killed join: t1 before 16, and after it. */
static void kill(void)
{
    static const int main_6[] = {NUXALDER_THREAD_MAIN, 6, 0}, none[] = {0};
    static struct plan p;

    plan_printed_run(&p);
    plan_alone(&p, 0, JOIN, 3, 7);
    plan_alone(&p, 1, INSERT, 4, 3);
    whole(&p);
    expect_head("before the kill", 1, 24, 0, 3, 7, 0, 0);
    expect_thread("before the kill", 1, 16, main_6);
    check(nuxalder_state_thread(state, 1)[NUXALDER_THREAD_OWN] == 0, "before the kill: it is not t1's main");
    check(nuxalder_state_node(state, 6)[NUXALDER_NODE_STAGE] == NUXALDER_PREPARING, "before the kill: the stage");
    plan_steps(&p, 1, 1);
    whole(&p);
    expect_thread("after the kill", 1, 1, none);
    check(nuxalder_state_node(state, 6)[NUXALDER_NODE_STAGE] == NUXALDER_ABORTED, "after the kill: the stage");
}

/* Two runs of as many records that the places cannot tell apart have the same state: what their threads did before does not show. */
static void alike(void)
{
    static uint8_t first[NUXALDER_STATE_BUFFER];
    static struct plan p[4];
    uint64_t length;
    int i;

    for (i = 0; i < 2; i++) {
        plan_printed_run(&p[i]);
        plan_alone(&p[i], 1, LOOKUP, i ? 9 : 3, 2);
    }
    /* t1 at 1: back from 15, or just started after two lookups of another */
    plan_empty(&p[2]);
    plan_alone(&p[2], 0, INSERT, 3, 2);
    plan_alone(&p[2], 1, INSERT, 9, 2);
    plan_steps(&p[2], 0, 1);
    plan_steps(&p[2], 1, 2);
    plan_empty(&p[3]);
    plan_alone(&p[3], 0, INSERT, 3, 3);
    plan_alone(&p[3], 2, LOOKUP, 3, 1);
    plan_alone(&p[3], 2, LOOKUP, 9, 1);
    plan_alone(&p[3], 1, INSERT, 9, 0);
    for (i = 0; i < 4; i += 2) {
        whole(&p[i]);
        length = report[NUXALDER_STATE_LENGTH];
        memcpy(first, state, length);
        whole(&p[i + 1]);
        check(report[NUXALDER_STATE_REFUSAL] == 0 && report[NUXALDER_STATE_LENGTH] == length && memcmp(first, state, length) == 0,
              "runs %d and %d, which nothing tells apart", i, i + 1);
    }
    check(nuxalder_state_thread(state, 1)[NUXALDER_THREAD_PLACE] == 1, "t1 is at 1");
    for (i = 2; i < 4; i++)
        plan_steps(&p[i], 1, 1);
    whole(&p[2]);
    length = report[NUXALDER_STATE_LENGTH];
    memcpy(first, state, length);
    whole(&p[3]);
    check(report[NUXALDER_STATE_LENGTH] == length && memcmp(first, state, length) == 0, "nor does a step");
}

/* Depths, frames, a range base and its store; an insert that helps. */
static void query(void)
{
    static const int none[] = {0};
    static struct deep_plan p;
    const uint8_t *thread, *frame, *base;

    deep_two_bases(&p);
    deep_alone(&p, 1, RANGE, 0, 63, 8);
    deep_alone(&p, 2, INSERT, 4, 77, 3);
    deep_whole(&p);
    expect_head("a query", 2, 25, 0, 3, 7, 1, 0);
    expect_thread("a query", 1, 76, none);
    thread = nuxalder_state_thread(state, 1);
    frame = thread + NUXALDER_THREAD_FRAME;
    check(thread[NUXALDER_THREAD_ACTION] == RANGE && nuxalder_state_two(thread + NUXALDER_THREAD_EXTRA) == 63 &&
              thread[NUXALDER_THREAD_FRAMES] == 1,
          "a query: its upper end and its frame");
    check(frame[NUXALDER_FRAME_LOWER] == 0 && frame[NUXALDER_FRAME_UPPER] == 63 && nuxalder_state_link(frame + NUXALDER_FRAME_STORE) == 0 &&
              nuxalder_state_link(frame + NUXALDER_FRAME_BASE) == 5 && nuxalder_state_link(frame + NUXALDER_FRAME_POPPED) == -1 &&
              frame[NUXALDER_FRAME_KEY] == 0 && frame[NUXALDER_FRAME_BEGUN] == 1 && nuxalder_state_word(frame + NUXALDER_FRAME_DONE) == 8,
          "a query: the frame");
    check(frame[NUXALDER_FRAME_STACK_LENGTH] == 2 && frame[NUXALDER_FRAME_STACK] == 5 && frame[NUXALDER_FRAME_STACK + 1] == 3 &&
              frame[NUXALDER_FRAME_BACKUP_LENGTH] == 2 && frame[NUXALDER_FRAME_BACKUP] == 6 && frame[NUXALDER_FRAME_BACKUP + 1] == 3,
          "a query: its stack and the backup");
    thread = nuxalder_state_thread(state, 2);
    frame = thread + NUXALDER_THREAD_FRAME;
    check(thread[NUXALDER_THREAD_PLACE] == 60 && nuxalder_state_two(thread + NUXALDER_THREAD_EXTRA) == 77 && thread[NUXALDER_THREAD_FRAMES] == 1 &&
              nuxalder_state_link(frame + NUXALDER_FRAME_STORE) == 0 && frame[NUXALDER_FRAME_BEGUN] == 0,
          "a query: the insert that helps it");
    base = nuxalder_state_node(state, 6);
    check(base[NUXALDER_NODE_KIND] == NUXALDER_RANGE_BASE && base[NUXALDER_NODE_LOWER] == 0 && base[NUXALDER_NODE_UPPER] == 63 &&
              nuxalder_state_link(base + NUXALDER_NODE_STORE) == 0 && nuxalder_state_two(base + NUXALDER_NODE_DEPTHS + 2 * 3) == 640 &&
              is_zero(base + NUXALDER_NODE_DEPTHS + 8, NUXALDER_NODE_SIZE - NUXALDER_NODE_DEPTHS - 8),
          "a query: its range base");
    check(is_zero(nuxalder_state_store(state, 0), NUXALDER_STORE_SIZE), "a query: its store is unset");
    deep_steps(&p, 1, 7);
    deep_whole(&p);
    check(nuxalder_state_store(state, 0)[NUXALDER_STORE_SET] == 1 &&
              nuxalder_state_word(nuxalder_state_store(state, 0) + NUXALDER_STORE_RESULT) == 0x208,
          "a query: its store is set");
}

/* Version 3: a lookup below eight routes is counted between 4 and 5. */
static void count(void)
{
    static const struct {
        unsigned steps, count, place, read;
        int links[3];
    } cases[] = {{8, 0, 2, 7, {NUXALDER_THREAD_ROUTE, 31, 0}},
                 {9, 0, 4, 0, {NUXALDER_THREAD_ROUTE, 33, 0}},
                 {10, 1, 5, 0, {NUXALDER_THREAD_BASE, 33, 0}},
                 {11, 0, 0, 0, {0}}};
    static struct deep_plan p;
    size_t i;

    deep_chain(&p);
    deep_alone(&p, 1, LOOKUP, 8, 0, 11);
    for (i = 0; i < sizeof cases / sizeof cases[0]; i++) {
        call(p.file, p.length, 153 + cases[i].steps, NUXALDER_STATE_BUFFER, 0);
        expect_head("a counted search", 3, 153 + cases[i].steps, 0, 3, 34, 0, cases[i].count);
        expect_thread("a counted search", 1, cases[i].place, cases[i].links);
        check(nuxalder_state_thread(state, 1)[NUXALDER_THREAD_READ] == cases[i].read, "a counted search: routes read after %u steps", cases[i].steps);
    }
}

/* All numbers and all stores: a state that fills its buffer. */
static void longest(int at_start)
{
    static struct deep_plan p;
    unsigned i;

    deep_empty(&p);
    for (i = 0; i < NUXALDER_STORES_MOST; i++)
        deep_alone(&p, 0, RANGE, 0, 63, 5);
    for (i = NUXALDER_STORES_MOST + 1; i < NUXALDER_NODES_MOST; i++)
        deep_alone(&p, 3, INSERT, 9, 5, 3);
    call(p.file, p.length, UINT64_MAX, NUXALDER_STATE_BUFFER, at_start);
    expect_head("the longest state", 2, (unsigned)deep_count(&p), 0, 255, 256, 64, 0);
    check(report[NUXALDER_STATE_LENGTH] == NUXALDER_STATE_BUFFER, "the longest state fills its buffer");
    for (i = 0; i < NUXALDER_STORES_MOST; i++)
        check(nuxalder_state_store(state, (int)i)[NUXALDER_STORE_SET] == 1, "the longest state: store %u", i);
}

/* Every number of records, and every length of the file, around those that there are; buffers around the one needed. */
static void lengths(int at_start)
{
    static const size_t rooms[] = {0, 1, 4096, 8192, NUXALDER_STATE_BUFFER - 1, NUXALDER_STATE_BUFFER, NUXALDER_STATE_BUFFER + 1, MEMORY};
    static const uint64_t more[] = {12, 13, 255, 256, 4096, 65535, 65536, UINT64_C(1) << 32, UINT64_MAX};
    static const uint8_t used[] = {1, 1, 1, 1, 2, 2, 2, 2, 3, 3, 3, 3, 6};
    static struct plan p;
    size_t i;

    plan_printed_run(&p);
    for (i = 0; i <= 12; i++) {
        call(p.file, p.length, i, NUXALDER_STATE_BUFFER, at_start);
        expect_head("the printed run", 1, (unsigned)i, 0, i < 4 ? 0 : i < 8 ? 1 : i < 12 ? 2 : 3, used[i], 0, 0);
    }
    for (i = 0; i < sizeof more / sizeof more[0]; i++) {
        call(p.file, p.length, more[i], NUXALDER_STATE_BUFFER, at_start);
        expect_head("more records than there are", 1, 12, 0, 3, 6, 0, 0);
    }
    for (i = 0; i < sizeof rooms / sizeof rooms[0]; i++) {
        call(p.file, p.length, 12, rooms[i], at_start);
        if (rooms[i] < NUXALDER_STATE_BUFFER)
            expect("a short buffer", NUXALDER_REFUSED_STATE_BUFFER, 0, 0);
        else
            expect("a buffer", 0, 12, length_of(6, 0));
    }
    for (i = 0; i <= p.length + 2; i++) {
        uint64_t refusal = i < 3 ? 1 : i == p.length ? 0 : 4;
        call(p.file, i, 5, NUXALDER_STATE_BUFFER, at_start);
        expect("a file that is cut", refusal, refusal ? 0 : 5, refusal ? 0 : length_of(2, 0));
        call(p.file, i, 5, NUXALDER_STATE_BUFFER - 1, at_start);
        expect("a file that is cut, a short buffer", refusal ? refusal : 25, 0, 0);
    }
}

/* Refusals of files in their order; records that are refused among the first, and after them. */
static void refusals(int at_start)
{
    static const struct {
        uint8_t file[5];
        size_t length;
        uint64_t refusal;
    } files[] = {{{4, 255}, 2, 1},     {{4, 255, 255}, 3, 2}, {{0, 0, 0}, 3, 2}, {{1, 16, 1}, 3, 3},       {{2, 255, 255}, 3, 3},
                 {{3, 16, 1}, 4, 3},   {{1, 16, 0}, 3, 4},    {{1, 0, 0}, 4, 4}, {{2, 0, 1, 0x40, 0}, 5, 4}, {{3, 0, 1, 0x40, 0}, 5, 4},
                 {{1, 0, 1, 64, 0}, 5, 25}};
    static const struct {
        unsigned first, second, refusal;
    } records[] = {{0x40, 0, 7}, {0x06, 0, 8}, {0x02, 64, 9}, {0x00, 1, 10}, {0x32, 5, 11}, {0x10, 0, 12}};
    static struct plan p;
    size_t i;

    for (i = 0; i < sizeof files / sizeof files[0]; i++) {
        call(files[i].file, files[i].length, i, NUXALDER_STATE_BUFFER - 1, at_start);
        expect("a refused file", files[i].refusal, 0, 0);
        call(files[i].file, files[i].length, i, NUXALDER_STATE_BUFFER, at_start);
        if (files[i].refusal < 5)
            expect("a refused file, with room", files[i].refusal, 0, 0);
        else
            expect_head("a refused record", 1, 0, 7, 0, 1, 0, 0);
    }
    for (i = 0; i < sizeof records / sizeof records[0]; i++) {
        plan_printed_run(&p);
        plan_alone(&p, 3, LOOKUP, 9, 0);
        plan_record(&p, records[i].first, records[i].second);
        plan_steps(&p, 3, 2);
        call(p.file, p.length, 13, NUXALDER_STATE_BUFFER, at_start);
        expect_head("before a record that is refused", 1, 13, 0, 3, 6, 0, 0);
        call(p.file, p.length, 14, NUXALDER_STATE_BUFFER, at_start);
        expect_head("a record that is refused", 1, 13, records[i].refusal, 3, 6, 0, 0);
        call(p.file, p.length, UINT64_MAX, NUXALDER_STATE_BUFFER, at_start);
        expect_head("and all after it", 1, 13, records[i].refusal, 3, 6, 0, 0);
    }
    plan_empty(&p);
    for (i = 0; i < 256; i++)
        plan_alone(&p, 0, INSERT, 9, 3);
    call(p.file, p.length, UINT64_MAX, NUXALDER_STATE_BUFFER, at_start);
    expect_head("no number left", 1, 1023, 13, 255, 256, 0, 0);
    check(nuxalder_state_thread(state, 0)[NUXALDER_THREAD_PLACE] == 10, "no number left: the thread still stands at 10");
}

int main(void)
{
    int at_start;

    file_memory = guard_new(FILE_MEMORY);
    state_memory = guard_new(MEMORY);
    join();
    kill();
    alike();
    query();
    count();
    for (at_start = 0; at_start < 2; at_start++) {
        longest(at_start);
        lengths(at_start);
        refusals(at_start);
    }
    printf("%lu passed, %lu failed\n", passed, failed);
    return failed != 0;
}
