/* random FOLDER SEED COUNT VERSIONS [no-range]: writes COUNT schedules, biased to collisions: few stations, a tree with several routes to
 * begin with, threads that work at one another's stations, bursts, threads that are frozen at a chosen place or in the middle of an
 * operation and go on late, helpers that stop halfway through a join that its owner ends. VERSIONS are digits, "123" for all; some
 * of the schedules of versions 2 and 3 have range queries, and those of version 3 begin with a chain of routes, so that
 * searches come far enough to stop joins. The bench is asked after each step, so every record is one that it accepts. */
#include <stdio.h>
#include <stdlib.h>
#include <string.h>

#include "nuxalder.h"

enum { NUMBERS_LEFT = 6, LONGEST = 900, QUERIES_MOST = 60, POOL = 12 };

static uint64_t seed;

static uint64_t next(void) /* splitmix64 */
{
    uint64_t z = seed += 0x9e3779b97f4a7c15u;
    z = (z ^ z >> 30) * 0xbf58476d1ce4e5b9u;
    z = (z ^ z >> 27) * 0x94d049bb133111ebu;
    return z ^ z >> 31;
}

static int below(int n) { return (int)(next() % (uint64_t)n); }

static uint8_t file[NUXALDER_FILE_MOST], rows[NUXALDER_ROWS_BUFFER];
static uint64_t report[NUXALDER_RUN_FIELDS];
static int width, count, finished, ranges, queries, full; /* full: a record was refused, so that nothing can be added */
static int pool[POOL], size;

static struct {
    int busy, station, steps;    /* an operation is open; its own steps so far */
    int freeze_at, freeze_place; /* own steps, or the place, at which it is frozen, 0 for never */
    int until;                   /* the record up to which it is */
} thread[NUXALDER_THREADS];

static int used(void) { return (int)report[NUXALDER_RUN_USED]; }
static int one_of_pool(void) { return pool[below(size)]; }

static size_t length(void)
{
    file[1] = (uint8_t)(count >> 8);
    file[2] = (uint8_t)count;
    return NUXALDER_HEADER_SIZE + (size_t)(width * count);
}

static void add(int t, int action, int station, int extra)
{
    uint8_t *record = file + NUXALDER_HEADER_SIZE + width * count++;
    memset(record, 0, (size_t)width);
    record[0] = NUXALDER_FIRST_BYTE(t, action);
    record[1] = (uint8_t)station;
    if (width == NUXALDER_DEEP_RECORD_SIZE) record[2] = (uint8_t)(extra >> 8), record[3] = (uint8_t)extra;
}

/* A place at which an operation is worth freezing. */
static int place_of(int action)
{
    static const uint8_t lookup[] = {2, 4, 5}, split[] = {3, 10, 11, 13},
        update[] = {3, 5, 10, 11, 13, 15, 16, 40, 41, 42, 44, 45, 46, 47, 49, 50, 51, 60, 74, 76, 77, 78, 80, 81},
        join[] = {19, 20, 22, 24, 25, 26, 27, 29, 30, 31, 32, 33, 34, 35, 36, 37, 38, 41, 42, 44, 45, 46, 47, 49, 50, 51},
        range[] = {61, 62, 64, 65, 67, 70, 71, 72, 73, 74, 76, 77, 78, 80, 81, 82, 15, 16};
    switch (action) {
    case NUXALDER_LOOKUP: return lookup[below((int)sizeof lookup)];
    case NUXALDER_SPLIT: return split[below((int)sizeof split)];
    case NUXALDER_JOIN: return join[below((int)sizeof join)];
    case NUXALDER_RANGE: return range[below((int)sizeof range)];
    default: return update[below((int)sizeof update)];
    }
}

static void start(int t, int action, int station)
{
    if (thread[t].busy || full) return;
    int extra = 0, how = below(6);
    if (action == NUXALDER_INSERT) extra = below(NUXALDER_DEPTH_MOST + 1);
    if (action == NUXALDER_RANGE) {
        int other = one_of_pool();
        extra = below(3) && other > station ? other : station + below(NUXALDER_STATIONS - station);
        queries++;
    }
    add(t, action, station, extra);
    thread[t].busy = 1, thread[t].station = station, thread[t].steps = 0;
    thread[t].freeze_at = how < 2 ? 1 + below(action >= NUXALDER_JOIN ? 22 : 14) : 0;
    thread[t].freeze_place = how == 2 || how == 3 ? place_of(action) : 0;
    thread[t].until = 0;
}

static int stands_at(int t)
{
    static uint8_t state[NUXALDER_STATE_BUFFER];
    uint64_t told[NUXALDER_STATE_FIELDS];
    nuxalder_state(file, length(), (uint64_t)count, state, sizeof state, told);
    return nuxalder_state_thread(state, t)[NUXALDER_THREAD_PLACE];
}

static void step(int t)
{
    if (full) return;
    add(t, NUXALDER_STEP, 0, 0);
    nuxalder_run(file, length(), rows, sizeof rows, report);
    if (report[NUXALDER_RUN_REFUSAL]) { /* no number, or no store, is left */
        count--, full = 1;
        return;
    }
    thread[t].steps++;
    if ((int)report[NUXALDER_RUN_ROWS] > finished) {
        finished = (int)report[NUXALDER_RUN_ROWS];
        thread[t].busy = 0;
    } else if (thread[t].steps == thread[t].freeze_at) thread[t].until = count + 5 + below(60);
    else if (thread[t].freeze_place && stands_at(t) == thread[t].freeze_place) {
        thread[t].freeze_place = 0;
        thread[t].until = count + 5 + below(60);
    }
}

static void steps(int t, int n)
{
    while (n-- > 0 && thread[t].busy && count < LONGEST && !full) step(t);
}

static void alone(int t, int action, int station)
{
    start(t, action, station);
    thread[t].freeze_place = 0;
    steps(t, LONGEST);
}

/* A late helper: one thread joins, another helps it and stops halfway, the join ends; a third join comes as far as its marks before
 * the helper goes on, and a fourth meets what that leaves. All four threads are idle. */
static void late_helper(void)
{
    int a = below(4), at = one_of_pool();
    int b = (a + 1) & 3, c = (a + 2) & 3, d = (a + 3) & 3;
    start(a, NUXALDER_JOIN, at);
    thread[a].freeze_at = 0;
    steps(a, 13 + below(8));
    start(b, below(2) ? NUXALDER_INSERT : NUXALDER_REMOVE, at);
    thread[b].freeze_at = 0;
    steps(b, below(4) ? 8 + below(8) : 2 + below(16));
    steps(a, 60);
    start(c, NUXALDER_JOIN, one_of_pool());
    thread[c].freeze_at = 0;
    steps(c, 11 + below(9));
    steps(b, 1 + below(2));
    start(d, NUXALDER_JOIN, one_of_pool());
    steps(d, 60);
}

/* Everything that is open is ended, one thread after another. */
static void quiet(void)
{
    for (int t = 0; t < NUXALDER_THREADS; t++) steps(t, 200);
}

static int action(void)
{
    int n = below(100);
    if (ranges && queries < QUERIES_MOST && !below(5)) return NUXALDER_RANGE;
    return n < 26 ? NUXALDER_INSERT : n < 46 ? NUXALDER_REMOVE : n < 74 ? NUXALDER_JOIN : n < 88 ? NUXALDER_SPLIT : NUXALDER_LOOKUP;
}

/* A schedule of late helpers only, each from a tree of a few routes. */
static void make_late(void)
{
    size = size < 5 ? 2 : size < 6 ? size : 6;
    while (count < LONGEST - 400 && used() < NUXALDER_NODES_MOST - 60 && !full) {
        for (int i = 0; i < size; i++) alone(0, NUXALDER_INSERT, pool[i]);
        for (int i = 0; i < size; i++) alone(0, NUXALDER_SPLIT, one_of_pool());
        late_helper();
        quiet();
    }
}

/* A chain of routes, to one side: stations in order, each split off. */
static void make_chain(void)
{
    int from = below(NUXALDER_STATIONS - 2 * POOL), up = below(2);
    size = 10 + below(POOL - 9);
    for (int i = 0; i < size; i++) pool[i] = from + (up ? 2 * i : 2 * (size - i)) + below(2);
    for (int i = 0; i < size; i++) {
        alone(0, NUXALDER_INSERT, pool[i]);
        if (i) alone(0, NUXALDER_SPLIT, pool[i]);
    }
    /* most of what follows is at the far end of it */
    for (int i = 0; i < size / 2; i++) pool[i] = pool[size - 1 - below(3)];
}

static void make_crowd(int begin)
{
    int many = count + 40 + below(below(4) ? 300 : 800);
    while (count < many && count < LONGEST && used() < NUXALDER_NODES_MOST - NUMBERS_LEFT && !full) {
        int t = below(NUXALDER_THREADS), other = below(NUXALDER_THREADS);
        if (begin > 3 && !below(30)) { /* from a tree that has a few routes again */
            quiet();
            for (int i = 0; i < 3; i++) alone(below(4), NUXALDER_INSERT, one_of_pool()), alone(below(4), NUXALDER_SPLIT, one_of_pool());
            quiet();
            if (used() < NUXALDER_NODES_MOST - 40 && count < LONGEST - 300) late_helper();
        }
        if (thread[t].busy && count < thread[t].until) {
            int frozen = 0;
            for (int i = 0; i < NUXALDER_THREADS; i++) frozen += thread[i].busy && count < thread[i].until;
            if (frozen < NUXALDER_THREADS) continue;
        }
        if (!thread[t].busy) {
            start(t, action(), thread[other].busy && below(2) ? thread[other].station : one_of_pool());
            if (below(3)) continue;
        }
        thread[t].until = 0;
        for (int burst = below(3) ? 1 + below(3) : 1 + below(12); burst && thread[t].busy && !thread[t].until && count < LONGEST; burst--) {
            step(t);
            if (full) break;
        }
    }
}

static void make(int version, int late)
{
    memset(thread, 0, sizeof thread);
    memset(report, 0, sizeof report);
    width = version > 1 ? NUXALDER_DEEP_RECORD_SIZE : NUXALDER_RECORD_SIZE;
    file[0] = (uint8_t)version;
    count = finished = queries = full = 0;
    size = 2 + below(POOL - 1);
    int begin = below(size);
    for (int i = 0; i < size; i++) pool[i] = below(3) ? below(NUXALDER_STATIONS) : i;
    if (late) make_late();
    else if (version == 3) {
        make_chain();
        make_crowd(0);
    } else {
        for (int i = 0; i < begin; i++) alone(0, NUXALDER_INSERT, pool[i]);
        for (int i = 0; i < begin; i++) alone(0, NUXALDER_SPLIT, pool[below(begin)]);
        make_crowd(begin);
    }
}

int main(int argc, char **argv)
{
    /* ten schedules, over and over: version, range queries, late helpers only */
    static const struct {
        int version, ranges, late;
    } plan[] = {{1, 0, 0}, {2, 1, 0}, {1, 0, 0}, {3, 0, 0}, {1, 0, 1}, {2, 0, 0}, {2, 1, 0}, {1, 0, 0}, {3, 1, 0}, {2, 0, 1}};
    if (argc < 5 || argc > 6) return fprintf(stderr, "usage: random FOLDER SEED COUNT VERSIONS [no-range]\n"), 2;
    int wanted = atoi(argv[3]), versions = (int)strlen(argv[4]);
    for (int i = 0; i < wanted; i++) {
        char name[4096];
        int version = plan[i % 10].version;
        seed = strtoull(argv[2], NULL, 10) * 1000003u + (uint64_t)i;
        next();
        if (!strchr(argv[4], '0' + version)) version = argv[4][i % versions] - '0';
        ranges = argc == 5 && version > 1 && plan[i % 10].ranges;
        make(version, plan[i % 10].late);
        snprintf(name, sizeof name, "%s/%05d.schedule", argv[1], i);
        FILE *to = fopen(name, "wb");
        if (!to || fwrite(file, 1, length(), to) != length() || fclose(to)) return perror(name), 1;
    }
    return 0;
}
