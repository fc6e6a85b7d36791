/* Free mode: whether some order of the operations explains the answers and the sets seen. */
#include <string.h>

#include "driver.h"

/* Whether an operation asks or changes a station. A range query that does not tell what it found asks nothing. */
static bool of_station(const struct event *e, int station)
{
    if (e->action == NUXALDER_RANGE) return e->told && e->station <= station && station <= e->upper;
    return e->action <= NUXALDER_REMOVE && e->station == station;
}

/* One bit for each (station in or out, whose open operations have taken effect): what may be so of one station. */
static uint32_t effects(uint32_t may, const struct event *const open[WORKERS], int station)
{
    for (uint32_t before = 0; before != may;) {
        before = may;
        for (int c = 0; c < 32; c++)
            for (int t = 0; may >> c & 1 && t < WORKERS; t++) {
                const struct event *e = open[t];
                int in = c >> 4, mask = c & 15;
                if (!e || mask >> t & 1 || !of_station(e, station)) continue;
                int answer = e->action == NUXALDER_INSERT ? !in : in, given = e->answer;
                int then = e->action == NUXALDER_INSERT ? 1 : e->action == NUXALDER_REMOVE ? 0 : in;
                if (e->action == NUXALDER_RANGE) given = (int)(e->set >> station & 1);
                if (given < 0 || given == answer) may |= (uint32_t)1 << (then << 4 | mask | 1 << t);
            }
    }
    return may;
}

/* Stations are independent, and an order for each is an order for all: linearizability is local. */
bool no_order(const struct event *events, int count, struct wrong *wrong)
{
    uint32_t may[NUXALDER_STATIONS];
    const struct event *open[WORKERS] = {0};
    for (int s = 0; s < NUXALDER_STATIONS; s++) may[s] = 1;
    for (int i = 0; i < count; i++) {
        const struct event *e = &events[i];
        if (e->what == INVOKED) open[e->thread] = e;
        else if (e->what == ENDS) {
            for (int s = 0; s < NUXALDER_STATIONS; s++) {
                if (!of_station(e, s)) continue;
                uint32_t all = effects(may[s], open, s), left = 0;
                for (int c = 0; c < 32; c++)
                    if (all >> c & 1 && c >> e->thread & 1) left |= (uint32_t)1 << (c & ~(1 << e->thread));
                may[s] = left;
                if (!left) {
                    *wrong = (struct wrong){e, s};
                    return true;
                }
            }
            open[e->thread] = NULL;
        } else
            for (int s = 0; s < NUXALDER_STATIONS; s++) {
                may[s] = effects(may[s], open, s) & (e->set >> s & 1 ? 0xffff0000u : 0xffffu);
                if (!may[s]) {
                    *wrong = (struct wrong){e, s};
                    return true;
                }
            }
    }
    return false;
}

int judged(const struct event *events, int count)
{
    uint8_t history[HEADER + 4 * 2 * NUXALDER_JUDGE_ORDER];
    int n = 0, started = 0;
    for (int i = 0; i < count; i++) {
        const struct event *e = &events[i];
        if (e->what == SEEN || e->action > NUXALDER_REMOVE) continue;
        started += e->what == INVOKED;
        if (started > NUXALDER_JUDGE_ORDER) return -1;
        uint8_t four[4] = {(uint8_t)e->thread, (uint8_t)e->action, (uint8_t)e->station, 0};
        if (e->what == ENDS) four[3] = (uint8_t)(1 + e->answer);
        memcpy(history + HEADER + 4 * n++, four, 4);
    }
    history[0] = 1, history[1] = (uint8_t)(n >> 8), history[2] = (uint8_t)n;
    return expect_judge(history, n);
}
