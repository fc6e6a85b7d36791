/* Schedules for the harness, built record by record. */
#ifndef PLAN_H
#define PLAN_H

#include <stddef.h>
#include <stdint.h>
#include <string.h>

enum { STEP, LOOKUP, INSERT, REMOVE, SPLIT, JOIN, RANGE };
enum { MOST_RECORDS = 4096, ROOM = 3 + 2 * (MOST_RECORDS + 1) };

struct plan {
    uint8_t file[ROOM];
    size_t length;
};

static inline size_t plan_count(const struct plan *p)
{
    return (p->length - 3) / 2;
}

static inline void plan_empty(struct plan *p)
{
    static const uint8_t header[3] = {1, 0, 0};
    memcpy(p->file, header, sizeof header);
    p->length = sizeof header;
}

static inline void plan_record(struct plan *p, unsigned first, unsigned second)
{
    p->file[p->length++] = (uint8_t)first;
    p->file[p->length++] = (uint8_t)second;
    p->file[1] = (uint8_t)(plan_count(p) >> 8);
    p->file[2] = (uint8_t)plan_count(p);
}

static inline void plan_steps(struct plan *p, unsigned thread, unsigned steps)
{
    while (steps-- > 0)
        plan_record(p, 16 * thread, 0);
}

/* A start and its steps with nobody in between. */
static inline void plan_alone(struct plan *p, unsigned thread, unsigned action, unsigned station,
                              unsigned steps)
{
    plan_record(p, 16 * thread + action, station);
    plan_steps(p, thread, steps);
}

/* The paper's printed run: t0 insert 3, insert 9, split 3. */
static inline void plan_printed_run(struct plan *p)
{
    plan_empty(p);
    plan_alone(p, 0, INSERT, 3, 3);
    plan_alone(p, 0, INSERT, 9, 3);
    plan_alone(p, 0, SPLIT, 3, 3);
}

/* The same in version 2 or 3, each record with its depth or upper end. */
struct deep_plan {
    uint8_t file[3 + 4 * (MOST_RECORDS + 1)];
    size_t length;
};

static inline size_t deep_count(const struct deep_plan *p)
{
    return (p->length - 3) / 4;
}

static inline void deep_empty(struct deep_plan *p)
{
    static const uint8_t header[3] = {2, 0, 0};
    memcpy(p->file, header, sizeof header);
    p->length = sizeof header;
}

static inline void deep_record(struct deep_plan *p, unsigned first, unsigned second, unsigned extra)
{
    const uint8_t record[4] = {(uint8_t)first, (uint8_t)second, (uint8_t)(extra >> 8), (uint8_t)extra};
    memcpy(p->file + p->length, record, sizeof record);
    p->length += sizeof record;
    p->file[1] = (uint8_t)(deep_count(p) >> 8);
    p->file[2] = (uint8_t)deep_count(p);
}

static inline void deep_steps(struct deep_plan *p, unsigned thread, unsigned steps)
{
    while (steps-- > 0)
        deep_record(p, 16 * thread, 0, 0);
}

/* A start, with a depth or an upper end, and its steps with nobody in between. */
static inline void deep_alone(struct deep_plan *p, unsigned thread, unsigned action, unsigned station, unsigned extra,
                              unsigned steps)
{
    deep_record(p, 16 * thread + action, station, extra);
    deep_steps(p, thread, steps);
}

/* Version 3, eight routes with keys 1 to 8, one below the other, the base of station 8 at the end: 152 records, 17 rows, 34 numbers. */
static inline void deep_chain(struct deep_plan *p)
{
    deep_empty(p);
    p->file[0] = NUXALDER_STOP_FILE_VERSION;
    deep_alone(p, 0, INSERT, 0, 0, 3);
    for (unsigned station = 1; station <= 8; station++) {
        deep_alone(p, 0, INSERT, station, 640, station == 1 ? 3 : station + 4);
        deep_alone(p, 0, SPLIT, station, 0, station == 1 ? 3 : station + 4);
    }
}

/* Two bases, 3 and 9: 12 records, three rows, six numbers. */
static inline void deep_two_bases(struct deep_plan *p)
{
    deep_empty(p);
    deep_alone(p, 0, INSERT, 3, 640, 3);
    deep_alone(p, 0, INSERT, 9, 9999, 3);
    deep_alone(p, 0, SPLIT, 3, 0, 3);
}

#endif
