/* What the bench has: the one part of the driver that asks the proved library. */
#ifndef EXPECT_H
#define EXPECT_H

#include <stdbool.h>

#include "nuxalder.h"

enum { HEADER = NUXALDER_HEADER_SIZE, RECORDS = NUXALDER_RECORDS_MOST, WORKERS = NUXALDER_THREADS };

/* What the bench does in one record. */
struct expected {
    uint8_t finish; /* 0: the operation goes on; else 1 + the answer of its row */
    uint16_t depth; /* of its row */
    uint8_t place;  /* the place carried out; 0 for a start, and where places were not asked for */
    uint8_t local;  /* it read and wrote nothing shared */
    uint64_t set;   /* of its row */
};

/* A schedule and what the bench does with it. */
struct expectation {
    const uint8_t *file;
    size_t length;
    int width, count, done, refusal; /* bytes of a record, records, those carried out */
    struct expected record[RECORDS];
};

/* Asks for the rows of a schedule. */
void expect(struct expectation *e, const uint8_t *file, size_t length);

/* Asks for the place of each record, and whether it is a local turn. */
void expect_places(struct expectation *e);

/* The place that record i carries out, 0 for a start. */
int expect_place(const struct expectation *e, int i);

/* The state after the first k records. */
const uint8_t *expect_state(const struct expectation *e, int k);

/* The refusal of a schedule, 0 for none, and the records carried out. */
int expect_refusal(const uint8_t *file, size_t length, int *done);

/* The proved judge on a history of `count` events: 1 there is an order, 0 there is none, -1 it refuses the history. */
int expect_judge(const uint8_t *history, int count);

/* A place in words, as docs/PLACES.md and docs/RANGE.md have them. */
const char *place_words(int place);

static inline int thread_of(const struct expectation *e, int i) { return e->file[HEADER + e->width * i] >> 4; }
static inline int action_of(const struct expectation *e, int i) { return e->file[HEADER + e->width * i] & 15; }
static inline int station_of(const struct expectation *e, int i) { return e->file[HEADER + e->width * i + 1]; }
static inline bool deep(const struct expectation *e) { return e->width == NUXALDER_DEEP_RECORD_SIZE; }
/* An insert's depth, a query's upper end, else 0. */
static inline int extra_of(const struct expectation *e, int i)
{
    const uint8_t *record = e->file + HEADER + e->width * i;
    return deep(e) ? 256 * record[2] + record[3] : 0;
}

#endif
