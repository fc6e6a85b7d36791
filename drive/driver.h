/* What the parts of the driver share. */
#ifndef DRIVER_H
#define DRIVER_H

#include <stdatomic.h>
#include <stdbool.h>

#include "expect.h"
#include "nuxalder_drive.h"

/* ---- trees, the bench's and the index's (tree.c) */

enum { LEVELS = NUXALDER_STATIONS, NODES_MOST = 2 * NUXALDER_NODES_MOST, LINE_MOST = 16 * NUXALDER_STATIONS };

struct seen {
    int level, kind, key, valid, marked; /* as in a nuxalder_drive_node */
    bool deep;                           /* it has depths */
    uint64_t stations;
    uint16_t depth[NUXALDER_STATIONS]; /* of its stations, else 0 */
};

/* The nodes of a tree as a walk gives them, and its set: each base's stations as far as they lie in its range. */
struct tree {
    int nodes;
    bool bad; /* a node that none can be, or nodes that are no tree */
    int pending, due[LEVELS + 2]; /* nodes still to come, and their levels, the next one last */
    uint64_t set;
    struct seen node[NODES_MOST];
    int children[LEVELS + 1]; /* met of the route last met at the level above */
    uint64_t left[LEVELS + 1], right[LEVELS + 1]; /* the ranges of the children of that route */
};

void tree_of_index(struct tree *tree, const nuxalder_drive_index *index, void *object);
void tree_of_state(struct tree *tree, const uint8_t *state);

/* The first node at which the index's tree is not the bench's, its marks set aside; -1 where there is none. */
int tree_differs(const struct tree *bench, const struct tree *index, bool depths);

/* The first route that bears a mark in one of two trees that are else alike, and not in the other; -1 where there is none. */
int marks_differ(const struct tree *bench, const struct tree *index);

/* How many routes bear a mark, and whether the walk tells. */
int marks_of(const struct tree *tree);
bool tells_marks(const struct tree *tree);

/* A node as in a listing, "1 normal 3=640 9=0" or "0 route 9"; "nothing" past the last. */
void tree_line(const struct tree *tree, int at, bool depths, bool valid, char line[LINE_MOST]);

/* ---- free mode: is there an order? (orders.c) */

struct event {
    enum { INVOKED, ENDS, SEEN } what;
    int record, thread, action, station, upper, answer; /* an invocation has its end's answer and set, -1 and 0 while it is open */
    uint64_t set;                                       /* SEEN, and what a range query found */
    bool told;                                          /* a range query: `set` is known */
};

struct wrong {
    const struct event *event; /* the end or the sight that no order explains */
    int station;               /* where it is wrong */
};

/* The first event that no order of the operations explains; false where there is none. A range query is taken as a lookup of each
 * of its stations. A search, not proved. */
bool no_order(const struct event *events, int count, struct wrong *wrong);

/* The proved judge on the lookups, inserts and removes among the events, all else left out: 1 there is an order, 0 there is
 * none, -1 the history is none for it (an open operation, or more than 12). */
int judged(const struct event *events, int count);

extern const char *const action_words[];

#endif
