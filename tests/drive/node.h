/* What the two files of the fixture share: nodes, stores, hooks. See index.h.
 *
 * TURN(place) stands before each access to memory that other threads write; without HOOKS nothing stands there. Accesses that are
 * bookkeeping and no part of the tree are relaxed. Numbers in comments are the article's lines.
 *
 * WRONG_.. are faults, NATURAL_.. what one may write who has not read 01; docs/STEPPING.md has a table of the latter. */
#ifndef NODE_H
#define NODE_H

#include <stdatomic.h>
#include <stdbool.h>

#include "index.h"

#ifdef HOOKS
void nuxalder_turn(int place);
#ifdef UNNUMBERED
#define TURN(place) ((void)(place), nuxalder_turn(0))
#else
#define TURN(place) nuxalder_turn(place)
#endif
#else
#define TURN(place) ((void)(place))
#endif
#ifndef PUBLISH
#define PUBLISH memory_order_seq_cst
#endif

typedef struct node node;
typedef struct store store;
typedef _Atomic(node *) link;
enum { ROUTE = LFCA_ROUTE, NORMAL = LFCA_NORMAL, MAIN = LFCA_MAIN, NEIGHBOUR = LFCA_NEIGHBOUR, RANGE = LFCA_RANGE };

typedef struct {
    uint64_t set;
    uint16_t depth[64];
} container;

struct node {
    int type;
    node *made; /* the node made before this one, for destroy */
    /* route */
    int key;
    link left, right;
    atomic_bool valid;
    link join_id;
    /* base */
    container data;
    node *parent;
    node *main_node; /* of a neighbour; any other base is its own */
    link stage;      /* of a main; that of a normal base is ABORTED: no join waits on it */
    /* main, once its stage is a node */
    node *neighbour, *gparent, *other;
    /* range base */
    int lower, upper; /* the ends asked, both inside */
    store *result;
#ifdef NATURAL_STATISTICS
    atomic_int contention;
#endif
};

/* What the helpers of a range query share: the result, NULL while it is unset, then a node that holds the stations. */
struct store {
    link set;
    store *made;
};

#define PREPARING ((node *)0)
#define DONE ((node *)1)
#define ABORTED ((node *)2)
#define NOT_FOUND ((node *)1)

struct lfca {
    link root;
    bool stop;         /* whether far searches stop joins */
    atomic_int counts; /* the searches that stop them now, 52 */
    link made;
    _Atomic(store *) stores;
#ifdef WRONG_REUSED
    node *spare;
#endif
};

/* What a base waits for, found by one read. */
typedef enum { NOTHING, PREPARES, COMPLETES, OVER, QUERY } wait;

static inline bool cas(link *at, node *from, node *to)
{
    return atomic_compare_exchange_strong_explicit(at, &from, to, PUBLISH, memory_order_acquire);
}
#define load(at) atomic_load_explicit(at, memory_order_acquire)

node *lfca_make(lfca *t, int type, node *parent, const container *data);
bool lfca_replace(lfca *t, node *b, node *new_b, int place);
wait lfca_waits(node *b, int place);
void lfca_help(lfca *t, node *b, wait on);

/* One run of all_in_range: a query's own, with no store, or that of a helper. */
uint64_t lfca_all_in_range(lfca *t, int lower, int upper, store *s);

#endif
