/* Nuxalder's driver: steps a threaded index through a schedule, turn by turn, and compares each turn with the bench.
 *
 * Four threads call the index's operations. One of them runs at a time, from one call of nuxalder_turn to the next: that
 * is a turn, and a step record of the schedule gives one. docs/STEPPING.md leads from an index's source to a verdict.
 *
 * The driver is tested C beside the proved library, and no proof covers it: what the bench has comes from nuxalder_run and
 * nuxalder_state, what the index has is seen by the driver. It keeps state: one call at a time in a process.
 *
 *     cc mine.c index.c $(pkg-config --cflags --libs nuxalder-drive) -o mine
 */
#ifndef NUXALDER_DRIVE_H
#define NUXALDER_DRIVE_H

#include <stddef.h>
#include <stdint.h>

#ifdef __cplusplus
extern "C" {
#endif

/* The hook: call it before each access to memory that other threads write, in a test build. `place` is the bench's number
 * of that access (docs/PLACES.md), 0 where hooks are not numbered. On threads that are not the driver's it returns at once. */
void nuxalder_turn(int place);

/* ---- the index, as the driver sees it */

#define NUXALDER_DRIVE_VERSION 1

typedef struct nuxalder_drive_call {
    int thread;  /* 0 to 3; 4 where the driver itself looks a station up */
    int action;  /* NUXALDER_LOOKUP to NUXALDER_RANGE, 1 to 6 */
    int station; /* 0 to 63; the lower end of a range query */
    int upper;   /* the upper end of a range query, which asks for all stations from one end to the other, both inside; else 0 */
    int depth;   /* of an insert; 0 in a schedule of version 1 */
} nuxalder_drive_call;

typedef struct nuxalder_drive_found {
    int depth;    /* -1 as it is given; an index with depths stores what a lookup that says yes has found */
    int ranged;   /* 0 as it is given; an index that tells what a range query has found stores 1 here, and below */
    uint64_t set; /* the stations found, bit s for station s */
} nuxalder_drive_found;

/* What an index answers to an action that it does not have. */
#define NUXALDER_DRIVE_LACKING (-1)

enum nuxalder_drive_node_kind {
    NUXALDER_DRIVE_ROUTE,
    NUXALDER_DRIVE_NORMAL,
    NUXALDER_DRIVE_MAIN,
    NUXALDER_DRIVE_NEIGHBOUR,
    NUXALDER_DRIVE_RANGE
};

/* A node of the tree. */
typedef struct nuxalder_drive_node {
    int level;              /* the root's is 0 */
    int kind;               /* NUXALDER_DRIVE_ROUTE to NUXALDER_DRIVE_RANGE */
    int key;                /* of a route */
    int valid, marked;      /* of a route: 1 it is valid, it bears a join mark; -1 not so; 0 the index does not tell */
    uint64_t stations;      /* of a base, bit s for station s */
    const uint16_t *depths; /* of a base, by station; NULL where the index has none */
} nuxalder_drive_node;

/* The walk calls it for each node, parent before children, left before right. */
typedef void nuxalder_drive_visit(void *to, const nuxalder_drive_node *node);

typedef struct nuxalder_drive_index {
    int version; /* NUXALDER_DRIVE_VERSION */
    /* An empty index for a schedule of this version: 1 to 3; 3 has the stop of joins on. NULL where it has no such mode. */
    void *(*create)(int version);
    void (*destroy)(void *index);
    /* A whole operation, on the calling thread: 1 yes, 0 no. A split or join may say why not, 2 to 7 of nuxalder.h. A range query
     * says yes where it finds a station. */
    int (*operate)(void *index, const nuxalder_drive_call *call, nuxalder_drive_found *found);
    /* NULL where there is none. These are called while all threads stand still, some in the middle of an operation. */
    void (*walk)(void *index, nuxalder_drive_visit *visit, void *to);
    uint64_t (*set)(void *index); /* without it the walk's; without either, 64 lookups */
    int (*marks)(void *index);    /* how many routes of the tree bear a join mark, where the walk does not tell */
} nuxalder_drive_index;

/* An adaptor, a shared object for `tools/schedule drive`, defines this. */
extern const nuxalder_drive_index nuxalder_drive_adaptor;

/* ---- driving a schedule */

#define NUXALDER_DRIVE_PLACES 128 /* more than any place's number */

typedef struct nuxalder_drive_options {
    int each;       /* compare set, tree and marks after each record; 0: at the end, and after each only where something differs */
    int in_process; /* no child process, for a debugger or a sanitizer: a crash, or a turn that never ends, is then yours */
    int no_set, no_tree, no_marks;
    int limit_ms;   /* for one turn; 0: 2000 */
    int free;       /* the schedule only says who runs: any number of turns is fine, and the answers and sets must be those
                       of a plain set in some order of the operations */
    int places;     /* numbered hooks must be the bench's places */
    int skip_local; /* turns in which the bench touches nothing shared (3, 15, 24, 62, 76 at a normal base) are none of the index */
    uint8_t skip[NUXALDER_DRIVE_PLACES]; /* skip[p] is 1: place p is no turn of the index */
} nuxalder_drive_options;

typedef enum nuxalder_drive_kind {
    NUXALDER_DRIVE_AGREES,
    NUXALDER_DRIVE_ANSWER,
    NUXALDER_DRIVE_FEWER_TURNS,
    NUXALDER_DRIVE_MORE_TURNS,
    NUXALDER_DRIVE_PLACE,
    NUXALDER_DRIVE_SET,
    NUXALDER_DRIVE_TREE,
    NUXALDER_DRIVE_MARKS,
    NUXALDER_DRIVE_DEPTH,    /* a lookup found another depth */
    NUXALDER_DRIVE_FOUND,    /* a range query found another set */
    NUXALDER_DRIVE_HANG,     /* no turn ended within the limit: an endless loop, or a lock that a waiting thread holds */
    NUXALDER_DRIVE_CRASH,    /* the process ended */
    NUXALDER_DRIVE_STUCK,    /* an open operation, let go on alone, does not end */
    NUXALDER_DRIVE_ORDER,    /* `free`: no order of the operations explains an answer or a set */
    NUXALDER_DRIVE_UNSTEADY, /* it differs, but when done again not at all, or only later */
    NUXALDER_DRIVE_ADAPTOR,  /* the table lacks a function, or one gives what it may not */
    NUXALDER_DRIVE_UNABLE,   /* the driver cannot do what is asked: no process, thread or memory to be had */
    NUXALDER_DRIVE_KINDS
} nuxalder_drive_kind;

typedef struct nuxalder_drive_verdict {
    nuxalder_drive_kind kind;
    int record;  /* the first record that differs, counted from 1; 0 where it is none */
    int count;   /* records of the schedule */
    int refusal; /* the bench's refusal; the index is driven through the records before the refused one */
    int records, turns; /* carried out on the index */
    int judged;  /* `free`: 1 where the proved judge decided the answers, 2 where only the driver's own search did */
    nuxalder_drive_kind first_kind; /* what showed first, before it was done again with `each` */
    int first_record;
    char words[1536];
} nuxalder_drive_verdict;

/* Drives one schedule file; 1 where the index agrees, else 0. `options` may be NULL. A file that the bench refuses whole
 * (1 to 4) agrees with no record carried out, and `refusal` says so. */
int nuxalder_drive(const nuxalder_drive_index *index, const uint8_t *schedule, size_t schedule_length,
                   const nuxalder_drive_options *options, nuxalder_drive_verdict *verdict);

/* Makes a schedule that differs shorter, in place, as long as the kind of difference stays; `verdict` is that of the
 * schedule given, and then that of the one left. Gives the new length. */
size_t nuxalder_drive_shrink(const nuxalder_drive_index *index, uint8_t *schedule, size_t schedule_length,
                             const nuxalder_drive_options *options, nuxalder_drive_verdict *verdict);

/* "agrees", "answer", "fewer turns", .. */
const char *nuxalder_drive_kind_words(nuxalder_drive_kind kind);

#ifdef __cplusplus
}
#endif
#endif
