/* A small LFCA index, a fixture of the driver's tests and nothing else: the project offers no threaded index.
 * Stations 0 to 63 with a depth beside each, any number of threads, adaptations on request only; memory is freed at the end. */
#ifndef INDEX_H
#define INDEX_H

#include <stdint.h>

typedef struct lfca lfca;

lfca *lfca_create(int stop);                           /* 1: a search that has come far holds joins off, as in version 3 */
void lfca_destroy(lfca *t);                            /* no other thread may use it any more */
int lfca_lookup(lfca *t, int station, int *depth);     /* 1 and the depth, or 0 */
int lfca_insert(lfca *t, int station, int depth);      /* 1 if it was absent; present or not, it gets the depth */
int lfca_remove(lfca *t, int station);                 /* 1 if it was present */
int lfca_split(lfca *t, int station);                  /* of the base where the station belongs: 1, or why not, as in nuxalder.h */
int lfca_join(lfca *t, int station);                   /* with its neighbour: likewise */
int lfca_range(lfca *t, int lower, int upper, uint64_t *set); /* all from one end to the other, both inside: 1 if there is one */

/* For tests, while no thread moves: every node, parent before children, left before right. A route is valid, or bears a join mark: 1, or
 * not so: -1; 0 is not told. */
enum { LFCA_ROUTE, LFCA_NORMAL, LFCA_MAIN, LFCA_NEIGHBOUR, LFCA_RANGE };
typedef void lfca_visit(void *to, int level, int kind, int key, int valid, int marked, uint64_t set, const uint16_t *depths);
void lfca_walk(lfca *t, lfca_visit *visit, void *to);
int lfca_marks(lfca *t); /* routes that bear a join mark */

#endif
