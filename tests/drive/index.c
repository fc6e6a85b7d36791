/* A fixture of the driver's tests and nothing else: an LFCA tree after the pseudo-code of Winblad, Sagonas, Jonsson (2021), Figures 4,
 * 5, 8, 9, cut as the bench cuts it. C11 atomics, nodes from the heap, no statistics. Range queries are in range.c; see node.h. */
#include <stdlib.h>
#include <string.h>

#include "node.h"

enum { NO, YES, LACKING, BLOCKED, LOST, NEIGHBOUR_BLOCKED, STOOD_DOWN, STOPPED };
enum { FAR = 8 }; /* routes after which a search stops joins */

node *lfca_make(lfca *t, int type, node *parent, const container *data)
{
    node *n;
#ifdef WRONG_REUSED /* a base that was replaced is taken for a new node, though a thread may hold it */
    if ((n = t->spare) != NULL) {
        node *made = n->made;
        memset(n, 0, sizeof *n);
        n->made = made, t->spare = NULL;
    } else
#endif
    {
        n = calloc(1, sizeof *n);
        if (!n) abort();
        n->made = atomic_exchange_explicit(&t->made, n, memory_order_relaxed); /* bookkeeping, no part of the tree: no turn */
    }
    n->type = type;
    n->parent = parent;
    n->main_node = n;
    if (data) n->data = *data;
    atomic_init(&n->valid, true);
    atomic_init(&n->stage, type == NORMAL ? ABORTED : PREPARING);
    return n;
}

/* 55-63 */
bool lfca_replace(lfca *t, node *b, node *new_b, int place)
{
    node *p = b->parent;
    if (p == NULL) {
        TURN(place);
        return cas(&t->root, b, new_b);
    }
    TURN(place);
    if (load(&p->left) == b) {
        TURN(place + 1);
        return cas(&p->left, b, new_b);
    }
    TURN(place + 2);
    if (load(&p->right) == b) {
        TURN(place + 3);
        return cas(&p->right, b, new_b);
    }
    return false;
}

/* 64-73, 75-82: stage of a join or result of a query, read once */
wait lfca_waits(node *b, int place)
{
#ifdef NATURAL_LOCAL /* nothing shared is read at a normal base */
    if (b->type == NORMAL) return NOTHING;
#endif
    TURN(place);
    if (b->type == RANGE) {
#ifdef WRONG_RANGE_UNSET
        return load(&b->result->set) ? NOTHING : NOTHING;
#else
        return load(&b->result->set) ? NOTHING : QUERY;
#endif
    }
    node *stage = load(&b->main_node->stage);
#ifdef NATURAL_TWICE /* as the article has it */
    if (b->type == NEIGHBOUR && stage != ABORTED) {
        TURN(place);
        stage = load(&b->main_node->stage);
    }
#endif
    if (stage == ABORTED) return NOTHING;
    if (stage == DONE) return b->type == NEIGHBOUR ? NOTHING : OVER;
    return stage == PREPARING ? PREPARES : COMPLETES;
}

/* 249-265 */
static void complete_join(lfca *t, node *m)
{
    TURN(40);
    node *both = load(&m->stage);
    if (both == DONE) return;
    lfca_replace(t, m->neighbour, both, 41);
#ifndef NATURAL_NO_VALID
    TURN(45);
    atomic_store(&m->parent->valid, false);
#endif
    node *stays = m->other == m->neighbour ? both : m->other, *g = m->gparent;
    TURN(46);
    if (g == NULL) {
        cas(&t->root, m->parent, stays);
    } else {
        bool found = false;
        if (load(&g->left) == m->parent) {
            TURN(47);
            cas(&g->left, m->parent, stays);
            found = true;
        } else {
            TURN(48);
            if (load(&g->right) == m->parent) {
                TURN(49);
                cas(&g->right, m->parent, stays);
                found = true;
            }
        }
#ifdef NATURAL_UNMARK /* the article: only who found the parent clears the mark */
        if (found) {
            TURN(50);
            cas(&g->join_id, m, NULL);
        }
#else
        (void)found;
        TURN(50);
#ifdef WRONG_LATE_CLEAR
        atomic_store(&g->join_id, NULL);
#else
        cas(&g->join_id, m, NULL);
#endif
#endif
    }
    TURN(51);
    atomic_store(&m->stage, DONE);
}

/* 75-87 */
void lfca_help(lfca *t, node *b, wait on)
{
    if (on == PREPARES) {
        TURN(16);
#ifdef WRONG_ABORT_BLIND
        atomic_store(&b->main_node->stage, ABORTED);
#else
        cas(&b->main_node->stage, PREPARING, ABORTED);
#endif
    } else if (on == COMPLETES) complete_join(t, b->main_node);
    else if (on == QUERY) lfca_all_in_range(t, b->lower, b->upper, b->result);
}

/* 287-308; where joins can be stopped, a search that has read the child of its 8th route holds them off until it stands at a base */
static node *find_base(lfca *t, int i)
{
    int routes = 0;
    TURN(1);
    node *n = load(&t->root);
    while (n->type == ROUTE) {
        TURN(2);
        n = i < n->key ? load(&n->left) : load(&n->right);
        if (t->stop && ++routes == FAR) {
            TURN(4);
            atomic_fetch_add(&t->counts, 1);
        }
    }
    if (routes >= FAR) {
        TURN(5);
#ifdef WRONG_STOP_KEPT
        (void)load(&t->counts);
#else
        atomic_fetch_sub(&t->counts, 1);
#endif
    }
#ifdef NATURAL_STATISTICS
    atomic_fetch_add_explicit(&n->contention, 1, memory_order_relaxed);
#endif
    return n;
}

/* 330-345 */
static node *parent_of(lfca *t, node *n)
{
    node *before = NULL;
    TURN(31);
    node *at = load(&t->root);
    while (at != n && at->type == ROUTE) {
        before = at;
        TURN(32);
        at = n->key < at->key ? load(&at->left) : load(&at->right);
    }
    return at->type != ROUTE ? NOT_FOUND : before;
}

#ifdef NATURAL_OWN /* adaptations begun by updates, and none by request */
static int split(lfca *t, int i);
static int join(lfca *t, int i);
static void adapt(lfca *t, int i, uint64_t set)
{
    if (__builtin_popcountll(set) > 2) split(t, i);
    else if (set == 0) join(t, i);
}
int lfca_split(lfca *t, int i) { return (void)t, (void)i, NO; }
int lfca_join(lfca *t, int i) { return (void)t, (void)i, NO; }
#else
#define adapt(t, i, set) ((void)0)
#define split lfca_split
#define join lfca_join
#endif

/* 106-126 */
static int update(lfca *t, int i, bool insert, int depth)
{
    uint64_t bit = (uint64_t)1 << i;
    for (;;) {
        node *b = find_base(t, i);
        wait on = lfca_waits(b, 3);
        if (on == NOTHING) {
            bool had = (b->data.set & bit) != 0;
#ifdef NATURAL_SAME
            if (had == insert && (!insert || b->data.depth[i] == depth)) return NO;
#endif
            container data = b->data;
            data.set = insert ? data.set | bit : data.set & ~bit;
#ifdef WRONG_DEPTH_KEPT
            if (!had)
#endif
                data.depth[i] = insert ? (uint16_t)depth : 0;
            int answer = had != insert;
#ifdef WRONG_ANSWER /* a remove of a station that was absent says yes */
            answer = answer || !insert;
#endif
            if (lfca_replace(t, b, lfca_make(t, NORMAL, b->parent, &data), 10)) {
#ifdef WRONG_REUSED
                t->spare = b;
#endif
                adapt(t, i, data.set);
                return answer;
            }
            on = lfca_waits(b, 15);
        }
        lfca_help(t, b, on);
    }
}

/* 215-248, both sides: `near` is the side of b under its parent */
static node *secure_join(lfca *t, node *b, bool left, int *why)
{
    node *p = b->parent;
    link *near = left ? &p->left : &p->right, *far = left ? &p->right : &p->left;
    TURN(22);
    node *n0 = load(far);
    while (n0->type == ROUTE) {
        TURN(23);
        n0 = left ? load(&n0->left) : load(&n0->right);
    }
    wait on = lfca_waits(n0, 24);
#ifdef WRONG_UNCHECKED
    (void)on;
#else
    *why = NEIGHBOUR_BLOCKED;
    if (on != NOTHING) return NULL;
#endif
    node *m = lfca_make(t, MAIN, p, &b->data);
    *why = LOST;
    TURN(25);
#ifdef WRONG_EARLY_COPY /* whatever is there now is taken, with the container read before */
    atomic_store(near, m);
#else
    if (!cas(near, b, m)) return NULL;
#endif
    *why = STOOD_DOWN;
    node *n1 = lfca_make(t, NEIGHBOUR, n0->parent, &n0->data), *gparent = NULL;
    n1->main_node = m;
#ifdef WRONG_KIND /* the neighbour stays a normal base: updates do not see the join */
    n1->type = NORMAL, n1->main_node = n1;
    atomic_init(&n1->stage, ABORTED);
#endif
    if (!lfca_replace(t, n0, n1, 26)) goto fail0;
    TURN(30);
    if (!cas(&p->join_id, NULL, m)) goto fail0;
    gparent = parent_of(t, p);
    if (gparent == NOT_FOUND) goto fail1;
    if (gparent != NULL) {
        TURN(33);
        if (!cas(&gparent->join_id, NULL, m)) goto fail1;
    }
    m->gparent = gparent;
    TURN(34);
    m->other = load(far);
    m->neighbour = n1;
    container both = m->data;
    both.set |= n1->data.set;
    for (int s = 0; s < 64; s++)
        if (n1->data.set >> s & 1) both.depth[s] = n1->data.depth[s];
#ifdef WRONG_UNION_DEPTHS
    both.depth[__builtin_ctzll(both.set | (uint64_t)1 << 63)] = 0;
#endif
    node *n2 = lfca_make(t, NEIGHBOUR, m->other == n1 ? gparent : n1->parent, &both);
#ifdef WRONG_OLD_PARENT
    n2->parent = n1->parent;
#endif
    n2->main_node = m;
    TURN(35);
    if (cas(&m->stage, PREPARING, n2)) return m;
    if (gparent != NULL) {
        TURN(36);
        atomic_store(&gparent->join_id, NULL);
    }
fail1:
    TURN(37);
#ifdef WRONG_MARK_KEPT
    (void)load(&p->join_id);
#else
    atomic_store(&p->join_id, NULL);
#endif
fail0:
    TURN(38);
    atomic_store(&m->stage, ABORTED);
    return NULL;
}

int lfca_lookup(lfca *t, int i, int *depth)
{
    node *b = find_base(t, i);
#ifdef WRONG_LATEST /* answered by the tree as it is at the last step, not by the base that was reached */
    b = atomic_load_explicit(&t->root, memory_order_relaxed);
    while (b->type == ROUTE) b = atomic_load_explicit(i < b->key ? &b->left : &b->right, memory_order_relaxed);
#endif
    *depth = b->data.depth[i];
    return b->data.set >> i & 1;
}

int lfca_insert(lfca *t, int i, int depth) { return update(t, i, true, depth); }
int lfca_remove(lfca *t, int i) { return update(t, i, false, 0); }

/* 276-286 */
int split(lfca *t, int i)
{
    node *b = find_base(t, i);
    wait on = lfca_waits(b, 3);
    int count = __builtin_popcountll(b->data.set), low = count / 2;
    if (count < 2) return LACKING;
    if (on != NOTHING) return BLOCKED;
#ifdef WRONG_HALF /* the smaller half is on the right */
    low = (count + 1) / 2;
#elif defined(NATURAL_KEY) /* a key that divides otherwise, but has a station on both sides */
    low = 1;
#endif
    container right = b->data, left = b->data;
    for (int k = 0; k < low; k++) right.set &= right.set - 1;
    left.set &= ~right.set;
    for (int s = 0; s < 64; s++) *(right.set >> s & 1 ? &left.depth[s] : &right.depth[s]) = 0;
    node *r = lfca_make(t, ROUTE, NULL, NULL);
    r->key = __builtin_ctzll(right.set);
#ifdef WRONG_HALF_LOST /* the least station of the right half goes with neither */
    if (right.set & (right.set - 1)) right.set &= right.set - 1;
#endif
    atomic_init(&r->left, lfca_make(t, NORMAL, r, &left));
    atomic_init(&r->right, lfca_make(t, NORMAL, r, &right));
    return lfca_replace(t, b, r, 10) ? YES : LOST;
}

/* 266-275 */
int join(lfca *t, int i)
{
    node *b = find_base(t, i), *m;
    wait on = lfca_waits(b, 3);
    int why;
    if (b->parent == NULL) return LACKING;
    if (on != NOTHING) return BLOCKED;
    if (t->stop) {
        TURN(19);
#ifdef WRONG_STOP_UNSEEN
        (void)load(&t->counts);
#else
        if (load(&t->counts) != 0) return STOPPED;
#endif
    }
    TURN(20);
    if (load(&b->parent->left) == b) {
        m = secure_join(t, b, true, &why);
    } else {
        TURN(21);
        if (load(&b->parent->right) != b) return LOST;
        m = secure_join(t, b, false, &why);
    }
    if (m == NULL) return why;
    complete_join(t, m);
    return YES;
}

lfca *lfca_create(int stop)
{
    lfca *t = calloc(1, sizeof *t);
    if (!t) abort();
    t->stop = stop;
    atomic_init(&t->root, lfca_make(t, NORMAL, NULL, NULL));
    return t;
}

void lfca_destroy(lfca *t)
{
    for (node *n = load(&t->made), *before; n; n = before) {
        before = n->made;
        free(n);
    }
    for (store *s = load(&t->stores), *before; s; s = before) {
        before = s->made;
        free(s);
    }
    free(t);
}

static void walk(node *n, int level, lfca_visit *visit, void *to)
{
    if (n->type != ROUTE) visit(to, level, n->type, 0, 0, 0, n->data.set, n->data.depth);
    else {
#ifdef NATURAL_NO_VALID
        int valid = 0;
#else
        int valid = load(&n->valid) ? 1 : -1;
#endif
        visit(to, level, n->type, n->key, valid, load(&n->join_id) != NULL ? 1 : -1, 0, NULL);
        walk(load(&n->left), level + 1, visit, to);
        walk(load(&n->right), level + 1, visit, to);
    }
}

void lfca_walk(lfca *t, lfca_visit *visit, void *to) { walk(load(&t->root), 0, visit, to); }

static int marks(node *n)
{
    return n->type != ROUTE ? 0 : (load(&n->join_id) != NULL) + marks(load(&n->left)) + marks(load(&n->right));
}

int lfca_marks(lfca *t) { return marks(load(&t->root)); }
