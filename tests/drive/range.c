/* The fixture's range queries, lines 138 to 214 of the article, cut as docs/RANGE.md cuts them: places 60 to 82. See node.h. */
#include <stdlib.h>

#include "node.h"

enum { STACK = 128 }; /* the longest way is 86 nodes */

typedef struct {
    int length;
    node *entry[STACK];
} stack;

static node *top(const stack *s) { return s->length ? s->entry[s->length - 1] : NULL; }
static node *pop(stack *s) { return s->length ? s->entry[--s->length] : NULL; }
static void push(stack *s, node *n)
{
    if (s->length == STACK) abort();
    s->entry[s->length++] = n;
}

/* 309-321 */
static node *find_base(lfca *t, int i, stack *s)
{
    s->length = 0;
    TURN(60);
    node *n = load(&t->root);
    push(s, n);
    while (n->type == ROUTE) {
        TURN(61);
        n = i < n->key ? load(&n->left) : load(&n->right);
        push(s, n);
    }
    return n;
}

/* 322-329: the leftmost base to the right of a route */
static node *leftmost(node *route, stack *s)
{
    TURN(71);
    node *n = load(&route->right);
    push(s, n);
    while (n->type == ROUTE) {
        TURN(73);
        n = load(&n->left);
        push(s, n);
    }
    return n;
}

static bool still_in(node *route)
{
#ifdef NATURAL_NO_VALID /* the join mark tells it: it names the join that took the route out */
    TURN(72);
    node *m = load(&route->join_id);
    if (m == NULL || m->parent != route) return true;
    node *stage = load(&m->stage);
    return stage == PREPARING || stage == ABORTED;
#else
    TURN(72);
    return load(&route->valid);
#endif
}

/* 143-156 */
static node *find_next(stack *s)
{
    node *b = pop(s), *route = top(s);
    if (route == NULL) return NULL;
    TURN(70);
    if (load(&route->left) == b) return leftmost(route, s);
    for (int noted = route->key; route != NULL; pop(s), route = top(s))
        if (still_in(route) && route->key > noted) return leftmost(route, s);
    return NULL;
}

/* 157-160 */
static node *range_base(lfca *t, node *b, int lower, int upper, store *s)
{
    node *n = lfca_make(t, RANGE, b->parent, &b->data);
    n->lower = lower, n->upper = upper, n->result = s;
    return n;
}

static store *make_store(lfca *t)
{
    store *s = calloc(1, sizeof *s);
    if (!s) abort();
    s->made = atomic_exchange_explicit(&t->stores, s, memory_order_relaxed);
    return s;
}

static uint64_t result_of(store *s)
{
    TURN(82);
    node *found = load(&s->set);
    return found ? found->data.set : 0;
}

/* 168-182: the first base, as a range base of the store; NULL where the query is over */
static node *first_base(lfca *t, int *lower, int *upper, store **s, stack *at)
{
    for (;;) {
        node *b = find_base(t, *lower, at);
        if (*s) return b->type == RANGE && b->result == *s ? b : NULL;
        wait on = lfca_waits(b, 62);
        if (on == NOTHING) {
            store *mine = make_store(t);
            node *n = range_base(t, b, *lower, *upper, mine);
            if (!lfca_replace(t, b, n, 64)) continue;
            *s = mine, at->entry[at->length - 1] = n;
            return n;
        }
#ifdef WRONG_RANGE_RIDE /* on a query that ends too early */
        if (on == QUERY) {
#else
        if (on == QUERY && b->upper >= *upper) {
#endif
            *lower = b->lower, *upper = b->upper, *s = b->result;
            continue;
        }
        lfca_help(t, b, lfca_waits(b, 15));
    }
}

/* 161-214 */
uint64_t lfca_all_in_range(lfca *t, int lower, int upper, store *s)
{
    stack at, backup;
    container done = {0};
    node *b = first_base(t, &lower, &upper, &s, &at);
    if (b == NULL) return result_of(s);
    for (;;) {
        done.set |= b->data.set;
        backup = at;
#ifdef WRONG_RANGE_EARLY
        if (b->data.set >> lower) break;
#else
        if (b->data.set >> upper) break;
#endif
        for (;;) { /* 187-204: the next base, as one of the store */
            b = find_next(&at);
            if (b == NULL) break;
            TURN(74);
            if (load(&s->set) != NULL) return result_of(s);
            if (b->type == RANGE && b->result == s) break;
            wait on = lfca_waits(b, 76);
            if (on == NOTHING) {
                node *n = range_base(t, b, lower, upper, s);
                if (lfca_replace(t, b, n, 77)) {
                    at.entry[at.length - 1] = b = n;
                    break;
                }
            } else lfca_help(t, b, lfca_waits(b, 15));
#ifdef WRONG_RANGE_STACK
            (void)backup;
#else
            at = backup;
#endif
        }
        if (b == NULL) break;
    }
    node *found = lfca_make(t, NORMAL, NULL, &done);
    TURN(81);
#ifdef WRONG_RANGE_AGAIN
    atomic_store(&s->set, found);
#else
    cas(&s->set, NULL, found);
#endif
    return result_of(s);
}

/* 138-142: cut to what this query asked, not to what its store is of */
int lfca_range(lfca *t, int lower, int upper, uint64_t *set)
{
    *set = lfca_all_in_range(t, lower, upper, NULL) & ~(uint64_t)0 << lower & ~(uint64_t)0 >> (63 - upper);
    return *set != 0;
}
