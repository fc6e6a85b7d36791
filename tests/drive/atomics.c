/* What counts as a turn where the source is unchanged: each function of <stdatomic.h>, once, before its access and after its arguments.
 * Compiled with -include nuxalder_atomics.h, or with -fsanitize=thread and linked with drive/turns/compiler.c; the hook is the test's own. */
#include <stdatomic.h>
#include <stddef.h>
#include <stdint.h>
#include <stdio.h>

void nuxalder_turn(int place);

typedef struct node {
    _Atomic(struct node *) next;
} node;

static _Atomic(node *) root;
static node a, b, mark;
static atomic_int number, other;
static atomic_bool on;
static atomic_flag flag = ATOMIC_FLAG_INIT;
static volatile int turns; /* as the hook counts them */
static int failed;
static void (*meanwhile)(void); /* what another thread does before the second turn */

void nuxalder_turn(int place)
{
    (void)place;
    if (++turns == 2 && meanwhile) meanwhile();
}

static void takes(const char *what, int wanted, int right)
{
    int had = turns;
    if (had != wanted || !right) failed = 1, printf("%s: %d turns for %d%s\n", what, had, wanted, right ? "" : ", and another value");
    turns = 0;
}

#define TAKES(wanted, expression, right) ((void)(expression), takes(#expression, (wanted), (right)))

/* The root becomes b, and what comes after a becomes the mark. */
static void root_moves(void)
{
    atomic_store_explicit(&root, &b, memory_order_relaxed);
    atomic_store_explicit(&a.next, &mark, memory_order_relaxed);
}

#ifdef WIDE /* two words at once, as an index has them that counts its pointers */
typedef struct {
    node *to;
    uint64_t tag;
} pair;
static _Atomic(pair) tagged;

static void pairs(void)
{
    pair now = {NULL, 0}, then = {&a, 1}, old = {NULL, 1};
    int value;
    TAKES(1, now = atomic_load(&tagged), !now.to && !now.tag);
    TAKES(1, value = atomic_compare_exchange_strong(&tagged, &old, then), !value && !old.tag);
    TAKES(1, value = atomic_compare_exchange_weak(&tagged, &old, then), value);
    TAKES(1, now = atomic_exchange(&tagged, old), now.to == &a && now.tag == 1);
    atomic_store(&tagged, then), takes("store of a pair", 1, 1);
    TAKES(0, now = atomic_load_explicit(&tagged, memory_order_relaxed), now.to == &a && now.tag == 1);
}
#else
static void pairs(void) {}
#endif

static void number_moves(void) { atomic_store_explicit(&number, 7, memory_order_relaxed); }

int main(void)
{
    struct {
        unsigned three : 3;
    } bits = {5};
    node *found = NULL, *expected = NULL;
    int value = 0;

    atomic_init(&root, &a), atomic_init(&a.next, NULL), atomic_init(&b.next, NULL), atomic_init(&number, 0), atomic_init(&other, 0), atomic_init(&on, 0);
    takes("atomic_init", 0, 1);
    TAKES(1, found = atomic_load(&root), found == &a);
    TAKES(1, found = atomic_load_explicit(&root, memory_order_acquire), found == &a);
    TAKES(0, found = atomic_load_explicit(&root, memory_order_relaxed), found == &a);
    atomic_store(&a.next, 0), takes("store 0", 1, 1);
    atomic_store_explicit(&a.next, &b, memory_order_release), takes("store", 1, 1);
    TAKES(1, found = atomic_exchange(&a.next, NULL), found == &b);
    TAKES(1, value = atomic_compare_exchange_strong(&a.next, &expected, &b), value);
    TAKES(1, value = atomic_compare_exchange_weak(&a.next, &expected, &a), !value && expected == &b);
    TAKES(1, value = atomic_compare_exchange_weak_explicit(&a.next, &expected, 0, memory_order_acq_rel, memory_order_acquire), value);
    TAKES(1, value = atomic_fetch_add(&number, bits.three), value == 0);
    TAKES(1, value = atomic_fetch_sub(&number, 1), value == 5);
    TAKES(1, value = atomic_fetch_or(&number, 3), value == 4);
    TAKES(1, value = atomic_fetch_and(&number, 6), value == 7);
    TAKES(1, value = atomic_fetch_xor(&number, 2), value == 6);
    TAKES(0, value = atomic_fetch_add_explicit(&number, 1, memory_order_relaxed), value == 4);
    atomic_store(&on, 2), takes("store of a bool", 1, 1);
    TAKES(1, value = atomic_load(&on), value == 1);
    TAKES(1, value = atomic_flag_test_and_set(&flag), !value);
    TAKES(1, value = atomic_flag_test_and_set_explicit(&flag, memory_order_acquire), value);
    atomic_flag_clear(&flag), takes("clear", 1, 1);
    TAKES(0, value = atomic_flag_test_and_set_explicit(&flag, memory_order_relaxed), !value);
    atomic_flag_clear_explicit(&flag, memory_order_release), takes("clear release", 1, 1);
    atomic_thread_fence(memory_order_seq_cst), takes("a fence", 0, 1);

    pairs();

    /* an access among the arguments of another: the first is over before the turn of the second */
    meanwhile = root_moves;
    TAKES(2, found = atomic_load(&atomic_load(&root)->next), found == &mark);
    meanwhile = number_moves;
    atomic_store(&other, atomic_load(&number)), takes("a value that is loaded", 2, atomic_load_explicit(&other, memory_order_relaxed) == 5);
    meanwhile = NULL;
    if (!failed) printf("every turn where it belongs\n");
    return failed;
}
