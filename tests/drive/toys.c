/* Toys that misbehave towards the driver, one for each macro: a set in one word, hooks that are not numbered. Alone, without splits and
 * joins, it takes the bench's turns: one for a lookup, three for an update, five for a range query. */
#define _GNU_SOURCE
#include <nuxalder.h>
#include <nuxalder_drive.h>
#include <pthread.h>
#include <stdatomic.h>
#include <stdio.h>
#include <stdlib.h>
#include <sys/mman.h>
#include <unistd.h>

static uint64_t set;
static pthread_mutex_t lock = PTHREAD_MUTEX_INITIALIZER;
static atomic_int quit, others;

#ifdef OWN_THREAD /* its hooks are none of the driver's */
static pthread_t own;
static void *background(void *given)
{
    while (!atomic_load(&quit)) {
        nuxalder_turn(1);
        atomic_fetch_add(&others, 1);
    }
    return given;
}
#endif

static int *created; /* how often, in all processes */
__attribute__((constructor)) static void begin(void)
{
    created = mmap(NULL, sizeof *created, PROT_READ | PROT_WRITE, MAP_SHARED | MAP_ANONYMOUS, -1, 0);
}

static void *create(int version)
{
    ++*created;
#ifdef NO_STOP
    if (version > 2) return NULL;
#endif
    (void)version;
    set = 0;
#ifdef NO_INDEX
    return NULL;
#elif defined(CREATE_ABORT)
    abort();
#elif defined(CREATE_HANG)
    for (;;) pause();
#elif defined(OWN_THREAD)
    if (pthread_create(&own, NULL, background, NULL)) abort();
#endif
    return &set;
}

static void destroy(void *t)
{
    (void)t;
#ifdef OWN_THREAD
    atomic_store(&quit, 1);
    pthread_join(own, NULL);
    atomic_store(&quit, 0);
#elif defined(DESTROY_ABORT)
    abort();
#elif defined(DESTROY_HANG)
    for (;;) pause();
#endif
}

static int query(const nuxalder_drive_call *call, nuxalder_drive_found *found)
{
    uint64_t asked = ~(uint64_t)0 << call->station & ~(uint64_t)0 >> (63 - call->upper);
#ifdef LACKS_RANGE
    return NUXALDER_DRIVE_LACKING;
#endif
    for (int turns = 0; turns < 5; turns++) nuxalder_turn(0);
#ifdef RANGE_UNTOLD
    (void)found;
#elif defined(RANGE_OUTSIDE) /* a station that was not asked for */
    found->ranged = 1, found->set = (set & asked) | ~asked;
#elif defined(RANGE_NOTHING) /* yes, with no station */
    found->ranged = 1, found->set = 0;
#else
    found->ranged = 1, found->set = set & asked;
#endif
    return (set & asked) != 0;
}

static int operate(void *t, const nuxalder_drive_call *call, nuxalder_drive_found *found)
{
    uint64_t bit = (uint64_t)1 << call->station, had;
    int update = call->action != NUXALDER_LOOKUP;
    (void)t, (void)lock, (void)quit, (void)others;
#ifdef CHATTY
    printf("{}\noperation %d\n", call->action);
#endif
    if (call->action == NUXALDER_RANGE) return query(call, found);
#ifndef NO_HOOK
#ifndef NO_ROOT /* no hook where the bench reads the root */
    nuxalder_turn(0);
#endif
    if (update) nuxalder_turn(0);
#ifdef LOCK /* a turn taken with a lock held: the next thread waits for it for ever */
    if (update) {
        pthread_mutex_lock(&lock);
        nuxalder_turn(0);
        pthread_mutex_unlock(&lock);
    }
#elif defined(LOCK_KEPT) /* and never given back */
    if (update) {
        nuxalder_turn(0);
        pthread_mutex_lock(&lock);
    }
#elif defined(SPIN)
    for (volatile int on = update; on;) {}
#elif defined(WAITS) /* for another's turn: alone it never ends */
    if (update && call->thread == 0)
        while (!(set & (uint64_t)1 << 63)) nuxalder_turn(0);
    else if (update) nuxalder_turn(0);
#else
    if (update) nuxalder_turn(0);
#endif
#endif
#ifdef ABORT
    if (call->action == NUXALDER_REMOVE) abort();
#elif defined(WILD)
    if (call->action == NUXALDER_REMOVE) *(volatile int *)8 = 1;
#elif defined(EXIT)
    if (call->action == NUXALDER_REMOVE) exit(3);
#elif defined(BAD_ANSWER)
    if (call->action == NUXALDER_REMOVE) return 9;
#elif defined(BAD_REASON) /* a reason is for a split or a join */
    if (call->action == NUXALDER_REMOVE) return NUXALDER_BLOCKED;
#elif defined(BAD_LOOKUP) /* also where the driver looks the set up */
    if (call->action == NUXALDER_LOOKUP) return 2;
#elif defined(BAD_DEPTH)
    if (call->action == NUXALDER_LOOKUP) found->depth = 70000;
#elif defined(SLOW)
    usleep(20000);
#endif
    had = set & bit;
    if (call->action == NUXALDER_INSERT) set |= bit;
    else if (call->action == NUXALDER_REMOVE) set &= ~bit;
#ifdef MANY
    for (int i = 0; i < 1000 && update; i++) nuxalder_turn(0);
#elif defined(UNSTEADY)
    if (*created == 1 && update) return 0;
#elif defined(UNSTEADY_LATER)
    if ((*created == 1 && update) || call->action == NUXALDER_REMOVE) return 0;
#endif
    if (call->action >= NUXALDER_SPLIT) return 0;
    return call->action == NUXALDER_INSERT ? !had : had != 0;
}

#if defined(BAD_WALK) || defined(BAD_KEY) || defined(BAD_KIND) || defined(WALK_ABORT) || defined(WALK_HALF) || defined(WALK_NOTHING)
static void walk(void *t, nuxalder_drive_visit *visit, void *to)
{
    nuxalder_drive_node node = {.level = 0, .kind = NUXALDER_DRIVE_NORMAL, .stations = set};
    (void)t;
#ifdef BAD_WALK
    node.level = 99;
#elif defined(BAD_KEY)
    node.kind = NUXALDER_DRIVE_ROUTE, node.key = 64;
#elif defined(BAD_KIND)
    node.kind = NUXALDER_DRIVE_RANGE + 1;
#elif defined(WALK_ABORT)
    abort();
#elif defined(WALK_HALF) /* a route without children */
    node.kind = NUXALDER_DRIVE_ROUTE, node.key = 5;
#elif defined(WALK_NOTHING)
    return;
#endif
    visit(to, &node);
}
#else
#define walk NULL
#endif
#ifdef BAD_SET
static uint64_t all(void *t) { return (void)t, set | 1; }
#elif defined(SET_HANG)
static uint64_t all(void *t)
{
    for (;;) pause();
    return (void)t, 0;
}
#else
#define all NULL
#endif
#ifdef BAD_MARKS
static int marks(void *t) { return (void)t, 3; }
#else
#define marks NULL
#endif
#ifdef LACKS
#define operate NULL
#elif defined(LACKS_CREATE)
#define create NULL
#elif defined(LACKS_DESTROY)
#define destroy NULL
#endif
#ifdef NO_TABLE
#define nuxalder_drive_adaptor some_other_name
#endif
#ifndef VERSION
#define VERSION NUXALDER_DRIVE_VERSION
#endif

const nuxalder_drive_index nuxalder_drive_adaptor = {VERSION, create, destroy, operate, walk, all, marks};
