/* Turns without editing the index, in C and C++: compile it with -fsanitize=thread, and link this instead of the thread sanitizer's
 * runtime (give -fsanitize=thread when compiling, not when linking). The compiler then calls these functions.
 *
 * A turn is each atomic access whose order is not relaxed: loads, stores, exchanges, compare-exchanges and fetches of 1 to 16 bytes,
 * by whatever name the source has for them. Plain accesses, relaxed ones and fences are none. Hooks are not numbered this way. */
#include <stdbool.h>
#include <stdint.h>
#include <string.h>

void nuxalder_turn(int place);

#define TURN(order) ((order) == __ATOMIC_RELAXED ? (void)0 : nuxalder_turn(0))

#define FETCH(n, type, name)                                                                   \
    type __tsan_atomic##n##_fetch_##name(volatile type *p, type v, int order);                 \
    type __tsan_atomic##n##_fetch_##name(volatile type *p, type v, int order)                  \
    {                                                                                          \
        TURN(order);                                                                           \
        return __atomic_fetch_##name(p, v, __ATOMIC_SEQ_CST);                                  \
    }

#define COMPARE(n, type, name)                                                                                     \
    int __tsan_atomic##n##_compare_exchange_##name(volatile type *p, type *e, type v, int order, int other);       \
    int __tsan_atomic##n##_compare_exchange_##name(volatile type *p, type *e, type v, int order, int other)        \
    {                                                                                                              \
        (void)other;                                                                                               \
        TURN(order);                                                                                               \
        return __atomic_compare_exchange_n(p, e, v, 0, __ATOMIC_SEQ_CST, __ATOMIC_SEQ_CST);                        \
    }

#define WIDTH(n, type)                                                                         \
    type __tsan_atomic##n##_load(const volatile type *p, int order);                           \
    type __tsan_atomic##n##_load(const volatile type *p, int order)                            \
    {                                                                                          \
        TURN(order);                                                                           \
        return __atomic_load_n(p, __ATOMIC_SEQ_CST);                                           \
    }                                                                                          \
    void __tsan_atomic##n##_store(volatile type *p, type v, int order);                        \
    void __tsan_atomic##n##_store(volatile type *p, type v, int order)                         \
    {                                                                                          \
        TURN(order);                                                                           \
        __atomic_store_n(p, v, __ATOMIC_SEQ_CST);                                              \
    }                                                                                          \
    type __tsan_atomic##n##_exchange(volatile type *p, type v, int order);                     \
    type __tsan_atomic##n##_exchange(volatile type *p, type v, int order)                      \
    {                                                                                          \
        TURN(order);                                                                           \
        return __atomic_exchange_n(p, v, __ATOMIC_SEQ_CST);                                    \
    }                                                                                          \
    type __tsan_atomic##n##_compare_exchange_val(volatile type *p, type e, type v, int order, int other); \
    type __tsan_atomic##n##_compare_exchange_val(volatile type *p, type e, type v, int order, int other)  \
    {                                                                                          \
        (void)other;                                                                           \
        TURN(order);                                                                           \
        __atomic_compare_exchange_n(p, &e, v, 0, __ATOMIC_SEQ_CST, __ATOMIC_SEQ_CST);          \
        return e;                                                                              \
    }                                                                                          \
    COMPARE(n, type, strong) COMPARE(n, type, weak)                                            \
    FETCH(n, type, add) FETCH(n, type, sub) FETCH(n, type, and) FETCH(n, type, or) FETCH(n, type, xor) FETCH(n, type, nand)

WIDTH(8, uint8_t)
WIDTH(16, uint16_t)
WIDTH(32, uint32_t)
WIDTH(64, uint64_t)

#ifdef __SIZEOF_INT128__ /* two words at once: under a lock, since not every machine has them; the driver lets one thread run, but an index may have its own */
__extension__ typedef unsigned __int128 wide;
static char wide_lock;

static wide wide_change(volatile wide *p, wide v, bool changes)
{
    wide had = *p;
    if (changes) *p = v;
    __atomic_clear(&wide_lock, __ATOMIC_SEQ_CST);
    return had;
}

#define WIDE_TURN(order) \
    TURN(order);         \
    while (__atomic_test_and_set(&wide_lock, __ATOMIC_SEQ_CST)) {}

#define WIDE(name, value)                                                           \
    wide __tsan_atomic128_##name(volatile wide *p, wide v, int order);              \
    wide __tsan_atomic128_##name(volatile wide *p, wide v, int order)               \
    {                                                                               \
        WIDE_TURN(order);                                                           \
        return wide_change(p, value, true);                                         \
    }
WIDE(exchange, v) WIDE(fetch_add, *p + v) WIDE(fetch_sub, *p - v) WIDE(fetch_and, *p & v) WIDE(fetch_or, *p | v) WIDE(fetch_xor, *p ^ v) WIDE(fetch_nand, ~(*p & v))

wide __tsan_atomic128_load(const volatile wide *p, int order);
wide __tsan_atomic128_load(const volatile wide *p, int order)
{
    WIDE_TURN(order);
    return wide_change((volatile wide *)p, 0, false);
}

void __tsan_atomic128_store(volatile wide *p, wide v, int order);
void __tsan_atomic128_store(volatile wide *p, wide v, int order)
{
    WIDE_TURN(order);
    wide_change(p, v, true);
}

wide __tsan_atomic128_compare_exchange_val(volatile wide *p, wide e, wide v, int order, int other);
wide __tsan_atomic128_compare_exchange_val(volatile wide *p, wide e, wide v, int order, int other)
{
    (void)other;
    WIDE_TURN(order);
    return wide_change(p, v, *p == e);
}

#define WIDE_COMPARE(name)                                                                                         \
    int __tsan_atomic128_compare_exchange_##name(volatile wide *p, wide *e, wide v, int order, int other);         \
    int __tsan_atomic128_compare_exchange_##name(volatile wide *p, wide *e, wide v, int order, int other)          \
    {                                                                                                              \
        wide had = __tsan_atomic128_compare_exchange_val(p, *e, v, order, other);                                  \
        bool same = had == *e;                                                                                     \
        *e = had;                                                                                                  \
        return same;                                                                                               \
    }
WIDE_COMPARE(strong) WIDE_COMPARE(weak)
#endif

#define PLAIN(name)             \
    void __tsan_##name(void *); \
    void __tsan_##name(void *p) { (void)p; }
#define SIZED(name) PLAIN(name##1) PLAIN(name##2) PLAIN(name##4) PLAIN(name##8) PLAIN(name##16)
SIZED(read) SIZED(write) SIZED(read_write)
SIZED(unaligned_read) SIZED(unaligned_write) SIZED(unaligned_read_write)
SIZED(volatile_read) SIZED(volatile_write) SIZED(unaligned_volatile_read) SIZED(unaligned_volatile_write)
PLAIN(func_entry) PLAIN(vptr_read)

#define RANGE(name)                   \
    void __tsan_##name(void *, long); \
    void __tsan_##name(void *p, long n) { (void)p, (void)n; }
RANGE(read_range) RANGE(write_range)

#define FENCE(name)           \
    void __tsan_##name(int); \
    void __tsan_##name(int order) { (void)order; }
FENCE(atomic_thread_fence) FENCE(atomic_signal_fence)

void __tsan_init(void);
void __tsan_init(void) {}
void __tsan_func_exit(void);
void __tsan_func_exit(void) {}
void __tsan_vptr_update(void **, void *);
void __tsan_vptr_update(void **p, void *v) { (void)p, (void)v; }
void *__tsan_memcpy(void *, const void *, size_t);
void *__tsan_memcpy(void *to, const void *from, size_t n) { return memcpy(to, from, n); }
void *__tsan_memmove(void *, const void *, size_t);
void *__tsan_memmove(void *to, const void *from, size_t n) { return memmove(to, from, n); }
void *__tsan_memset(void *, int, size_t);
void *__tsan_memset(void *to, int c, size_t n) { return memset(to, c, n); }
