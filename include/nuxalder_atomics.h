/* Turns without editing the index: cc -include nuxalder_atomics.h -c index.c
 *
 * Each access by a function of C11's <stdatomic.h> in that file, of an atomic_flag too, is then a turn, unless its order is
 * memory_order_relaxed: such accesses (statistics, bookkeeping) are none, and neither is atomic_init. An access among the arguments
 * of another has a turn of its own, before the other's. A weak compare-exchange never fails for no
 * reason, so that a run can be done again. Not seen: an _Atomic variable that is read, assigned or counted up without a
 * function's name, fences, accesses by the compiler's own __atomic or __sync functions, and C++'s std::atomic. For those
 * there is the thread sanitizer's way, or calls of nuxalder_turn. Hooks are not numbered this way. */
#ifndef NUXALDER_ATOMICS_H
#define NUXALDER_ATOMICS_H
#ifdef __cplusplus
#error "nuxalder_atomics.h is for C; for C++ use the thread sanitizer's way of docs/STEPPING.md"
#endif

#include <stdatomic.h>

void nuxalder_turn(int place);

#define NUXALDER_ATOMIC_TURN(order) ((order) == memory_order_relaxed ? (void)0 : nuxalder_turn(0))

/* Arguments are evaluated once, and before the turn: an access among them has a turn of its own, which ends before this one begins. */
#ifdef __clang__
#define NUXALDER_ATOMIC_TYPE(p) __typeof__(__c11_atomic_load((p), __ATOMIC_RELAXED))
#define NUXALDER_ATOMIC_LOAD(p, o) __extension__({ __auto_type p_ = (p); NUXALDER_ATOMIC_TURN(o); __c11_atomic_load(p_, (o)); })
#define NUXALDER_ATOMIC_STORE(p, v, o) \
    __extension__({ __auto_type p_ = (p); NUXALDER_ATOMIC_TYPE(p_) v_ = (v); NUXALDER_ATOMIC_TURN(o); __c11_atomic_store(p_, v_, (o)); })
#define NUXALDER_ATOMIC_EXCHANGE(p, v, o) \
    __extension__({ __auto_type p_ = (p); NUXALDER_ATOMIC_TYPE(p_) v_ = (v); NUXALDER_ATOMIC_TURN(o); __c11_atomic_exchange(p_, v_, (o)); })
#define NUXALDER_ATOMIC_COMPARE(p, e, v, s, f) \
    __extension__({ __auto_type p_ = (p); __auto_type e_ = (e); NUXALDER_ATOMIC_TYPE(p_) v_ = (v); NUXALDER_ATOMIC_TURN(s); \
                    __c11_atomic_compare_exchange_strong(p_, e_, v_, (s), (f)); })
#define NUXALDER_ATOMIC_FETCH(name, p, v, o) \
    __extension__({ __auto_type p_ = (p); __auto_type v_ = +(v); NUXALDER_ATOMIC_TURN(o); __c11_atomic_fetch_##name(p_, v_, (o)); })
#define NUXALDER_ATOMIC_SET(p, o) NUXALDER_ATOMIC_EXCHANGE(&(p)->_Value, 1, o)
#define NUXALDER_ATOMIC_CLEAR(p, o) NUXALDER_ATOMIC_STORE(&(p)->_Value, 0, o)
#else
#define NUXALDER_ATOMIC_LOAD(p, o) \
    __extension__({ __auto_type p_ = (p); __typeof__((void)0, *p_) v_; NUXALDER_ATOMIC_TURN(o); __atomic_load(p_, &v_, (o)); v_; })
#define NUXALDER_ATOMIC_STORE(p, v, o) \
    __extension__({ __auto_type p_ = (p); __typeof__((void)0, *p_) v_ = (v); NUXALDER_ATOMIC_TURN(o); __atomic_store(p_, &v_, (o)); })
#define NUXALDER_ATOMIC_EXCHANGE(p, v, o) \
    __extension__({ __auto_type p_ = (p); __typeof__((void)0, *p_) v_ = (v), w_; NUXALDER_ATOMIC_TURN(o); __atomic_exchange(p_, &v_, &w_, (o)); w_; })
#define NUXALDER_ATOMIC_COMPARE(p, e, v, s, f) \
    __extension__({ __auto_type p_ = (p); __auto_type e_ = (e); __typeof__((void)0, *p_) v_ = (v); NUXALDER_ATOMIC_TURN(s); \
                    __atomic_compare_exchange(p_, e_, &v_, 0, (s), (f)); })
#define NUXALDER_ATOMIC_FETCH(name, p, v, o) \
    __extension__({ __auto_type p_ = (p); __auto_type v_ = +(v); NUXALDER_ATOMIC_TURN(o); __atomic_fetch_##name(p_, v_, (o)); })
#define NUXALDER_ATOMIC_SET(p, o) __extension__({ __auto_type p_ = (p); NUXALDER_ATOMIC_TURN(o); __atomic_test_and_set(p_, (o)); })
#define NUXALDER_ATOMIC_CLEAR(p, o) __extension__({ __auto_type p_ = (p); NUXALDER_ATOMIC_TURN(o); __atomic_clear(p_, (o)); })
#endif

#undef atomic_init
#undef atomic_load
#undef atomic_load_explicit
#undef atomic_store
#undef atomic_store_explicit
#undef atomic_exchange
#undef atomic_exchange_explicit
#undef atomic_compare_exchange_strong
#undef atomic_compare_exchange_strong_explicit
#undef atomic_compare_exchange_weak
#undef atomic_compare_exchange_weak_explicit
#undef atomic_fetch_add
#undef atomic_fetch_add_explicit
#undef atomic_fetch_sub
#undef atomic_fetch_sub_explicit
#undef atomic_fetch_or
#undef atomic_fetch_or_explicit
#undef atomic_fetch_and
#undef atomic_fetch_and_explicit
#undef atomic_fetch_xor
#undef atomic_fetch_xor_explicit
#undef atomic_flag_test_and_set
#undef atomic_flag_test_and_set_explicit
#undef atomic_flag_clear
#undef atomic_flag_clear_explicit

#define atomic_init(p, v) NUXALDER_ATOMIC_STORE(p, v, memory_order_relaxed)
#define atomic_load_explicit(p, o) NUXALDER_ATOMIC_LOAD(p, o)
#define atomic_store_explicit(p, v, o) NUXALDER_ATOMIC_STORE(p, v, o)
#define atomic_exchange_explicit(p, v, o) NUXALDER_ATOMIC_EXCHANGE(p, v, o)
#define atomic_compare_exchange_strong_explicit(p, e, v, s, f) NUXALDER_ATOMIC_COMPARE(p, e, v, s, f)
#define atomic_compare_exchange_weak_explicit(p, e, v, s, f) atomic_compare_exchange_strong_explicit(p, e, v, s, f)
#define atomic_fetch_add_explicit(p, v, o) NUXALDER_ATOMIC_FETCH(add, p, v, o)
#define atomic_fetch_sub_explicit(p, v, o) NUXALDER_ATOMIC_FETCH(sub, p, v, o)
#define atomic_fetch_or_explicit(p, v, o) NUXALDER_ATOMIC_FETCH(or, p, v, o)
#define atomic_fetch_and_explicit(p, v, o) NUXALDER_ATOMIC_FETCH(and, p, v, o)
#define atomic_fetch_xor_explicit(p, v, o) NUXALDER_ATOMIC_FETCH(xor, p, v, o)

#define atomic_flag_test_and_set_explicit(p, o) NUXALDER_ATOMIC_SET(p, o)
#define atomic_flag_clear_explicit(p, o) NUXALDER_ATOMIC_CLEAR(p, o)

#define atomic_load(p) atomic_load_explicit(p, memory_order_seq_cst)
#define atomic_store(p, v) atomic_store_explicit(p, v, memory_order_seq_cst)
#define atomic_exchange(p, v) atomic_exchange_explicit(p, v, memory_order_seq_cst)
#define atomic_compare_exchange_strong(p, e, v) atomic_compare_exchange_strong_explicit(p, e, v, memory_order_seq_cst, memory_order_seq_cst)
#define atomic_compare_exchange_weak(p, e, v) atomic_compare_exchange_strong(p, e, v)
#define atomic_fetch_add(p, v) atomic_fetch_add_explicit(p, v, memory_order_seq_cst)
#define atomic_fetch_sub(p, v) atomic_fetch_sub_explicit(p, v, memory_order_seq_cst)
#define atomic_fetch_or(p, v) atomic_fetch_or_explicit(p, v, memory_order_seq_cst)
#define atomic_fetch_and(p, v) atomic_fetch_and_explicit(p, v, memory_order_seq_cst)
#define atomic_fetch_xor(p, v) atomic_fetch_xor_explicit(p, v, memory_order_seq_cst)
#define atomic_flag_test_and_set(p) atomic_flag_test_and_set_explicit(p, memory_order_seq_cst)
#define atomic_flag_clear(p) atomic_flag_clear_explicit(p, memory_order_seq_cst)

#endif
