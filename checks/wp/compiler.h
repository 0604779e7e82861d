/*
 * compiler.h - what gcc has built in, for Frama-C.  A load that is relaxed or acquires reads what this thread knows to be there:
 * so it is assumed that nobody else writes the words that the head of c/admit/class.h calls their user's or their holder's.  A load
 * in sequential order is one of a word that others write: of what it reads nothing is known, nor of what an exchange reads.
 */
#ifndef WP_COMPILER_H
#define WP_COMPILER_H
#include <stdbool.h>
#include <stdint.h>

#define __attribute__(...)
#define __extension__
#define __thread
#define __has_feature(x) 0
#define __asm__(...)
#define __int128 long /* only in a guess which line to fetch */
#define __builtin_expect(fact, is) (fact)
#define __builtin_constant_p(x) 0
#define __builtin_prefetch(...) ((void)0)
#define __builtin_ia32_pause() ((void)0)
#define __builtin_unreachable() wp_never()
/*@ requires \false; assigns \nothing; exits \false; ensures \false; */
void wp_never(void);

#define __atomic_load_n(p, order) WP_LOAD(p, order)
#define WP_LOAD(p, order) WP_LOAD_##order(p)
#define WP_LOAD_0(p) (*(p))
#define WP_LOAD_2(p) (*(p))
#define WP_LOAD_5(p) (*(volatile __typeof__(*(p)) *)(p))
#define __atomic_store_n(p, v, order) ((void)(*(p) = (v)))
#define __atomic_exchange_n(p, v, order) wp_exchange(p, v)
#define __atomic_compare_exchange_n(p, was, v, weak, order, otherwise) wp_compare(p, was, v)
#define __atomic_fetch_add(p, v, order) wp_add(p, v)
#define __atomic_fetch_sub(p, v, order) wp_add(p, -(v))
#define __atomic_add_fetch(p, v, order) wp_add(p, v)
#define __atomic_sub_fetch(p, v, order) wp_add(p, -(v))

/*@ assigns *p; ensures *p == v; */
uint32_t wp_exchange(uint32_t *p, uint32_t v);
/*@ assigns *p, *was; */
bool wp_compare(uint32_t *p, uint32_t *was, uint32_t v);
/* A count of waiters never reaches the bits above it (IS_OF_NUMBER). */
/*@ assigns *p; ensures (*p & (1 << 29)) == (\old(*p) & (1 << 29)); */
uint32_t wp_add(uint32_t *p, uint32_t v);

#endif
