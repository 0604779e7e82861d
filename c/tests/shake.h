/*
 * shake.h - named before a source of the library by -include: each of its atomic accesses comes behind a pause that is drawn, so
 * that a storm meets the few instructions between two of them (shake.c).  memory_order.py asks whether each kind of them is here.
 */
#ifndef SHAKE_H
#define SHAKE_H
void shake(void);
#define __atomic_load_n(...) (shake(), __atomic_load_n(__VA_ARGS__))
#define __atomic_store_n(...) (shake(), __atomic_store_n(__VA_ARGS__))
#define __atomic_exchange_n(...) (shake(), __atomic_exchange_n(__VA_ARGS__))
#define __atomic_compare_exchange_n(...) (shake(), __atomic_compare_exchange_n(__VA_ARGS__))
#define __atomic_fetch_add(...) (shake(), __atomic_fetch_add(__VA_ARGS__))
#define __atomic_fetch_and(...) (shake(), __atomic_fetch_and(__VA_ARGS__))
#define __atomic_fetch_or(...) (shake(), __atomic_fetch_or(__VA_ARGS__))
#define __atomic_fetch_sub(...) (shake(), __atomic_fetch_sub(__VA_ARGS__))
#define __atomic_add_fetch(...) (shake(), __atomic_add_fetch(__VA_ARGS__))
#define __atomic_sub_fetch(...) (shake(), __atomic_sub_fetch(__VA_ARGS__))
#endif
