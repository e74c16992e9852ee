/* What hosts/c/exprlang.c wants of it, by what clang has built in. */
#include <stdint.h>
typedef _Atomic(uint_least32_t) atomic_uint_least32_t;
enum { memory_order_relaxed = __ATOMIC_RELAXED };
#define atomic_fetch_add_explicit __c11_atomic_fetch_add
