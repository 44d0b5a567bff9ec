/* Words of the kernel's C that sch_qfq.c and sch_drr.c use, for one thread in user space: nothing is locked, nothing is printed. */
#ifndef SHIM_KERNEL_H
#define SHIM_KERNEL_H

#include <errno.h>
#include <linux/types.h>
#include <stdbool.h>
#include <stddef.h>
#include <stdint.h>
#include <stdlib.h>
#include <string.h>

typedef uint32_t u32;
typedef uint64_t u64;
typedef int64_t s64;

#define __rcu
#define __read_mostly
#define fallthrough __attribute__((fallthrough))
#define unlikely(condition) __builtin_expect((condition) != 0, 0)

#define READ_ONCE(place) (place)
#define WRITE_ONCE(place, value) ((void)((place) = (value)))
#define rcu_dereference_bh(pointer) (pointer)

#define min_t(type, a, b) ((type)(a) < (type)(b) ? (type)(a) : (type)(b))
#define max_t(type, a, b) ((type)(a) < (type)(b) ? (type)(b) : (type)(a))
#define min(a, b) min_t(__typeof__(a), a, b)
#define clamp_t(type, value, low, high) min_t(type, max_t(type, value, low), high)

#define container_of(pointer, type, member) ((type *)((char *)(pointer) - offsetof(type, member)))

/* Takes the arguments and does nothing, as in a kernel that is built without debugging. */
static inline void shim_silent(const char *text, ...) { (void)text; }
#define pr_debug(...) ((void)0)
#define pr_notice(...) shim_silent(__VA_ARGS__)
#define BUG_ON(condition) ((condition) ? abort() : (void)0)
/* A warning means that the shim is not what the scheduler expects: the figures would be of something else. */
#define WARN_ONCE(condition, ...) ((condition) ? abort() : (void)0)

#endif
