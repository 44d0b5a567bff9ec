/* Bits of a word, counted from 0; fls counts from 1 and gives 0 for 0. */
#ifndef SHIM_BITOPS_H
#define SHIM_BITOPS_H

#include <linux/kernel.h>

static inline unsigned long __fls(unsigned long word) { return 63 - (unsigned long)__builtin_clzl(word); }
static inline unsigned long __ffs(unsigned long word) { return (unsigned long)__builtin_ctzl(word); }
static inline int fls(unsigned int word) { return word == 0 ? 0 : 32 - __builtin_clz(word); }

/* Every word that is used here has less than 64 bits. */
static inline void __set_bit(unsigned long bit, unsigned long *word) { *word |= 1UL << bit; }
static inline void __clear_bit(unsigned long bit, unsigned long *word) { *word &= ~(1UL << bit); }
static inline bool test_bit(unsigned long bit, const unsigned long *word) { return (*word >> bit & 1) != 0; }

#endif
