/* Memory, cleared; what it is for says nothing here. */
#ifndef SHIM_SLAB_H
#define SHIM_SLAB_H

#include <linux/kernel.h>

#define GFP_KERNEL 0
#define GFP_ATOMIC 0

static inline void *kzalloc(size_t size, int purpose) {
  (void)purpose;
  return calloc(1, size);
}

static inline void kfree(void *memory) { free(memory); }

#endif
