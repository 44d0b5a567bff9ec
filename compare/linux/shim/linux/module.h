/* A module's entry becomes a function with its file's name in it (enter_sch_qfq, enter_sch_drr); KBUILD_MODNAME is given by the compiler's command. */
#ifndef SHIM_MODULE_H
#define SHIM_MODULE_H

#include <linux/kernel.h>

#define SHIM_JOINED(a, b) a##b
#define SHIM_JOIN(a, b) SHIM_JOINED(a, b)

#define THIS_MODULE NULL
#define module_init(function) \
  int SHIM_JOIN(enter_, KBUILD_MODNAME)(void); \
  int SHIM_JOIN(enter_, KBUILD_MODNAME)(void) { return function(); }
#define module_exit(function) \
  void SHIM_JOIN(leave_, KBUILD_MODNAME)(void); \
  void SHIM_JOIN(leave_, KBUILD_MODNAME)(void) { function(); }
#define MODULE_LICENSE(text) _Static_assert(sizeof(text) > 1, "a licence")

#endif
