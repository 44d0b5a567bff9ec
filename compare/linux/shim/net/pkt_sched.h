#ifndef SHIM_PKT_SCHED_H
#define SHIM_PKT_SCHED_H

#include <linux/netdevice.h>

static inline unsigned int psched_mtu(const struct net_device *device) { return device->mtu; }

#endif
