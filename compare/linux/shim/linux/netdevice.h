/* A device, of which the schedulers ask two numbers, and a packet: its lengths, the class it is for, and whether it stands for several segments. */
#ifndef SHIM_NETDEVICE_H
#define SHIM_NETDEVICE_H

#include <linux/kernel.h>

struct module;

struct net_device {
  unsigned int mtu;
  /* sch_qfq gathers at most so many classes and one more in an aggregate, and never more than 8. */
  unsigned int tx_queue_len;
};

struct netdev_queue {
  struct net_device *dev;
};

struct skb_shared_info {
  unsigned short gso_size, gso_segs;
};

struct sk_buff {
  struct sk_buff *next;
  struct skb_shared_info *shared;
  u32 priority;
  unsigned int pkt_len;
};

static inline struct skb_shared_info *skb_shinfo(const struct sk_buff *skb) { return skb->shared; }
static inline bool skb_is_gso(const struct sk_buff *skb) { return skb_shinfo(skb)->gso_size != 0; }

#define NET_XMIT_SUCCESS 0
#define NET_XMIT_DROP 1
#define net_xmit_drop_count(code) ((code) != NET_XMIT_SUCCESS)

#endif
