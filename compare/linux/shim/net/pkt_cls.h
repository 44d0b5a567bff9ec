/* Filters: there are none. A packet is for the class that its priority names. */
#ifndef SHIM_PKT_CLS_H
#define SHIM_PKT_CLS_H

#include <net/sch_generic.h>

#define __NET_XMIT_STOLEN 0x10000
#define __NET_XMIT_BYPASS 0x20000

struct tcf_result {
  unsigned long class;
  u32 classid;
};

static inline int tcf_classify_qdisc(struct sk_buff *skb, const struct tcf_proto *filters, struct tcf_result *result, bool compatible) {
  (void)skb, (void)filters, (void)result, (void)compatible;
  return -1;
}

static inline int tcf_block_get(struct tcf_block **block, struct tcf_proto **filters, struct Qdisc *sch, struct netlink_ext_ack *ack) {
  (void)block, (void)filters, (void)sch, (void)ack;
  return 0;
}
static inline void tcf_block_put(struct tcf_block *block) { (void)block; }

#endif
