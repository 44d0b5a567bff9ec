/* Attributes of a message, reduced to numbers of 32 bits: options are an array of them, by type. Only a class's making reads them. */
#ifndef SHIM_NETLINK_H
#define SHIM_NETLINK_H

#include <linux/kernel.h>
#include <linux/netlink.h>
#include <linux/rtnetlink.h>

struct sk_buff;
struct netlink_ext_ack;

/* The system's header has the kernel's nlattr: a length and a type. A number, or a nest of so many attributes, follows it here. */
struct shim_number {
  struct nlattr head;
  u32 number;
};

struct shim_nest {
  struct nlattr head;
  struct shim_number *entries;
  size_t count;
};

struct netlink_range_validation {
  u64 min, max;
};

enum { NLA_U32 = 1 };

struct nla_policy {
  int type;
  u64 low, high;
  const struct netlink_range_validation *range;
};

#define NLA_POLICY_RANGE(kind, least, most) \
  { .type = (kind), .low = (least), .high = (most) }
#define NLA_POLICY_FULL_RANGE(kind, bounds) \
  { .type = (kind), .range = (bounds) }

#define NL_SET_ERR_MSG(ack, text) ((void)(ack), shim_silent(text))
#define NL_SET_ERR_MSG_MOD(ack, text) NL_SET_ERR_MSG(ack, text)

/* The entries of a nest by their type; -ERANGE where the policy does not allow a number. */
int nla_parse_nested_deprecated(struct nlattr *found[], int most, const struct nlattr *nest, const struct nla_policy *policy, struct netlink_ext_ack *ack);

static inline u32 nla_get_u32(const struct nlattr *entry) { return ((const struct shim_number *)entry)->number; }

/* Nobody asks for a dump here. */
static inline struct nlattr *nla_nest_start_noflag(struct sk_buff *message, int type) {
  (void)message, (void)type;
  return NULL;
}
static inline int nla_put_u32(struct sk_buff *message, int type, u32 number) {
  (void)message, (void)type, (void)number;
  return -EMSGSIZE;
}
static inline int nla_nest_end(struct sk_buff *message, struct nlattr *nest) {
  (void)message, (void)nest;
  return 0;
}
static inline void nla_nest_cancel(struct sk_buff *message, struct nlattr *nest) { (void)message, (void)nest; }

#endif
