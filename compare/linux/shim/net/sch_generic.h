/* A queueing discipline as its parent and its children see it, and what the two schedulers ask of the kernel's common part. Each inline function here does
 * no more than the kernel's of the same name; what they leave out (per-processor counters, size tables) no load here would use. */
#ifndef SHIM_SCH_GENERIC_H
#define SHIM_SCH_GENERIC_H

#include <linux/list.h>
#include <linux/netdevice.h>
#include <linux/pkt_sched.h>
#include <linux/slab.h>
#include <net/netlink.h>

struct Qdisc;
struct tcf_block;
struct tcf_proto;
struct gnet_dump;
struct net_rate_estimator;

struct gnet_stats_basic_sync {
  u64 bytes, packets;
};

struct gnet_stats_queue {
  u32 qlen, backlog, drops, requeues, overlimits;
};

struct qdisc_walker {
  int stop;
};

struct Qdisc_class_common {
  u32 classid;
  struct hlist_node hnode;
};

/* Classes by the low bits of their number; the number of lists never changes here. */
struct Qdisc_class_hash {
  struct hlist_head *hash;
  unsigned int hashsize;
};

struct Qdisc_class_ops {
  int (*change)(struct Qdisc *, u32, u32, struct nlattr **, unsigned long *, struct netlink_ext_ack *);
  int (*delete)(struct Qdisc *, unsigned long, struct netlink_ext_ack *);
  unsigned long (*find)(struct Qdisc *, u32);
  struct tcf_block *(*tcf_block)(struct Qdisc *, unsigned long, struct netlink_ext_ack *);
  unsigned long (*bind_tcf)(struct Qdisc *, unsigned long, u32);
  void (*unbind_tcf)(struct Qdisc *, unsigned long);
  int (*graft)(struct Qdisc *, unsigned long, struct Qdisc *, struct Qdisc **, struct netlink_ext_ack *);
  struct Qdisc *(*leaf)(struct Qdisc *, unsigned long);
  void (*qlen_notify)(struct Qdisc *, unsigned long);
  int (*dump)(struct Qdisc *, unsigned long, struct sk_buff *, struct tcmsg *);
  int (*dump_stats)(struct Qdisc *, unsigned long, struct gnet_dump *);
  void (*walk)(struct Qdisc *, struct qdisc_walker *);
};

struct Qdisc_ops {
  struct Qdisc_ops *next;
  const struct Qdisc_class_ops *cl_ops;
  const char *id;
  size_t priv_size;
  int (*enqueue)(struct sk_buff *, struct Qdisc *, struct sk_buff **);
  struct sk_buff *(*dequeue)(struct Qdisc *);
  struct sk_buff *(*peek)(struct Qdisc *);
  int (*init)(struct Qdisc *, struct nlattr *, struct netlink_ext_ack *);
  void (*reset)(struct Qdisc *);
  void (*destroy)(struct Qdisc *);
  struct module *owner;
};

/* The records of a plain queue; of a scheduler their number alone. */
struct qdisc_skb_head {
  struct sk_buff *head, *tail;
  u32 qlen;
};

struct Qdisc {
  int (*enqueue)(struct sk_buff *, struct Qdisc *, struct sk_buff **);
  struct sk_buff *(*dequeue)(struct Qdisc *);
  const struct Qdisc_ops *ops;
  u32 limit, handle;
  struct netdev_queue *dev_queue;
  /* What peek took out of a discipline that can only dequeue. */
  struct sk_buff *peeked;
  struct qdisc_skb_head q;
  struct gnet_stats_basic_sync bstats;
  struct gnet_stats_queue qstats, *cpu_qstats;
  u64 priv[];
};

/* Out of line (shim/sched.c). */
extern struct Qdisc_ops pfifo_qdisc_ops;
extern struct Qdisc noop_qdisc;
int register_qdisc(struct Qdisc_ops *ops);
void unregister_qdisc(struct Qdisc_ops *ops);
const struct Qdisc_ops *shim_registered(const char *id);
struct Qdisc *qdisc_create_dflt(struct netdev_queue *queue, const struct Qdisc_ops *ops, u32 handle, struct netlink_ext_ack *ack);
void qdisc_put(struct Qdisc *sch);
void qdisc_reset(struct Qdisc *sch);
struct sk_buff *qdisc_peek_dequeued(struct Qdisc *sch);
int qdisc_class_hash_init(struct Qdisc_class_hash *classes);
void qdisc_class_hash_destroy(struct Qdisc_class_hash *classes);
void qdisc_class_hash_insert(struct Qdisc_class_hash *classes, struct Qdisc_class_common *class);
void qdisc_class_hash_remove(struct Qdisc_class_hash *classes, struct Qdisc_class_common *class);
/* By itself, so that callgrind can leave it out of what it counts. */
struct Qdisc_class_common *qdisc_class_find(const struct Qdisc_class_hash *classes, u32 classid);

static inline void *qdisc_priv(struct Qdisc *sch) { return sch->priv; }
static inline struct net_device *qdisc_dev(const struct Qdisc *sch) { return sch->dev_queue->dev; }
static inline unsigned int qdisc_pkt_len(const struct sk_buff *skb) { return skb->pkt_len; }

static inline int qdisc_enqueue(struct sk_buff *skb, struct Qdisc *sch, struct sk_buff **to_free) { return sch->enqueue(skb, sch, to_free); }

static inline struct sk_buff *qdisc_dequeue_peeked(struct Qdisc *sch) {
  struct sk_buff *skb = sch->peeked;
  if (skb == NULL) return sch->dequeue(sch);
  sch->peeked = NULL;
  sch->q.qlen--;
  return skb;
}

static inline void qdisc_warn_nonwc(const char *where, const struct Qdisc *sch) {
  (void)where, (void)sch;
  abort();
}

static inline unsigned int qdisc_peek_len(struct Qdisc *sch) {
  const struct sk_buff *skb = sch->ops->peek(sch);
  if (unlikely(skb == NULL)) qdisc_warn_nonwc("peek", sch);
  return qdisc_pkt_len(skb);
}

static inline void gnet_stats_basic_sync_init(struct gnet_stats_basic_sync *stats) { stats->bytes = stats->packets = 0; }

static inline void _bstats_update(struct gnet_stats_basic_sync *stats, u64 bytes, u32 packets) {
  stats->bytes += bytes;
  stats->packets += packets;
}

static inline void bstats_update(struct gnet_stats_basic_sync *stats, const struct sk_buff *skb) {
  _bstats_update(stats, qdisc_pkt_len(skb), skb_is_gso(skb) ? skb_shinfo(skb)->gso_segs : 1);
}

static inline void qdisc_bstats_update(struct Qdisc *sch, const struct sk_buff *skb) { bstats_update(&sch->bstats, skb); }
static inline void qdisc_qstats_backlog_dec(struct Qdisc *sch, const struct sk_buff *skb) { sch->qstats.backlog -= qdisc_pkt_len(skb); }
static inline void qdisc_qstats_drop(struct Qdisc *sch) { sch->qstats.drops++; }

static inline void __qdisc_drop(struct sk_buff *skb, struct sk_buff **to_free) {
  skb->next = *to_free;
  *to_free = skb;
}

static inline int qdisc_drop(struct sk_buff *skb, struct Qdisc *sch, struct sk_buff **to_free) {
  __qdisc_drop(skb, to_free);
  qdisc_qstats_drop(sch);
  return NET_XMIT_DROP;
}

/* One thread, a fixed number of lists, no second look-up of disciplines, no rate estimators. */
static inline void sch_tree_lock(struct Qdisc *sch) { (void)sch; }
static inline void sch_tree_unlock(struct Qdisc *sch) { (void)sch; }
static inline void qdisc_hash_add(struct Qdisc *sch, bool invisible) { (void)sch, (void)invisible; }
static inline void qdisc_class_hash_grow(struct Qdisc *sch, struct Qdisc_class_hash *classes) { (void)sch, (void)classes; }
static inline void qdisc_purge_queue(struct Qdisc *sch) { qdisc_reset(sch); }
static inline u32 qdisc_qlen_sum(const struct Qdisc *sch) { return sch->q.qlen; }

static inline struct Qdisc *qdisc_replace(struct Qdisc *sch, struct Qdisc *fresh, struct Qdisc **place) {
  struct Qdisc *old = *place;
  (void)sch;
  *place = fresh;
  return old;
}

static inline int gen_new_estimator(struct gnet_stats_basic_sync *stats, void *cpu, struct net_rate_estimator **rate, void *lock, bool running,
                                    struct nlattr *options) {
  (void)stats, (void)cpu, (void)rate, (void)lock, (void)running, (void)options;
  return -EINVAL;
}
#define gen_replace_estimator gen_new_estimator
static inline void gen_kill_estimator(struct net_rate_estimator **rate) { (void)rate; }

/* Nobody asks for a dump here. */
#define gnet_stats_copy_basic(dump, cpu, stats, running) ((void)(dump), (void)(stats), -1)
#define gnet_stats_copy_rate_est(dump, rate) ((void)(dump), (void)(rate), -1)
#define gnet_stats_copy_queue(dump, cpu, stats, length) ((void)(dump), (void)(cpu), (void)(stats), (void)(length), -1)
#define gnet_stats_copy_app(dump, stats, length) ((void)(dump), (void)(stats), (void)(length), -1)
#define qdisc_qstats_copy(dump, sch) ((void)(dump), (void)(sch), -1)
static inline bool tc_qdisc_stats_dump(struct Qdisc *sch, unsigned long class, struct qdisc_walker *walker) {
  (void)sch, (void)class, (void)walker;
  return false;
}

#endif
