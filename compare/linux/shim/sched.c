/* The kernel's common part that the two schedulers call out of line: the registry, the children, the table of classes, the attributes of a class. */
#include <net/sch_generic.h>

#define CLASSES 128
#define ROOM 64

static struct Qdisc_ops *registered;

int register_qdisc(struct Qdisc_ops *ops) {
  ops->next = registered;
  registered = ops;
  return 0;
}

void unregister_qdisc(struct Qdisc_ops *ops) {
  struct Qdisc_ops **place = &registered;
  while (*place != ops) place = &(*place)->next;
  *place = ops->next;
}

const struct Qdisc_ops *shim_registered(const char *id) {
  const struct Qdisc_ops *ops = registered;
  while (ops != NULL && strcmp(ops->id, id) != 0) ops = ops->next;
  return ops;
}

/* The child of every class: a first-in first-out list with room for as many as a lane of the unit, and no counter but its length, which its parent reads. */
static int fifo_enqueue(struct sk_buff *skb, struct Qdisc *sch, struct sk_buff **to_free) {
  if (unlikely(sch->q.qlen >= sch->limit)) return qdisc_drop(skb, sch, to_free);
  skb->next = NULL;
  if (sch->q.tail == NULL)
    sch->q.head = skb;
  else
    sch->q.tail->next = skb;
  sch->q.tail = skb;
  sch->q.qlen++;
  return NET_XMIT_SUCCESS;
}

static struct sk_buff *fifo_dequeue(struct Qdisc *sch) {
  struct sk_buff *skb = sch->q.head;
  if (skb == NULL) return NULL;
  sch->q.head = skb->next;
  if (skb->next == NULL) sch->q.tail = NULL;
  sch->q.qlen--;
  return skb;
}

static struct sk_buff *fifo_peek(struct Qdisc *sch) { return sch->q.head; }

static int fifo_init(struct Qdisc *sch, struct nlattr *options, struct netlink_ext_ack *ack) {
  (void)options, (void)ack;
  sch->limit = ROOM;
  return 0;
}

static void fifo_reset(struct Qdisc *sch) { memset(&sch->q, 0, sizeof sch->q); }

struct Qdisc_ops pfifo_qdisc_ops = {
    .id = "pfifo", .enqueue = fifo_enqueue, .dequeue = fifo_dequeue, .peek = fifo_peek, .init = fifo_init, .reset = fifo_reset};

/* What a class has that got no child: it takes nothing. */
static int refused(struct sk_buff *skb, struct Qdisc *sch, struct sk_buff **to_free) { return qdisc_drop(skb, sch, to_free); }
static struct sk_buff *nothing(struct Qdisc *sch) {
  (void)sch;
  return NULL;
}
static struct Qdisc_ops noop_ops = {.id = "noop", .enqueue = refused, .dequeue = nothing, .peek = nothing};
struct Qdisc noop_qdisc = {.ops = &noop_ops, .enqueue = refused, .dequeue = nothing};

struct Qdisc *qdisc_create_dflt(struct netdev_queue *queue, const struct Qdisc_ops *ops, u32 handle, struct netlink_ext_ack *ack) {
  struct Qdisc *sch = kzalloc(sizeof *sch + ops->priv_size, GFP_KERNEL);
  if (sch == NULL) return NULL;
  sch->ops = ops;
  sch->enqueue = ops->enqueue;
  sch->dequeue = ops->dequeue;
  sch->handle = handle;
  sch->dev_queue = queue;
  if (ops->init != NULL && ops->init(sch, NULL, ack) != 0) {
    kfree(sch);
    return NULL;
  }
  return sch;
}

void qdisc_reset(struct Qdisc *sch) {
  if (sch->ops->reset != NULL) sch->ops->reset(sch);
  sch->q.qlen = 0;
  sch->qstats.backlog = 0;
}

void qdisc_put(struct Qdisc *sch) {
  if (sch == &noop_qdisc) return;
  qdisc_reset(sch);
  if (sch->ops->destroy != NULL) sch->ops->destroy(sch);
  kfree(sch);
}

struct sk_buff *qdisc_peek_dequeued(struct Qdisc *sch) {
  if (sch->peeked == NULL) {
    sch->peeked = sch->dequeue(sch);
    /* It is still part of the queue. */
    if (sch->peeked != NULL) sch->q.qlen++;
  }
  return sch->peeked;
}

int qdisc_class_hash_init(struct Qdisc_class_hash *classes) {
  classes->hash = kzalloc(CLASSES * sizeof *classes->hash, GFP_KERNEL);
  classes->hashsize = CLASSES;
  return classes->hash == NULL ? -ENOMEM : 0;
}

void qdisc_class_hash_destroy(struct Qdisc_class_hash *classes) { kfree(classes->hash); }

void qdisc_class_hash_insert(struct Qdisc_class_hash *classes, struct Qdisc_class_common *class) {
  hlist_add_head(&class->hnode, &classes->hash[class->classid % CLASSES]);
}

void qdisc_class_hash_remove(struct Qdisc_class_hash *classes, struct Qdisc_class_common *class) {
  (void)classes;
  hlist_del(&class->hnode);
}

struct Qdisc_class_common *qdisc_class_find(const struct Qdisc_class_hash *classes, u32 classid) {
  struct Qdisc_class_common *class;
  hlist_for_each_entry(class, &classes->hash[classid % CLASSES], hnode)
    if (class->classid == classid) return class;
  return NULL;
}

int nla_parse_nested_deprecated(struct nlattr *found[], int most, const struct nlattr *nest, const struct nla_policy *policy, struct netlink_ext_ack *ack) {
  const struct shim_nest *entries = (const struct shim_nest *)nest;
  (void)ack;
  for (int type = 0; type <= most; type++) found[type] = NULL;
  for (size_t i = 0; i < entries->count; i++) {
    struct shim_number *entry = &entries->entries[i];
    const int type = entry->head.nla_type;
    if (type > most) continue;
    const struct nla_policy *allowed = &policy[type];
    const u64 low = allowed->range == NULL ? allowed->low : allowed->range->min;
    const u64 high = allowed->range == NULL ? allowed->high : allowed->range->max;
    if (high != 0 && (entry->number < low || entry->number > high)) return -ERANGE;
    found[type] = &entry->head;
  }
  return 0;
}
