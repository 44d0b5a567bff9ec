/* Linux's packet schedulers as a line of lanes, for the benchmark (compare/src/linux.rs): one class for each lane, made by the scheduler's own calls, with a
 * plain first-in first-out child. A record is a packet from a stock that the line keeps, so that no call takes memory. */
#include <net/pkt_sched.h>
#include <net/sch_generic.h>

#define LANES 64
/* As many as all lanes hold at most, and one on its way. */
#define STOCK (LANES * 64 + 1)
#define LONGEST 1500
/* The root's number; lane k is class k + 1 of it. */
#define HANDLE 0x10000U

/* The entries of the two modules. */
int enter_sch_qfq(void);
int enter_sch_drr(void);

struct line {
  struct net_device device;
  struct netdev_queue queue;
  struct Qdisc *root;
  struct sk_buff *stock;
  struct skb_shared_info whole;
  struct sk_buff packets[STOCK];
};

/* The scheduler of that name; both are registered the first time. */
static const struct Qdisc_ops *named(const char *scheduler) {
  static bool entered;
  if (!entered && (enter_sch_qfq() != 0 || enter_sch_drr() != 0)) return NULL;
  entered = true;
  return shim_registered(scheduler);
}

/* A class with its own weight. To sch_qfq the weight is told as it is; to sch_drr as a quantum, so many times the longest record as the lane has of the least
 * weight. */
static bool class_made(struct line *line, unsigned int lane, u32 weight, u32 least) {
  const bool drr = strcmp(line->root->ops->id, "drr") == 0;
  struct shim_number qfq[] = {{.head.nla_type = TCA_QFQ_WEIGHT, .number = weight}, {.head.nla_type = TCA_QFQ_LMAX, .number = LONGEST}};
  struct shim_number quantum = {.head.nla_type = TCA_DRR_QUANTUM, .number = weight * LONGEST / least};
  struct shim_nest options = {.entries = drr ? &quantum : qfq, .count = drr ? 1 : 2};
  struct nlattr *attributes[TCA_MAX + 1] = {[TCA_OPTIONS] = &options.head};
  unsigned long class = 0;
  return line->root->ops->cl_ops->change(line->root, HANDLE + lane + 1, HANDLE, attributes, &class, NULL) == 0;
}

void linux_line_free(struct line *line) {
  if (line == NULL) return;
  if (line->root != NULL) qdisc_put(line->root);
  free(line);
}

/* A line with so many lanes of these weights; null where it cannot be made. `gathered` is how many classes sch_qfq may gather in an aggregate. */
struct line *linux_line_make(const char *scheduler, unsigned int gathered, const u32 *weights, unsigned int lanes) {
  struct line *line = calloc(1, sizeof *line);
  if (line == NULL || lanes == 0 || lanes > LANES) goto failed;
  line->device = (struct net_device){.mtu = LONGEST, .tx_queue_len = gathered - 1};
  line->queue.dev = &line->device;
  for (size_t i = 0; i < STOCK; i++) {
    line->packets[i].shared = &line->whole;
    line->packets[i].next = line->stock;
    line->stock = &line->packets[i];
  }
  const struct Qdisc_ops *ops = named(scheduler);
  if (ops == NULL) goto failed;
  line->root = qdisc_create_dflt(&line->queue, ops, HANDLE, NULL);
  if (line->root == NULL) goto failed;
  u32 least = weights[0];
  for (unsigned int lane = 1; lane < lanes; lane++) least = min(least, weights[lane]);
  for (unsigned int lane = 0; lane < lanes; lane++)
    if (!class_made(line, lane, weights[lane], least)) goto failed;
  return line;
failed:
  linux_line_free(line);
  return NULL;
}

/* Puts a record of so many bytes into a lane. Not 0 where the scheduler drops it. */
int linux_line_put(struct line *line, u32 lane, u32 length) {
  struct sk_buff *packet = line->stock, *dropped = NULL;
  line->stock = packet->next;
  packet->priority = HANDLE + lane + 1;
  packet->pkt_len = length;
  return line->root->enqueue(packet, line->root, &dropped);
}

/* Takes the next record: its lane and its length in one number, lane * 65,536 + length; or -1 with nothing held. */
s64 linux_line_take(struct line *line) {
  struct sk_buff *packet = line->root->dequeue(line->root);
  if (packet == NULL) return -1;
  packet->next = line->stock;
  line->stock = packet;
  return (s64)(packet->priority - HANDLE - 1) << 16 | packet->pkt_len;
}

/* Makes so many calls, of three bytes each, as the library of the unit's inner calls reads them: a lane and a length, high byte first; a lane from 64 on is a
 * take. Answers how many of them failed. */
size_t linux_line_calls(struct line *line, const uint8_t *calls, size_t count) {
  size_t failed = 0;
  for (size_t i = 0; i < count; i++, calls += 3) {
    if (calls[0] < LANES)
      failed += linux_line_put(line, calls[0], (u32)calls[1] << 8 | calls[2]) != 0;
    else
      failed += linux_line_take(line) < 0;
  }
  return failed;
}
