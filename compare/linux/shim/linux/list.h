/* Lists as the kernel has them: a ring through its head (list), and one whose head is a single pointer (hlist; a node knows the pointer that leads to it). */
#ifndef SHIM_LIST_H
#define SHIM_LIST_H

#include <linux/kernel.h>

struct list_head {
  struct list_head *next, *prev;
};

static inline void INIT_LIST_HEAD(struct list_head *ring) { ring->next = ring->prev = ring; }

static inline bool list_empty(const struct list_head *ring) { return ring->next == ring; }

static inline void list_add_tail(struct list_head *node, struct list_head *ring) {
  struct list_head *last = ring->prev;
  node->next = ring;
  node->prev = last;
  last->next = ring->prev = node;
}

static inline void shim_list_leave(struct list_head *node) {
  node->next->prev = node->prev;
  node->prev->next = node->next;
}

static inline void list_del_init(struct list_head *node) {
  shim_list_leave(node);
  INIT_LIST_HEAD(node);
}

static inline void list_move_tail(struct list_head *node, struct list_head *ring) {
  shim_list_leave(node);
  list_add_tail(node, ring);
}

#define list_first_entry(ring, type, member) container_of((ring)->next, type, member)

struct hlist_node {
  struct hlist_node *next, **pprev;
};

struct hlist_head {
  struct hlist_node *first;
};

static inline void INIT_HLIST_HEAD(struct hlist_head *head) { head->first = NULL; }

static inline bool hlist_empty(const struct hlist_head *head) { return head->first == NULL; }

static inline void hlist_add_head(struct hlist_node *node, struct hlist_head *head) {
  node->next = head->first;
  if (node->next != NULL) node->next->pprev = &node->next;
  head->first = node;
  node->pprev = &head->first;
}

static inline void hlist_del(struct hlist_node *node) {
  *node->pprev = node->next;
  if (node->next != NULL) node->next->pprev = node->pprev;
}

/* A node that is in no list may leave: it knows no pointer that leads to it. */
static inline void hlist_del_init(struct hlist_node *node) {
  if (node->pprev == NULL) return;
  hlist_del(node);
  node->next = NULL;
  node->pprev = NULL;
}

#define hlist_entry(node, type, member) container_of(node, type, member)

/* The entry of a node, or null for none. */
#define shim_hlist_entry(node, entry, member) \
  ((node) == NULL ? NULL : (__typeof__(entry))((char *)(node) - offsetof(__typeof__(*(entry)), member)))

#define hlist_for_each_entry(entry, head, member)                                   \
  for ((entry) = shim_hlist_entry((head)->first, entry, member); (entry) != NULL; \
       (entry) = shim_hlist_entry((entry)->member.next, entry, member))

/* The same where the body may free the entry: the next node is kept beside it. */
#define hlist_for_each_entry_safe(entry, after, head, member)                                                      \
  for ((entry) = shim_hlist_entry((head)->first, entry, member);                                                   \
       (entry) != NULL && ((after) = (entry)->member.next, true); (entry) = shim_hlist_entry(after, entry, member))

#endif
