/* A plan sent over the air, from C: it waits while records are held, comes into force with the last take, and an old edition is refused. */
#include <inttypes.h>
#include <stdio.h>

#include "zenfrosta.h"

static uint8_t table[ZF_TABLE_SIZE];
static uint8_t plan[ZF_PLAN_SIZE];
static uint8_t setup[ZF_SETUP_MOST];
static uint8_t page[ZF_PAGE_MOST];
static uint8_t out[ZF_OUT_SIZE];

/* The setup of a plan; its length, or 0. */
static size_t written(void) {
  return zf_setup_write(plan, sizeof plan, setup, sizeof setup, out, sizeof out) == ZF_DONE ? (size_t)zf_word(out, 0) : 0;
}

/* What the office does: the plan as a page of this edition. And what the unit says to it. */
static void send(uint16_t edition) {
  const size_t length = zf_page_write(edition, setup, written(), page, sizeof page);
  const uint64_t result = zf_offer(table, sizeof table, page, length, out, sizeof out);
  if (result != ZF_DONE) printf("edition %" PRIu16 ": refused with %" PRIu64 ": %s\n", edition, result, zf_text(result));
  else printf("edition %" PRIu16 ": %s\n", edition, zf_out_waits(out) ? "waits" : "in force");
}

static void put(uint8_t lane, uint32_t mark, uint64_t length) {
  const uint64_t result = zf_put(table, sizeof table, lane, mark, length, out, sizeof out);
  if (result != ZF_DONE) printf("lane %d: refused with %" PRIu64 ": %s\n", lane, result, zf_text(result));
  else printf("lane %d: %" PRIu64 " before yours\n", lane, zf_out_ahead(out));
}

static int take(void) {
  if (zf_take(table, sizeof table, out, sizeof out) != ZF_DONE) return 0;
  printf("lane %d: record %" PRIu32 ", %" PRIu64 " bytes\n", zf_out_lane(out), zf_out_mark(out), zf_out_length(out));
  return 1;
}

static void editions(void) {
  if (zf_edition(table, sizeof table, out, sizeof out) != ZF_DONE) return;
  printf("last edition %" PRIu16 ", waiting %" PRIu16 "\n", zf_out_edition(out), zf_out_waiting(out));
}

int main(void) {
  zf_plan_new(plan);
  zf_plan_set_lane(plan, 0, 512, 1500);
  zf_plan_set_lane(plan, 1, 256, 1500);
  if (zf_make(setup, written(), table, sizeof table, out, sizeof out) != ZF_DONE) return 1;
  put(0, 1, 1000);
  put(1, 2, 500);
  /* The new plan has no lane 1, and a lane 2. */
  zf_plan_clear_lane(plan, 1);
  zf_plan_set_lane(plan, 2, 128, 576);
  send(7);
  editions();
  put(2, 3, 100); /* the old plan is still in force */
  send(7);        /* not above the one that waits */
  while (take()) {
  }
  editions();
  put(1, 4, 100);
  put(2, 5, 100);
  if (!take()) return 1;
  if (zf_restart(table, sizeof table, out, sizeof out) != ZF_DONE) return 1;
  send(7); /* a restart keeps the edition */
  send(8);
  return 0;
}
