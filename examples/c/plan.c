/* A plan edited from C: a setup is read, lane 1 gets less, lane 5 comes in for several trains, the line is charged 12 framing bytes; then it is
 * written, and a wrong edit is refused. */
#include <inttypes.h>
#include <stdio.h>

#include "zenfrosta.h"

static uint8_t plan[ZF_PLAN_SIZE];
static uint8_t out[ZF_OUT_SIZE];

/* Lane 0 of weight 512, its longest left out; lane 1 of weight 256 and 1,500 bytes. */
static const uint8_t depot[] = {0x01, 0, 2, 0, 1, 0x10, 0, 3, 0, 2, 0, 0x10, 0, 5, 1, 1, 0, 0x05, 0xDC, 0x7F, 0, 0};

static void show(void) {
  printf("format %d, framing %" PRIu64 "\n", zf_plan_format(plan), zf_plan_framing(plan));
  for (uint8_t lane = 0; lane < 64; lane++) {
    if (zf_plan_weight(plan, lane) == 0) continue;
    printf("lane %d: weight %d, longest %" PRIu64 "%s\n", lane, zf_plan_weight(plan, lane), zf_plan_longest(plan, lane),
           zf_plan_shared(plan, lane) ? ", shared" : "");
  }
}

static void write_setup(void) {
  uint8_t setup[ZF_SETUP_MOST];
  uint64_t result = zf_setup_write(plan, sizeof plan, setup, sizeof setup, out, sizeof out);
  if (result != ZF_DONE) {
    printf("refused with %" PRIu64 "\n", result);
    return;
  }
  uint64_t size = zf_word(out, 0);
  printf("%" PRIu64 " bytes:", size);
  for (uint64_t i = 0; i < size; i++) printf(" %02X", setup[i]);
  printf("\n");
}

int main(void) {
  if (zf_setup_read(depot, sizeof depot, plan, sizeof plan, out, sizeof out) != ZF_DONE) return 1;
  printf("%" PRIu64 " lanes\n", zf_word(out, 0));
  show();
  zf_plan_set_lane(plan, 1, 128, 576);
  zf_plan_set_lane(plan, 5, 64, 64);
  zf_plan_set_shared(plan, 5, 1); /* up to 8 trains */
  zf_plan_set_framing(plan, 12);
  show();
  write_setup();
  zf_plan_set_lane(plan, 6, 1000, 64); /* the weights now sum to more than 1,024 */
  write_setup();
  zf_plan_new(plan); /* no lane */
  write_setup();
  zf_plan_set_lane(plan, 63, 1024, 1500);
  write_setup();
  return 0;
}
