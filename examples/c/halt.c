/* The small halt from C: four lanes of 256 bytes at most. A setup that is not the halt's gives 90, and a table of another setup 10. */
#include <inttypes.h>
#include <stdio.h>

#include "zenfrosta.h"

static uint8_t table[ZF_TABLE_SIZE];
static uint8_t out[ZF_OUT_SIZE];

static const uint8_t setup[] = {
    0x01, 0, 2, 0, 2,                         /* format 2 */
    0x10, 0, 5, 0, 0x02, 0x00, 0x01, 0x00,    /* lane 0: weight 512, longest 256 */
    0x10, 0, 5, 1, 0x01, 0x00, 0x01, 0x00,    /* lane 1: weight 256, longest 256 */
    0x10, 0, 5, 2, 0x00, 0x80, 0x01, 0x00,    /* lane 2: weight 128, longest 256 */
    0x10, 0, 5, 3, 0x00, 0x80, 0x01, 0x00,    /* lane 3: weight 128, longest 256 */
    0x7F, 0, 0,                               /* the setup's end */
};

/* One lane of another longest: a good setup, and not the halt's. */
static const uint8_t other[] = {
    0x01, 0, 2, 0, 2, 0x10, 0, 5, 0, 0x02, 0x00, 0x00, 0x64, 0x7F, 0, 0,
};

static void put(uint8_t lane, uint32_t mark, uint64_t length) {
  uint64_t result = zf_halt_put(table, sizeof table, lane, mark, length, out, sizeof out);
  if (result != ZF_DONE) printf("lane %d: refused with %" PRIu64 ": %s\n", lane, result, zf_text(result));
}

int main(void) {
  uint64_t result = zf_halt_make(other, sizeof other, table, sizeof table, out, sizeof out);
  printf("another setup: %" PRIu64 ": %s\n", result, zf_text(result));
  if (zf_make(other, sizeof other, table, sizeof table, out, sizeof out) != ZF_DONE) return 1;
  put(0, 1, 60); /* a good table, and not the halt's */
  if (zf_halt_make(setup, sizeof setup, table, sizeof table, out, sizeof out) != ZF_DONE) return 1;
  printf("a halt of %" PRIu64 " lanes\n", zf_word(out, 0));
  for (uint8_t lane = 0; lane < 4; lane++) put(lane, lane, 256);
  put(0, 4, 257); /* longer than any record of the halt's */
  put(4, 4, 60);  /* no such lane */
  while ((result = zf_halt_take(table, sizeof table, out, sizeof out)) == ZF_DONE) {
    printf("lane %d: record %" PRIu32 ", %" PRIu64 " bytes\n", zf_out_lane(out), zf_out_mark(out), zf_out_length(out));
  }
  if (result != ZF_NOTHING_HELD) return 1;
  return zf_halt_restart(table, sizeof table, out, sizeof out) == ZF_DONE ? 0 : 1;
}
