/* Several trains in one lane from C: trains 5 and 2 share lane 0 and take turns by bytes; lane 1 is not shared. A train has room for 8 records. */
#include <inttypes.h>
#include <stdio.h>

#include "zenfrosta.h"

static uint8_t table[ZF_TABLE_SIZE];
static uint8_t out[ZF_OUT_SIZE];

static const uint8_t setup[] = {
    0x01, 0, 2, 0, 2,                         /* format 2 */
    0x10, 0, 5, 0, 0x02, 0x00, 0x00, 0x64,    /* lane 0: weight 512, longest 100 */
    0x12, 0, 1, 0,                            /* trains share it */
    0x10, 0, 5, 1, 0x01, 0x00, 0x00, 0x64,    /* lane 1: weight 256, longest 100 */
    0x7F, 0, 0,                               /* the setup's end */
};

static void put(uint8_t lane, uint8_t train, uint32_t mark, uint64_t length) {
  uint64_t result = zf_put_train(table, sizeof table, lane, train, mark, length, out, sizeof out);
  if (result != ZF_DONE) printf("train %d in lane %d: refused with %" PRIu64 ": %s\n", train, lane, result, zf_text(result));
  else printf("train %d in lane %d: %" PRIu64 " before yours\n", train, lane, zf_out_ahead(out));
}

int main(void) {
  if (zf_make(setup, sizeof setup, table, sizeof table, out, sizeof out) != ZF_DONE) return 1;
  for (uint8_t lane = 0; lane < 2; lane++) {
    if (zf_lane(table, sizeof table, lane, out, sizeof out) != ZF_DONE) return 1;
    printf("lane %d: group %" PRIu32 "%s\n", lane, zf_out_group(out), zf_out_shared(out) ? ", shared" : "");
  }
  /* Train 5 sends 100 bytes and has nothing left over. Train 2 sends 60 and keeps 40; with its next turn it has 140, and sends two. */
  put(0, 5, 1, 100);
  put(0, 5, 2, 100);
  put(0, 2, 3, 60);
  put(0, 2, 4, 60);
  put(0, 2, 5, 60);
  put(0, 8, 6, 60); /* no such train */
  put(1, 1, 6, 60); /* lane 1 has train 0 alone */
  if (zf_train_record(table, sizeof table, 0, 2, 2, out, sizeof out) != ZF_DONE) return 1;
  printf("two of its train go out before record %" PRIu32 " of train %d\n", zf_out_mark(out), zf_out_train(out));
  uint64_t result;
  while ((result = zf_take(table, sizeof table, out, sizeof out)) == ZF_DONE) {
    printf("lane %d, train %d: record %" PRIu32 ", %" PRIu64 " bytes\n", zf_out_lane(out), zf_out_train(out), zf_out_mark(out), zf_out_length(out));
  }
  if (result != ZF_NOTHING_HELD) return 1;
  for (uint32_t mark = 0; mark < 9; mark++) put(0, 7, mark, 1); /* the ninth finds its queue full */
  return 0;
}
