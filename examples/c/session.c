/* The calls from C: makes a table of two lanes, puts three records with how many are before each, and takes them until nothing is held. */
#include <inttypes.h>
#include <stdio.h>
#include <string.h>

#include "zenfrosta.h"

static uint8_t table[ZF_TABLE_SIZE];
static uint8_t out[ZF_OUT_SIZE];

static int put(uint8_t lane, uint32_t mark, uint64_t length) {
  uint64_t result = zf_put(table, sizeof table, lane, mark, length, out, sizeof out);
  if (result != ZF_DONE) printf("put refused with %" PRIu64 ": %s\n", result, zf_text(result));
  else printf("lane %u: %" PRIu64 " before yours\n", (unsigned)lane, zf_out_ahead(out));
  return result == ZF_DONE;
}

int main(void) {
  static const uint8_t setup[] = {
      0x01, 0, 2, 0, 1,                         /* format 1 */
      0x10, 0, 5, 0, 0x02, 0x00, 0x05, 0xDC,    /* lane 0: weight 512, longest 1,500 */
      0x10, 0, 5, 1, 0x01, 0x00, 0x05, 0xDC,    /* lane 1: weight 256, longest 1,500 */
      0x7F, 0, 0,                               /* the setup's end */
  };
  uint64_t result = zf_make(setup, sizeof setup, table, sizeof table, out, sizeof out);
  if (result != ZF_DONE) {
    printf("setup refused with %" PRIu64 ": %s", result, zf_text(result));
    if (zf_out_has_place(out)) printf(", at byte %" PRIu64, zf_out_place(out));
    printf("\n");
    return 1;
  }
  printf("lanes %" PRIu64 "\n", zf_word(out, 0));
  if (!put(0, 1, 1000) || !put(1, 2, 1000) || !put(0, 3, 500)) return 1;
  while ((result = zf_take(table, sizeof table, out, sizeof out)) == ZF_DONE) {
    printf("lane %u: record %" PRIu32 ", %" PRIu64 " bytes\n", (unsigned)zf_out_lane(out), zf_out_mark(out), zf_out_length(out));
  }
  return result == ZF_NOTHING_HELD ? 0 : 1;
}
