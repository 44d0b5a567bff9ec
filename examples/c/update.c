/* After an update, from C: takes over a table that was kept from before lanes had room for 64 records, puts a record more and takes them all. */
#include <inttypes.h>
#include <stdio.h>

#include "zenfrosta.h"

static uint8_t kept[ZF_OLD_TABLE_SIZE];
static uint8_t table[ZF_TABLE_SIZE];
static uint8_t out[ZF_OUT_SIZE];

/* What a host reads from where it keeps its table. Here it is that of session.c after its three puts, as it was before the update: its bytes that
 * are not 0. */
static void read_kept(void) {
  static const struct {
    uint16_t at;
    uint8_t byte;
  } bytes[] = {
      {8, 0x03},                                                                  /* lanes 0 and 1 */
      {640, 0xDC}, {641, 0x05}, {643, 0x02}, {644, 0x16}, {646, 0x08},            /* lane 0: longest, weight, group, c */
      {656, 0x20},                                                                /* two records, from place 0 on */
      {672, 0xDC}, {673, 0x05}, {675, 0x01}, {676, 0x17}, {678, 0x10},            /* lane 1 */
      {688, 0x10},                                                                /* one record */
      {2688, 0x01}, {2692, 0xE8}, {2693, 0x03},                                   /* lane 0's records: mark 1, 1,000 bytes; */
      {2696, 0x03}, {2700, 0xF4}, {2701, 0x01},                                   /* mark 3, 500 bytes */
      {2816, 0x02}, {2820, 0xE8}, {2821, 0x03},                                   /* lane 1's: mark 2, 1,000 bytes */
      {10882, 0xC0}, {11184, 0x01}, {11192, 0x01},                                /* groups 22 and 23, list 0 of each */
      {11968, 0x01}, {12000, 0x01}, {26624, 0x01},                                /* a lane in each list: 0, and 1 */
  };
  for (size_t i = 0; i < sizeof bytes / sizeof *bytes; i++) kept[bytes[i].at] = bytes[i].byte;
}

int main(void) {
  read_kept();
  uint64_t result = zf_convert(kept, sizeof kept, table, sizeof table, out, sizeof out);
  if (result != ZF_DONE) {
    printf("not taken over: %" PRIu64 "\n", result);
    return 1;
  }
  printf("taken over\n");
  if (zf_put(table, sizeof table, 0, 4, 200, out, sizeof out) != ZF_DONE) return 1;
  printf("lane 0: %" PRIu64 " before yours\n", zf_out_ahead(out));
  while ((result = zf_take(table, sizeof table, out, sizeof out)) == ZF_DONE) {
    printf("lane %u: record %" PRIu32 ", %" PRIu64 " bytes\n", (unsigned)zf_out_lane(out), zf_out_mark(out), zf_out_length(out));
  }
  return result == ZF_NOTHING_HELD ? 0 : 1;
}
