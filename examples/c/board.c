/* The desk's board from C: two trains join, one leaves and is cleared, a third takes its line; and a record that is refused. */
#include <inttypes.h>
#include <stdio.h>

#include "zenfrosta.h"

static uint8_t board[ZF_BOARD_SIZE];
static uint8_t out[ZF_OUT_SIZE];

/* Writes a number high byte first. */
static void big(uint8_t *at, int count, uint32_t value) {
  for (int i = count - 1; i >= 0; i--, value >>= 8) at[i] = (uint8_t)value;
}

static void record(uint32_t train, uint16_t cell, uint8_t kind, uint32_t sequence) {
  uint8_t field[ZF_RECORD_SIZE] = {ZF_RECORD_TAG, 0, 11};
  big(field + 3, 4, train);
  big(field + 7, 2, cell);
  field[9] = kind;
  big(field + 10, 4, sequence);
  uint64_t result = zf_board_record(board, sizeof board, field, sizeof field, out, sizeof out);
  if (result == ZF_DONE) {
    printf("train %" PRIu32 ": line %" PRIu64 "\n", train, zf_word(out, 0));
  } else {
    printf("train %" PRIu32 ": refused with %" PRIu64 "\n", train, result);
  }
}

int main(void) {
  if (zf_board_begin(board, sizeof board, out, sizeof out) != ZF_DONE) return 1;
  record(4711, 12, ZF_JOINED, 100);
  record(815, 7, ZF_JOINED, 0);
  record(4711, 12, ZF_LEFT, 101);
  if (zf_board_clear(board, sizeof board, 4711, out, sizeof out) != ZF_DONE) return 1;
  printf("train 4711 cleared: line %" PRIu64 "\n", zf_word(out, 0));
  record(99, 3, ZF_JOINED, 5);
  record(815, 8, ZF_LEFT, 1); /* train 815 joined cell 7, so it cannot leave cell 8 */
  for (uint8_t line = 0; line < ZF_BOARD_LINES; line++) {
    if (zf_board_line(board, sizeof board, line, out, sizeof out) != ZF_DONE) return 1;
    if (zf_word(out, 0) == 0) continue;
    printf("line %d: train %" PRIu64 " %s cell %" PRIu64 ", record %" PRIu64 "\n", line, zf_word(out, 1), zf_word(out, 0) == ZF_JOINED ? "joined" : "left",
           zf_word(out, 2), zf_word(out, 3));
  }
  return 0;
}
