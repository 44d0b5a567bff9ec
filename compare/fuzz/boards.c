/* The desk's board, in the area of a table. */
#include "areas.h"

enum board_call { BEGIN, ENTER, CLEAR, LINE, BOARD_CALLS };

/* One call on the board that is lent: its result is one that it can give, a refusal writes nothing, and an accepted one the line that it tells. */
static uint64_t ask_board(enum board_call call, const uint8_t *field, size_t size, uint32_t train, size_t out_length, int at_end) {
  memcpy(lend(&input, size, at_end), field, size);
  lend(&out, out_length, at_end);
  memcpy(before, table.at, table.length);
  only_reading(&input, 1);
  if (call == LINE || out_length < ZF_OUT_SIZE || table.length < ZF_BOARD_SIZE) only_reading(&table, 1);
  uint64_t result = 0;
  switch (call) {
    case BEGIN: result = zf_board_begin(table.at, table.length, out.at, out.length); break;
    case ENTER: result = zf_board_record(table.at, table.length, input.at, input.length, out.at, out.length); break;
    case CLEAR: result = zf_board_clear(table.at, table.length, train, out.at, out.length); break;
    default: result = zf_board_line(table.at, table.length, (uint8_t)train, out.at, out.length); break;
  }
  only_reading(&input, 0);
  only_reading(&table, 0);
  saw(40 + call, result);
  beside(&input);
  beside(&table);
  beside(&out);
  int wrote = memcmp(before, table.at, table.length) != 0;
  if (out_length < ZF_OUT_SIZE) {
    check(result == ZF_BUFFER_SHORT && !wrote, "a short answer buffer on a board");
    check(memcmp(out.at, fill, out_length) == 0, "a short answer buffer was written");
    return result;
  }
  int of_record = (result >= ZF_CUT && result <= ZF_WRONG_LENGTH) || (result >= ZF_NOT_A_BOARD && result <= ZF_DOES_NOT_FOLLOW);
  check(result == ZF_DONE || (call == BEGIN && result == ZF_TABLE_SHORT) || (call == ENTER && of_record) ||
            (call != BEGIN && result == ZF_NOT_A_BOARD) || (call == CLEAR && result == ZF_NOT_CLEARED),
        "a result that no call of the board gives");
  check(!wrote || (result == ZF_DONE && call != LINE), "a refused or reading call wrote the board");
  check(table.length >= ZF_BOARD_SIZE || result == (call == BEGIN ? ZF_TABLE_SHORT : ZF_NOT_A_BOARD), "a short board");
  if (result != ZF_DONE) {
    int placed = result <= ZF_TABLE_SHORT;
    check(word(0) == 0 && word(1) == (uint64_t)placed && word(2) == 0 && word(3) == 0, "a refusal's words");
    return result;
  }
  check(memcmp(before + ZF_BOARD_SIZE, table.at + ZF_BOARD_SIZE, table.length - ZF_BOARD_SIZE) == 0, "bytes past the board were written");
  if (call == ENTER || call == CLEAR) {
    size_t line = (size_t)word(0);
    saw(44, line);
    check(line < ZF_BOARD_LINES && word(1) == 0 && word(2) == 0 && word(3) == 0, "a line's number");
    check(memcmp(before, table.at, 16 * line) == 0 && memcmp(before + 16 * line + 16, table.at + 16 * line + 16, ZF_BOARD_SIZE - 16 * line - 16) == 0,
          "another line was changed");
  }
  if (call == LINE) check(word(0) <= ZF_LEFT && word(1) <= UINT32_MAX && word(2) <= UINT16_MAX && word(3) <= UINT32_MAX, "a line outside its numbers");
  return result;
}

/* A field of the input's own numbers; trains and cells are few, so that they meet again. */
static size_t field_of(uint8_t *field, const uint8_t *data) {
  uint32_t sequence = data[2] & 128 ? UINT32_MAX - (data[2] & 7) : data[2] & 31;
  uint8_t whole[ZF_RECORD_SIZE] = {ZF_RECORD_TAG, 0, 11, 0, 0, data[1] & 128 ? 4 : 0, data[1] & 127, 0, data[0] >> 6, (data[0] >> 4) & 3};
  for (int i = 0; i < 4; i++) whole[10 + i] = (uint8_t)(sequence >> (24 - 8 * i));
  memcpy(field, whole, sizeof whole);
  if ((data[2] & 96) == 96) field[data[1] % 3] ^= (uint8_t)(1 << (data[1] & 7));
  return (data[2] & 96) == 64 ? data[1] % sizeof whole : sizeof whole;
}

void boards(const uint8_t *data, size_t size, const uint8_t *choice, int at_end) {
  static const uint8_t lengths[] = {0, 1, 2, 9, 40};
  size_t length = choice[0] & 8 ? (size_t)choice[0] * 4 : ZF_BOARD_SIZE + lengths[choice[0] % sizeof lengths];
  lend(&table, length, at_end);
  if (choice[1] & 1) {
    for (size_t i = 0; i < length; i++) table.at[i] = size == 0 ? 0 : data[i % size];
  } else {
    memcpy(table.at, sample_board, length < ZF_BOARD_SIZE ? length : ZF_BOARD_SIZE);
    for (size_t i = 0; i + 3 <= size && i < 3 * (size_t)(choice[1] >> 5); i += 3) {
      size_t at = 16 * (data[i] & 63) + (data[i + 1] & 15);
      if (at < length) table.at[at] = data[i + 1] & 128 ? data[i + 2] : table.at[at] ^ (uint8_t)(1 << (data[i + 2] & 7));
    }
  }
  uint8_t field[ZF_RECORD_SIZE];
  uint64_t good = ask_board(LINE, field, 0, choice[2], ZF_OUT_SIZE, at_end);
  for (size_t i = 0; i + 3 <= size && i < 3 * 64; i += 3) {
    size_t field_size = field_of(field, data + i);
    size_t out_length = (data[i] & 15) == 15 ? data[i + 2] % 40u : ZF_OUT_SIZE;
    enum board_call call = (data[i] & 7) < 5 ? ENTER : (data[i] & 7) == 5 ? CLEAR : (data[i] & 15) == 6 && i > 30 ? BEGIN : LINE;
    uint64_t result = ask_board(call, field, field_size, data[i + 1], out_length, at_end);
    if (call == BEGIN && result == ZF_DONE) good = ZF_DONE;
    if (call != BEGIN && result != ZF_BUFFER_SHORT) check((good == ZF_NOT_A_BOARD) == (result == ZF_NOT_A_BOARD), "two calls judge one board otherwise");
  }
}
