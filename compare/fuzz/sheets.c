/* Text sheets: the plan area is that of a table, the sheet is written into that of the answers. */
#include "areas.h"

/* Reads the sheet that is lent into the area that is lent. */
static uint64_t read_sheet(int at_end) {
  lend(&out, ZF_OUT_SIZE, at_end);
  memcpy(before, table.at, table.length);
  only_reading(&input, 1);
  if (table.length < ZF_PLAN_SIZE) only_reading(&table, 1);
  uint64_t result = zf_sheet_read(input.at, input.length, table.at, table.length, out.at, out.length);
  only_reading(&input, 0);
  only_reading(&table, 0);
  saw(72, result);
  saw(73, word(0));
  beside(&input);
  beside(&table);
  beside(&out);
  int of_sheet = result == ZF_DONE || result == ZF_SHEET_BYTE || result == ZF_SHEET_CUT || result == ZF_OUT_OF_ORDER || result == ZF_WEIGHTS_OVER ||
                 (result >= ZF_BAD_LANE && result <= ZF_BAD_LONGEST);
  check(of_sheet || result == ZF_TABLE_SHORT, "a result that reading a sheet does not give");
  check((table.length < ZF_PLAN_SIZE) == (result == ZF_TABLE_SHORT), "7 is for short areas");
  check(result == ZF_DONE || memcmp(before, table.at, table.length) == 0, "a refused reading wrote the area");
  check(word(1) == (result != ZF_DONE) && word(2) == 0 && word(3) == 0, "a refused reading has a place, and says so");
  check(result == ZF_DONE ? word(0) >= 1 && word(0) <= 64 : word(0) <= input.length, "a number of lanes, or a place in the sheet");
  if (table.length > ZF_PLAN_SIZE)
    check(memcmp(before + ZF_PLAN_SIZE, table.at + ZF_PLAN_SIZE, table.length - ZF_PLAN_SIZE) == 0, "bytes past the area were written");
  return result;
}

/* Writes the plan of the area that is lent as a sheet, into a buffer of this length. */
static uint64_t write_sheet(size_t length, int at_end) {
  lend(&answers, length, at_end);
  lend(&out, ZF_OUT_SIZE, at_end);
  only_reading(&table, 1);
  if (table.length < ZF_PLAN_SIZE) only_reading(&answers, 1);
  uint64_t result = zf_sheet_write(table.at, table.length, answers.at, answers.length, out.at, out.length);
  only_reading(&table, 0);
  only_reading(&answers, 0);
  saw(74, result);
  beside(&table);
  beside(&answers);
  beside(&out);
  size_t size = result == ZF_DONE ? (size_t)word(0) : 0;
  check(result == ZF_DONE || result == ZF_PLAN_OUTSIDE || result == ZF_NO_SHEET || result == ZF_SETUP_SHORT, "a result that writing a sheet does not give");
  check(size <= length && size <= ZF_SHEET_MOST && word(1) == 0 && word(2) == 0 && word(3) == 0, "the words of writing");
  check(result == ZF_DONE || word(0) == 0, "a refusal with values");
  check(memcmp(answers.at + size, fill, length - size) == 0, "bytes past the sheet were written");
  check(table.length >= ZF_PLAN_SIZE || result == ZF_PLAN_OUTSIDE, "a short area is no plan");
  return result;
}

void sheets(const uint8_t *data, size_t size, const uint8_t *choice, int at_end) {
  lend(&table, plan_length(choice[0]), at_end);
  if (choice[1] & 1) {
    memcpy(lend(&input, size, at_end), data, size);
    if (read_sheet(at_end) != ZF_DONE) return;
  } else if (table.length >= ZF_PLAN_SIZE) {
    fill_plan(data, size);
  }
  uint64_t result = write_sheet(choice[2] & 1 ? ZF_SHEET_MOST : choice[2] * 3u, at_end);
  if (result == ZF_SETUP_SHORT) result = write_sheet(ZF_SHEET_MOST, at_end);
  if (choice[1] & 1) check(result == ZF_DONE, "a sheet that was read is written");
  if (result != ZF_DONE) return;
  size_t exact = (size_t)word(0);
  if (choice[1] & 1) check(exact == size && memcmp(answers.at, input.at, size) == 0, "a sheet that was read is written back as the same bytes");
  static uint8_t kept[ZF_PLAN_SIZE];
  memcpy(kept, table.at, ZF_PLAN_SIZE);
  memcpy(lend(&input, exact, at_end), answers.at, exact);
  check(write_sheet(exact - 1, at_end) == ZF_SETUP_SHORT, "a byte less is too short");
  check(write_sheet(exact, at_end) == ZF_DONE && memcmp(answers.at, input.at, exact) == 0, "the same plan has the same bytes");
  /* The first word is the format, which a sheet does not say. */
  check(read_sheet(at_end) == ZF_DONE && memcmp(kept + 8, table.at + 8, ZF_PLAN_SIZE - 8) == 0, "what was written is read as the same lanes");
}
