/* Plans: the area is that of a table, the setup is written into that of the answers. */
#include "areas.h"

/* Reads the setup that is lent into the area that is lent. */
static uint64_t read_plan(void) {
  lend(&out, ZF_OUT_SIZE, 1);
  memcpy(before, table.at, table.length);
  only_reading(&input, 1);
  if (table.length < ZF_PLAN_SIZE) only_reading(&table, 1);
  uint64_t result = zf_setup_read(input.at, input.length, table.at, table.length, out.at, out.length);
  only_reading(&input, 0);
  only_reading(&table, 0);
  saw(50, result);
  saw(51, word(0));
  beside(&input);
  beside(&table);
  beside(&out);
  check(of_setup(result) || result == ZF_TABLE_SHORT, "a result that reading does not give");
  check((table.length < ZF_PLAN_SIZE) == (result == ZF_TABLE_SHORT), "7 is for short areas");
  check(result == ZF_DONE || memcmp(before, table.at, table.length) == 0, "a refused reading wrote the area");
  check(word(1) == (result != ZF_DONE), "a refused reading has a place, and says so");
  check(result != ZF_DONE || (word(0) >= 1 && word(0) <= 64), "a number of lanes");
  if (table.length > ZF_PLAN_SIZE)
    check(memcmp(before + ZF_PLAN_SIZE, table.at + ZF_PLAN_SIZE, table.length - ZF_PLAN_SIZE) == 0, "bytes past the area were written");
  return result;
}

/* Writes the plan of the area that is lent into a buffer of this length. */
static uint64_t write_plan(size_t length, int at_end) {
  lend(&answers, length, at_end);
  lend(&out, ZF_OUT_SIZE, at_end);
  only_reading(&table, 1);
  if (table.length < ZF_PLAN_SIZE) only_reading(&answers, 1);
  uint64_t result = zf_setup_write(table.at, table.length, answers.at, answers.length, out.at, out.length);
  only_reading(&table, 0);
  only_reading(&answers, 0);
  saw(52, result);
  beside(&table);
  beside(&answers);
  beside(&out);
  size_t size = result == ZF_DONE ? (size_t)word(0) : 0;
  check(result == ZF_DONE || result == ZF_PLAN_OUTSIDE || result == ZF_SETUP_SHORT, "a result that writing does not give");
  check(size <= length && size <= ZF_SETUP_MOST && word(1) == 0 && word(2) == 0 && word(3) == 0, "the words of writing");
  check(memcmp(answers.at + size, fill, length - size) == 0, "bytes past the setup were written");
  check(table.length >= ZF_PLAN_SIZE || result == ZF_PLAN_OUTSIDE, "a short area is no plan");
  return result;
}

/* Fills the area that is lent, which is long enough, word by word. */
void fill_plan(const uint8_t *data, size_t size) {
  zf_plan_new(table.at);
  for (size_t i = 0; i + 4 <= size && i < 4 * 80; i += 4) {
    size_t at = data[i] % 65u;
    uint64_t number = (uint64_t)data[i + 2] << 8 | data[i + 3];
    switch (data[i + 1] & 3) {
      case 0: zf_plan_set_lane(table.at, data[i], data[i + 1] >> 2, (uint16_t)number); break;
      case 1: zf_plan_set_word(table.at, at, zf_plan_word(table.at, at) ^ 1ull << (data[i + 2] & 63)); break;
      case 2: zf_plan_set_framing(table.at, data[i + 2]); break;
      default: zf_plan_set_word(table.at, at, number << (data[i + 1] >> 2)); break;
    }
  }
}

/* An area's length: whole, longer, or short. */
size_t plan_length(uint8_t choice) {
  static const uint8_t more[] = {0, 0, 1, 9, 40};
  return choice & 128 ? ZF_PLAN_SIZE - 1 - 8 * (size_t)(choice & 63) : ZF_PLAN_SIZE + more[choice % sizeof more];
}

void plans(const uint8_t *data, size_t size, const uint8_t *choice, int at_end) {
  size_t length = plan_length(choice[0]);
  lend(&table, length, at_end);
  if (choice[1] & 1) {
    memcpy(lend(&input, size, at_end), data, size);
    if (read_plan() != ZF_DONE) return;
  } else if (length >= ZF_PLAN_SIZE) {
    fill_plan(data, size);
  }
  uint64_t result = write_plan(choice[2] & 1 ? ZF_SETUP_MOST : choice[2] * 2u, at_end);
  if (result == ZF_SETUP_SHORT) result = write_plan(ZF_SETUP_MOST, at_end);
  if (choice[1] & 1) check(result == ZF_DONE, "a plan that was read is written");
  if (result != ZF_DONE) return;
  /* What was written is read as the same words, and is exactly as long as is needed. */
  size_t exact = (size_t)word(0);
  static uint8_t kept[ZF_PLAN_SIZE];
  memcpy(kept, table.at, ZF_PLAN_SIZE);
  memcpy(lend(&input, exact, at_end), answers.at, exact);
  check(write_plan(exact - 1, at_end) == ZF_SETUP_SHORT, "a byte less is too short");
  check(write_plan(exact, at_end) == ZF_DONE && memcmp(answers.at, input.at, exact) == 0, "the same plan has the same bytes");
  check(read_plan() == ZF_DONE && memcmp(kept, table.at, ZF_PLAN_SIZE) == 0, "what was written is read as the same plan");
}
