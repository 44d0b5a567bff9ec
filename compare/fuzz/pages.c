/* Settings pages and tables of 16 places, in the area of an input. */
#include "areas.h"

/* Offers the page; its result. One that is known to be refused must not write. */
static uint64_t offer(const uint8_t *data, size_t size, int refused, int at_end) {
  memcpy(lend(&input, size, at_end), data, size);
  lend(&out, ZF_OUT_SIZE, at_end);
  memcpy(before, table.at, table.length);
  only_reading(&input, 1);
  if (refused) only_reading(&table, 1);
  uint64_t result = zf_offer(table.at, table.length, input.at, input.length, out.at, out.length);
  only_reading(&input, 0);
  only_reading(&table, 0);
  saw(70, result);
  saw(71, word(0));
  beside(&input);
  beside(&table);
  beside(&out);
  check(of_setup(result) || result == ZF_NOT_GOOD || result == ZF_OLD_EDITION, "a result that an offer does not give");
  check(result == ZF_DONE || memcmp(before, table.at, table.length) == 0, "a refused offer wrote the table");
  int placed = result != ZF_DONE && result != ZF_NOT_GOOD && result != ZF_OLD_EDITION;
  check(word(1) == (uint64_t)placed && word(2) == 0 && word(3) == 0, "the words of an offer");
  check(result != ZF_DONE || word(0) <= ZF_WAITS, "in force, or waits");
  check(!placed || word(0) <= size, "a place in the page");
  if (table.length > ZF_TABLE_SIZE) {
    check(memcmp(before + ZF_TABLE_SIZE, table.at + ZF_TABLE_SIZE, table.length - ZF_TABLE_SIZE) == 0, "bytes past the table were written");
  }
  return result;
}

void pages(const uint8_t *data, size_t size, const uint8_t *choice, int at_end) {
  static const uint8_t waiting[] = {0x40, 0, 2, 0, 9, 0x41, 0, 14, 1, 0, 2, 0, 2, 0x10, 0, 3, 7, 1, 0, 0x7F, 0, 0, 0x7F, 0, 0};
  lend(&table, ZF_TABLE_SIZE + choice[0] % 8u, at_end);
  memcpy(table.at, choice[1] & 1 ? shared_sample : sample, ZF_TABLE_SIZE);
  int held = !(choice[1] & 2);
  while (!held && ask(TAKE, 0, 0, ZF_OUT_SIZE, at_end) == ZF_DONE) {
  }
  if (choice[1] & 4) {
    check(offer(waiting, sizeof waiting, 0, at_end) == ZF_DONE, "the sample's page");
    check(word(0) == (held ? ZF_WAITS : ZF_IN_FORCE), "it waits while a record is held");
  }
  if (offer(data, size, 0, at_end) == ZF_DONE) {
    check(word(0) == (held ? ZF_WAITS : ZF_IN_FORCE), "a page waits exactly while a record is held");
    check(offer(data, size, 1, at_end) == ZF_OLD_EDITION, "an edition that was accepted is old");
  }
  while (choice[1] & 8 && ask(TAKE, 0, 0, ZF_OUT_SIZE, at_end) == ZF_DONE) {
  }
  check(ask(LAG, 255, 0, ZF_OUT_SIZE, at_end) == ZF_NO_LANE, "a table after an offer is good");
  calls(data, size, at_end);
}

void convert(const uint8_t *data, size_t size, const uint8_t *choice, int at_end) {
  size_t length = choice[1] & 128 ? ZF_OLD_TABLE_SIZE - 1 - choice[1] % 128u * 350u : ZF_OLD_TABLE_SIZE + choice[1] % 32u;
  lend(&input, ZF_OLD_TABLE_SIZE, at_end);
  memcpy(input.at, old_sample, ZF_OLD_TABLE_SIZE);
  change(&input, data, size);
  static uint8_t kept[ZF_OLD_TABLE_SIZE];
  memcpy(kept, input.at, ZF_OLD_TABLE_SIZE);
  memcpy(lend(&input, length, at_end), kept, length < ZF_OLD_TABLE_SIZE ? length : ZF_OLD_TABLE_SIZE);
  memset(lend(&table, table_length(choice[0]), at_end), choice[2], table.length);
  lend(&out, ZF_OUT_SIZE, at_end);
  memcpy(before, table.at, table.length);
  only_reading(&input, 1);
  if (table.length < ZF_TABLE_SIZE || length < ZF_OLD_TABLE_SIZE) only_reading(&table, 1);
  uint64_t result = zf_convert(input.at, input.length, table.at, table.length, out.at, out.length);
  only_reading(&input, 0);
  only_reading(&table, 0);
  saw(60, result);
  beside(&input);
  beside(&table);
  beside(&out);
  check(result == ZF_DONE || result == ZF_TABLE_SHORT || result == ZF_NOT_GOOD, "a result that converting does not give");
  check((table.length < ZF_TABLE_SIZE) == (result == ZF_TABLE_SHORT), "7 is for short tables, and first");
  check(word(0) == 0 && word(1) == (result == ZF_TABLE_SHORT) && word(2) == 0 && word(3) == 0, "the words of converting");
  check(result == ZF_DONE || memcmp(before, table.at, table.length) == 0, "a refused conversion wrote the table");
  if (result == ZF_DONE) {
    size_t past = table.length - ZF_TABLE_SIZE;
    check(length >= ZF_OLD_TABLE_SIZE, "a short old table is not good");
    check(memcmp(before + ZF_TABLE_SIZE, table.at + ZF_TABLE_SIZE, past) == 0, "bytes past the table were written");
    check(ask(LAG, 255, 0, ZF_OUT_SIZE, at_end) == ZF_NO_LANE, "a converted table is good");
  }
  calls(data, size, at_end);
}
