/* Setups for zf_make and sessions for zf_run, then the calls on what they left. */
#include "areas.h"

void make(const uint8_t *data, size_t size, uint8_t choice, int at_end) {
  memcpy(lend(&input, size, at_end), data, size);
  memset(lend(&table, table_length(choice), at_end), choice, table.length);
  lend(&out, ZF_OUT_SIZE, at_end);
  memcpy(before, table.at, table.length);
  only_reading(&input, 1);
  if (table.length < ZF_TABLE_SIZE) only_reading(&table, 1);
  uint64_t result = zf_make(input.at, input.length, table.at, table.length, out.at, out.length);
  only_reading(&input, 0);
  only_reading(&table, 0);
  saw(20, result);
  saw(21, word(0));
  beside(&input);
  beside(&table);
  beside(&out);
  check(of_setup(result) || result == ZF_TABLE_SHORT, "a result that making does not give");
  check(result == ZF_DONE || memcmp(before, table.at, table.length) == 0, "a refused making wrote the table");
  check(result != ZF_DONE || (word(0) >= 1 && word(0) <= 64), "a number of lanes");
  check(word(1) == (result != ZF_DONE), "a refused making has a place, and says so");
  check((table.length < ZF_TABLE_SIZE) == (result == ZF_TABLE_SHORT), "7 is for short tables");
  calls(data, size, at_end);
  if (result == ZF_DONE) check(ask(LAG, 255, 0, ZF_OUT_SIZE, at_end) == ZF_NO_LANE, "a table made by calls is good");
}

void run(const uint8_t *data, size_t size, const uint8_t *choice, int at_end) {
  static const uint64_t limits[] = {0, 1, 7, 8, 9, 100, 999, 1000, 1001, 1002, 1ull << 32, 1ull << 58, UINT64_MAX - 1, UINT64_MAX};
  uint64_t limit = choice[0] & 128 ? ZF_MOST_REQUESTS : limits[choice[0] % (sizeof limits / sizeof *limits)];
  size_t asked = ZF_ANSWER_AREA(limit > ZF_MOST_REQUESTS ? ZF_MOST_REQUESTS : limit);
  size_t length = choice[1] & 128 ? asked : choice[1] & 64 ? asked - 1 - choice[1] % 64 : choice[1] & 32 ? asked + choice[1] % 32 : asked;
  memcpy(lend(&input, size, at_end), data, size);
  memset(lend(&table, table_length(choice[2]), at_end), choice[2], table.length);
  lend(&answers, length, at_end);
  lend(&out, ZF_OUT_SIZE, at_end);
  memcpy(before, table.at, table.length);
  only_reading(&input, 1);
  /* 17 and 7 come before all else, and write nothing. */
  int bounds = limit > ZF_MOST_REQUESTS || length < asked || table.length < ZF_TABLE_SIZE;
  if (bounds) only_reading(&table, 1);
  if (bounds) only_reading(&answers, 1);
  uint64_t result = zf_run(input.at, input.length, limit, table.at, table.length, answers.at, answers.length, out.at, out.length);
  only_reading(&input, 0);
  only_reading(&table, 0);
  only_reading(&answers, 0);
  uint64_t answered = word(0), written = word(1), why = word(2);
  saw(30, result);
  saw(31, answered);
  saw(32, word(3));
  saw(33, written);
  saw(34, why);
  beside(&input);
  beside(&table);
  beside(&answers);
  beside(&out);
  check(of_setup(result) || result == ZF_TABLE_SHORT || result == ZF_RUN_BOUNDS, "a result that a run does not give");
  check(answered <= limit && answered <= ZF_MOST_REQUESTS, "more requests than the limit");
  check((why == ZF_STOP_REFUSAL || why == ZF_STOP_AT_PLACE) == (result != ZF_DONE), "why it stopped");
  check((why == ZF_STOP_REFUSAL) == (result == ZF_RUN_BOUNDS), "17 alone has no place");
  check((limit > ZF_MOST_REQUESTS || length < asked) == (result == ZF_RUN_BOUNDS), "17 is for bounds");
  check(written <= answers.length, "more bytes than the area has");
  check(memcmp(answers.at + written, fill, answers.length - written) == 0, "answer bytes past the last line were written");
  if (result == ZF_RUN_BOUNDS || result == ZF_TABLE_SHORT) {
    check(answered == 0 && written == 0 && memcmp(before, table.at, table.length) == 0, "17 and 7 write nothing");
    return;
  }
  check(written > 0 && answers.at[written - 1] == '\n', "the last line has its end");
  uint64_t lines = 0;
  for (size_t i = 0; i < written; i++) lines += answers.at[i] == '\n';
  check(lines == 1 || lines == answered + 2 + (result != ZF_DONE), "a line for each request");
  calls(data, size, at_end);
}
