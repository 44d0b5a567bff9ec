/* The calls on a table that is lent: each result is one that the call can give, and a call that is refused or only reads writes nothing. */
#include "areas.h"

/* Whether the table, or a lent answer buffer that is too short, is known to make every call refuse; then no call may write a byte. */
static int not_good;

/* The calls that only read. */
static int reading(enum call call) {
  return call != PUT && call != TAKE && call != RESTART && call != PUT_TRAIN;
}

/* Whether this call is refused whatever a good table holds. */
static int refuses(enum call call, uint8_t lane, uint64_t length, size_t out_length) {
  if (not_good || out_length < ZF_OUT_SIZE || table.length < ZF_TABLE_SIZE) return 1;
  return (call == PUT || call == PUT_TRAIN) && (lane > 63 || length == 0 || length > 1500);
}

/* The words of a call that is done are within their numbers. */
static void values(enum call call) {
  if (call == TAKE || call == LOOK || call == TRAIN_RECORD || call == RECORD) {
    check(word(0) < 64 && word(1) <= UINT32_MAX && word(2) >= 1 && word(2) <= 1500 && word(3) < 8, "a record outside its numbers");
    if (call == RECORD) check(word(3) == 0, "the queue shown is train 0's");
  }
  if (call == PUT || call == PUT_TRAIN) check(word(0) < 64 && word(1) == 0 && word(2) == 0 && word(3) == 0, "a number ahead that no lane can hold");
  if (call == EDITION) check(word(0) <= UINT16_MAX && word(1) <= UINT16_MAX && (word(1) == 0 || word(1) > word(0)), "editions that no table has");
  if (call == SETS) saw(16, word(0) >> 16 ^ word(1) ^ word(2) ^ word(3));
  if (call == CLOCK) check(word(0) < (1ull << 62) + (1ull << 44) && word(1) == 0 && word(2) == 0 && word(3) == 0, "a clock that no good table has");
  if (call == LANE) {
    check(word(0) >= 1 && word(0) <= 1024 && word(1) >= 64 && word(1) <= 1500 && word(2) <= 64, "a lane outside its numbers");
    check((word(3) & 0xFFFFFFFF) >= 16 && (word(3) & 0xFFFFFFFF) <= 31 && word(3) >> 33 == 0, "a group outside its numbers");
  }
  if (call == BACKLOG) check(word(0) <= 64 && word(2) == 0 && word(3) == 0, "a backlog that no lane has");
  if (call == WAIT) check(word(0) >= word(1) && word(1) > 0 && word(2) == 0 && word(3) == 0, "a wait and the tighter one");
}

/* One call: its result is one of those that it can give, and a refused or reading call writes nothing. */
uint64_t ask(enum call call, uint8_t lane, uint64_t length, size_t out_length, int at_end) {
  lend(&out, out_length, at_end);
  memcpy(before, table.at, table.length);
  int reads = reading(call);
  /* Trains 0 to 7 mostly, and now and then one that there is not. */
  uint8_t train = (uint8_t)(length % 9);
  int protected = reads || refuses(call, lane, length, out_length);
  if (protected) only_reading(&table, 1);
  uint64_t result = 0;
  switch (call) {
    case PUT: result = zf_put(table.at, table.length, lane, 7, length, out.at, out.length); break;
    case TAKE: result = zf_take(table.at, table.length, out.at, out.length); break;
    case LOOK: result = zf_look(table.at, table.length, out.at, out.length); break;
    case SETS: result = zf_sets(table.at, table.length, out.at, out.length); break;
    case LAG: result = zf_lag(table.at, table.length, lane, out.at, out.length); break;
    case PUT_TRAIN: result = zf_put_train(table.at, table.length, lane, train, 7, length, out.at, out.length); break;
    case TRAIN_RECORD: result = zf_train_record(table.at, table.length, lane, train, length / 9 % 9, out.at, out.length); break;
    case EDITION: result = zf_edition(table.at, table.length, out.at, out.length); break;
    case CLOCK: result = zf_clock(table.at, table.length, out.at, out.length); break;
    case LANE: result = zf_lane(table.at, table.length, lane, out.at, out.length); break;
    case BACKLOG: result = zf_backlog(table.at, table.length, lane, out.at, out.length); break;
    case RECORD: result = zf_record(table.at, table.length, lane, length % 66, out.at, out.length); break;
    case WAIT: result = zf_wait(table.at, table.length, lane, length % 66, out.at, out.length); break;
    default: result = zf_restart(table.at, table.length, out.at, out.length); break;
  }
  if (protected) only_reading(&table, 0);
  saw(call, result);
  beside(&out);
  beside(&table);
  int wrote = memcmp(before, table.at, table.length) != 0;
  if (out_length < ZF_OUT_SIZE) {
    check(result == ZF_BUFFER_SHORT && !wrote, "a short answer buffer");
    check(memcmp(out.at, fill, out_length) == 0, "a short answer buffer was written");
    return result;
  }
  check(result == ZF_DONE || (result >= ZF_NOT_GOOD && result <= ZF_NOTHING_HELD) || result == ZF_NO_TRAIN || result == ZF_TRAIN_FULL,
        "a result that no call gives");
  check((result != ZF_NO_TRAIN && result != ZF_TRAIN_FULL) || call == PUT || call == PUT_TRAIN || call == TRAIN_RECORD || call == WAIT, "trains are of puts");
  check(!wrote || (result == ZF_DONE && !reads), "a refused or reading call wrote the table");
  check(table.length >= ZF_TABLE_SIZE || result == ZF_NOT_GOOD, "a short table is not good");
  if (table.length > ZF_TABLE_SIZE) {
    size_t past = table.length - ZF_TABLE_SIZE;
    check(memcmp(before + ZF_TABLE_SIZE, table.at + ZF_TABLE_SIZE, past) == 0, "bytes past the table were written");
  }
  if (result != ZF_DONE) check(no_words(), "a refusal with values");
  if (result == ZF_DONE) values(call);
  return result;
}

/* The calls on the table that is lent: each once, and a few by the input's own choice. */
void calls(const uint8_t *data, size_t size, int at_end) {
  uint64_t good = ask(SETS, 0, 0, ZF_OUT_SIZE, at_end);
  not_good = good == ZF_NOT_GOOD;
  for (int call = PUT; call < CALLS; call++) {
    uint64_t looked[4] = {0, 0, 0, 0}, result = ZF_DONE;
    if (call == TAKE && (result = ask(LOOK, 0, 0, ZF_OUT_SIZE, at_end)) == ZF_DONE) {
      for (int i = 0; i < 4; i++) looked[i] = word(i);
    }
    uint64_t given = ask((enum call)call, 0, 64, ZF_OUT_SIZE, at_end);
    check((good == ZF_NOT_GOOD) == (given == ZF_NOT_GOOD) || call > PUT, "two calls judge one table otherwise");
    if (call == TAKE) {
      check(given == result, "take and look differ");
      if (given == ZF_DONE) check(looked[0] == word(0) && looked[1] == word(1) && looked[2] == word(2) && looked[3] == word(3), "take and look differ");
    }
    if (good == ZF_NOT_GOOD) check(given == ZF_NOT_GOOD, "a table that is not good was taken by another call");
  }
  for (size_t i = 0; i + 3 <= size && i < 3 * 48; i += 3) {
    uint64_t length = (uint64_t)data[i + 2] * (data[i] & 16 ? 6 : 1);
    size_t out_length = data[i] & 32 ? ZF_OUT_SIZE : data[i] & 64 ? ZF_OUT_SIZE + 9 : data[i] & 128 ? data[i + 2] % 40 : ZF_OUT_SIZE;
    ask((enum call)((data[i] & 15) % CALLS), data[i + 1] & 128 ? data[i + 1] : data[i + 1] & 63, length, out_length, at_end);
  }
  not_good = 0;
}

int of_setup(uint64_t result) {
  return result <= ZF_OUT_OF_ORDER || result == ZF_WEIGHTS_OVER || (result >= ZF_BAD_FORMAT && result <= ZF_BAD_FRAMING);
}
