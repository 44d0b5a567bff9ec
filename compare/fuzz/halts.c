/* The small halt: its calls are the others on a table of the halt's own setup, and give 10 on any other. */
#include "areas.h"

/* clang-format off */
static const uint8_t own_setup[] = {
  0x01, 0, 2, 0, 1,
  0x10, 0, 5, 0, 2, 0, 1, 0,
  0x10, 0, 5, 1, 1, 0, 1, 0,
  0x10, 0, 5, 2, 0, 0x80, 1, 0,
  0x10, 0, 5, 3, 0, 0x80, 1, 0,
  0x7F, 0, 0,
};
/* clang-format on */
/* A page with the same setup, which waits where a record is held. */
static uint8_t own_page[sizeof own_setup + ZF_PAGE_MORE];

/* The call of the halt, or the other one of the same name. */
static uint64_t call_of(int halt, enum call call, uint8_t *at, size_t size, uint8_t lane, uint64_t length, uint8_t *to, size_t room) {
  switch (call) {
    case PUT: return (halt ? zf_halt_put : zf_put)(at, size, lane, 7, length, to, room);
    case TAKE: return (halt ? zf_halt_take : zf_take)(at, size, to, room);
    case LOOK: return (halt ? zf_halt_look : zf_look)(at, size, to, room);
    case SETS: return (halt ? zf_halt_sets : zf_sets)(at, size, to, room);
    case LAG: return (halt ? zf_halt_lag : zf_lag)(at, size, lane, to, room);
    default: return (halt ? zf_halt_restart : zf_restart)(at, size, to, room);
  }
}

/* Whether the table that is lent is good, of the halt's setup, and without a page that waits: by the calls that show it. */
static int is_own(int at_end) {
  static const uint64_t weights[] = {512, 256, 128, 128};
  for (uint8_t lane = 0; lane < 64; lane++) {
    uint64_t result = ask(LANE, lane, 0, ZF_OUT_SIZE, at_end);
    if (result != (lane < 4 ? ZF_DONE : ZF_NO_LANE)) return 0;
    if (lane < 4 && (word(0) != weights[lane] || word(1) != 256 || word(2) != 0 || word(3) >> 32 != 0)) return 0;
  }
  return ask(EDITION, 0, 0, ZF_OUT_SIZE, at_end) == ZF_DONE && word(1) == 0;
}

/* One call of the halt beside the other on a copy: the same result, words and bytes, or 10 and no byte written. */
static void ask_halt(enum call call, uint8_t lane, uint64_t length, size_t out_length, int own, int at_end) {
  static uint8_t twin[ZF_TABLE_SIZE + 64];
  uint8_t answer[ZF_OUT_SIZE];
  memcpy(twin, table.at, table.length);
  lend(&out, out_length, at_end);
  int reads = call == LOOK || call == SETS || call == LAG, refused = !own || out_length < ZF_OUT_SIZE;
  if (reads || refused) only_reading(&table, 1);
  uint64_t result = call_of(1, call, table.at, table.length, lane, length, out.at, out.length);
  only_reading(&table, 0);
  saw(80 + call, result);
  beside(&out);
  beside(&table);
  if (out_length < ZF_OUT_SIZE) {
    check(result == ZF_BUFFER_SHORT && memcmp(out.at, fill, out_length) == 0, "a short answer buffer of the halt");
    return;
  }
  if (!own) {
    check(result == ZF_NOT_GOOD && no_words(), "the halt took a table that is not its own");
    return;
  }
  check(result == call_of(0, call, twin, table.length, lane, length, answer, sizeof answer), "the halt's result is another");
  check(memcmp(answer, out.at, ZF_OUT_SIZE) == 0, "the halt's words are others");
  check(memcmp(twin, table.at, table.length) == 0, "the halt's table is another");
}

/* The halt's calls on the table that is lent: each once, and some by the input's own choice. */
static void halt_calls(const uint8_t *data, size_t size, int at_end) {
  int own = is_own(at_end);
  saw(90, (uint64_t)own);
  for (int call = PUT; call <= RESTART; call++) ask_halt((enum call)call, 1, 64, ZF_OUT_SIZE, own, at_end);
  for (size_t i = 0; i + 3 <= size && i < 3 * 40; i += 3) {
    size_t out_length = data[i] & 64 ? data[i + 2] % 40u : ZF_OUT_SIZE;
    uint8_t lane = data[i + 1] & 128 ? data[i + 1] : data[i + 1] & 7;
    ask_halt((enum call)((data[i] & 15) % (RESTART + 1)), lane, data[i] & 16 ? 250u + data[i + 2] % 9u : data[i + 2], out_length, own, at_end);
  }
  check(!own || is_own(at_end), "the halt's table is its own after its calls");
}

static uint64_t make_halt(const uint8_t *data, size_t size, size_t length, int at_end) {
  memcpy(lend(&input, size, at_end), data, size);
  lend(&table, length, at_end);
  lend(&out, ZF_OUT_SIZE, at_end);
  memcpy(before, table.at, table.length);
  only_reading(&input, 1);
  if (length < ZF_TABLE_SIZE) only_reading(&table, 1);
  uint64_t result = zf_halt_make(input.at, input.length, table.at, table.length, out.at, out.length);
  only_reading(&input, 0);
  only_reading(&table, 0);
  saw(91, result);
  saw(92, word(0));
  beside(&input);
  beside(&table);
  beside(&out);
  check(of_setup(result) || result == ZF_TABLE_SHORT || result == ZF_NOT_A_HALT, "a result that making a halt does not give");
  check(result == ZF_DONE || memcmp(before, table.at, table.length) == 0, "a refused making wrote the table");
  check(result != ZF_DONE || word(0) == 4, "a halt has four lanes");
  check(word(1) == (result != ZF_DONE && result != ZF_NOT_A_HALT), "90 has no place");
  return result;
}

void halts(const uint8_t *data, size_t size, const uint8_t *choice, int at_end) {
  if ((choice[0] & 3) == 0) {
    make_halt(data, size, table_length(choice[1]), at_end);
    halt_calls(choice, 4, at_end);
    return;
  }
  check(make_halt(own_setup, sizeof own_setup, ZF_TABLE_SIZE + choice[1] % 8u, at_end) == ZF_DONE, "the halt's own setup");
  for (uint8_t i = 0; i < choice[1] >> 3; i++) ask(PUT, i & 3, 1 + i * 8u, ZF_OUT_SIZE, at_end);
  if ((choice[0] & 3) == 2) memcpy(table.at, choice[2] & 1 ? shared_sample : sample, ZF_TABLE_SIZE);
  if ((choice[0] & 3) == 3) {
    zf_page_write(choice[2], own_setup, sizeof own_setup, own_page, sizeof own_page);
    lend(&out, ZF_OUT_SIZE, at_end);
    zf_offer(table.at, table.length, own_page, sizeof own_page, out.at, out.length);
  }
  if (choice[0] & 4) change(&table, data, size);
  halt_calls(data, size, at_end);
}
