/* A fuzz target over every exported call, through the static library as hosts link it (areas.h says how areas are lent).
 *
 * An input is a mode, four bytes that choose lengths and sides, and the rest:
 *   0  a setup for zf_make, then the calls on what it made
 *   1  a table made by calls, with shared lanes or without, then changed word by word (three bytes: the word, and how), then the calls
 *   2  a table that is the rest, over and over, then the calls
 *   3  a session for zf_run, then the calls on what it left
 *   4  the desk's board: one made by calls, or bytes, changed byte by byte (three bytes: the line, the byte and how), then its calls
 *   8  plans: a setup that is read into a plan area and written back, or an area that is filled word by word (four bytes: the word, how, and a number)
 *  16  a table of 16 places, changed word by word as in mode 1, or cut; converted, then the calls on what was made of it
 *  32  a settings page, offered to a table made by calls that holds records, to one that holds none, or to one with a page that waits; then the calls
 *  64  a text sheet that is read into a plan area and written back, or an area that is filled as in mode 8 and written as a sheet
 * 128  the small halt: a setup for zf_halt_make, or a table of the halt's or of another setup, changed or not, then the halt's calls beside the others
 */
#include "areas.h"

int LLVMFuzzerInitialize(int *argc, char ***argv);
int LLVMFuzzerTestOneInput(const uint8_t *data, size_t size);

int LLVMFuzzerInitialize(int *argc, char ***argv) {
  (void)argc;
  (void)argv;
  check(zf_table_size() == ZF_TABLE_SIZE, "the table's size");
  check(zf_old_table_size() == ZF_OLD_TABLE_SIZE, "an old table's size");
  check(zf_board_size() == ZF_BOARD_SIZE, "the board's size");
  check(zf_plan_size() == ZF_PLAN_SIZE, "a plan area's size");
  check(zf_version() == ZF_VERSION, "the library is of another version than the header");
  memset(fill, FILL, sizeof fill);
  reserve(&input, ZF_OLD_TABLE_SIZE + 32 + WATCHED);
  reserve(&table, ZF_TABLE_SIZE + 32 + WATCHED);
  reserve(&answers, ZF_ANSWER_AREA(ZF_MOST_REQUESTS) + 32 + WATCHED);
  reserve(&out, 64 + WATCHED);
  make_samples();
  return 0;
}

int LLVMFuzzerTestOneInput(const uint8_t *data, size_t size) {
  if (size < 5 || size > MOST_INPUT) return 0;
  const uint8_t *choice = data + 1;
  int at_end = (choice[3] & 1) == 0;
  const uint8_t *rest = data + 5;
  size_t left = size - 5;
  static const struct {
    uint8_t bit;
    void (*mode)(const uint8_t *, size_t, const uint8_t *, int);
  } modes[] = {{128, halts}, {64, sheets}, {32, pages}, {16, convert}, {8, plans}, {4, boards}};
  for (size_t i = 0; i < sizeof modes / sizeof *modes; i++) {
    if (data[0] & modes[i].bit) {
      modes[i].mode(rest, left, choice, at_end);
      return 0;
    }
  }
  switch (data[0] & 3) {
    case 0: make(rest, left, choice[0], at_end); break;
    case 1:
      memset(lend(&table, ZF_TABLE_SIZE + choice[0] % 16u, at_end), choice[1], table.length);
      memcpy(table.at, choice[2] & 1 ? shared_sample : sample, ZF_TABLE_SIZE);
      change(&table, rest, left);
      calls(rest, left, at_end);
      break;
    case 2:
      lend(&table, table_length(choice[0]), at_end);
      for (size_t i = 0; i < table.length; i++) table.at[i] = left == 0 ? choice[1] : rest[i % left];
      calls(choice, 4, at_end);
      break;
    default: run(rest, left, choice, at_end); break;
  }
  return 0;
}
