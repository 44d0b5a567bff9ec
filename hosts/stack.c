/* How much stack the calls use: each runs on a stack of its own that was painted before, and what is not painted any more afterwards was used.
 * Prints the figures; fails if one is over what include/zenfrosta.h says. The calls have no arrays of a length that varies and none calls itself, so a
 * call that goes through all of its work uses what it ever uses. */
#define _GNU_SOURCE
#include <inttypes.h>
#include <stdio.h>
#include <string.h>
#include <ucontext.h>

#include "zenfrosta.h"

#define MOST 4096 /* the header: less than 4 KiB */
#define PAINT 0xA5

static uint8_t stack[262144] __attribute__((aligned(64)));
static uint8_t table[ZF_TABLE_SIZE], old[ZF_OLD_TABLE_SIZE], plan[ZF_PLAN_SIZE], board[ZF_BOARD_SIZE], out[ZF_OUT_SIZE];
static uint8_t setup[ZF_SETUP_MOST], sheet[ZF_SHEET_MOST], session[8192], answers[ZF_ANSWER_AREA(1000)];
static size_t setup_length, sheet_length, session_length;
static const uint8_t joined[] = {0x30, 0, 11, 0, 0, 0, 1, 0, 2, ZF_JOINED, 0, 0, 0, 3};
static const uint8_t left[] = {0x30, 0, 11, 0, 0, 0, 1, 0, 2, ZF_LEFT, 0, 0, 0, 4};
static ucontext_t here, there;
static uint64_t result;

static void nothing(void) { result = 0; }
static void setup_write(void) { result = zf_setup_write(plan, sizeof plan, setup, sizeof setup, out, sizeof out); }
static void setup_read(void) { result = zf_setup_read(setup, setup_length, plan, sizeof plan, out, sizeof out); }
static void sheet_write(void) { result = zf_sheet_write(plan, sizeof plan, sheet, sizeof sheet, out, sizeof out); }
static void sheet_read(void) { result = zf_sheet_read(sheet, sheet_length, plan, sizeof plan, out, sizeof out); }
static void make(void) { result = zf_make(setup, setup_length, table, sizeof table, out, sizeof out); }
static void convert(void) { result = zf_convert(old, sizeof old, table, sizeof table, out, sizeof out); }
static void put(void) { result = zf_put(table, sizeof table, 5, 1, 64, out, sizeof out); }
static void put_train(void) { result = zf_put_train(table, sizeof table, 7, 3, 1, 64, out, sizeof out); }
static void look(void) { result = zf_look(table, sizeof table, out, sizeof out); }
static void sets(void) { result = zf_sets(table, sizeof table, out, sizeof out); }
static void lag(void) { result = zf_lag(table, sizeof table, 5, out, sizeof out); }
static void show_clock(void) { result = zf_clock(table, sizeof table, out, sizeof out); }
static void show_lane(void) { result = zf_lane(table, sizeof table, 5, out, sizeof out); }
static void show_backlog(void) { result = zf_backlog(table, sizeof table, 5, out, sizeof out); }
static void show_record(void) { result = zf_record(table, sizeof table, 5, 0, out, sizeof out); }
static void show_train(void) { result = zf_train_record(table, sizeof table, 7, 3, 0, out, sizeof out); }
static void show_wait(void) { result = zf_wait(table, sizeof table, 7, 3, out, sizeof out); }
static void take(void) { result = zf_take(table, sizeof table, out, sizeof out); }
static void show_edition(void) { result = zf_edition(table, sizeof table, out, sizeof out); }
static void offer(void) {
  static uint8_t page[ZF_PAGE_MOST];
  static uint16_t edition = 0;
  const size_t length = zf_page_write(++edition, setup, setup_length, page, sizeof page);
  result = zf_offer(table, sizeof table, page, length, out, sizeof out);
}
static void restart(void) { result = zf_restart(table, sizeof table, out, sizeof out); }
static void run(void) { result = zf_run(session, session_length, 1000, table, sizeof table, answers, sizeof answers, out, sizeof out); }
static const uint8_t halt_setup[] = {0x01, 0, 2, 0, 2, 0x10, 0, 5, 0, 2, 0, 1, 0, 0x10, 0, 5, 1, 1, 0, 1, 0,
                                     0x10, 0, 5, 2, 0, 128, 1, 0, 0x10, 0, 5, 3, 0, 128, 1, 0, 0x7F, 0, 0};
static void halt_make(void) { result = zf_halt_make(halt_setup, sizeof halt_setup, table, sizeof table, out, sizeof out); }
static void halt_put(void) { result = zf_halt_put(table, sizeof table, 3, 1, 256, out, sizeof out); }
static void halt_take(void) { result = zf_halt_take(table, sizeof table, out, sizeof out); }
static void halt_look(void) { result = zf_halt_look(table, sizeof table, out, sizeof out); }
static void halt_sets(void) { result = zf_halt_sets(table, sizeof table, out, sizeof out); }
static void halt_lag(void) { result = zf_halt_lag(table, sizeof table, 3, out, sizeof out); }
static void halt_restart(void) { result = zf_halt_restart(table, sizeof table, out, sizeof out); }
static void begin(void) { result = zf_board_begin(board, sizeof board, out, sizeof out); }
static void join(void) { result = zf_board_record(board, sizeof board, joined, sizeof joined, out, sizeof out); }
static void leave(void) { result = zf_board_record(board, sizeof board, left, sizeof left, out, sizeof out); }
static void line(void) { result = zf_board_line(board, sizeof board, 0, out, sizeof out); }
static void clear(void) { result = zf_board_clear(board, sizeof board, 1, out, sizeof out); }

/* The bytes that a call used, its return address included. */
static size_t used(void (*call)(void)) {
  memset(stack, PAINT, sizeof stack);
  getcontext(&there);
  there.uc_stack.ss_sp = stack;
  there.uc_stack.ss_size = sizeof stack;
  there.uc_link = &here;
  makecontext(&there, call, 0);
  swapcontext(&here, &there);
  size_t low = 0;
  while (low < sizeof stack && stack[low] == PAINT) low++;
  return sizeof stack - low;
}

/* A session with every request: the setup, a put to each lane, then all of the others. */
static void write_session(void) {
  static const uint8_t others[] = {0x22, 0, 0, 0x23, 0, 0, 0x24, 0, 1, 5, 0x21, 0, 0, 0x25, 0, 0, 0x7F, 0, 0};
  memcpy(session, setup, setup_length);
  session_length = setup_length;
  for (uint8_t lane = 0; lane < 64; lane++) {
    const uint8_t field[] = {0x20, 0, 7, lane, 0xFF, 0xFF, 0xFF, 0xFF, 0, 64};
    memcpy(session + session_length, field, sizeof field);
    session_length += sizeof field;
  }
  memcpy(session + session_length, others, sizeof others);
  session_length += sizeof others;
}

int main(void) {
  static const struct {
    const char *name;
    void (*call)(void);
  } calls[] = {{"zf_setup_write", setup_write}, {"zf_setup_read", setup_read},   {"zf_sheet_write", sheet_write}, {"zf_sheet_read", sheet_read},
               {"zf_make", make},               {"zf_put", put},                 {"zf_put_train", put_train},     {"zf_put_train", put_train},
               {"zf_look", look},               {"zf_sets", sets},               {"zf_lag", lag},                 {"zf_clock", show_clock},
               {"zf_lane", show_lane},          {"zf_backlog", show_backlog},    {"zf_record", show_record},      {"zf_train_record", show_train},
               {"zf_wait", show_wait},          {"zf_edition", show_edition},    {"zf_offer", offer},             {"zf_take", take},
               {"zf_take", take},
               {"zf_take", take},               {"zf_offer", offer},             {"zf_restart", restart},         {"zf_run", run},
               {"zf_board_begin", begin},       {"zf_board_record", join},       {"zf_board_record", leave},      {"zf_board_line", line},
               {"zf_board_clear", clear},       {"zf_halt_make", halt_make},     {"zf_halt_put", halt_put},       {"zf_halt_look", halt_look},
               {"zf_halt_sets", halt_sets},     {"zf_halt_lag", halt_lag},       {"zf_halt_take", halt_take},     {"zf_halt_restart", halt_restart},
               {"zf_convert", convert}};
  size_t most = 0;
  /* A table of 16 places (docs/TABLE.md): lanes 0 and 1 of weight 512 and longest 1,500, idle. */
  zf_plan_set_word(old, 1, 3);
  zf_plan_set_word(old, 80, 0x00080016020005DC);
  zf_plan_set_word(old, 84, 0x00080016020005DC);
  zf_plan_new(plan);
  for (uint8_t lane = 0; lane < 64; lane++) zf_plan_set_lane(plan, lane, 16, (uint16_t)(64 + 22 * lane));
  const size_t base = used(nothing);
  for (size_t i = 0; i < sizeof calls / sizeof *calls; i++) {
    const size_t size = used(calls[i].call) - base;
    if (result != ZF_DONE) {
      printf("%s: refused with %" PRIu64 ": %s\n", calls[i].name, result, zf_text(result));
      return 1;
    }
    if (calls[i].call == setup_write) setup_length = (size_t)zf_word(out, 0);
    if (calls[i].call == sheet_write) sheet_length = (size_t)zf_word(out, 0);
    if (calls[i].call == sheet_read) {
      /* No sheet has a shared lane; the table that is made has one. */
      zf_plan_set_shared(plan, 7, 1);
      setup_write();
      setup_length = (size_t)zf_word(out, 0);
    }
    if (calls[i].call == restart) write_session();
    printf("%-16s %5zu bytes of stack\n", calls[i].name, size);
    if (size > most) most = size;
  }
  return most < MOST ? 0 : 1;
}
