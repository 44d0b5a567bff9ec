/* The header's functions that read an answer's words by their meaning, each held to a call whose answer is known. */
#include <inttypes.h>
#include <stdio.h>

#include "zenfrosta.h"

static uint8_t table[ZF_TABLE_SIZE], answers[ZF_ANSWER_AREA(10)], out[ZF_OUT_SIZE];
static int wrong = 0;

static void is(const char *what, uint64_t value, uint64_t asked) {
  if (value == asked) return;
  printf("%s: %" PRIu64 ", and not %" PRIu64 "\n", what, value, asked);
  wrong = 1;
}

int main(void) {
  /* Framing 20; lane 3 of weight 512 and longest 1,500, shared; then two puts, a take, and a lane that is not there. */
  const uint8_t session[] = {0x01, 0, 2, 0, 1, 0x11, 0, 1, 20, 0x10, 0, 5, 3, 2, 0, 5, 0xDC, 0x12, 0, 1, 3, 0x7F, 0, 0,
                             0x26, 0, 8, 3, 5, 0, 0, 0, 9, 0, 100, 0x20, 0, 7, 3, 0, 0, 0, 8, 0, 50, 0x21, 0, 0, 0x99, 0, 0};
  is("zf_run", zf_run(session, sizeof session, 10, table, sizeof table, answers, sizeof answers, out, sizeof out), ZF_UNKNOWN_TAG);
  is("zf_out_answered", zf_out_answered(out), 3);
  is("zf_out_written", zf_out_written(out), sizeof "lanes 1\nput ok 0\nput ok 0\ntake 3 9 100 5\nno 2 48\nend 3\n" - 1);
  is("zf_out_stop", zf_out_stop(out), ZF_STOP_AT_PLACE);
  is("zf_out_stop_place", zf_out_stop_place(out), sizeof session - 3);
  is("zf_clock", zf_clock(table, sizeof table, out, sizeof out), ZF_DONE);
  is("zf_out_clock", zf_out_clock(out), 1024 * 120);
  is("zf_lane", zf_lane(table, sizeof table, 3, out, sizeof out), ZF_DONE);
  is("zf_out_weight", zf_out_weight(out), 512);
  is("zf_out_longest", zf_out_longest(out), 1500);
  is("zf_out_framing", zf_out_framing(out), 20);
  is("zf_out_group", zf_out_group(out), 22);
  is("zf_out_shared", (uint64_t)zf_out_shared(out), 1);
  is("zf_backlog", zf_backlog(table, sizeof table, 3, out, sizeof out), ZF_DONE);
  is("zf_out_held", zf_out_held(out), 1);
  is("zf_out_time", zf_out_time(out), 2048 * 120);
  /* Shared, none ahead: c (1 + h) 21 longest + 4 slots + 1,024 (1,500 + h), in bytes of the line; no record of the setup is costlier than 1,500 + h. */
  is("zf_wait", zf_wait(table, sizeof table, 3, 0, out, sizeof out), ZF_DONE);
  is("zf_out_wait", zf_out_wait(out), (2048 * 21 * 21 * 1500ull + 4 * 4194304 + 1024 * 1520) / 1024);
  is("zf_out_tight_wait", zf_out_tight_wait(out), zf_out_wait(out));
  is("zf_lag", zf_lag(table, sizeof table, 3, out, sizeof out), ZF_DONE);
  is("zf_out_lag", (uint64_t)-zf_out_lag(out), 1024 * 120);
  is("zf_look", zf_look(table, sizeof table, out, sizeof out), ZF_DONE);
  is("zf_out_lane", zf_out_lane(out), 3);
  is("zf_out_mark", zf_out_mark(out), 8);
  is("zf_out_length", zf_out_length(out), 50);
  is("zf_out_train", zf_out_train(out), 0);
  is("zf_edition", zf_edition(table, sizeof table, out, sizeof out), ZF_DONE);
  is("zf_out_edition", zf_out_edition(out), 0);
  is("zf_out_waiting", zf_out_waiting(out), 0);
  is("zf_lane of 4", zf_lane(table, sizeof table, 4, out, sizeof out), ZF_NO_LANE);
  is("zf_out_has_place", (uint64_t)zf_out_has_place(out), 0);
  return wrong;
}
