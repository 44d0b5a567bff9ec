/* Zenfrosta for hosts in C: the public calls and the session run, in the static library libzenfrosta.a (rt lib in crates/zenfrosta).
 *
 * One rule for every answer:
 *
 *   - The result is 0, or the number of the refusal (ZF_... below).
 *   - Values stand in the lent answer buffer `out`, which has at least 32 bytes: four 64-bit words, each low byte first. What a call does not
 *     use is 0. A refusal leaves its place in word 0 and 1 in word 1; 0 in both if it has none. (0 is a place, too.) zf_run has the place in
 *     word 3, and says in word 2 whether there is one.
 *   - A shorter answer buffer gives ZF_BUFFER_SHORT: nothing is done and nothing is written.
 *
 * A byte area is a pointer and its length in bytes. Any bytes are allowed in it, at any address. What the host must see to: a pointer may be
 * read (and written, where it is not const) over its whole length and is not null, also where the length is 0; areas of one call do not overlap;
 * no other thread uses them during the call; a length is at most PTRDIFF_MAX. The library keeps no pointer, has no state of its own, takes no
 * memory from a heap, and calls nothing but the C library's memcpy and memset. On x86-64 a call uses less than 4 KiB of stack (hosts/stack.c measures it).
 */
#ifndef ZENFROSTA_H
#define ZENFROSTA_H

#include <stddef.h>
#include <stdint.h>

#ifdef __cplusplus
extern "C" {
#endif

/* The fixed size of a table in bytes, as zf_table_size() gives it. A lent table may be longer: bytes past the size are never touched. */
#define ZF_TABLE_SIZE 65536

/* The least length of an answer buffer. */
#define ZF_OUT_SIZE 32

/* The bytes of an answer area for a run with a limit: 64 for each line. A limit over 1,000 is refused with any area, so it needs no more. */
#define ZF_ANSWER_AREA(limit) ((uint64_t)(limit) > 1000 ? (size_t)64128 : 64 * ((size_t)(limit) + 2))

/* The greatest limit of a run. */
#define ZF_MOST_REQUESTS 1000

/* Results. 1 to 7 and 50 to 54 come from zf_make and zf_run, and but for 7 from zf_offer; 10 to 16, 70 and 71 from the other calls, 17 from zf_run, 7 and
 * 10 from zf_convert, 60 from zf_offer. docs/REFUSALS.md says what to mend. */
#define ZF_DONE 0
#define ZF_CUT 1             /* a field runs past the end, or the input ends before 0x7F; place: the field's tag, or the input's length */
#define ZF_UNKNOWN_TAG 2     /* tag unknown in this part; place: the field's tag */
#define ZF_WRONG_LENGTH 3    /* length wrong for the tag; place: the field's tag */
#define ZF_OUT_OF_ORDER 4    /* a field out of its order, or a byte after the last 0x7F; place: the field's tag, or that byte */
#define ZF_WEIGHTS_OVER 6    /* the weights so far sum to more than 1,024; place: the first byte of the weight that went over */
#define ZF_TABLE_SHORT 7     /* table shorter than ZF_TABLE_SIZE, on making or converting one; place: 0 */
#define ZF_NOT_GOOD 10       /* the table is not good; never on one that zf_make or zf_run made, also before an update, and these calls alone changed */
#define ZF_NO_LANE 11        /* lane not in the setup */
#define ZF_BAD_LENGTH 12     /* length 0, or over the lane's longest; framing bytes are not counted */
#define ZF_LANE_FULL 13      /* the lane holds 64 records; in a shared lane 71 takes its place */
#define ZF_STILL_HOLDS 15    /* restart while a record is held */
#define ZF_NOTHING_HELD 16   /* take or look with nothing held */
#define ZF_RUN_BOUNDS 17     /* a run's limit over 1,000, or its answer area too short */
#define ZF_BAD_FORMAT 50     /* the setup's format is neither 1 nor 2; place: the format's first byte */
#define ZF_BAD_LANE 51       /* a lane number over 63 in the setup; place: the lane number */
#define ZF_BAD_WEIGHT 52     /* a weight that is not 1 to 1,024; place: the weight's first byte */
#define ZF_BAD_LONGEST 53    /* a longest that is not 64 to 1,500; place: the longest's first byte */
#define ZF_BAD_FRAMING 54    /* framing over 64 in the setup; place: the framing number */
#define ZF_OLD_EDITION 60    /* a settings page whose edition is not above the last one taken and the one that waits */
#define ZF_NO_TRAIN 70       /* a train over 7, or over 0 in a lane that is not shared */
#define ZF_TRAIN_FULL 71     /* the train's queue in a shared lane holds 8 records */
#define ZF_NOT_A_HALT 90     /* zf_halt_make: a good setup that is not the small halt's */
#define ZF_BUFFER_SHORT 255  /* the answer buffer is shorter than 32 bytes */

/* Why a run stopped: word 2 of zf_run's answer. */
#define ZF_STOP_END 0
#define ZF_STOP_LIMIT 1
#define ZF_STOP_REFUSAL 2  /* a refusal that has no place */
#define ZF_STOP_AT_PLACE 3 /* a refusal, and word 3 is its place */

uint64_t zf_table_size(void);

/* Makes the fresh table of a setup. out: the number of lanes. */
uint64_t zf_make(const uint8_t *setup, size_t setup_length, uint8_t *table, size_t table_length, uint8_t *out, size_t out_length);

/* Puts a record into a lane; the record is its mark, which the unit only carries, and its length in bytes. In a lane that trains share the record is
 * train 0's. out: how many records the lane held before it, 0 to 63; in a shared lane how many train 0 held, 0 to 7. So many of its train go out first. */
uint64_t zf_put(uint8_t *table, size_t table_length, uint8_t lane, uint32_t mark, uint64_t length, uint8_t *out, size_t out_length);

/* Puts a record of a train into a lane: trains 0 to 7 in a shared lane, train 0 alone in another, where it is zf_put. Each train of a shared lane has a
 * queue of 8 records, and they take turns by bytes. out: how many records the train held before it, 0 to 7 in a shared lane. Refusals: 10, 11, 70, 12, then
 * 13, or 71 in a shared lane. */
uint64_t zf_put_train(uint8_t *table, size_t table_length, uint8_t lane, uint8_t train, uint32_t mark, uint64_t length, uint8_t *out,
                      size_t out_length);

/* Takes the next record off the table. out: its lane, mark, length and train; the train is 0 in a lane that is not shared. */
uint64_t zf_take(uint8_t *table, size_t table_length, uint8_t *out, size_t out_length);

/* Looks at the record that zf_take would take. out: its lane, mark, length and train. */
uint64_t zf_look(const uint8_t *table, size_t table_length, uint8_t *out, size_t out_length);

/* The group sets. out: the words ER, IR, EB and IB, bit i for group i. */
uint64_t zf_sets(const uint8_t *table, size_t table_length, uint8_t *out, size_t out_length);

/* How far the clock is ahead of a lane. out: the lag, a signed number in two's complement. */
uint64_t zf_lag(const uint8_t *table, size_t table_length, uint8_t lane, uint8_t *out, size_t out_length);

/* The seven calls below show a table and change nothing. Like every call they test the whole table first: 10 if it is not good.
 *
 * The clock V. out: V. */
uint64_t zf_clock(const uint8_t *table, size_t table_length, uint8_t *out, size_t out_length);

/* The editions of settings pages (zf_offer). out: the last edition taken, 0 before any; and the edition of the page that waits, 0 where none does. */
uint64_t zf_edition(const uint8_t *table, size_t table_length, uint8_t *out, size_t out_length);

/* What the setup in force gives a lane. out: weight, longest, the line's framing bytes h, and the group index, with 2^32 more where the lane is
 * shared; c is 1,048,576 / weight, rounded up. 11 if the lane is not in the setup, so the lanes 0 to 63 tell the whole setup. */
uint64_t zf_lane(const uint8_t *table, size_t table_length, uint8_t lane, uint8_t *out, size_t out_length);

/* How many records wait in a lane, and its time. out: the number, 0 to 64, of all its trains together; then S where the number is not 0, and F
 * where it is. 11 as above. */
uint64_t zf_backlog(const uint8_t *table, size_t table_length, uint8_t lane, uint8_t *out, size_t out_length);

/* The record of a lane that `before` others of this lane go out before; 0 is the first. In a shared lane the queue shown is train 0's, and `before` counts
 * that train's records alone. out: lane, mark, length, and 0 for the train. 11 as above; 16 if no more than `before` records wait there. */
uint64_t zf_record(const uint8_t *table, size_t table_length, uint8_t lane, uint64_t before, uint8_t *out, size_t out_length);

/* The record of a train that `before` others of this train go out before. What other trains of the lane send in between depends on the puts to come;
 * zf_look tells which record is next. out: lane, mark, length, train. Refusals: 10, 11, 70, 16. */
uint64_t zf_train_record(const uint8_t *table, size_t table_length, uint8_t lane, uint8_t train, uint64_t before, uint8_t *out,
                         size_t out_length);

/* How long a record can wait at worst that was put to a lane and reported `ahead` records ahead: zf_put's answer, 0 to 63, in a shared lane 0 to 7. By
 * the setup in force alone, whatever else the table holds. out: bytes of the line, framing counted: once all lanes together have sent so many since the
 * put, the record is out, right after those ahead of it. Word 0 is the figure by 1,500 bytes, as it holds for every setup; word 1 the one by the setup's
 * own costliest record, which is never greater. docs/FAIRNESS.md has both in words and seconds. Refusals: 10, 11, then 13, or 71 in a shared lane, for
 * more records ahead than an accepted put can report. */
uint64_t zf_wait(const uint8_t *table, size_t table_length, uint8_t lane, uint64_t ahead, uint8_t *out, size_t out_length);

/* Gives the fresh table of the same setup, once no record is held. The edition last taken stays. */
uint64_t zf_restart(uint8_t *table, size_t table_length, uint8_t *out, size_t out_length);

/* Offers a settings page: a whole setup with an edition, as a unit in the field gets it over the air (docs/PAGES.md). A page whose edition is above the
 * last one taken and the one that waits is accepted. With no record held it is in force at once: the table is then the fresh one of its setup. Else it
 * waits, in place of one that waited; the zf_take that hands out the last record brings it into force, and that take's answer is by the setup before. out:
 * ZF_IN_FORCE or ZF_WAITS. Refusals: 10; then those of a page, 1 to 4, 50 to 54 and 6, with their place in the page; then 60, which has none. A refusal
 * changes nothing. Lanes may be others after a change: ask zf_edition when it matters, or zf_lane. */
uint64_t zf_offer(uint8_t *table, size_t table_length, const uint8_t *page, size_t page_length, uint8_t *out, size_t out_length);

/* What zf_offer says of a page that it accepts. */
#define ZF_IN_FORCE 0
#define ZF_WAITS 1

/* A page is the field 0x40 (edition), the field 0x41 (a setup) and the end field 0x7F; this many bytes more than its setup. */
#define ZF_PAGE_MORE 11
#define ZF_PAGE_MOST (ZF_SETUP_MOST + ZF_PAGE_MORE)

/* Writes a page around a setup, which has at most 65,535 bytes. The page's length; 0 and nothing written where `length` bytes are too few or the setup is
 * longer. Whether a unit takes it is for zf_offer to say. */
static inline size_t zf_page_write(uint16_t edition, const uint8_t *setup, size_t setup_length, uint8_t *page, size_t length) {
  if (setup_length > 0xFFFF || length < setup_length + ZF_PAGE_MORE) return 0;
  const uint8_t head[] = {0x40, 0, 2, (uint8_t)(edition >> 8), (uint8_t)(edition & 0xFF),
                          0x41, (uint8_t)(setup_length >> 8), (uint8_t)(setup_length & 0xFF)};
  for (size_t i = 0; i < sizeof head; i++) page[i] = head[i];
  for (size_t i = 0; i < setup_length; i++) page[sizeof head + i] = setup[i];
  page[sizeof head + setup_length] = 0x7F;
  page[sizeof head + setup_length + 1] = 0;
  page[sizeof head + setup_length + 2] = 0;
  return setup_length + ZF_PAGE_MORE;
}

/* Runs a session: a setup, requests, an end field. The answer lines stand in `answers`. out: requests answered, answer bytes written, why it
 * stopped (ZF_STOP_...), and a refusal's place. The result is 0 at the end field or the limit, else the number of the refusal. */
uint64_t zf_run(const uint8_t *session, size_t session_length, uint64_t limit, uint8_t *table, size_t table_length, uint8_t *answers,
                size_t answers_length, uint8_t *out, size_t out_length);

/* ---- The small halt
 *
 * A unit with lanes 0 to 3 of weights 512, 256, 128 and 128, longest 256 each, no framing bytes and no lane that trains share: this setup, in either
 * format, and no other. These calls are those above on a table of that setup; a table of another setup, or with a settings page that waits, gives 10. As
 * no record is longer than 256 bytes, a lane that holds one and sends none sees fewer bytes sent: 2,304 in lane 0, 4,352 in lane 1, 8,448 in lanes 2
 * and 3.
 *
 * Makes the halt's fresh table. out: the number of lanes, 4. Refusals: 7, then those of the setup, then 90, which has no place. */
uint64_t zf_halt_make(const uint8_t *setup, size_t setup_length, uint8_t *table, size_t table_length, uint8_t *out, size_t out_length);

uint64_t zf_halt_put(uint8_t *table, size_t table_length, uint8_t lane, uint32_t mark, uint64_t length, uint8_t *out, size_t out_length);

uint64_t zf_halt_take(uint8_t *table, size_t table_length, uint8_t *out, size_t out_length);

uint64_t zf_halt_look(const uint8_t *table, size_t table_length, uint8_t *out, size_t out_length);

uint64_t zf_halt_sets(const uint8_t *table, size_t table_length, uint8_t *out, size_t out_length);

uint64_t zf_halt_lag(const uint8_t *table, size_t table_length, uint8_t lane, uint8_t *out, size_t out_length);

uint64_t zf_halt_restart(uint8_t *table, size_t table_length, uint8_t *out, size_t out_length);

/* ---- Tables from before an update
 *
 * Lanes had room for 16 records before they had room for 64, and a table was ZF_OLD_TABLE_SIZE bytes then. Put, take, look, sets, lag and restart
 * give 10 for such a table, as it is too short for one of today. A host that kept one over the update lends it to zf_convert once, with an area
 * of its own for the new table; on ZF_DONE it goes on with the new table and drops the old bytes. The records' marks are as they were, so the
 * records' own bytes stay where the host has them. On 10 the old bytes are no table that a call would have taken before the update either: make a
 * fresh one, and put again what is to be sent. Which kind a kept table is, the host must know, by its size: the bytes alone do not always tell.
 * So lend an old table with its own length and not in a longer area, and never lend a table of today as an old one. A clock that was spent then, so
 * that puts were refused, is none today: the next put takes it back. (That a taken over table never gives 10 is proved where no put before the update
 * found its clock at 2^61 or more.)
 */

/* The fixed size of such a table in bytes, as zf_old_table_size() gives it. Bytes past it are not looked at. */
#define ZF_OLD_TABLE_SIZE 45056

uint64_t zf_old_table_size(void);

/* Takes over the old table into `table`, whatever that held: the same queues, clock, lanes with their S and F, framing bytes and tie order, and room
 * for 64 records in each lane; its edition is 0, and no page waits. The old table is read only. Takes answer from the new one as they would have from the old one. Refusals: 7 at
 * place 0, `table` is shorter than ZF_TABLE_SIZE; then 10, the old table is not good, or shorter than ZF_OLD_TABLE_SIZE. `table` stays for both. */
uint64_t zf_convert(const uint8_t *old_table, size_t old_length, uint8_t *table, size_t table_length, uint8_t *out, size_t out_length);

/* ---- Plans: reading, editing and writing setups
 *
 * A plan area is ZF_PLAN_SIZE lent bytes, 65 words of 64 bits, each low byte first:
 *
 *   word 0          format + 2^16 framing bytes
 *   word lane + 1   weight + 2^16 longest of that lane, and 2^32 where trains share it; 0: there is no such lane
 *
 * The host may write any words into it, by the helpers below or by itself. Whether they are a plan within the numbers is tested by zf_setup_write:
 * format 1 or 2; framing 0 to 64; one lane or more; each weight 1 to 1,024 and longest 64 to 1,500; weights that sum to at most 1,024. Bytes past the
 * size are never touched. An area is meant for between calls: keep the setup, not the area.
 */

/* The fixed size of a plan area in bytes, as zf_plan_size() gives it, and the most bytes that a setup has when it is written. */
#define ZF_PLAN_SIZE 520
#define ZF_SETUP_MOST 780

/* The format of a new plan. Formats differ in what a longest that is left out of a setup means: 1,500 bytes in format 1, 576 in format 2. A plan
 * that was read keeps its format, and is written with it; its longest records are always written out. */
#define ZF_PLAN_FORMAT 2

/* Refusals of writing, in this order; neither has a place. */
#define ZF_PLAN_OUTSIDE 55 /* the area is no plan within the numbers, or shorter than ZF_PLAN_SIZE */
#define ZF_SETUP_SHORT 56  /* the buffer is shorter than the exact size of the setup, or of the sheet */

uint64_t zf_plan_size(void);

/* Reads a setup into a plan area. out: the number of lanes. Refusals: 7 at place 0, the area is shorter than ZF_PLAN_SIZE; then those of a setup.
 * The area stays for a refusal. */
uint64_t zf_setup_read(const uint8_t *setup, size_t setup_length, uint8_t *plan, size_t plan_length, uint8_t *out, size_t out_length);

/* Writes the plan of an area as a setup: lane fields always with their longest, the framing field only where there are framing bytes, a shared
 * lane's field behind its lane. out: the exact size; bytes of the buffer past it stay. Refusals: 55, 56; the buffer stays for both. What was
 * written is read as the same words, and a setup of that form is written back as the same bytes. */
uint64_t zf_setup_write(const uint8_t *plan, size_t plan_length, uint8_t *setup, size_t setup_length, uint8_t *out, size_t out_length);

/* A word of a plan area. */
static inline uint64_t zf_plan_word(const uint8_t *plan, size_t index) {
  uint64_t value = 0;
  for (size_t i = 8; i > 0; i--) value = value << 8 | plan[8 * index + i - 1];
  return value;
}

static inline void zf_plan_set_word(uint8_t *plan, size_t index, uint64_t value) {
  for (size_t i = 0; i < 8; i++, value >>= 8) plan[8 * index + i] = (uint8_t)(value & 0xFF);
}

/* A new plan: ZF_PLAN_FORMAT, no framing bytes, no lane. */
static inline void zf_plan_new(uint8_t *plan) {
  zf_plan_set_word(plan, 0, ZF_PLAN_FORMAT);
  for (size_t lane = 0; lane < 64; lane++) zf_plan_set_word(plan, lane + 1, 0);
}

static inline uint16_t zf_plan_format(const uint8_t *plan) { return (uint16_t)(zf_plan_word(plan, 0) & 0xFFFF); }

static inline uint64_t zf_plan_framing(const uint8_t *plan) { return zf_plan_word(plan, 0) >> 16; }

static inline void zf_plan_set_framing(uint8_t *plan, uint8_t framing) {
  zf_plan_set_word(plan, 0, (uint64_t)zf_plan_format(plan) | (uint64_t)framing << 16);
}

/* Gives a lane, 0 to 63, its weight and longest, or adds it; it is then one that is not shared. 0 and nothing done for another number, else 1. */
static inline int zf_plan_set_lane(uint8_t *plan, uint8_t lane, uint16_t weight, uint16_t longest) {
  if (lane > 63) return 0;
  zf_plan_set_word(plan, (size_t)lane + 1, (uint64_t)weight | (uint64_t)longest << 16);
  return 1;
}

/* Takes a lane out. 0 for a number over 63, else 1. */
static inline int zf_plan_clear_lane(uint8_t *plan, uint8_t lane) { return zf_plan_set_lane(plan, lane, 0, 0); }

/* A lane's weight and longest; 0 where there is no such lane. */
static inline uint16_t zf_plan_weight(const uint8_t *plan, uint8_t lane) {
  return lane > 63 ? 0 : (uint16_t)(zf_plan_word(plan, (size_t)lane + 1) & 0xFFFF);
}

static inline uint64_t zf_plan_longest(const uint8_t *plan, uint8_t lane) {
  return lane > 63 ? 0 : zf_plan_word(plan, (size_t)lane + 1) >> 16 & 0xFFFF;
}

/* Whether trains share a lane; 0 where there is no such lane. */
static inline int zf_plan_shared(const uint8_t *plan, uint8_t lane) {
  return lane > 63 ? 0 : (int)(zf_plan_word(plan, (size_t)lane + 1) >> 32 & 1);
}

/* Makes a lane that is in the plan shared, or one of its own again where `shared` is 0. 0 and nothing done where there is no such lane, else 1. */
static inline int zf_plan_set_shared(uint8_t *plan, uint8_t lane, int shared) {
  if (zf_plan_weight(plan, lane) == 0) return 0;
  const uint64_t numbers = zf_plan_word(plan, (size_t)lane + 1) & 0xFFFFFFFF;
  zf_plan_set_word(plan, (size_t)lane + 1, numbers | (uint64_t)(shared != 0) << 32);
  return 1;
}

/* ---- Text sheets: plans as the office keeps them (docs/SHEETS.md)
 *
 * A sheet has a line for each lane: lane number, weight and longest in decimal, one space between two of them, a line feed behind the third. A
 * number has one to five digits and no 0 before another digit. A sheet says nothing of framing bytes or of lanes that are shared.
 */

/* The most bytes that a sheet has when it is written. */
#define ZF_SHEET_MOST 698

/* Refusals of sheets. */
#define ZF_SHEET_BYTE 80 /* a byte that cannot stand there, also a digit behind a leading 0 and a sixth digit; place: that byte */
#define ZF_SHEET_CUT 81  /* the sheet is empty, or ends in a line; place: the sheet's length */
#define ZF_NO_SHEET 82   /* the plan has framing bytes or a shared lane, which a sheet cannot say; no place */

/* Reads a sheet into a plan area; the plan is of format 2 and has no framing bytes and no shared lane. out: the number of lanes. Refusals: 7 at
 * place 0, the area is shorter than ZF_PLAN_SIZE; then, line by line, 80 or 81, 51, 52, 53, 4, 6, each at the first digit of its number. The area stays for a refusal. */
uint64_t zf_sheet_read(const uint8_t *sheet, size_t sheet_length, uint8_t *plan, size_t plan_length, uint8_t *out, size_t out_length);

/* Writes the plan of an area as a sheet. out: the exact size; bytes of the buffer past it stay. Refusals: 55, 82, 56; the buffer stays for all
 * three. What was written is read as the same lanes, and a sheet that was read is written back as the same bytes. */
uint64_t zf_sheet_write(const uint8_t *plan, size_t plan_length, uint8_t *sheet, size_t sheet_length, uint8_t *out, size_t out_length);

/* ---- The desk's board: which train is in which cell (docs/DESK.md)
 *
 * A board is ZF_BOARD_SIZE lent bytes that zf_board_begin has written: 64 lines, each free or the last accepted handover record of a train. It
 * may be kept, moved or copied between calls, and it has nothing to do with a table. Every call tests the whole board first. A refusal changes
 * no byte; bytes past the size are never touched.
 */

/* The fixed size of a board in bytes, as zf_board_size() gives it, and its lines. */
#define ZF_BOARD_SIZE 1024
#define ZF_BOARD_LINES 64

/* The kind of a handover record: its train joined the cell, or left it. */
#define ZF_JOINED 1
#define ZF_LEFT 2

/* A handover record is one field of ZF_RECORD_SIZE bytes: the tag 0x30, the length 0x000B, then train (4 bytes), cell (2), kind (1) and
 * sequence (4), each high byte first. */
#define ZF_RECORD_TAG 0x30
#define ZF_RECORD_SIZE 14

/* Refusals of the board, in this order; 1 to 3 come between 29 and 30, for the one field, at place 0; 7 is for beginning a board. */
#define ZF_NOT_A_BOARD 29      /* the bytes are no board that calls make from an empty one, or too few */
#define ZF_KIND_UNKNOWN 30     /* kind neither 1 nor 2 */
#define ZF_NO_FREE_LINE 31     /* a train that is not on the board, and all 64 lines are used */
#define ZF_OUT_OF_TURN 32      /* sequence not the train's last one plus 1; always so after 4,294,967,295 */
#define ZF_DOES_NOT_FOLLOW 33  /* cell or kind does not follow: a first record that is no join, a join after a join, a leave after a leave or of another cell */
#define ZF_NOT_CLEARED 34      /* clear of a train that is not on the board, or whose last record is a join */

uint64_t zf_board_size(void);

/* Begins an empty board in the lent bytes, whatever they held. Refusals: 7 at place 0, the board is shorter than ZF_BOARD_SIZE. */
uint64_t zf_board_begin(uint8_t *board, size_t board_length, uint8_t *out, size_t out_length);

/* Enters the handover record at the start of `field`; bytes after the field are not looked at. out: the line, 0 to 63. Refusals: 29, 1 to 3, 30 to 33. */
uint64_t zf_board_record(uint8_t *board, size_t board_length, const uint8_t *field, size_t field_length, uint8_t *out, size_t out_length);

/* Clears a train whose last record is a leave: its line is free, and its next record is a first one. out: the line. Refusals: 29, 34. */
uint64_t zf_board_clear(uint8_t *board, size_t board_length, uint32_t train, uint8_t *out, size_t out_length);

/* What stands on a line. out: kind, train, cell and sequence; a free line, and any number over 63, is all 0. Refusals: 29. */
uint64_t zf_board_line(const uint8_t *board, size_t board_length, uint8_t line, uint8_t *out, size_t out_length);

/* ---- The version
 *
 * A number that grows with the version: major times 65,536, minor times 256 and patch together. A host may compare the header's with the library's
 * before it does anything else. CHANGELOG.md says what each version brought.
 */
#define ZF_VERSION_MAJOR 0
#define ZF_VERSION_MINOR 2
#define ZF_VERSION_PATCH 0
#define ZF_VERSION ((uint64_t)ZF_VERSION_MAJOR * 65536 + ZF_VERSION_MINOR * 256 + ZF_VERSION_PATCH)

/* The version of the library: ZF_VERSION, where the header is the library's own. */
uint64_t zf_version(void);

/* ---- What the words of an answer say, and refusals in words */

/* A word of the answer buffer, 0 to 3. */
static inline uint64_t zf_word(const uint8_t *out, size_t index) {
  uint64_t value = 0;
  for (size_t i = 8; i > 0; i--) value = value << 8 | out[8 * index + i - 1];
  return value;
}

/* The words by their meaning. After zf_put and zf_put_train: how many of the lane, or of the train, are ahead. After zf_take and zf_look: the record. */
static inline uint64_t zf_out_ahead(const uint8_t *out) { return zf_word(out, 0); }
static inline uint8_t zf_out_lane(const uint8_t *out) { return (uint8_t)(zf_word(out, 0) & 0xFF); }
static inline uint32_t zf_out_mark(const uint8_t *out) { return (uint32_t)(zf_word(out, 1) & 0xFFFFFFFF); }
static inline uint64_t zf_out_length(const uint8_t *out) { return zf_word(out, 2); }
static inline uint8_t zf_out_train(const uint8_t *out) { return (uint8_t)(zf_word(out, 3) & 0xFF); }

/* After zf_edition: the last edition taken, and the one that waits or 0. After zf_offer: whether the page waits. */
static inline uint16_t zf_out_edition(const uint8_t *out) { return (uint16_t)(zf_word(out, 0) & 0xFFFF); }
static inline uint16_t zf_out_waiting(const uint8_t *out) { return (uint16_t)(zf_word(out, 1) & 0xFFFF); }
static inline int zf_out_waits(const uint8_t *out) { return zf_word(out, 0) == ZF_WAITS; }

/* After zf_wait: the worst wait in bytes, and the one by the setup's own costliest record. */
static inline uint64_t zf_out_wait(const uint8_t *out) { return zf_word(out, 0); }
static inline uint64_t zf_out_tight_wait(const uint8_t *out) { return zf_word(out, 1); }

/* After zf_clock: V. After zf_backlog: how many records wait, and S or F. */
static inline uint64_t zf_out_clock(const uint8_t *out) { return zf_word(out, 0); }
static inline uint64_t zf_out_held(const uint8_t *out) { return zf_word(out, 0); }
static inline uint64_t zf_out_time(const uint8_t *out) { return zf_word(out, 1); }

/* After zf_run: requests answered, answer bytes written, why it stopped (ZF_STOP_...), and the place where that is ZF_STOP_AT_PLACE. */
static inline uint64_t zf_out_answered(const uint8_t *out) { return zf_word(out, 0); }
static inline uint64_t zf_out_written(const uint8_t *out) { return zf_word(out, 1); }
static inline uint64_t zf_out_stop(const uint8_t *out) { return zf_word(out, 2); }
static inline uint64_t zf_out_stop_place(const uint8_t *out) { return zf_word(out, 3); }

/* After zf_lane: weight, longest, framing bytes, the group index, and whether trains share the lane. */
static inline uint64_t zf_out_weight(const uint8_t *out) { return zf_word(out, 0); }
static inline uint64_t zf_out_longest(const uint8_t *out) { return zf_word(out, 1); }
static inline uint64_t zf_out_framing(const uint8_t *out) { return zf_word(out, 2); }
static inline uint32_t zf_out_group(const uint8_t *out) { return (uint32_t)(zf_word(out, 3) & 0xFFFFFFFF); }
static inline int zf_out_shared(const uint8_t *out) { return (int)(zf_word(out, 3) >> 32 & 1); }

/* After zf_lag. The words are those of two's complement; no conversion that C leaves open is made. */
static inline int64_t zf_out_lag(const uint8_t *out) {
  const uint64_t word = zf_word(out, 0);
  return word > INT64_MAX ? -(int64_t)(UINT64_MAX - word) - 1 : (int64_t)word;
}

/* After a refusal of any call but zf_run: whether it has a place, and the place. */
static inline int zf_out_has_place(const uint8_t *out) { return zf_word(out, 1) == 1; }
static inline uint64_t zf_out_place(const uint8_t *out) { return zf_word(out, 0); }

/* What a result means, in words; docs/REFUSALS.md and 'zenfrosta explain' say what to mend. */
static inline const char *zf_text(uint64_t number) {
  switch (number) {
  case ZF_DONE: return "done";
  case ZF_CUT: return "the bytes end inside a field, or before the end field";
  case ZF_UNKNOWN_TAG: return "a tag that is not known in this part";
  case ZF_WRONG_LENGTH: return "a length that is wrong for the tag";
  case ZF_OUT_OF_ORDER: return "a field out of its order, or a byte after the end";
  case ZF_WEIGHTS_OVER: return "the weights sum to more than 1,024";
  case ZF_TABLE_SHORT: return "the table is too short";
  case ZF_NOT_GOOD: return "the table is not good";
  case ZF_NO_LANE: return "the lane is not in the setup";
  case ZF_BAD_LENGTH: return "a record's length is 0 or over the lane's longest";
  case ZF_LANE_FULL: return "the lane is full";
  case ZF_STILL_HOLDS: return "records are held";
  case ZF_NOTHING_HELD: return "no record is held";
  case ZF_RUN_BOUNDS: return "a run's limit is over 1,000, or its answer area is too short";
  case 18: return "the input is over 32,768 bytes";
  case ZF_NOT_A_BOARD: return "the bytes are no board that these calls make";
  case ZF_KIND_UNKNOWN: return "the kind is neither 1 (joined) nor 2 (left)";
  case ZF_NO_FREE_LINE: return "a new train, and all 64 lines are used";
  case ZF_OUT_OF_TURN: return "the sequence is not the train's last one plus 1";
  case ZF_DOES_NOT_FOLLOW: return "the cell or the kind does not follow the train's last record";
  case ZF_NOT_CLEARED: return "the train is not on the board, or it has not left its cell";
  case ZF_BAD_FORMAT: return "the format is neither 1 nor 2";
  case ZF_BAD_LANE: return "a lane number is over 63";
  case ZF_BAD_WEIGHT: return "a weight is not 1 to 1,024";
  case ZF_BAD_LONGEST: return "a longest is not 64 to 1,500";
  case ZF_BAD_FRAMING: return "a framing number is over 64";
  case ZF_PLAN_OUTSIDE: return "the plan is outside the numbers";
  case ZF_SETUP_SHORT: return "the buffer is shorter than what is to be written";
  case ZF_OLD_EDITION: return "the edition is not above the last one taken or waiting";
  case ZF_NO_TRAIN: return "the train is over 7, or over 0 in a lane that is not shared";
  case ZF_TRAIN_FULL: return "the train's queue is full";
  case ZF_SHEET_BYTE: return "a byte that cannot stand there in a sheet";
  case ZF_SHEET_CUT: return "the sheet is empty, or ends in a line";
  case ZF_NO_SHEET: return "the plan has framing bytes or a shared lane, which a sheet cannot say";
  case ZF_NOT_A_HALT: return "the setup is good, and not the small halt's";
  case ZF_BUFFER_SHORT: return "the answer buffer is too short";
  default: return "no number of the list";
  }
}

#ifdef __cplusplus
}
#endif

#endif
