/* Lent areas in pages of their own, what every mode checks, and what the modes share.
 *
 * The library's own code is not instrumented, so an area ends where a page begins that cannot be touched, or begins where one ends. A read or a write one byte
 * outside stops the run. Areas that a call must not write are write-protected while it runs: those that it only reads, and all of them where it is known to
 * refuse. */
#ifndef AREAS_H
#define AREAS_H

#include <stdint.h>
#include <string.h>

#include "zenfrosta.h"

/* The longest input: more than the program's own 32,768 bytes. */
#define MOST_INPUT 40000

/* Bytes that nobody may write are all FILL. */
#define FILL 0xC3
extern uint8_t fill[1 << 17];

/* The bytes on the open side of an area that are watched. */
#define WATCHED 256

/* An area in pages of its own. */
struct area {
  uint8_t *pages; /* a page that cannot be touched, the room, another such page */
  size_t room;
  uint8_t *at;
  size_t length;
  int closed; /* whether it is write-protected */
};

extern struct area input, table, answers, out;
/* A copy of what a call must not write. */
extern uint8_t before[1 << 17];

/* One more thing that was seen of the library: a call with a result, how far a reader came, how much was answered. It counts as coverage. */
void saw(unsigned kind, uint64_t value);
/* Stops the run with these words if it does not hold. */
void check(int holds, const char *what);

void reserve(struct area *area, size_t most);
/* Lends `length` bytes at the room's end, or at its beginning. They are FILL, and so is what is watched beside them. */
uint8_t *lend(struct area *area, size_t length, int at_end);
/* Write-protects an area, or opens it again. */
void only_reading(struct area *area, int on);
/* Nothing beside the lent bytes was written. */
void beside(const struct area *area);
/* A word of the answer buffer. */
uint64_t word(int index);
/* The answer buffer is all 0. */
int no_words(void);

/* The calls on tables (calls.c). */
enum call { PUT, TAKE, LOOK, SETS, LAG, RESTART, PUT_TRAIN, TRAIN_RECORD, EDITION, CLOCK, LANE, BACKLOG, RECORD, WAIT, CALLS };
uint64_t ask(enum call call, uint8_t lane, uint64_t length, size_t out_length, int at_end);
void calls(const uint8_t *data, size_t size, int at_end);
/* A result of reading a setup: done, or one of its refusals. */
int of_setup(uint64_t result);

/* Samples that modes begin with (samples.c): tables, of which one has shared lanes, an old one, a board. */
extern uint8_t sample[ZF_TABLE_SIZE], shared_sample[ZF_TABLE_SIZE], old_sample[ZF_OLD_TABLE_SIZE], sample_board[ZF_BOARD_SIZE];
void make_samples(void);
/* Changes a table by the input: three bytes each, the word and how. */
void change(const struct area *area, const uint8_t *data, size_t size);
/* A table's length: whole, longer, a byte short, or short. */
size_t table_length(uint8_t choice);

/* Plan areas (plans.c). */
void fill_plan(const uint8_t *data, size_t size);
size_t plan_length(uint8_t choice);

/* The modes. `choice` has four bytes. */
void make(const uint8_t *data, size_t size, uint8_t choice, int at_end);
void run(const uint8_t *data, size_t size, const uint8_t *choice, int at_end);
void pages(const uint8_t *data, size_t size, const uint8_t *choice, int at_end);
void convert(const uint8_t *data, size_t size, const uint8_t *choice, int at_end);
void boards(const uint8_t *data, size_t size, const uint8_t *choice, int at_end);
void plans(const uint8_t *data, size_t size, const uint8_t *choice, int at_end);
void sheets(const uint8_t *data, size_t size, const uint8_t *choice, int at_end);
void halts(const uint8_t *data, size_t size, const uint8_t *choice, int at_end);

#endif
