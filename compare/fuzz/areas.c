/* See areas.h. */
#define _GNU_SOURCE
#include "areas.h"

#include <stdio.h>
#include <stdlib.h>
#include <sys/mman.h>
#include <unistd.h>

uint8_t fill[1 << 17], before[1 << 17];
struct area input, table, answers, out;

__attribute__((section("__libfuzzer_extra_counters"))) static uint8_t seen[1 << 15];

void saw(unsigned kind, uint64_t value) {
  uint64_t low = value < 192 ? value : 192 + (uint64_t)__builtin_clzll(value);
  seen[(kind << 8 | low) & (sizeof seen - 1)] = 1;
}

void check(int holds, const char *what) {
  if (holds) return;
  fprintf(stderr, "fuzz: %s\n", what);
  abort();
}

static size_t page(void) { return (size_t)sysconf(_SC_PAGESIZE); }

void reserve(struct area *area, size_t most) {
  area->room = (most + page() - 1) / page() * page();
  area->pages = mmap(NULL, area->room + 2 * page(), PROT_NONE, MAP_PRIVATE | MAP_ANONYMOUS, -1, 0);
  check(area->pages != MAP_FAILED, "no pages");
  check(mprotect(area->pages + page(), area->room, PROT_READ | PROT_WRITE) == 0, "no room");
}

static uint8_t *open_side(const struct area *area) {
  return area->at > area->pages + page() ? area->at - WATCHED : area->at + area->length;
}

uint8_t *lend(struct area *area, size_t length, int at_end) {
  check(length + WATCHED <= area->room, "an area is too long");
  area->length = length;
  area->at = at_end ? area->pages + page() + area->room - length : area->pages + page();
  memset(area->at, FILL, length);
  memset(open_side(area), FILL, WATCHED);
  return area->at;
}

void only_reading(struct area *area, int on) {
  if (area->closed == on) return;
  area->closed = on;
  check(mprotect(area->pages + page(), area->room, on ? PROT_READ : PROT_READ | PROT_WRITE) == 0, "mprotect");
}

void beside(const struct area *area) {
  check(memcmp(open_side(area), fill, WATCHED) == 0, "a byte beside an area was written");
}

uint64_t word(int index) {
  uint64_t value;
  memcpy(&value, out.at + 8 * index, 8);
  return value;
}

int no_words(void) { return word(0) == 0 && word(1) == 0 && word(2) == 0 && word(3) == 0; }
