/* What modes begin with: tables, a table of 16 places and a board that calls made, and how the input changes them. */
#include "areas.h"

uint8_t sample[ZF_TABLE_SIZE], shared_sample[ZF_TABLE_SIZE], old_sample[ZF_OLD_TABLE_SIZE], sample_board[ZF_BOARD_SIZE];

/* A table with records in eight lanes of sixteen, to be changed. Of the other sample trains share the lanes 0, 16, 32 and 48. */
static void make_sample(uint8_t *made, int shared) {
  uint8_t setup[5 + 16 * 8 + 4 * 4 + 3] = {1, 0, 2, 0, 1};
  size_t size = 5;
  for (uint8_t i = 0; i < 16; i++) {
    uint8_t field[12] = {16, 0, 5, (uint8_t)(4 * i), 0, (uint8_t)(1 + 3 * i), (uint8_t)(i % 5), 220, 18, 0, 1, (uint8_t)(4 * i)};
    size_t used = shared && i % 4 == 0 ? 12 : 8;
    memcpy(setup + size, field, used);
    size += used;
  }
  setup[size] = 0x7F;
  uint8_t answer[ZF_OUT_SIZE];
  check(zf_make(setup, size + 3, made, ZF_TABLE_SIZE, answer, sizeof answer) == ZF_DONE, "the sample's setup");
  for (uint8_t i = 0; i < 60; i++) {
    uint8_t lane = (uint8_t)(8 * (i % 8));
    if (shared && lane % 16 == 0) zf_put_train(made, ZF_TABLE_SIZE, lane, i / 8 % 3, i, 1 + i % 60u, answer, sizeof answer);
    else zf_put(made, ZF_TABLE_SIZE, lane, i, 1 + i % 60u, answer, sizeof answer);
    if (i % 3 == 2) zf_take(made, ZF_TABLE_SIZE, answer, sizeof answer);
  }
}

void change(const struct area *area, const uint8_t *data, size_t size) {
  for (size_t i = 0; i + 3 <= size && i < 3 * 8; i += 3) {
    /* Words that mean something come first: the numbers of the whole table, those of the slot lists, the rows of the sample's lanes; then records'
       lengths, how many stand in the lists, and the lists' places. Marks may be anything. */
    static const size_t whole[4] = {0, 1, 3, 4};
    size_t d = data[i], at;
    if (d < 4) at = whole[d];
    else if (d < 52) at = 1360 + d - 4;
    else if (d < 116) at = 80 + 16 * ((d - 52) / 4) + (d - 52) % 4;
    else if (d < 156) at = 336 + (d - 116) * 26;
    else if (d < 220) at = 1472 + d - 156;
    else if (d < 236 || area->length < ZF_TABLE_SIZE) at = 1536 + (d - 220) * 110;
    else if ((d - 236) % 5 == 4) at = 7936 + (d - 236) / 5; /* the editions, and the first words of a waiting plan */
    else at = 7680 + 64 * ((d - 236) / 5) + (d - 236) % 5; /* the trains of the lanes that may be shared */
    uint64_t value, power = 1ull << (data[i + 1] & 63);
    memcpy(&value, area->at + 8 * at, 8);
    switch (data[i + 1] >> 6) {
      case 0: value ^= power; break;
      case 1: value += (uint64_t)(int64_t)(int8_t)data[i + 2] * power; break;
      case 2: value = data[i + 2] * power; break;
      default: memcpy(&value, area->at + 8 * (data[i + 2] * 5u), 8); break;
    }
    memcpy(area->at + 8 * at, &value, 8);
  }
}

/* The sample as it was kept: a word for each place, mark + 2^32 times length, 16 places in a lane; all else lies where it lies today. */
static void make_old_sample(void) {
  memcpy(old_sample, sample, sizeof old_sample);
  for (size_t lane = 0; lane < 64; lane += 4) {
    /* Idle lanes had their c and group in their setting too. */
    uint64_t setting, group = 16;
    memcpy(&setting, sample + 8 * (80 + 4 * lane), 8);
    uint64_t longest = setting & 0xFFFF, weight = setting >> 16 & 0xFFFF, per_byte = (1048576 + weight - 1) / weight;
    while (1ull << group < longest * per_byte) group++;
    setting = longest | weight << 16 | group << 32 | per_byte << 40;
    memcpy(old_sample + 8 * (80 + 4 * lane), &setting, 8);
    uint64_t ring;
    memcpy(&ring, sample + 8 * (82 + 4 * lane), 8);
    uint64_t count = ring / 64;
    check(count <= 16, "the sample's records");
    for (uint64_t i = 0; i < count; i++) {
      size_t place = 64 * lane + (ring + i) % 64;
      uint16_t less_one;
      uint32_t mark;
      memcpy(&less_one, sample + 8 * 336 + 2 * place, 2);
      memcpy(&mark, sample + ZF_OLD_TABLE_SIZE + 4 * place, 4);
      uint64_t record = mark | (less_one + 1ull) << 32;
      memcpy(old_sample + 8 * (336 + 16 * lane + i), &record, 8);
    }
    ring = 16 * count;
    memcpy(old_sample + 8 * (82 + 4 * lane), &ring, 8);
  }
  static uint8_t converted[ZF_TABLE_SIZE];
  uint8_t answer[ZF_OUT_SIZE];
  check(zf_convert(old_sample, sizeof old_sample, converted, sizeof converted, answer, sizeof answer) == ZF_DONE, "the old sample is converted");
}

/* 50 trains, some of them gone, some cleared. */
static void make_sample_board(void) {
  uint8_t answer[ZF_OUT_SIZE], field[ZF_RECORD_SIZE] = {ZF_RECORD_TAG, 0, 11};
  check(zf_board_begin(sample_board, sizeof sample_board, answer, sizeof answer) == ZF_DONE, "the sample board");
  for (uint8_t pass = 0; pass < 2; pass++) {
    for (uint8_t train = 0; train < 50; train++) {
      if (pass == 1 && train % 3 != 0) continue;
      field[6] = train;
      field[8] = train & 3;
      field[9] = (uint8_t)(1 + pass);
      field[13] = (uint8_t)((train & 15) + pass);
      check(zf_board_record(sample_board, sizeof sample_board, field, sizeof field, answer, sizeof answer) == ZF_DONE, "the sample's records");
      if (pass == 1 && train % 6 == 0) zf_board_clear(sample_board, sizeof sample_board, train, answer, sizeof answer);
    }
  }
}

void make_samples(void) {
  make_sample(sample, 0);
  make_sample(shared_sample, 1);
  make_old_sample();
  make_sample_board();
}

size_t table_length(uint8_t choice) {
  switch (choice & 7) {
    case 0: return ZF_TABLE_SIZE - 1;
    case 1: return ZF_TABLE_SIZE + 1 + choice / 8;
    case 2: return choice & 64 ? (size_t)(choice >> 3) * (ZF_TABLE_SIZE / 32) : ZF_TABLE_SIZE;
    default: return ZF_TABLE_SIZE;
  }
}
