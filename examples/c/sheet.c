/* The office's sheet from C: it is read into a plan, lane 7 comes in, and the plan is written as a sheet and as a setup; wrong sheets are refused. */
#include <inttypes.h>
#include <stdio.h>
#include <string.h>

#include "zenfrosta.h"

static uint8_t plan[ZF_PLAN_SIZE];
static uint8_t out[ZF_OUT_SIZE];

static int read_sheet(const char *sheet) {
  uint64_t result = zf_sheet_read((const uint8_t *)sheet, strlen(sheet), plan, sizeof plan, out, sizeof out);
  if (result == ZF_DONE) {
    printf("%" PRIu64 " lanes\n", zf_word(out, 0));
  } else {
    printf("refused with %" PRIu64 " at byte %" PRIu64 "\n", result, zf_word(out, 0));
  }
  return result == ZF_DONE;
}

static void write_sheet(void) {
  uint8_t sheet[ZF_SHEET_MOST];
  uint64_t result = zf_sheet_write(plan, sizeof plan, sheet, sizeof sheet, out, sizeof out);
  if (result != ZF_DONE) {
    printf("refused with %" PRIu64 "\n", result);
    return;
  }
  printf("%.*s", (int)zf_word(out, 0), (const char *)sheet);
}

int main(void) {
  if (!read_sheet("0 512 1500\n1 256 576\n")) return 1;
  zf_plan_set_lane(plan, 7, 16, 64);
  write_sheet();
  uint8_t setup[ZF_SETUP_MOST];
  if (zf_setup_write(plan, sizeof plan, setup, sizeof setup, out, sizeof out) != ZF_DONE) return 1;
  printf("%" PRIu64 " bytes of setup\n", zf_word(out, 0));
  zf_plan_set_framing(plan, 12); /* a sheet cannot say it */
  write_sheet();
  read_sheet("0 512 1500\n1 0256 576\n"); /* a digit behind a leading 0 */
  read_sheet("0 512 1500\n1 256 576");    /* the last line feed is missing */
  read_sheet("0 512 1500\n1 256 63\n");   /* a longest under 64 */
  read_sheet("1 512 1500\n0 256 576\n");  /* lanes that do not rise */
  read_sheet("0 1024 1500\n1 1 576\n");   /* weights over 1,024 */
  return 0;
}
