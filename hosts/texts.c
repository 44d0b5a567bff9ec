/* The version as the header and the library have it, held to the one that is given; and every number that zf_text has words for. */
#include <inttypes.h>
#include <stdio.h>
#include <string.h>

#include "zenfrosta.h"

int main(void) {
  const uint64_t version = (uint64_t)MAJOR * 65536 + MINOR * 256 + PATCH;
  if (ZF_VERSION != version || zf_version() != version) {
    printf("asked %" PRIu64 ", the header says %" PRIu64 ", the library %" PRIu64 "\n", version, ZF_VERSION, zf_version());
    return 1;
  }
  for (uint64_t number = 1; number < 1000; number++) {
    const char *text = zf_text(number);
    if (strcmp(text, zf_text(UINT64_MAX)) != 0) printf("%" PRIu64 " %s\n", number, text);
  }
  return 0;
}
