/* Writes the frame of a notice by examples/carrier.schema to standard output: write SCHEMA NUMBER
 * TEXT.
 *
 * cc -o write write.c -larf */
#include "arf.h"

#include <stdio.h>
#include <stdlib.h>
#include <string.h>

/* A value in the making: rows, and the bytes that they point to. */
struct draft {
  uint32_t sheet[64];
  uint8_t bytes[1024];
  size_t cells, used;
};

/* Puts a row, whose content is copied behind the bytes; gives 0 where there is no room. */
static int put(struct draft *draft, uint32_t type, const void *content, size_t length,
               uint32_t count) {
  uint32_t *row = draft->sheet + draft->cells;
  if (sizeof draft->sheet / sizeof *row - draft->cells < 4 ||
      sizeof draft->bytes - draft->used < length)
    return 0;
  row[0] = type;
  row[1] = (uint32_t)draft->used;
  row[2] = (uint32_t)length;
  row[3] = count;
  memcpy(draft->bytes + draft->used, content, length);
  draft->cells += 4;
  draft->used += length;
  return 1;
}

/* A notice is type 4: two texts (type 0) that are required, and one that is left out. Bits 0 and
 * 1 say so. */
static int put_notice(struct draft *draft, const char *number, const char *text) {
  static const uint8_t present[1] = {3};
  return put(draft, 4, present, sizeof present, 2) && put(draft, 0, number, strlen(number), 0) &&
         put(draft, 0, text, strlen(text), 0);
}

int main(int count, char **words) {
  static uint8_t schema[ARF_MAX_SCHEMA + 1], frame[ARF_MAX_FRAME];
  static struct draft draft;
  uint64_t answer[2];
  uint32_t number;
  size_t schema_n;
  FILE *file;
  if (count != 4) {
    fprintf(stderr, "usage: %s SCHEMA NUMBER TEXT\n", words[0]);
    return 2;
  }
  file = fopen(words[1], "rb");
  if (file == NULL) {
    perror(words[1]);
    return 2;
  }
  schema_n = fread(schema, 1, sizeof schema, file);
  fclose(file);
  if (!put_notice(&draft, words[2], words[3])) {
    fprintf(stderr, "%s: the notice is too long\n", words[0]);
    return 1;
  }
  /* Call 1 of the method 7 1 1. */
  number =
      arf_write_value_frame(ARF_INVOKE, 7, 1, 1, 1, schema, schema_n, 4, draft.sheet, draft.cells,
                            draft.bytes, draft.used, frame, sizeof frame, answer, 2);
  if (number != ARF_ACCEPTED) {
    fprintf(stderr, "%s: refused with %u at %llu\n", words[0], (unsigned)number,
            (unsigned long long)answer[0]);
    return 1;
  }
  return fwrite(frame, 1, (size_t)answer[1], stdout) == answer[1] ? 0 : 2;
}
