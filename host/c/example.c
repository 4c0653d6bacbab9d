/* Lists a record by a schema file, as `arf list` does, with the library alone:
 * example SCHEMA RECORD. Where a value has a string, its first one is shown at the line's end.
 *
 * cc -o example example.c -larf */
#include "arf.h"

#include <stdio.h>
#include <stdlib.h>

enum { ROW = 4, SHEET_CELLS = 4096 * ROW };

/* The bytes of a file, and their number. */
static uint8_t *load(const char *name, size_t *length) {
  FILE *file = fopen(name, "rb");
  uint8_t *bytes = malloc(ARF_MAX_RECORD + 1);
  if (file == NULL || bytes == NULL) {
    perror(name);
    exit(2);
  }
  *length = fread(bytes, 1, ARF_MAX_RECORD + 1, file);
  if (ferror(file)) {
    perror(name);
    exit(2);
  }
  if (*length > ARF_MAX_RECORD) {
    fprintf(stderr, "%s: above %d bytes\n", name, ARF_MAX_RECORD);
    exit(1);
  }
  fclose(file);
  return bytes;
}

/* What a connection keeps from one frame to the next. */
struct connection {
  const uint8_t *schema;
  size_t schema_n;
  uint64_t calls[ARF_CALL_CELLS];
  uint32_t tallies[ARF_MAX_TALLY_CELLS];
  uint32_t sheet[SHEET_CELLS];
};

/* The numbers of arf_receive's answer. */
struct received {
  uint32_t number;
  uint64_t place, used, rows, tail_place, tail_length, open, comparisons;
};

static struct received receive(struct connection *line, uint8_t side, const uint8_t *bytes,
                               size_t bytes_n) {
  uint64_t answer[7];
  size_t tallies_n = ARF_TALLY_CELLS * arf_method_count(line->schema, line->schema_n);
  struct received r;
  r.number = arf_receive(line->calls, ARF_CALL_CELLS, line->schema, line->schema_n, side, bytes,
                         bytes_n, line->sheet, SHEET_CELLS, line->tallies, tallies_n, answer, 7);
  r.place = answer[0];
  r.used = answer[1];
  r.rows = answer[2];
  r.tail_place = answer[3];
  r.tail_length = answer[4];
  r.open = answer[5];
  r.comparisons = answer[6];
  return r;
}

/* Shows the first row of a value that is a string or bytes: only these are a span of at least
 * one byte. */
static void show_text(const struct connection *line, uint64_t rows, const uint8_t *payload,
                      size_t payload_n) {
  uint64_t answer[4], i;
  for (i = 0; i < rows; i++) {
    const uint32_t *row = line->sheet + ROW * i;
    if (arf_scalar(line->schema, line->schema_n, row[0], row[1], row[2], row[3], payload, payload_n,
                   answer, 4) == ARF_ACCEPTED &&
        answer[1] == 6 && answer[3] > 0) {
      printf(" \"%.*s\"", (int)answer[3], (const char *)payload + answer[2]);
      return;
    }
  }
}

/* Prints the line of an entry that was judged. */
static void show_entry(const struct connection *line, uint64_t entry, uint8_t side,
                       const uint8_t *bytes, const struct received *r) {
  uint64_t frame[7];
  /* The bytes that were used are a whole frame. */
  arf_read_frame(bytes, (size_t)r->used, frame, 7);
  printf("%llu %c %llu %llu %u %llu %llu %llu", (unsigned long long)entry, side,
         (unsigned long long)frame[0], (unsigned long long)frame[4], (unsigned)r->number,
         (unsigned long long)r->place, (unsigned long long)r->rows, (unsigned long long)r->open);
  show_text(line, r->rows, bytes + frame[5], (size_t)frame[6]);
  putchar('\n');
}

/* Prints a line for each entry of a record, and the last line; gives 0 where the record was
 * listed to its end. */
static int list(struct connection *line, const uint8_t *record, size_t record_n) {
  size_t at = 0;
  uint64_t entry;
  puts("frame side kind call answer place rows open");
  for (entry = 1; at < record_n; entry++) {
    uint8_t side = record[at];
    const uint8_t *bytes = record + at + 1;
    struct received r = receive(line, side, bytes, record_n - at - 1);
    if (r.used == 0 || (r.number == ARF_WRONG_SIDE && side != ARF_CLIENT && side != ARF_SERVER)) {
      printf("stopped %u left %zu\n", (unsigned)r.number, record_n - at);
      return 1;
    }
    show_entry(line, entry, side, bytes, &r);
    at += 1 + (size_t)r.used;
  }
  puts("stopped 0 left 0");
  return 0;
}

int main(int count, char **words) {
  static struct connection line;
  size_t record_n;
  uint64_t place;
  uint32_t number;
  uint8_t *schema, *record;
  int status = 1;
  if (count != 3) {
    fprintf(stderr, "usage: %s SCHEMA RECORD\n", words[0]);
    return 2;
  }
  schema = load(words[1], &line.schema_n);
  record = load(words[2], &record_n);
  line.schema = schema;
  number = arf_check_table(schema, line.schema_n, &place, 1);
  if (number == ARF_ACCEPTED)
    status = list(&line, record, record_n);
  else
    fprintf(stderr, "%s: %u at %llu\n", words[1], (unsigned)number, (unsigned long long)place);
  free(schema);
  free(record);
  return status;
}
