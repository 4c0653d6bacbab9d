/* Lends every function no memory at all, and cells of its exact size: NULL with length 0 is
 * taken, and nothing beyond the cells is touched. Prints the numbers that come back. */
#include "arf.h"

#include <stdio.h>
#include <stdlib.h>

/* A schema file with three empty sections. */
static const uint8_t empty[16] = {0, 0, 0, 0, 0, 0, 0, 0, 0, 0, 0, 0, 1, 0, 0, 0};

/* Cells on the heap, of exact size, so that a check of memory sees a store beside them. */
static uint64_t *cells(size_t n) {
  uint64_t *made = calloc(n, sizeof *made);
  if (made == NULL) exit(2);
  return made;
}

/* Every function with no memory lent. */
static void nothing(void) {
  printf("%u ", (unsigned)arf_check_table(NULL, 0, NULL, 0));
  printf("%u ", (unsigned)arf_extends(NULL, 0, NULL, 0, NULL, 0));
  printf("%u ", (unsigned)arf_read(NULL, 0, 0, NULL, 0, NULL, 0, NULL, 0));
  printf("%u ", (unsigned)arf_read_beside(NULL, 0, NULL, 0, 0, NULL, 0, NULL, 0, NULL, 0));
  printf("%u ", (unsigned)arf_write(NULL, 0, 0, NULL, 0, NULL, 0, NULL, 0, NULL, 0));
  printf("%u ", (unsigned)arf_forward(NULL, 0, 0, NULL, 0, NULL, 0, 0, 0, NULL, 0, NULL, 0));
  printf("%u ", (unsigned)arf_scalar(NULL, 0, 0, 0, 0, 0, NULL, 0, NULL, 0));
  printf("%u ", (unsigned)arf_read_frame(NULL, 0, NULL, 0));
  printf("%u ", (unsigned)arf_write_frame(ARF_CANCEL, 0, 0, 0, 0, NULL, 0, NULL, 0, NULL, 0));
  printf("%u ", (unsigned)arf_write_value_frame(ARF_CANCEL, 0, 0, 0, 0, NULL, 0, 0, NULL, 0, NULL,
                                                0, NULL, 0, NULL, 0));
  printf("%u ", (unsigned)arf_salvage(NULL, 0, NULL, 0, NULL, 0, NULL, 0));
  printf("%u ", (unsigned)arf_make_index(NULL, 0, NULL, 0, NULL, 0, NULL, 0));
  printf("%u ", (unsigned)arf_look_up(NULL, 0, NULL, 0, 0, NULL, 0, NULL, 0));
  printf("%u\n", (unsigned)arf_method_count(NULL, 0));
}

/* The same with a schema file that has nothing in it, and the numbers beside the answers. */
static void little(void) {
  uint64_t *answer = cells(7);
  uint8_t *out = malloc(26);
  if (out == NULL) exit(2);
  printf("%u ", (unsigned)arf_check_table(empty, sizeof empty, answer, 1));
  printf("%u ", (unsigned)arf_extends(empty, sizeof empty, empty, sizeof empty, answer, 2));
  printf("%u ", (unsigned)answer[1]);
  printf("%u ", (unsigned)arf_read(empty, sizeof empty, 0, NULL, 0, NULL, 0, answer, 5));
  printf("%u ", (unsigned)arf_write(empty, sizeof empty, 0, NULL, 0, NULL, 0, NULL, 0, answer, 2));
  printf("%u ", (unsigned)arf_write_frame(ARF_CANCEL, 1, 2, 3, 4, NULL, 0, out, 26, answer, 1));
  printf("%u ", (unsigned)answer[0]);
  printf("%u ", (unsigned)arf_read_frame(out, 26, answer, 7));
  printf("%u ", (unsigned)answer[4]);
  printf("%u ",
         (unsigned)arf_write_value_frame(ARF_CANCEL, 1, 2, 3, 4, empty, sizeof empty, ARF_NO_VALUE,
                                         NULL, 0, NULL, 0, out, 26, answer, 2));
  printf("%u\n", (unsigned)answer[1]);
  free(out);
  free(answer);
}

/* The index of an empty record, which is an index of no rows, and a text of it in exact room. */
static void indexes(void) {
  uint64_t *answer = cells(2);
  uint8_t *index = malloc(16), *text = malloc(23);
  if (index == NULL || text == NULL) exit(2);
  printf("%u ", (unsigned)arf_make_index(empty, sizeof empty, NULL, 0, index, 15, answer, 2));
  printf("%u ", (unsigned)arf_make_index(empty, sizeof empty, NULL, 0, index, 16, answer, 2));
  printf("%u ", (unsigned)answer[1]);
  printf("%u ", (unsigned)arf_look_up(index, 16, NULL, 0, 1, text, 22, answer, 1));
  printf("%u ", (unsigned)arf_look_up(index, 16, NULL, 0, 1, text, 23, answer, 1));
  printf("%u\n", (unsigned)answer[0]);
  fwrite(text, 1, (size_t)answer[0], stdout);
  free(index);
  free(text);
  free(answer);
}

/* A schema file with one method, which neither takes nor gives a value: no type, no field, and
 * the trailer. */
static const uint8_t method[48] = {1,   0,   0,   0,   2,   0,   0,   0,   3,   0,   0,   0,
                                   0,   0,   0,   0,   255, 255, 255, 255, 255, 255, 255, 255,
                                   255, 255, 255, 255, 255, 255, 255, 255, 0,   0,   0,   0,
                                   0,   0,   0,   0,   32,  0,   0,   0,   1,   0,   0,   0};

/* The number of the answer to a frame of call 4, with no value. */
static unsigned frame(uint64_t *table, uint32_t *tallies, uint32_t kind, uint8_t side) {
  uint8_t bytes[26];
  arf_write_frame(kind, 1, 2, 3, 4, NULL, 0, bytes, sizeof bytes, NULL, 0);
  return (unsigned)arf_receive(table, ARF_CALL_CELLS, method, sizeof method, side, bytes,
                               sizeof bytes, NULL, 0, tallies, ARF_TALLY_CELLS, NULL, 0);
}

/* A call table that is too short, and one of exact size; tallies that are too short, and of
 * exact size; a release. */
static void calls(void) {
  uint64_t *table = cells(ARF_CALL_CELLS), *answer = cells(7);
  uint32_t *tallies = calloc(ARF_TALLY_CELLS, sizeof *tallies);
  size_t i;
  if (tallies == NULL) exit(2);
  printf("%u ",
         (unsigned)arf_receive(NULL, 0, NULL, 0, ARF_CLIENT, NULL, 0, NULL, 0, NULL, 0, NULL, 0));
  printf("%u ", (unsigned)arf_receive(NULL, 0, empty, sizeof empty, ARF_CLIENT, NULL, 0, NULL, 0,
                                      NULL, 0, NULL, 0));
  printf("%u ", (unsigned)arf_receive(table, ARF_CALL_CELLS - 1, empty, sizeof empty, ARF_CLIENT,
                                      NULL, 0, NULL, 0, NULL, 0, answer, 7));
  printf("%u ", (unsigned)arf_receive(table, ARF_CALL_CELLS, empty, sizeof empty, ARF_CLIENT, NULL,
                                      0, NULL, 0, NULL, 0, answer, 7));
  printf("%u ", (unsigned)arf_release(NULL, 0, empty, sizeof empty, 1, NULL, 0, NULL, 0));
  printf("%u ",
         (unsigned)arf_release(table, ARF_CALL_CELLS, empty, sizeof empty, 1, NULL, 0, answer, 2));
  printf("%u ", (unsigned)arf_method_count(method, sizeof method));
  printf("%u\n", (unsigned)arf_release(table, ARF_CALL_CELLS, method, sizeof method, 4, tallies,
                                       ARF_TALLY_CELLS - 1, answer, 2));
  printf("%u ", frame(table, tallies, ARF_INVOKE, ARF_CLIENT));
  printf("%u ", frame(table, tallies, ARF_INVOKE, ARF_CLIENT));
  printf("%u ", frame(table, tallies, ARF_CANCEL, ARF_CLIENT));
  printf("%u ", frame(table, tallies, ARF_RESPONSE, ARF_SERVER));
  printf("%u ", (unsigned)arf_release(table, ARF_CALL_CELLS, method, sizeof method, 4, tallies,
                                      ARF_TALLY_CELLS, answer, 2));
  printf("%u:", (unsigned)answer[1]);
  for (i = 0; i < ARF_TALLY_CELLS; i++) printf(" %u", (unsigned)tallies[i]);
  putchar('\n');
  free(table);
  free(tallies);
  free(answer);
}

int main(void) {
  nothing();
  little();
  indexes();
  calls();
  return 0;
}
