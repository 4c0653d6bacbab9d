/* arf.h: the proved arf entries for C and C++.
 *
 * The functions are those of crates/exports_c, in the archive libarf.a (x86-64 Linux). They are
 * proved in Rattle; this header is not, and tools/check-header holds its declarations to the
 * Rattle source.
 *
 * What holds for every function:
 *
 * - It takes any bytes and numbers, ends, and answers: 0 where it accepts, 1 where more bytes are
 *   needed, or the number of a refusal. docs/FORMAT.md has all numbers in words, and `arf explain
 *   NUMBER` prints one of them.
 * - A pointer is followed by the number of elements (not bytes) that may be read or written there.
 *   Where that number is 0 the pointer is not used, and may be NULL. Pointers are aligned as their
 *   type asks. Lengths that are not those of memory that is there are the one thing that no
 *   function can tell.
 * - Memory that is written (a pointer without `const`) overlaps nothing else that is lent to the
 *   same call.
 * - `answer` gets the further numbers of the answer, in the order that the comment gives: as many
 *   as it has cells. Its other cells stay as they were, and answer_n may be 0. Where a function
 *   refuses, `place` says where, and the numbers after it are 0, but for the bytes used and the
 *   calls open of arf_receive and arf_release.
 * - A refusal leaves sheets, outputs and lists as they were, but for the text of arf_look_up. What
 *   stands in them after what an answer writes stays as it was, too.
 * - It uses at most ARF_STACK bytes of stack (arf_make_index at most ARF_INDEX_STACK), no heap, and
 *   nothing that two threads would share; it keeps no pointer. On a thread with less stack the
 *   system ends the process.
 *
 * A sheet is rows of four cells: type number, place, length and count of each value, parents before
 * their children. One to three cells at its end are no row.
 * What a reader shows, places counted from the payload's start: of a scalar, a string or bytes the
 * content, and count 0; of an array or a map all its elements, and how many elements or pairs; of a
 * struct its bitmap and fields without the tail, and how many known fields are present. The bitmap
 * has a bit for each field, the lowest bit of its first byte first.
 * What a writer uses, places counted from the start of the bytes that are lent with the sheet: type
 * and count of each row; of a scalar, a string or bytes also place and length; of a struct also the
 * place, where its bitmap stands. Other cells are ignored. So rows that were read are written as
 * they are, over the payload; and a value of one's own is made by putting contents and bitmaps into
 * any memory and rows beside them, as host/c/write.c does.
 *
 * A schema is the bytes of a schema file. Each function checks it first, and gives the refusals
 * 40 to 44 of a file that is not good: `place` is then the number of the row at fault, and 0 for
 * 40 and 41.
 */
#ifndef ARF_H
#define ARF_H

#include <stddef.h>
#include <stdint.h>

#ifdef __cplusplus
extern "C" {
#endif

#define ARF_VERSION "0.1.0"

/* Limits. */
#define ARF_STACK 65536            /* bytes of stack, enough for any call but arf_make_index */
#define ARF_INDEX_STACK 262144     /* bytes of stack, enough for arf_make_index */
#define ARF_MAX_PAYLOAD 16384      /* bytes of a payload */
#define ARF_MAX_FRAME 16412        /* bytes of a frame: header, length and payload */
#define ARF_MAX_TYPES 256          /* type rows of a schema file */
#define ARF_MAX_FIELDS 2048        /* fields of a schema file */
#define ARF_MAX_STRUCT_FIELDS 64   /* fields of one struct */
#define ARF_MAX_METHODS 256        /* methods of a schema file */
#define ARF_MAX_SCHEMA 27664       /* bytes of a good schema file */
#define ARF_MAX_DEPTH 16           /* values in each other, the root counted */
#define ARF_MAX_PAIRS 64           /* pairs of a map */
#define ARF_MAX_COMPARISONS 258048 /* key comparisons of a payload */
#define ARF_MAX_ELEMENTS 65535     /* elements of each stream of a call */
#define ARF_MAX_RECORD 65536       /* bytes of a record */
#define ARF_SPAN_CELLS 4682        /* cells that list the spans of any record */
#define ARF_MAX_INDEX 38848        /* bytes of the index of any record */
#define ARF_MAX_SHEET 65536        /* cells that show any payload: a value takes a byte at least */
#define ARF_NO_VALUE 4294967295u   /* the type number of an empty payload */

/* Kinds of frames, and the sides that send them. */
enum arf_kind {
  ARF_INVOKE = 1,
  ARF_IN_STREAM = 2,
  ARF_IN_CLOSE = 3,
  ARF_OUT_STREAM = 4,
  ARF_OUT_CLOSE = 5,
  ARF_RESPONSE = 6,
  ARF_ERROR = 7,
  ARF_CANCEL = 8
};
#define ARF_CLIENT 67 /* C: INVOKE, IN_STREAM, IN_CLOSE, CANCEL */
#define ARF_SERVER 83 /* S: OUT_STREAM, OUT_CLOSE, RESPONSE, ERROR */

/* Numbers that come back. */
enum arf_number {
  ARF_ACCEPTED = 0,
  ARF_MORE = 1,
  ARF_BAD_MAGIC = 2,
  ARF_BAD_VERSION = 3,
  ARF_BAD_KIND = 4,
  ARF_BAD_FLAGS = 5,
  ARF_BAD_LENGTH = 6,
  ARF_PAYLOAD_TOO_LONG = 7,
  ARF_WRONG_SIDE = 8,
  ARF_UNKNOWN_METHOD = 9,
  ARF_CALL_OPEN = 10,
  ARF_CALL_NOT_OPEN = 11,
  ARF_OTHER_METHOD = 12,
  ARF_TOO_MANY_CALLS = 13,
  ARF_NOT_NOW = 14,
  ARF_BAD_CALL_TABLE = 15,
  ARF_DROPPED = 16,
  ARF_TOO_MANY_ELEMENTS = 17,
  ARF_TALLY_FULL = 18,
  ARF_TALLY_ROWS = 19,
  ARF_CUT = 20,
  ARF_BAD_VARUINT = 21,
  ARF_BAD_BOOL = 22,
  ARF_BAD_UTF8 = 23,
  ARF_REPEATED_KEY = 24,
  ARF_ABSENT_FIELD = 25,
  ARF_UNKNOWN_BIT = 26,
  ARF_SURPLUS = 27,
  ARF_TOO_DEEP = 28,
  ARF_UNDUE_PAYLOAD = 29,
  ARF_SHEET_TOO_SHORT = 30,
  ARF_MAP_TOO_LONG = 31,
  ARF_BAD_SCHEMA = 40,
  ARF_TOO_MANY_ROWS = 41,
  ARF_BAD_TYPE_ROW = 42,
  ARF_BAD_FIELD = 43,
  ARF_BAD_METHOD = 44,
  ARF_FILE_TOO_LONG = 45,
  ARF_NO_STRUCT = 46,
  ARF_NO_EXTENSION = 47,
  ARF_BAD_SHEET = 50,
  ARF_OUTSIDE = 51,
  ARF_OUTPUT_TOO_SHORT = 52,
  ARF_LIST_TOO_SHORT = 53,
  ARF_BAD_INDEX = 65,
  ARF_OTHER_RECORD = 66
};

/* ---- schema files */

/* Whether the bytes are a good schema file.
 * 0; or 40 to 44.
 * answer: place. */
uint32_t arf_check_table(const uint8_t *schema, size_t schema_n, uint64_t *answer, size_t answer_n);

/* Whether a new schema file extends an old one: it has the old one's types and methods, and its
 * structs may have gained optional fields at their ends, as many as leave the number of a bitmap's
 * bytes.
 * 0; or 40 to 44 of the old file, else of the new one.
 * answer: place; 1 for yes, 0 for no. */
uint32_t arf_extends(const uint8_t *old_schema, size_t old_n, const uint8_t *new_schema,
                     size_t new_n, uint64_t *answer, size_t answer_n);

/* ---- payloads */

/* Reads a payload as a struct of a type, and shows it as rows on the sheet.
 * 0; or, in this order, 40 to 44; 46 for a type that is no struct; 7; 20 to 28 and 31 with their
 * place in the payload; 30 for a sheet with too few rows.
 * answer: place; rows; place and length of the tail, the bytes of fields that the schema does not
 * know (the payload's end and 0 where there is none); key comparisons due. */
uint32_t arf_read(const uint8_t *schema, size_t schema_n, uint32_t type, const uint8_t *payload,
                  size_t payload_n, uint32_t *sheet, size_t sheet_n, uint64_t *answer,
                  size_t answer_n);

/* Reads a payload by the writer's schema, and shows it by ours: fields that theirs has added are
 * left out at every depth. Places and lengths are as written; a struct's count is that of the
 * fields that ours has.
 * 0; or, in this order, 40 to 44 of ours, then of theirs; 47 where theirs does not extend ours (its
 * bitmaps may have grown); 46 by ours; 7; 20 to 28 and 31 by theirs; 30 by the rows that are shown.
 * answer: as that of arf_read. Its tail is what theirs does not know, and is none for
 * arf_forward. */
uint32_t arf_read_beside(const uint8_t *ours, size_t ours_n, const uint8_t *theirs, size_t theirs_n,
                         uint32_t type, const uint8_t *payload, size_t payload_n, uint32_t *sheet,
                         size_t sheet_n, uint64_t *answer, size_t answer_n);

/* Writes the value that a sheet shows over its bytes, as a struct of a type. Every whole row of the
 * sheet has to be used. Unknown bits of the root are left out.
 * 0; or, in this order, 40 to 44; 46; row by row 28, 50, 31, 51, 22, 23, 25, 50 and 24, with the
 * row's number for a place; 50 for the first row left over; 7 for the payload and 52 for an output
 * that is too short, with place 0.
 * answer: place; the payload's length. */
uint32_t arf_write(const uint8_t *schema, size_t schema_n, uint32_t type, const uint32_t *sheet,
                   size_t sheet_n, const uint8_t *bytes, size_t bytes_n, uint8_t *out, size_t out_n,
                   uint64_t *answer, size_t answer_n);

/* Writes like arf_write, and passes on what the schema does not know: the root's unknown bits are
 * kept, and the tail of the bytes follows the known fields. A relay lends the rows and the tail
 * that arf_read told by the same schema, and gets the payload itself back.
 * 0; or arf_write's refusals up to a row left over; then, at place 0, 51 for a tail outside the
 * bytes, 50 for one that is shorter than the unknown bits or present without any, 7 and 52.
 * answer: place; the payload's length. */
uint32_t arf_forward(const uint8_t *schema, size_t schema_n, uint32_t type, const uint32_t *sheet,
                     size_t sheet_n, const uint8_t *bytes, size_t bytes_n, size_t tail_place,
                     size_t tail_length, uint8_t *out, size_t out_n, uint64_t *answer,
                     size_t answer_n);

/* The value of one row of a scalar, a string or bytes, over its bytes.
 * 0; or, in this order, 40 to 44; 50 for a composite or unknown type, a length that is not the
 * scalar's width or a count that is not 0, and 51, both with place 0; 22 and 23 with the row's
 * place.
 * answer: place; the case; its two numbers a and b:
 *   1  truth value     a is 0 or 1
 *   2  whole number    a is the 64-bit two's complement
 *   3  whole number    a is the number, which is not negative
 *   4  float32         a has the 32 bits as written, b those of the float, and 0 for a NaN
 *   5  float64         a has the 64 bits as written, b those of the float, and 0 for a NaN
 *   6  string, bytes   a is the place and b the length of the content in the bytes */
uint32_t arf_scalar(const uint8_t *schema, size_t schema_n, uint32_t type, uint32_t place,
                    uint32_t length, uint32_t count, const uint8_t *bytes, size_t bytes_n,
                    uint64_t *answer, size_t answer_n);

/* ---- frames */

/* Reads the frame at the front of the bytes. A field is judged once it is whole; bytes after the
 * frame are not looked at.
 * 0; 1 where more bytes are needed; or 2 to 7.
 * answer: kind; package; service; method; correlation; place and length of the payload in the
 * bytes. All are 0 where the frame is not whole or refused. */
uint32_t arf_read_frame(const uint8_t *bytes, size_t bytes_n, uint64_t *answer, size_t answer_n);

/* Writes a frame. ARF_MAX_FRAME bytes are room for any.
 * 0; or, in this order, 4, 7, 52.
 * answer: the frame's length, and 0 at a refusal. */
uint32_t arf_write_frame(uint32_t kind, uint32_t package, uint32_t service, uint32_t method,
                         uint64_t correlation, const uint8_t *payload, size_t payload_n,
                         uint8_t *out, size_t out_n, uint64_t *answer, size_t answer_n);

/* Writes a frame with the value that a sheet shows over its bytes, straight to the output: the
 * bytes that arf_write and then arf_write_frame give. For type ARF_NO_VALUE the payload is empty:
 * the sheet has no whole row then, and the bytes are not looked at.
 * 0; or, in this order, 40 to 44; 4; 46; arf_write's refusals for its rows; 7 for the payload; 52
 * for the whole frame.
 * answer: place; the frame's length. */
uint32_t arf_write_value_frame(uint32_t kind, uint32_t package, uint32_t service, uint32_t method,
                               uint64_t correlation, const uint8_t *schema, size_t schema_n,
                               uint32_t type, const uint32_t *sheet, size_t sheet_n,
                               const uint8_t *bytes, size_t bytes_n, uint8_t *out, size_t out_n,
                               uint64_t *answer, size_t answer_n);

/* ---- records */

/* Copies every entry of a torn record that can be kept to the front of `copy`, and lists the spans
 * left out at the front of `spans`, place and length of each. An entry is a side byte, C or S, and
 * a whole frame. A copy as long as the record and ARF_SPAN_CELLS cells are enough for any record.
 * 0; or, in this order, 45 for a record above ARF_MAX_RECORD bytes; 52 for the copy; 53 for the
 * list.
 * answer: entries kept; bytes copied; spans listed. All are 0 at a refusal. */
uint32_t arf_salvage(const uint8_t *record, size_t record_n, uint8_t *copy, size_t copy_n,
                     uint32_t *spans, size_t spans_n, uint64_t *answer, size_t answer_n);

/* Makes the index of a record: a row for each entry that a listing of the record prints. The record
 * is run from an empty call table with a sheet of 4,096 rows, up to the entry that stops the
 * listing. The one function that needs ARF_INDEX_STACK bytes of stack. ARF_MAX_INDEX bytes are room
 * for any index.
 * An index is rows of 16 bytes, little-endian: correlation (8 bytes), place of the entry's side
 * byte in the record and number of its answer (4 each), strictly rising by correlation and then
 * place; and a trailer of four 4-byte numbers: 0, the number of rows, the record's length, 1.
 * 0; or, in this order, 40 to 44; 45 for a record above ARF_MAX_RECORD bytes; 52.
 * answer: place; the length of the index. */
uint32_t arf_make_index(const uint8_t *schema, size_t schema_n, const uint8_t *record,
                        size_t record_n, uint8_t *out, size_t out_n, uint64_t *answer,
                        size_t answer_n);

/* Prints the rows of one call in the index of a record, as text: the line `place answer`, a line
 * with these two in decimal for each row, and the line `stopped` with 0, 65 or 66. Lines end in a
 * line feed; no NUL follows. Of the record only the length is looked at. 24 bytes, and 22 for each
 * row of the index, are room for any text.
 * 0; 65 for bytes that are no index, then 66 for a record of another length than the index tells:
 * the text without rows is there for both, and says so; or 52 where the text does not fit, and the
 * output stays as it was.
 * answer: the text's length, and 0 for 52. */
uint32_t arf_look_up(const uint8_t *index, size_t index_n, const uint8_t *record, size_t record_n,
                     uint64_t correlation, uint8_t *out, size_t out_n, uint64_t *answer,
                     size_t answer_n);

/* ---- calls
 *
 * A call table is ARF_CALL_CELLS cells, ARF_RECORD_CELLS for each of ARF_SLOTS slots: the call's
 * correlation; the number of its method in the schema; its marks, which count 1 open, 2 RESPONSE
 * accepted, 4 input closed, 8 output closed, 16 cancelled, and the stream elements accepted, 32 for
 * each of the input and 2,097,152 for each of the output. All cells are 0 at the start, and those
 * of a free slot are. The table is the library's to change: the host keeps it from one call to the
 * next, one for each connection. Frames of both sides go through it in their order, those too that
 * the host itself sends: else the answer to an INVOKE of its own is 11. With fewer cells, or with a
 * number in them that is none of a record's, the answer is 15, after 40 to 44, and the cells stay
 * as they were; cells after the last record are never touched.
 *
 * Tallies are ARF_TALLY_CELLS cells for each method of the schema (arf_method_count), in its
 * order: calls opened, completed, errored, cancelled, failed on payload. All are 0 at the start,
 * and the host keeps them like the table. With another number of whole rows the answer is 19,
 * after 15; one to four cells after the last row are no row, and never touched. A frame or a
 * release raises at most one cell by one, so that under one schema the calls opened are those
 * that ended, the sum of the other four cells, and those of that method that are open now. A
 * cell that is full, at 4,294,967,295, and would rise gives 18: the host then subtracts the
 * other four cells from the first, adds them to longer numbers of its own, sets them to 0, and
 * calls again. */
#define ARF_SLOTS 128
#define ARF_RECORD_CELLS 3
#define ARF_CALL_CELLS (ARF_SLOTS * ARF_RECORD_CELLS)
#define ARF_TALLY_CELLS 5
#define ARF_MAX_TALLY_CELLS (ARF_MAX_METHODS * ARF_TALLY_CELLS)

/* The number of methods of a good schema file, and 0 for fewer bytes than a schema file has.
 * This one is no part of the library. */
static inline size_t arf_method_count(const uint8_t *schema, size_t schema_n) {
  /* The second number of the last 16 bytes is the place of the methods. They have 32 bytes each,
   * and end where these 16 start. */
  size_t trailer = schema_n < 16 ? 0 : schema_n - 16, methods = 0, i;
  for (i = 4; i > 0 && schema_n >= 16; i--) methods = 256 * methods + schema[trailer + 3 + i];
  return methods < trailer ? (trailer - methods) / 32 : 0;
}

/* Judges the frame at the front of the bytes from a side (ARF_CLIENT or ARF_SERVER), reads its
 * payload on the sheet, changes its own call's record, and counts.
 * 0; 1 where more bytes are needed; or, in this order, 40 to 44; 15; 19; 2 to 7; 8; for INVOKE 9,
 * 10, 13; for others 11, 12, 14 or 16; 17 for a stream that has had ARF_MAX_ELEMENTS elements; the
 * payload's 20 to 29 and 31; 30; and 18 in place of 0 or of a payload's refusal where a full cell
 * would rise.
 * A payload refused with 20 to 29 or 31 ends its call, which counts as failed; an INVOKE so refused
 * opens none, and counts nowhere. Nothing else that is refused changes a record or a tally.
 * answer: place in the payload; bytes used; rows; place and length of the tail; calls open
 * afterwards; key comparisons due.
 * The bytes used are the frame's for 0, 8 to 14, 16, 20 to 29 and 31, and the next frame starts
 * behind them. For all else they are 0, nothing has changed, and the same call would give the
 * same answer: for 1 wait for more bytes; for 2 to 7 end the connection; for 17 pass over the
 * frame, whose end arf_read_frame tells, and let the call end; for 18 do as said above; for 30
 * call again with a longer sheet, where ARF_MAX_SHEET cells are always enough; for 15, 19 and 40
 * to 44 stop. */
uint32_t arf_receive(uint64_t *table, size_t table_n, const uint8_t *schema, size_t schema_n,
                     uint8_t side, const uint8_t *bytes, size_t bytes_n, uint32_t *sheet,
                     size_t sheet_n, uint32_t *tallies, size_t tallies_n, uint64_t *answer,
                     size_t answer_n);

/* Ends a cancelled call, so that its slot and its correlation are free again, and counts it as
 * cancelled. A call that was cancelled stays open until the server's ERROR, or until this.
 * 0; or, in this order, 40 to 44; 15; 19; 11 for a call that is not open; 14 for one that is not
 * cancelled; 18. A refusal changes nothing.
 * answer: place; calls open afterwards. */
uint32_t arf_release(uint64_t *table, size_t table_n, const uint8_t *schema, size_t schema_n,
                     uint64_t correlation, uint32_t *tallies, size_t tallies_n, uint64_t *answer,
                     size_t answer_n);

#ifdef __cplusplus
}
#endif

#endif
