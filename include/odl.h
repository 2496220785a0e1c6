/* Reader and writer of ODL 2.1 camera labels: the C face of libodl.a.
 *
 * A label is read into a table: a run of rows, each one byte of kind and a
 * body whose length the kind fixes. A table is written out as a canonical
 * label. Three calls ask about single rows. A session book counts labels by the
 * weekday of their START_TIME.
 *
 * Buffers. Every buffer is a pointer and its length in bytes, and the pointer
 * may be NULL where the length is 0. Any bytes are legal in every buffer: what
 * is wrong with them is answered by a code. Nothing is allocated and nothing
 * is kept after the call. `const` buffers are only read, and may overlap one
 * another. The lent room must not overlap any other buffer. A result is
 * written whole or not at all: on any code but 0 the lent room is untouched,
 * and on 0 it is untouched beyond the reported length.
 *
 * Book. The pointer to it must not be NULL, and the book must not overlap any
 * buffer. Any eight numbers are legal in it: their sum does not wrap. On any
 * code but 0 the book is as it was.
 *
 * Results. Every call sets all of them. The pointers to results must not be
 * NULL, must be distinct, and must point outside the book and all buffers: the
 * lent room and those that are read.
 *
 * Calls share no state and may run at the same time in many threads, each
 * with its own room, book and results. Threads that share a book have to see to
 * it that they take turns, also for labels that are refused: every call stores
 * the book. A call needs no more than 64 KiB of stack; this is measured
 * (tests/c/stack.c: 22 KB at most), not proved.
 *
 * Room on a board. For x86-64 the library has less than 46,000 bytes of code
 * and less than 2,300 bytes of constant data, and nothing that is written to.
 * It holds no arrays of numbers but the compiler's: the constant data are its
 * tables for branches and for the kinds of rows, its masks, and the words and
 * signs that are compared and written. `tests/c/constants LIBRARY` measures the
 * bytes.
 *
 * Time. odl_read and odl_take take time in proportion to the label. The other
 * calls judge the whole table first, each time anew, so each takes time in
 * proportion to the table and to all bytes that its spans show. In a table from
 * elsewhere these may be many: each row may show the whole label. To walk all
 * rows of a table that was just read, step from row to row as the kinds say:
 * the spans of names stand in the rows.
 */
#ifndef ODL_H
#define ODL_H

#include <stddef.h>
#include <stdint.h>

#ifdef __cplusplus
extern "C" {
#endif

/* No label, read or written, is longer than this many bytes. */
#define ODL_LONGEST_LABEL 65535

/* A book whose eight counts sum to this or more is full. */
#define ODL_MOST_SESSIONS 1000000

/* What a call answers, and the place that comes with it. */
enum odl_code {
    ODL_ACCEPTED = 0,         /* past END; for odl_write the written length;
                                 for odl_text and odl_find 0 */
    ODL_LABEL_TOO_LONG = 1,   /* label over 65,535 bytes: 65535 */
    ODL_BAD_BYTE = 2,         /* a byte that begins no element: that byte; or is
                                 not allowed in its text, symbol or comment:
                                 the start of that */
    ODL_LEFT_OPEN = 3,        /* text, symbol or comment not closed: its start */
    ODL_NO_FORM = 4,          /* a word of no form, an empty symbol: its start */
    ODL_PAST_LIMIT = 5,       /* a number, radix, digit, length, date or unit
                                 exponent past its limit: its start */
    ODL_MISPLACED = 6,        /* an element that cannot stand there: its start */
    ODL_OTHER_NAME = 7,       /* closing name not the opening one: the name */
    ODL_TOO_DEEP = 8,         /* OBJECT or GROUP at depth 80: the word */
    ODL_END_NOT_SET_OFF = 9,  /* END followed by no spacing, line end or end of
                                 the input: the word */
    ODL_ENDS_EARLY = 10,      /* the input ends early: its length */
    ODL_ROOM_TOO_SHORT = 11,  /* lent room too short: as for 0; the length is
                                 the one needed */
    ODL_IMPROPER_TABLE = 12,  /* table not proper over this label: offset of the
                                 first row that is wrong or cut short, or the
                                 table's length if whole rows are lacking */
    ODL_WRITTEN_TOO_LONG = 13, /* written label over 65,535 bytes: 65535 */
    ODL_NAME_ABSENT = 14,     /* no attribute of that name: 0 */
    ODL_NO_SUCH_ROW = 15,     /* not the offset of a row that is asked for: 0 */
    ODL_BOOK_FULL = 16        /* the book is full: 0 */
};

/* Kinds of row, with the body that follows the byte of kind. Numbers stand
 * high byte first, signed ones in two's complement. A span is the start and
 * the end of a stretch of the label, two bytes each, quotes left out. */
enum odl_row {
    ODL_ATTRIBUTE = 1,    /* span of the name: 4 bytes; its value follows */
    ODL_POINTER = 2,      /* span of the name: 4; its value follows */
    ODL_OBJECT = 3,       /* span of the name: 4 */
    ODL_END_OBJECT = 4,   /* nothing */
    ODL_GROUP = 5,        /* span of the name: 4 */
    ODL_END_GROUP = 6,    /* nothing */
    ODL_INTEGER = 10,     /* signed number: 8 */
    ODL_REAL = 11,        /* signed number 8, signed power of ten 2 */
    ODL_TIME = 12,        /* parts 1 (see below), year 2, month, day, hour,
                             minute, second 1 each, nanoseconds 4, signed
                             offset from UTC in minutes 2, zone 1 (see
                             below): 15 */
    ODL_TEXT = 13,        /* span: 4; odl_text reassembles it */
    ODL_SYMBOL = 14,      /* span: 4 */
    ODL_UNIT = 15,        /* joint 1 (see below), span of the name 4, signed
                             exponent 1; stands after its number */
    ODL_SEQUENCE = 20,    /* nothing; members follow: scalars, or sequences of
                             scalars */
    ODL_END_SEQUENCE = 21, /* nothing */
    ODL_SET = 22,         /* nothing; members follow */
    ODL_END_SET = 23,     /* nothing */
    ODL_LAST = 99         /* offset just past END: 2; the last row */
};

/* Parts of a date or time. A part that is absent is all 0; offset and zone
 * belong to the time. */
enum odl_parts { ODL_DATE_ONLY = 1, ODL_TIME_ONLY = 2, ODL_DATE_AND_TIME = 3 };

/* How a time's zone was given: not at all, as Z or z, or signed, +00:00 too;
 * also 0 where there is no time. The offset of a time with no zone is 0 by rule
 * (12.3.2.3), but its camera's clock may have stood anywhere. This mark is no
 * part of the meaning: a written label has Z, or a signed zone where the offset
 * is not 0, with every time, so a table read back from it has 1 or 2 there. A
 * mark of 0 or 1 with an offset other than 0, one above 2, or one other than 0
 * where there is no time, makes a table improper (12). */
enum odl_zone { ODL_NO_ZONE = 0, ODL_Z = 1, ODL_SIGNED_ZONE = 2 };

/* How a unit is joined to those before it. */
enum odl_joint { ODL_FIRST = 0, ODL_TIMES = 1, ODL_DIVIDED = 2 };

/* A session book: how many sessions started on each weekday, Monday first, and
 * last how many are undated. All zeros is the empty book. To keep a book in a
 * file, write its counts: the bytes of the struct are this machine's. */
struct odl_book { uint32_t counts[8]; };

/* Where each counter stands in the counts. */
enum odl_counts {
    ODL_AT_MONDAY = 0,
    ODL_AT_TUESDAY = 1,
    ODL_AT_WEDNESDAY = 2,
    ODL_AT_THURSDAY = 3,
    ODL_AT_FRIDAY = 4,
    ODL_AT_SATURDAY = 5,
    ODL_AT_SUNDAY = 6,
    ODL_AT_UNDATED = 7
};

/* Reads a label into a table. Codes 0 to 11. On 0 the table stands in the
 * first *length bytes of the room and *place is the offset just past END;
 * bytes after END are not looked at, but for the first. On 11 *length is the
 * room needed: call once with length 0 to learn it, or lend five times the
 * label's length, which is always enough. On all other codes *length is 0 and
 * *place is where the first fault is. A sequence of sequences has one comma
 * between its rows, ((1, 2), (3, 4)); side by side is 6 at the second row. */
uint8_t odl_read(const uint8_t *label, size_t label_len,
                 uint8_t *table, size_t table_len,
                 size_t *place, size_t *length);

/* Writes a table out as a canonical label: one form for each meaning, lines
 * ended by CR LF. The label is the one whose bytes the table's spans show; the
 * table may come from odl_read or from elsewhere, since it is judged first.
 * Codes 0, 1, 11, 12, 13. On 0 and 11 *length and *place are both the length
 * of the written label, else *length is 0. Two tables that are written with 0,
 * each over its label, by one version of this library, mean the same exactly
 * when the written bytes are equal.
 * A real whose power is -18 to -1 is written plainly: 1.5, 0.015. One whose
 * power is 0 or more, and whose number and zeros come to at most 18 digits, is
 * written with all of them: 1500.0, and 0.0 for zero. Any other is written with
 * its power: 15.E-30, 1.E18. */
uint8_t odl_write(const uint8_t *label, size_t label_len,
                  const uint8_t *table, size_t table_len,
                  uint8_t *out, size_t out_len,
                  size_t *place, size_t *length);

/* Reassembles the text of the row at offset `row` of the table: lines are
 * joined, a hyphen at a line's end goes with it, control bytes but tabs are
 * dropped.
 * Codes 0, 1, 11, 12, 15. On 0 the text stands in the first *length bytes of
 * the room; on 11 *length is the room needed, which is never more than the
 * span; else it is 0. *place is 0 but for codes 1 and 12. */
uint8_t odl_text(const uint8_t *label, size_t label_len,
                 const uint8_t *table, size_t table_len,
                 size_t row,
                 uint8_t *out, size_t out_len,
                 size_t *place, size_t *length);

/* Looks for an attribute by its name, case folded, from the row at offset
 * `row` on. That row must be one of a statement (kinds 1 to 6) or the last
 * one. The search stays in the block that the row stands in and passes over
 * blocks within it. Codes 0, 1, 12, 14, 15. On 0 *at is the offset of the
 * attribute's row, else 0. *place is 0 but for codes 1 and 12. */
uint8_t odl_find(const uint8_t *label, size_t label_len,
                 const uint8_t *table, size_t table_len,
                 const uint8_t *name, size_t name_len,
                 size_t row,
                 size_t *place, size_t *at);

/* Gives the stretch of the label that is the name of the row at offset `row`:
 * of an attribute, a pointer, an OBJECT, a GROUP, a symbol or a unit. It runs
 * from *start to just before *end. Where there is no such row, or label or
 * table would be refused, both are 0. A name is never empty. */
void odl_name(const uint8_t *label, size_t label_len,
              const uint8_t *table, size_t table_len,
              size_t row,
              size_t *start, size_t *end);

/* Takes a session into the book: reads its label, and counts the session under
 * the Gregorian weekday of its START_TIME. That is the date as written, the
 * tester's own day: the zone's offset is not applied. 1979-07-08 is a Sunday.
 * START_TIME is found as odl_find finds it from row 0: the first one outside
 * all blocks decides, whatever comes after it. The session is undated if there
 * is none, or if its value is not a single one with a date: a time alone, a
 * text, a sequence or set, of one date too.
 * Codes 0 to 11 and 16. 0 to 11 are those of odl_read for this label and room,
 * with its *place and *length. On 0 exactly one counter is one more, the others
 * are as they were, and the table stands in the room as odl_read leaves it. 16
 * comes after all of them: the book is full, but the label is right and its
 * table fits the room. *place and *length are then 0. So with a full book too a
 * label that is refused has its own code, and one whose table does not fit 11.
 * On any code but 0 the book is as it was, and all of the room untouched. */
uint8_t odl_take(struct odl_book *book,
                 const uint8_t *label, size_t label_len,
                 uint8_t *table, size_t table_len,
                 size_t *place, size_t *length);

#ifdef __cplusplus
}
#endif

#endif
