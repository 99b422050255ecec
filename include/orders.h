/*
 * The reader of order files for C, RFC 4180 text read where it stands: the functions that target/staticlib/liborders_c.a defines, which
 * `tools/staticlib orders_c` proves and builds for x86-64.
 *
 * orders_read tells how many rows and columns a text has, or why it is refused. orders_next walks over all fields in one pass, and
 * orders_part finds one field by its row and column: each hands the field over as a part of the caller's own text, quotes included.
 * orders_content writes the content of a part, quotes removed and doubled quotes made single. Nothing is copied but by that call.
 *
 * The text is of this grammar, and there is only one way to divide it into fields:
 *
 *     text        = line *(CR LF line)
 *     line        = field *("," field)
 *     field       = escaped / non-escaped
 *     escaped     = DQUOTE *(TEXTDATA / "," / CR / LF / 2DQUOTE) DQUOTE
 *     non-escaped = *TEXTDATA
 *     TEXTDATA    = bytes 20 to 21, 23 to 2B, 2D to 7E and 80 to FF, in hexadecimal digits
 *
 * A line of no bytes is skipped, also the one behind a last CR LF; every other line is a row. A row has at most 32 fields, and as many as
 * the first row. Rows, columns and places are counted from 0; a place is that of a byte in the text, and its end is the place text_len.
 *
 * orders_read and orders_content return ORDERS_ACCEPTED or the number of a refusal. orders_part finds nothing in a refused text, and a refused
 * content leaves the target as it was. Every text, part, row, column and cursor has its answer; none need be looked at beforehand.
 *
 * All that is proved rests on what C does not check:
 *   - answer, part and cursor are two words each, aligned as a uint64_t is, and so is the one word of written;
 *   - no pointer is null, also where its length is 0, and each buffer has the bytes that its length says;
 *   - what a call writes overlaps nothing else that it is given: answer, part, cursor, target and written are apart from the text, from the
 *     part that is read, and from each other;
 *   - nothing else touches them during the call.
 *
 * Compilers that can do so warn of a result that is ignored, and of an argument that is plainly null.
 *
 * Threads: the calls keep nothing from one call to the next, and have no data of their own that is written. A text may be read by any number
 * of calls at the same time; what is written is in one call at a time.
 */
#ifndef ORDERS_H
#define ORDERS_H

#include <stddef.h>
#include <stdint.h>

#if SIZE_MAX != UINT64_MAX
#error "orders.h: the library is for x86-64, where size_t has 64 bits"
#endif

/* For the compiler to warn: of a result that is ignored, and of a null argument. The same in strumok.h, strumok_mut.h and orders.h. */
#ifndef STRUMOK_MUST_USE
#if (defined __cplusplus && __cplusplus >= 201703L) || (defined __STDC_VERSION__ && __STDC_VERSION__ >= 202311L)
#define STRUMOK_MUST_USE [[nodiscard]]
#elif defined __GNUC__
#define STRUMOK_MUST_USE __attribute__((warn_unused_result))
#else
#define STRUMOK_MUST_USE
#endif
#ifdef __GNUC__
#define STRUMOK_NONNULL __attribute__((nonnull))
#else
#define STRUMOK_NONNULL
#endif
#endif

#ifdef __cplusplus
extern "C" {
#endif

/* The most fields of a row. */
#define ORDERS_MOST_FIELDS 32

/* What orders_read and orders_content return; the numbers are of one table with those of strumok.h. */
enum {
    ORDERS_ACCEPTED = 0,
    ORDERS_REFUSED_TARGET_SHORTER = 5,  /* the target is shorter than the content */
    ORDERS_REFUSED_NOT_CSV = 11,        /* the text, or the part, is not of the grammar */
    ORDERS_REFUSED_RAGGED_ROW = 12,     /* a row whose field count differs from the first row's */
    ORDERS_REFUSED_TOO_MANY_FIELDS = 13 /* a row of more than 32 fields */
};

/*
 * Reads a text. Where it is accepted, answer is the count of rows and the count of columns, which are the fields of each row; a text without
 * rows has 0 columns. Where it is refused, answer is the place and 0:
 *
 *     11   the first byte with which the text so far can no longer begin a text of the grammar, at that byte;
 *          or a text that ends inside quotes or on a lone CR, at its end
 *     12   a row whose field count differs from the first row's, at its line end: the CR after its last field, whether or not an LF
 *          follows, or the end of the text
 *     13   a row of more than 32 fields, at its 32nd separating comma
 *
 * The earliest place is reported, and at one place the lower number. Both words of answer are always written.
 */
STRUMOK_MUST_USE STRUMOK_NONNULL
uint64_t orders_read(const uint8_t *text, size_t text_len, uint64_t answer[2]);

/*
 * Finds a field by row and column: part is the place where it starts and its length, quotes included; 0 and 0 where there is no such row or
 * column, or the text is refused. An empty field at the text's start is 0 and 0 too: orders_read tells which rows and columns there are. The
 * text is read from its beginning at each call; to go over all fields there is orders_next.
 */
STRUMOK_NONNULL
void orders_part(const uint8_t *text, size_t text_len, size_t row, size_t column, uint64_t part[2]);

/*
 * Writes the content of a part to the front of the target, and its byte count to written. Later bytes of the target keep their values. The
 * content is never longer than the part. Every part that orders_part finds is a field, also the empty one.
 *
 * Refusals, with 0 in written and with the target as it was: 11 for a part that is no field, then 5; both are at place 0.
 */
STRUMOK_MUST_USE STRUMOK_NONNULL
uint64_t orders_content(const uint8_t *part, size_t part_len, uint8_t *target, size_t target_len, uint64_t *written);

/*
 * Walks over the fields of a text that orders_read accepts, row by row, in one pass. The first call is given the cursor {0, 0}, each later one
 * what the last one left there. Returns 1 where there was a field: part is the place where it starts and its length, quotes included, and
 * the cursor is moved on; cursor[1] is then odd where another field of the same row follows, and even where the row has ended. Returns 0 where
 * no field is left, with part and cursor as they were. The content of the field is that of the part text + part[0], of part[1] bytes.
 *
 * On a text that is refused, and from a cursor that no call left, what it hands over means nothing, but is a part of the text still, and the
 * walk ends.
 */
STRUMOK_MUST_USE STRUMOK_NONNULL
uint64_t orders_next(const uint8_t *text, size_t text_len, uint64_t cursor[2], uint64_t part[2]);

#ifdef __cplusplus
}
#endif

#endif
