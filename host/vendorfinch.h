/* Vendorfinch for a C host: the proved intake of INTERLIS 1 transfer files (x86-64 Linux, static library
 * libvendorfinch.a).
 *
 * A slice is a pointer and its length. A pointer is never NULL, also where the length is 0; slices that are written to
 * do not overlap any other slice of the same call. No call asks anything else of its caller: each looks at all it is
 * given, refuses what is wrong, and returns. Every byte of a lent buffer is settled when a call returns.
 *
 * A call answers one number: the answer's first number plus 256 times its second. The first is 0, or a refusal; the
 * second is then its place, which stands beside each number below. A line is a logical line, counted from 1.
 *
 * Most hosts call the layer in table.h, which owns the buffers, and model.h, which names what a model has.
 */
#ifndef VENDORFINCH_H
#define VENDORFINCH_H

#include <stddef.h>
#include <stdint.h>

#define VENDORFINCH_VERSION "1.0.0"

/* The first and the second number of an answer. */
#define VENDORFINCH_NUMBER(answer) ((answer) % 256)
#define VENDORFINCH_SECOND(answer) ((answer) / 256)

/* The refusals. */
enum vendorfinch_refusal {
    VENDORFINCH_FILE_TOO_LONG = 1,      /* file above 16,777,216 bytes (0) */
    VENDORFINCH_MODEL_BAD = 2,          /* model bad (the record's byte) */
    VENDORFINCH_END_MISSING = 3,        /* last line has no LF, or ends in the mark (line) */
    VENDORFINCH_BYTE_NOT_PERMITTED = 4, /* byte not permitted (line) */
    VENDORFINCH_CONT_MISSING = 5,       /* mark not followed by CONT and space (line) */
    VENDORFINCH_TEXT_ROOM = 6,          /* too little room for unfolded text or marks (0) */
    VENDORFINCH_CODE_EXPECTED = 7,      /* another line code expected, or no line left (line, one past the last) */
    VENDORFINCH_MOTR = 8,               /* MOTR in place of MTID (line) */
    VENDORFINCH_NAME_WRONG = 9,         /* name wrong or not in order (line) */
    VENDORFINCH_TABLE_SKIPPED = 10,     /* mandatory table skipped (line) */
    VENDORFINCH_FIELD_COUNT = 11,       /* field missing or extra (line) */
    VENDORFINCH_UNDEFINED = 12,         /* undefined where not allowed, mixed coordinate (line) */
    VENDORFINCH_SHAPE_WRONG = 13,       /* field has wrong shape (line) */
    VENDORFINCH_OUTSIDE_DOMAIN = 14,    /* outside its domain, text too long (line) */
    VENDORFINCH_USED_TWICE = 15,        /* identification used twice (line) */
    VENDORFINCH_TABLE_ROOM = 16,        /* no room for a row, its cells or a point (line) */
    VENDORFINCH_NO_OBJECT = 17,         /* reference names no object of its table (object, from 0) */
    VENDORFINCH_FORM_WRONG = 18,        /* straight or arc not in the forms (line) */
    VENDORFINCH_UNWRITABLE = 19,        /* writing: no lines read as this table (0) */
    VENDORFINCH_WIDTH_WRONG = 20,       /* writing: width not 16 to 65,535 (0) */
    VENDORFINCH_OUTPUT_ROOM = 21        /* writing: output room or 16,777,216 bytes too small (0) */
};

/* What a refusal means, or an error of the layer in table.h: words that stay where they are, never NULL. */
const char *vendorfinch_words(int number);

/* Checks a compiled model. 0 and the number of topics, or 2 and the byte of the first bad record. */
uint64_t vendorfinch_check_model(const uint8_t *model, size_t model_length);

/* Unfolds a file under a model into the text room: each logical line followed by one LF.
 * 0 and the number of text bytes: the room holds the text, and zeros behind it.
 * 1, 2, 3, 4, 5 or 6, the first of them in this order: the room holds nothing but zeros. */
uint64_t vendorfinch_unfold(const uint8_t *model, size_t model_length, const uint8_t *file, size_t file_length,
                            uint8_t *text, size_t text_length);

/* Reads a file under a model into a table.
 * 0 and the number of objects, and in the lent buffers, with zeros behind their used part:
 *   text    the unfolded text; as many bytes as the file has are always enough
 *   marks   a byte per topic, then per table, 1 where delivered; 576 are enough for every model
 *   rows    for each object the number of its row's first cell
 *   cells   for each object its row: table, start and length of its identification in the text; then a pair per
 *           attribute, per component of a coordinate: 0 0 undefined; 1 and the value of a number, date or enumeration;
 *           1 plus length and start of a text; 1 and the object of a reference; 1 plus the count of points and the
 *           first point of a line
 *   points  four numbers each: 0 STPT, 1 LIPT, 2 ARCP; east; north; height or 0. A rest below four stays zero
 * A refusal, the first in the fixed order: each of them holds nothing but zeros.
 *
 * index is working room, all zeros behind every call: three numbers for each of rows make reading fast, and a shorter
 * one, of length 0 too, only costs time. seed is any number: one that nobody can guess keeps every file from making
 * reading slow. Neither changes what is answered.
 *
 * answer gets the four numbers 0, objects, cells, points; or the refusal, its two place numbers (the second is the
 * field, from 1), 0. It gets as many as there is room for, and zeros behind the fourth. Its length may be 0. */
uint64_t vendorfinch_read(const uint8_t *model, size_t model_length, const uint8_t *file, size_t file_length,
                          uint8_t *text, size_t text_length, uint8_t *marks, size_t marks_length,
                          uint64_t *rows, size_t rows_length, int64_t *cells, size_t cells_length,
                          int64_t *points, size_t points_length, uint64_t *index, size_t index_length,
                          uint64_t seed, uint64_t *answer, size_t answer_length);

/* Writes a table under a model, its lines cut to a width of 16 to 65,535 bytes, into the output room.
 * text, marks, rows, cells and points are laid out as reading leaves them, and objects, cells_used and points_used are
 * its three numbers; what lies behind these counts is not looked at. A text or an identification may start anywhere in
 * text. points_used counts points, of four numbers each.
 * 0 and the number of bytes written: out holds them, and zeros behind.
 * 2, 20, 19 or 21, the first of them in this order: out holds nothing but zeros. 19 says that the lent table is none
 * that reading could have left.
 *
 * index and seed are as in reading: three numbers for each object make writing fast.
 *
 * answer gets the four numbers 0, bytes written, 0, 0; or the refusal, the record's byte for 2 and else 0, 0, 0; as
 * many as there is room for, as in reading. */
uint64_t vendorfinch_write(const uint8_t *model, size_t model_length, const uint8_t *text, size_t text_length,
                           const uint8_t *marks, size_t marks_length, const uint64_t *rows, size_t rows_length,
                           const int64_t *cells, size_t cells_length, const int64_t *points, size_t points_length,
                           size_t objects, size_t cells_used, size_t points_used, size_t width,
                           uint8_t *out, size_t out_length, uint64_t *index, size_t index_length,
                           uint64_t seed, uint64_t *answer, size_t answer_length);

#endif
