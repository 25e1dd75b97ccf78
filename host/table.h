/* The layer over the proved calls for a host that wants no buffers of its own: a table that owns what it needs. It has
 * no state beside its table, so threads may read side by side, each into a table of its own.
 *
 * Every call here answers 0, a refusal (vendorfinch.h), or an error below zero. A NULL with length 0 is an empty slice.
 */
#ifndef VENDORFINCH_TABLE_H
#define VENDORFINCH_TABLE_H

#include "vendorfinch.h"

enum vendorfinch_error {
    VENDORFINCH_NO_MEMORY = -1,
    VENDORFINCH_NULL_SLICE = -2 /* a NULL with a length */
};

/* A table as vendorfinch_read leaves it; begin with VENDORFINCH_NO_TABLE. Only the layer changes what is in it. */
struct vendorfinch_table {
    size_t objects, cells_used, points_used; /* the three counts: all 0 unless a file was read */
    uint64_t place[2];                       /* of the last refusal of reading; else 0 0 */
    uint8_t *text, *marks;
    uint64_t *rows;
    int64_t *cells, *points;
    size_t text_length, marks_length, rows_length, cells_length, points_length;
    void *memory; /* all of the above, and reading's index */
    size_t memory_length;
};
#define VENDORFINCH_NO_TABLE {0, 0, 0, {0, 0}, 0, 0, 0, 0, 0, 0, 0, 0, 0, 0, 0, 0}

/* Reads a file under a model into the table; what was in it is gone. Room is never wanting: 6 and 16 are not answered.
 * Refused, the table is empty, so that it cannot be written (19), and `place` says where; without memory, and for a
 * NULL with a length, it is empty and owns nothing. A table may be read into again, and keeps its memory for that. */
int vendorfinch_table_read(struct vendorfinch_table *table, const uint8_t *model, size_t model_length,
                           const uint8_t *file, size_t file_length);

/* Writes the table under the model with which it was read, its lines cut to a width of 16 to 65,535 bytes. 0: *out
 * holds *out_length bytes, and the caller gives it to free(). Else *out is NULL and *out_length 0. */
int vendorfinch_table_write(const struct vendorfinch_table *table, const uint8_t *model, size_t model_length,
                            size_t width, uint8_t **out, size_t *out_length);

/* Gives back what the table owns; it is empty then. */
void vendorfinch_table_free(struct vendorfinch_table *table);

#endif
