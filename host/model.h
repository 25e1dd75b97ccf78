/* A compiled model, laid open for a host that shows what a table holds: the names and types in it, and where each
 * attribute stands in an object's row. */
#ifndef VENDORFINCH_MODEL_H
#define VENDORFINCH_MODEL_H

#include "vendorfinch.h"

/* A name, within the model's bytes. */
struct vendorfinch_name {
    const char *bytes;
    size_t length;
};

enum vendorfinch_type {
    VENDORFINCH_REFERENCE = 1,
    VENDORFINCH_COORDINATE_2 = 2,
    VENDORFINCH_COORDINATE_3 = 3,
    VENDORFINCH_NUMBER_TYPE = 4,
    VENDORFINCH_TEXT = 5,
    VENDORFINCH_DATE = 6,
    VENDORFINCH_ENUMERATION = 7,
    VENDORFINCH_LINE = 8
};

/* One number of a value: 205 with one decimal is 20.5. */
struct vendorfinch_component {
    unsigned decimals;
    int64_t least, greatest;
};

struct vendorfinch_attribute {
    struct vendorfinch_name name;
    enum vendorfinch_type type;
    int optional;
    unsigned number;     /* the table of a reference, the longest length of a text, the leaves of an enumeration, the
                            forms of a line (1 straight, 2 arc, 3 both); else 0 */
    unsigned components; /* of a coordinate, a number or a line; else 0 */
    struct vendorfinch_component component[3];
    unsigned cell;       /* where its first pair stands in a row: 3 and more */
};

struct vendorfinch_model_table {
    struct vendorfinch_name name;
    int optional;
    unsigned topic;                   /* its topic's number, from 0 */
    unsigned attributes, first;       /* how many, and the number of the first */
    unsigned cells;                   /* of a row */
};

struct vendorfinch_model {
    char blank, undefined, continuation;
    struct vendorfinch_name transfer, name;
    unsigned topics, tables, attributes;
    struct vendorfinch_name topic[64];
    struct vendorfinch_model_table table[512];
    struct vendorfinch_attribute *attribute; /* of all tables, one behind the other */
};

/* Lays a model open: 0, or VENDORFINCH_MODEL_BAD, VENDORFINCH_NO_MEMORY or VENDORFINCH_NULL_SLICE (table.h), and then
 * there is nothing in it. The model's bytes must stay as long as it is used. */
int vendorfinch_model_open(struct vendorfinch_model *open, const uint8_t *model, size_t model_length);

/* Gives back what it owns; nothing is in it then. */
void vendorfinch_model_free(struct vendorfinch_model *open);

#endif
