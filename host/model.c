/* A good model, walked record by record. What is good is decided by vendorfinch_check_model alone. */
#include "model.h"
#include "table.h"

#include <stdlib.h>
#include <string.h>

enum { TRANSFER = 1, MODEL, TOPIC, TABLE, ATTRIBUTE };

static uint64_t little_endian(const uint8_t *bytes, size_t count)
{
    uint64_t number = 0;
    while (count > 0)
        number = 256 * number + bytes[--count];
    return number;
}

static struct vendorfinch_name name_between(const uint8_t *from, const uint8_t *to)
{
    struct vendorfinch_name name = {(const char *)from, (size_t)(to - from)};
    return name;
}

/* Its components: decimals, least and greatest value each. Answers the byte behind them. */
static const uint8_t *lay_components(struct vendorfinch_attribute *attribute, unsigned count, const uint8_t *at)
{
    attribute->components = count;
    for (unsigned i = 0; i < count; i++, at += 17) {
        attribute->component[i].decimals = at[0];
        attribute->component[i].least = (int64_t)little_endian(at + 1, 8);
        attribute->component[i].greatest = (int64_t)little_endian(at + 9, 8);
    }
    return at;
}

/* The parameters of a type. Answers the byte behind them, where the name begins. */
static const uint8_t *lay_parameters(struct vendorfinch_attribute *attribute, const uint8_t *at)
{
    switch (attribute->type) {
    case VENDORFINCH_COORDINATE_2:
    case VENDORFINCH_COORDINATE_3:
        return lay_components(attribute, attribute->type, at);
    case VENDORFINCH_NUMBER_TYPE:
        return lay_components(attribute, 1, at);
    case VENDORFINCH_LINE:
        attribute->number = at[0];
        return lay_components(attribute, at[1], at + 2);
    case VENDORFINCH_DATE:
        return at;
    default:
        attribute->number = (unsigned)little_endian(at, 2);
        return at + 2;
    }
}

/* An attribute has a pair of cells, a coordinate one for each component. */
static void add_attribute(struct vendorfinch_model *open, const uint8_t *at, const uint8_t *end)
{
    struct vendorfinch_model_table *table = &open->table[open->tables - 1];
    struct vendorfinch_attribute *attribute = &open->attribute[open->attributes++];
    memset(attribute, 0, sizeof *attribute);
    attribute->optional = at[0];
    attribute->type = at[1];
    attribute->name = name_between(lay_parameters(attribute, at + 2), end);
    attribute->cell = table->cells;
    int many = attribute->type == VENDORFINCH_COORDINATE_2 || attribute->type == VENDORFINCH_COORDINATE_3;
    table->cells += 2 * (many ? attribute->components : 1);
    table->attributes++;
}

static void add_table(struct vendorfinch_model *open, const uint8_t *at, const uint8_t *end)
{
    struct vendorfinch_model_table *table = &open->table[open->tables++];
    table->optional = at[0];
    table->name = name_between(at + 1, end);
    table->topic = open->topics - 1;
    table->first = open->attributes;
    table->attributes = 0;
    table->cells = 3;
}

static void add_record(struct vendorfinch_model *open, unsigned kind, const uint8_t *at, const uint8_t *end)
{
    if (kind == TRANSFER) {
        open->blank = (char)at[0];
        open->undefined = (char)at[1];
        open->continuation = (char)at[2];
        open->transfer = name_between(at + 3, end);
    }
    if (kind == MODEL)
        open->name = name_between(at, end);
    if (kind == TOPIC)
        open->topic[open->topics++] = name_between(at, end);
    if (kind == TABLE)
        add_table(open, at, end);
    if (kind == ATTRIBUTE)
        add_attribute(open, at, end);
}

int vendorfinch_model_open(struct vendorfinch_model *open, const uint8_t *model, size_t model_length)
{
    memset(open, 0, sizeof *open);
    if (!model)
        return model_length ? VENDORFINCH_NULL_SLICE : VENDORFINCH_MODEL_BAD;
    if (VENDORFINCH_NUMBER(vendorfinch_check_model(model, model_length)) != 0)
        return VENDORFINCH_MODEL_BAD;
    const uint8_t *end = model + model_length;
    size_t attributes = 0;
    for (const uint8_t *at = model; at < end; at += 4 + little_endian(at, 2))
        attributes += little_endian(at + 2, 2) == ATTRIBUTE;
    open->attribute = malloc(attributes * sizeof *open->attribute);
    if (!open->attribute)
        return VENDORFINCH_NO_MEMORY;
    for (const uint8_t *at = model, *next; at < end; at = next) {
        next = at + 4 + little_endian(at, 2);
        add_record(open, (unsigned)little_endian(at + 2, 2), at + 4, next);
    }
    return 0;
}

void vendorfinch_model_free(struct vendorfinch_model *open)
{
    free(open->attribute);
    memset(open, 0, sizeof *open);
}
