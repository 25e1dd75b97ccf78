/* check MODEL: what a compiled model has, in words. */
#include "command.h"

#include <errno.h>
#include <stdlib.h>

static void put_plural(struct text *out, unsigned count, const char *what)
{
    put_number(out, count);
    put(out, " ");
    put(out, what);
    put(out, count == 1 ? "" : "s");
}

static void put_head(struct text *out, const struct vendorfinch_model *open)
{
    put(out, "transfer ");
    put_name(out, open->transfer);
    put(out, ", model ");
    put_name(out, open->name);
    put(out, ": ");
    put_plural(out, open->topics, "topic");
    put(out, ", ");
    put_plural(out, open->tables, "table");
    put(out, ", ");
    put_plural(out, open->attributes, "attribute");
    put(out, "\nblank ");
    put_bytes(out, &open->blank, 1);
    put(out, ", undefined ");
    put_bytes(out, &open->undefined, 1);
    put(out, ", continuation ");
    put_bytes(out, &open->continuation, 1);
    put(out, "\n");
}

static void put_bounds(struct text *out, const struct vendorfinch_attribute *attribute)
{
    for (unsigned i = 0; i < attribute->components; i++) {
        const struct vendorfinch_component *component = &attribute->component[i];
        put(out, ", ");
        put_scaled(out, component->least, component->decimals);
        put(out, " to ");
        put_scaled(out, component->greatest, component->decimals);
    }
}

static void put_type(struct text *out, const struct vendorfinch_model *open,
                     const struct vendorfinch_attribute *attribute)
{
    static const char *const types[] = {"", "reference to ", "coordinate", "coordinate", "number", "text of at most ",
                                        "date", "enumeration of ", "line of "};
    static const char *const forms[] = {"", "straights", "arcs", "straights and arcs"};
    put(out, types[attribute->type]);
    if (attribute->type == VENDORFINCH_REFERENCE)
        put_name(out, open->table[attribute->number].name);
    if (attribute->type == VENDORFINCH_TEXT)
        put_plural(out, attribute->number, "byte");
    if (attribute->type == VENDORFINCH_ENUMERATION)
        put(out, attribute->number == 1 ? "1 leaf" : "");
    if (attribute->type == VENDORFINCH_ENUMERATION && attribute->number != 1) {
        put_number(out, attribute->number);
        put(out, " leaves");
    }
    if (attribute->type == VENDORFINCH_LINE)
        put(out, forms[attribute->number]);
    put_bounds(out, attribute);
}

static void put_table(struct text *out, const struct vendorfinch_model *open, unsigned number)
{
    const struct vendorfinch_model_table *table = &open->table[number];
    if (number == 0 || open->table[number - 1].topic != table->topic) {
        put(out, "topic ");
        put_name(out, open->topic[table->topic]);
        put(out, "\n");
    }
    put(out, "  table ");
    put_name(out, table->name);
    put(out, table->optional ? ", optional\n" : "\n");
    for (unsigned i = 0; i < table->attributes; i++) {
        const struct vendorfinch_attribute *attribute = &open->attribute[table->first + i];
        put(out, "    ");
        put_name(out, attribute->name);
        put(out, ": ");
        put_type(out, open, attribute);
        put(out, attribute->optional ? ", optional\n" : "\n");
    }
}

static void put_model(struct text *out, const struct vendorfinch_model *open)
{
    put_head(out, open);
    for (unsigned i = 0; i < open->tables; i++)
        put_table(out, open, i);
}

/* The model in words, or that it is bad. */
static enum status put_check(struct text *out, const struct bytes *model, const char *name)
{
    static const struct place nowhere;
    struct vendorfinch_model open;
    uint64_t got = vendorfinch_check_model(model->bytes, model->length);
    struct refusal refusal = {(int)VENDORFINCH_NUMBER(got), {VENDORFINCH_SECOND(got), 0}};
    if (refusal.number) {
        put_refusal(out, name, &refusal, &nowhere);
        return REFUSED;
    }
    if (vendorfinch_model_open(&open, model->bytes, model->length) != 0)
        return could_not(name, ENOMEM);
    put_model(out, &open);
    vendorfinch_model_free(&open);
    return DONE;
}

enum status check(const struct options *options)
{
    struct bytes model;
    struct text out = TEXT_TO(1);
    int error = load(options->model, MOST_OF_MODEL, &model);
    if (error)
        return could_not(options->model, error);
    enum status status = put_check(&out, &model, options->model);
    free(model.bytes);
    return end_output(&out, status);
}
