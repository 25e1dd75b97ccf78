/* export: a CSV file for each table of the model, and beside it the types of its columns for GDAL and QGIS. */
#include "command.h"

#include <errno.h>
#include <stdlib.h>
#include <string.h>
#include <sys/stat.h>

/* A folder, its files, and what goes into them. */
struct folder {
    const char *name;
    struct vendorfinch_model model;
    const struct vendorfinch_table *table;
    size_t object;        /* the first that is in no file yet */
    struct output *files; /* room for two of each table */
    size_t count;         /* of those opened */
};

/* A file's content: of the table with this number. */
typedef void content(struct text *text, struct folder *folder, unsigned number);

enum { ARCP = 2, POINT = 4 /* numbers of a point */, NO_BLANK = -1 };

/* Bytes of the file in quotation marks; a blank byte, if there is one, is a space. */
static void put_quoted(struct text *text, const uint8_t *bytes, int64_t length, int blank)
{
    put(text, "\"");
    for (int64_t i = 0; i < length; i++)
        if (bytes[i] == blank)
            put(text, " ");
        else if (bytes[i] == '"')
            put(text, "\"\"");
        else
            put_latin(text, bytes[i]);
    put(text, "\"");
}

static void put_identification(struct text *text, const struct vendorfinch_table *table, int64_t object)
{
    const int64_t *row = table->cells + table->rows[object];
    put_quoted(text, table->text + row[1], row[2], NO_BLANK);
}

/* 19990228 as 1999-02-28. */
static void put_date(struct text *text, int64_t date)
{
    put_digits(text, (uint64_t)date / 10000, 4);
    put(text, "-");
    put_digits(text, (uint64_t)date / 100 % 100, 2);
    put(text, "-");
    put_digits(text, (uint64_t)date % 100, 2);
}

/* The numbers of a position, which stand so many cells apart. */
static void put_position(struct text *text, const struct vendorfinch_attribute *attribute, const int64_t *numbers,
                         unsigned apart)
{
    for (unsigned i = 0; i < attribute->components; i++) {
        if (i > 0)
            put(text, " ");
        put_scaled(text, numbers[i * apart], attribute->component[i].decimals);
    }
}

/* The beginning of WKT, up to its bracket. */
static void put_kind(struct text *text, const char *kind, const struct vendorfinch_attribute *attribute)
{
    put(text, kind);
    put(text, attribute->components == 3 ? " Z " : " ");
}

static void put_coordinate(struct text *text, const struct vendorfinch_attribute *attribute, const int64_t *cells)
{
    put_kind(text, "\"POINT", attribute);
    put(text, "(");
    put_position(text, attribute, cells + 1, 2);
    put(text, ")\"");
}

static int has_arc(const int64_t *points, size_t count)
{
    for (size_t i = 0; i < count; i++)
        if (points[POINT * i] == ARCP)
            return 1;
    return 0;
}

/* The last point of the run that begins here: all its segments are straight, or all are arcs of two points each. */
static size_t end_of_run(const int64_t *points, size_t first, size_t count)
{
    const int64_t form = points[POINT * (first + 1)];
    size_t last = first;
    while (last + 1 < count && points[POINT * (last + 1)] == form)
        last += form == ARCP ? 2 : 1;
    return last;
}

/* Its runs, each beginning with the last point of the one before; without arcs it is one run. */
static void put_line(struct text *text, const struct vendorfinch_attribute *attribute, const int64_t *points,
                     size_t count)
{
    const int arcs = has_arc(points, count);
    put_kind(text, arcs ? "\"COMPOUNDCURVE" : "\"LINESTRING", attribute);
    put(text, arcs ? "(" : "");
    for (size_t first = 0, last; first + 1 < count; first = last) {
        last = end_of_run(points, first, count);
        put(text, first > 0 ? "," : "");
        if (points[POINT * (first + 1)] == ARCP)
            put_kind(text, "CIRCULARSTRING", attribute);
        for (size_t i = first; i <= last; i++) {
            put(text, i == first ? "(" : ",");
            put_position(text, attribute, points + POINT * i + 1, 1);
        }
        put(text, ")");
    }
    put(text, arcs ? ")\"" : "\"");
}

/* An attribute of an object from its cells; nothing where it is undefined. */
static void put_value(struct text *text, const struct folder *folder, const struct vendorfinch_attribute *attribute,
                      const int64_t *cells)
{
    const struct vendorfinch_table *table = folder->table;
    if (cells[0] == 0)
        return;
    switch (attribute->type) {
    case VENDORFINCH_REFERENCE:
        put_identification(text, table, cells[1]);
        break;
    case VENDORFINCH_COORDINATE_2:
    case VENDORFINCH_COORDINATE_3:
        put_coordinate(text, attribute, cells);
        break;
    case VENDORFINCH_NUMBER_TYPE:
        put_scaled(text, cells[1], attribute->component[0].decimals);
        break;
    case VENDORFINCH_TEXT:
        put_quoted(text, table->text + cells[1], cells[0] - 1, folder->model.blank);
        break;
    case VENDORFINCH_DATE:
        put_date(text, cells[1]);
        break;
    case VENDORFINCH_ENUMERATION:
        put_number(text, cells[1]);
        break;
    case VENDORFINCH_LINE:
        put_line(text, attribute, table->points + POINT * cells[1], (size_t)(cells[0] - 1));
    }
}

/* The CSV: the names of the columns, and the objects of the table, which stand together in the table's order. */
static void put_rows(struct text *text, struct folder *folder, unsigned number)
{
    const struct vendorfinch_model_table *table = &folder->model.table[number];
    const struct vendorfinch_attribute *attribute = folder->model.attribute + table->first;
    put(text, "_tid");
    for (unsigned i = 0; i < table->attributes; i++) {
        put(text, ",");
        put_name(text, attribute[i].name);
    }
    put(text, "\n");
    for (; folder->object < folder->table->objects; folder->object++) {
        const int64_t *row = folder->table->cells + folder->table->rows[folder->object];
        if (row[0] != number)
            return;
        put_identification(text, folder->table, (int64_t)folder->object);
        for (unsigned i = 0; i < table->attributes; i++) {
            put(text, ",");
            put_value(text, folder, &attribute[i], row + attribute[i].cell);
        }
        put(text, "\n");
    }
}

/* How many bytes a scaled value is written in. */
static unsigned width_of(int64_t value, unsigned decimals)
{
    unsigned digits = 1;
    for (int64_t rest = value / 10; rest != 0; rest /= 10)
        digits++;
    if (digits <= decimals)
        digits = decimals + 1;
    return digits + (decimals > 0) + (value < 0);
}

/* The type that keeps each of its values: nine digits in Integer; fifteen, as a double keeps them, in Real. */
static void put_number_type(struct text *text, const struct vendorfinch_component *number)
{
    const int64_t least = number->least, greatest = number->greatest, nine = 1000000000, fifteen = 1000000 * nine;
    if (number->decimals == 0) {
        put(text, -nine < least && greatest < nine ? "Integer" : "Integer64");
    } else if (-fifteen < least && greatest < fifteen) {
        const unsigned one = width_of(least, number->decimals), other = width_of(greatest, number->decimals);
        put(text, "Real(");
        put_number(text, one > other ? one : other);
        put(text, ".");
        put_number(text, number->decimals);
        put(text, ")");
    } else {
        put(text, "String");
    }
}

static void put_type(struct text *text, const struct vendorfinch_attribute *attribute)
{
    switch (attribute->type) {
    case VENDORFINCH_REFERENCE:
    case VENDORFINCH_TEXT:
        put(text, "String");
        break;
    case VENDORFINCH_COORDINATE_2:
    case VENDORFINCH_COORDINATE_3:
    case VENDORFINCH_LINE:
        put(text, "WKT");
        break;
    case VENDORFINCH_NUMBER_TYPE:
        put_number_type(text, &attribute->component[0]);
        break;
    case VENDORFINCH_DATE:
        put(text, "Date");
        break;
    case VENDORFINCH_ENUMERATION:
        put(text, "Integer");
    }
}

/* The types of the columns. */
static void put_types(struct text *text, struct folder *folder, unsigned number)
{
    const struct vendorfinch_model_table *table = &folder->model.table[number];
    put(text, "\"String\"");
    for (unsigned i = 0; i < table->attributes; i++) {
        put(text, ",\"");
        put_type(text, &folder->model.attribute[table->first + i]);
        put(text, "\"");
    }
    put(text, "\n");
}

/* DIR/TOPIC.TABLE and its ending, as a string. */
static void put_file_name(struct text *name, const struct folder *folder, unsigned number, const char *ending)
{
    const struct vendorfinch_model_table *table = &folder->model.table[number];
    put(name, folder->name);
    put(name, "/");
    put_name(name, folder->model.topic[table->topic]);
    put(name, ".");
    put_name(name, table->name);
    put_bytes(name, ending, strlen(ending) + 1);
}

/* Writes a file of a table and ends it; it has not got its name yet. */
static enum status write_file(struct folder *folder, unsigned number, const char *ending, content *put_content)
{
    struct output *file = &folder->files[folder->count];
    struct text name = TEXT_KEPT;
    put_file_name(&name, folder, number, ending);
    int error = name.error;
    if (!error) {
        folder->count++;
        error = output_open(file, name.bytes);
    }
    if (!error) {
        struct text text = TEXT_TO(file->to);
        put_content(&text, folder, number);
        error = text_end(&text);
    }
    if (!error)
        error = output_end(file);
    const enum status status = error ? could_not(name.error ? folder->name : name.bytes, error) : DONE;
    text_free(&name);
    return status;
}

/* Gives all files their names. */
static enum status keep_files(const struct folder *folder)
{
    for (size_t i = 0; i < folder->count; i++) {
        const int error = output_keep(&folder->files[i]);
        if (error)
            return could_not(folder->files[i].name, error);
    }
    const int error = folder_sync(folder->name);
    return error ? could_not(folder->name, error) : DONE;
}

/* Lays the model open, makes room for its files, and the directory if it is not there. */
static enum status begin(struct folder *folder, const struct bytes *model)
{
    int error = ENOMEM;
    if (vendorfinch_model_open(&folder->model, model->bytes, model->length) == 0)
        folder->files = calloc(2 * folder->model.tables, sizeof *folder->files);
    if (folder->files)
        error = mkdir(folder->name, 0777) == 0 || errno == EEXIST ? 0 : errno;
    return error ? could_not(folder->name, error) : DONE;
}

/* Gives all back; a file that was not kept is gone. */
static void end(struct folder *folder)
{
    for (size_t i = 0; i < folder->count; i++)
        output_drop(&folder->files[i]);
    free(folder->files);
    vendorfinch_model_free(&folder->model);
}

/* All files are on the disk before the first of them gets its name. */
enum status export(const struct options *options)
{
    struct reading reading;
    struct folder folder = {.name = options->csv, .table = &reading.table};
    enum status status = reading_open(&reading, options);
    if (status == DONE)
        status = begin(&folder, &reading.model);
    for (unsigned i = 0; i < folder.model.tables && status == DONE; i++) {
        status = write_file(&folder, i, ".csv", put_rows);
        if (status == DONE)
            status = write_file(&folder, i, ".csvt", put_types);
    }
    if (status == DONE)
        status = keep_files(&folder);
    end(&folder);
    reading_close(&reading);
    return status;
}
