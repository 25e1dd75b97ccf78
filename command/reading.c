/* A model and the one file of a command, read into a table; and what is told on standard error. */
#include "command.h"

#include <errno.h>
#include <stdlib.h>
#include <string.h>

void put_could_not(struct text *text, const char *name, int error)
{
    put(text, "vendorfinch: ");
    put_path(text, name);
    put(text, ": ");
    put(text, strerror(error));
    put(text, "\n");
}

enum status could_not(const char *name, int error)
{
    struct text told = TEXT_TO(2);
    put_could_not(&told, name, error);
    text_end(&told);
    return COULD_NOT;
}

enum status end_output(struct text *out, enum status status)
{
    int error = text_end(out);
    return error ? could_not("standard output", error) : status;
}

enum status refused(const struct reading *reading, const char *name)
{
    struct text told = TEXT_TO(2);
    struct refusal refusal = {reading->number, {reading->table.place[0], reading->table.place[1]}};
    struct place place;
    int error = place_of(&place, &refusal, &reading->model, &reading->file);
    if (error)
        return could_not(name, error);
    put_refusal(&told, name, &refusal, &place);
    text_end(&told);
    free(place.shown);
    return REFUSED;
}

enum status reading_load(struct reading *reading, const struct options *options)
{
    static const struct reading none;
    *reading = none;
    int error = load(options->model, MOST_OF_MODEL, &reading->model);
    if (error)
        return could_not(options->model, error);
    error = load(options->files[0], MOST_OF_FILE, &reading->file);
    return error ? could_not(options->files[0], error) : DONE;
}

/* The layer's errors are no memory alone: the slices here are no NULL with a length. */
enum status reading_open(struct reading *reading, const struct options *options)
{
    if (reading_load(reading, options) != DONE)
        return COULD_NOT;
    int number = vendorfinch_table_read(&reading->table, reading->model.bytes, reading->model.length,
                                        reading->file.bytes, reading->file.length);
    if (number < 0)
        return could_not(options->files[0], ENOMEM);
    reading->number = number;
    return number ? refused(reading, options->files[0]) : DONE;
}

void reading_close(struct reading *reading)
{
    vendorfinch_table_free(&reading->table);
    free(reading->model.bytes);
    free(reading->file.bytes);
}
