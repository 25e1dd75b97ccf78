/* unfold MODEL FILE: the logical lines. */
#include "command.h"

#include <errno.h>
#include <stdlib.h>

/* The text into the output; or what is told on standard error. */
static enum status put_lines(struct text *out, struct reading *reading, const char *name)
{
    const struct bytes *model = &reading->model, *file = &reading->file;
    uint8_t *text = malloc(file->length + 1);
    if (!text)
        return could_not(name, ENOMEM);
    uint64_t got = vendorfinch_unfold(model->bytes, model->length, file->bytes, file->length, text, file->length);
    reading->number = (int)VENDORFINCH_NUMBER(got);
    reading->table.place[0] = VENDORFINCH_SECOND(got);
    enum status status = reading->number ? refused(reading, name) : DONE;
    if (status == DONE)
        put_bytes(out, text, VENDORFINCH_SECOND(got));
    free(text);
    return status;
}

enum status unfold(const struct options *options)
{
    struct reading reading;
    struct text out = TEXT_TO(1);
    enum status status = reading_load(&reading, options);
    if (status == DONE)
        status = put_lines(&out, &reading, options->files[0]);
    reading_close(&reading);
    return end_output(&out, status);
}
