/* write MODEL FILE --width N -o OUT: the table anew, for the archive. */
#include "command.h"

#include <errno.h>
#include <stdlib.h>
#include <string.h>

/* All bytes into the file of this name, or none. */
static int save(const char *name, const uint8_t *bytes, size_t length)
{
    struct output output;
    int error = output_open(&output, name);
    if (!error) {
        struct text out = TEXT_TO(output.to);
        put_bytes(&out, bytes, length);
        error = text_end(&out);
    }
    if (!error)
        error = output_end(&output);
    if (!error)
        error = output_keep(&output);
    if (!error)
        error = output_settle(&output);
    output_drop(&output);
    return error;
}

/* To the file of this name, or to standard output. */
static enum status put_out(const char *name, const uint8_t *bytes, size_t length)
{
    struct text out = TEXT_TO(1);
    if (!name || strcmp(name, "-") == 0) {
        put_bytes(&out, bytes, length);
        return end_output(&out, DONE);
    }
    int error = save(name, bytes, length);
    return error ? could_not(name, error) : DONE;
}

enum status write_out(const struct options *options)
{
    struct reading reading;
    uint8_t *out;
    size_t length;
    enum status status = reading_open(&reading, options);
    if (status == DONE) {
        int number = vendorfinch_table_write(&reading.table, reading.model.bytes, reading.model.length,
                                             options->width, &out, &length);
        reading.number = number;
        if (number < 0)
            status = could_not(options->files[0], ENOMEM);
        else if (number > 0)
            status = refused(&reading, options->files[0]);
        else
            status = put_out(options->output, out, length);
        free(out);
    }
    reading_close(&reading);
    return status;
}
