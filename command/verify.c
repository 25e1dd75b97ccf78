/* verify MODEL FILE..: reads, writes, reads what was written, and compares the two tables. */
#include "command.h"

#include <errno.h>
#include <stdlib.h>
#include <string.h>

/* Whether two stretches of the texts have the same bytes. */
static int same_stretch(const struct vendorfinch_table *a, int64_t start_a, const struct vendorfinch_table *b,
                        int64_t start_b, int64_t length)
{
    return memcmp(a->text + start_a, b->text + start_b, (size_t)length) == 0;
}

/* Whether two rows of a table are the same: texts and identifications by their bytes, all else by its cells. */
static int same_row(const struct vendorfinch_model *open, const struct vendorfinch_table *a,
                    const struct vendorfinch_table *b, size_t start)
{
    const int64_t *x = a->cells + start, *y = b->cells + start;
    if (x[0] != y[0] || x[2] != y[2] || !same_stretch(a, x[1], b, y[1], x[2]))
        return 0;
    const struct vendorfinch_model_table *table = &open->table[x[0]];
    for (unsigned i = 0; i < table->attributes; i++) {
        const struct vendorfinch_attribute *attribute = &open->attribute[table->first + i];
        unsigned from = attribute->cell, to = i + 1 < table->attributes ? attribute[1].cell : table->cells;
        if (attribute->type != VENDORFINCH_TEXT) {
            if (memcmp(x + from, y + from, 8 * (to - from)) != 0)
                return 0;
        } else if (x[from] != y[from] || (x[from] && !same_stretch(a, x[from + 1], b, y[from + 1], x[from] - 1)))
            return 0;
    }
    return 1;
}

/* Whether two tables of one model are the same but for where their texts begin. */
static int same_table(const struct vendorfinch_model *open, const struct vendorfinch_table *a,
                      const struct vendorfinch_table *b)
{
    if (a->objects != b->objects || a->cells_used != b->cells_used || a->points_used != b->points_used)
        return 0;
    if (memcmp(a->marks, b->marks, open->topics + open->tables) != 0)
        return 0;
    if (memcmp(a->rows, b->rows, 8 * a->objects) != 0 || memcmp(a->points, b->points, 32 * a->points_used) != 0)
        return 0;
    for (size_t i = 0; i < a->objects; i++)
        if (!same_row(open, a, b, a->rows[i]))
            return 0;
    return 1;
}

/* 1 where what was written reads as the same table, 0 where not; below 0 without memory. */
static int reads_the_same(const struct job *job, const uint8_t *out, size_t length)
{
    struct vendorfinch_table again = VENDORFINCH_NO_TABLE;
    struct vendorfinch_model open;
    int number = vendorfinch_model_open(&open, job->model->bytes, job->model->length);
    if (number == 0)
        number = vendorfinch_table_read(&again, job->model->bytes, job->model->length, out, length);
    int same = number < 0 ? number : number == 0 && same_table(&open, &job->table, &again);
    vendorfinch_table_free(&again);
    vendorfinch_model_free(&open);
    return same;
}

static enum status verify_file(struct job *job)
{
    uint8_t *out;
    size_t length;
    enum status status = read_file(job);
    if (status != DONE)
        return status;
    int number = vendorfinch_table_write(&job->table, job->model->bytes, job->model->length, job->options->width,
                                         &out, &length);
    if (number > 0)
        return report_refusal(job, number);
    int same = number < 0 ? number : reads_the_same(job, out, length);
    free(out);
    if (same < 0)
        return report_error(job, ENOMEM);
    report_begin(job, same ? "same" : "differs");
    put_counts(&job->report, &job->table, job->options->json);
    put(&job->report, job->options->json ? ", \"written\": " : ", ");
    put_number(&job->report, (int64_t)length);
    put(&job->report, job->options->json ? "" : " bytes written");
    report_end(job);
    return same ? DONE : REFUSED;
}

enum status verify(const struct options *options)
{
    return each_file(options, verify_file, "same");
}
