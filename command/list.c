/* list MODEL FILE: the table as 01's listing has it: the answer, a line of cells per object, a line per point. */
#include "command.h"

/* Numbers in a line, a space between them. */
static void put_line(struct text *out, const int64_t *numbers, size_t count)
{
    for (size_t i = 0; i < count; i++) {
        put(out, i ? " " : "");
        put_number(out, numbers[i]);
    }
    put(out, "\n");
}

static void put_table(struct text *out, const struct vendorfinch_table *table)
{
    int64_t answer[4] = {0, (int64_t)table->objects, (int64_t)table->cells_used, (int64_t)table->points_used};
    put_line(out, answer, 4);
    for (size_t i = 0; i < table->objects; i++) {
        size_t end = i + 1 < table->objects ? table->rows[i + 1] : table->cells_used;
        put_line(out, table->cells + table->rows[i], end - table->rows[i]);
    }
    for (size_t i = 0; i < table->points_used; i++)
        put_line(out, table->points + 4 * i, 4);
}

enum status list(const struct options *options)
{
    struct reading reading;
    struct text out = TEXT_TO(1);
    enum status status = reading_open(&reading, options);
    int64_t answer[4] = {reading.number, (int64_t)reading.table.place[0], (int64_t)reading.table.place[1], 0};
    if (status == DONE)
        put_table(&out, &reading.table);
    if (status == REFUSED)
        put_line(&out, answer, 4);
    reading_close(&reading);
    return end_output(&out, status);
}
