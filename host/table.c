/* The layer: rooms for the proved calls, and nothing else. Which rooms are lent changes no answer but 6 and 16
 * (MoreRoomSameAnswer, docs/STATEMENTS.md), and with those of `rooms_enough` neither is given (SomeRoomIsEnough). */
#include "table.h"
#include "model.h"

#include <stdlib.h>
#include <string.h>
#include <sys/mman.h>
#include <sys/random.h>

enum { LIMIT = 16777216 };

/* The lengths of the lent buffers. */
struct rooms {
    size_t text, marks, rows, cells, points;
};

/* What was written, or nothing. */
struct written {
    uint8_t *bytes;
    size_t length;
};

/* An empty slice still has to be somewhere. */
static const uint8_t *slice(const uint8_t *bytes)
{
    static const uint8_t nothing[1];
    return bytes ? bytes : nothing;
}

static size_t least(size_t a, size_t b)
{
    return a < b ? a : b;
}

/* A number that nobody who writes a file can guess: where the system has none, where something lies in memory. */
static uint64_t seed(const void *something)
{
    uint64_t number = 0;
    return getrandom(&number, sizeof number, 0) == sizeof number ? number : (uint64_t)(uintptr_t)something;
}

/* The rooms that are enough for every file of this length: `rooms_for` in crates/meaning/specs/RoomClaims.antt. */
static struct rooms rooms_enough(const struct vendorfinch_model *open, size_t length)
{
    size_t longest = 0;
    for (unsigned i = 0; i < open->tables; i++)
        if (longest < open->table[i].cells)
            longest = open->table[i].cells;
    struct rooms rooms = {length, open->topics + open->tables, length / 7, longest * (length / 7), 4 * (length / 9)};
    return rooms;
}

/* Behind the next LF, or the end. */
static const uint8_t *next_line(const uint8_t *at, const uint8_t *end)
{
    const uint8_t *found = memchr(at, '\n', (size_t)(end - at));
    return found ? found + 1 : end;
}

/* The cells of a row of the table that a TABL line names, at or behind the last one. Where it names none, those of the
 * longest row, and no name is looked for any more. */
static size_t cells_named(const struct vendorfinch_model *open, unsigned *table, const uint8_t *name, size_t length,
                          size_t longest)
{
    for (unsigned i = *table; i < open->tables; i++) {
        struct vendorfinch_name known = open->table[i].name;
        if (known.length < length && memcmp(known.bytes, name, known.length) == 0 && name[known.length] < ' ') {
            *table = i;
            return open->table[i].cells;
        }
    }
    *table = open->tables;
    return longest;
}

/* The rooms of a first try, counted by how physical lines begin: exact where no code and no table's name is cut, and
 * no object has more cells than bytes. A wrong count costs a second try. */
static struct rooms rooms_counted(const struct vendorfinch_model *open, const uint8_t *file, size_t length,
                                  struct rooms enough)
{
    size_t rows = 0, cells = 0, points = 0, longest = enough.rows ? enough.cells / enough.rows : 0, row = longest;
    const uint8_t *end = file + length;
    unsigned table = 0;
    for (const uint8_t *at = file; end - at > 5; at = next_line(at, end)) {
        if (memcmp(at, "OBJE", 4) == 0) {
            rows++;
            cells += row;
        } else if (memcmp(at, "TABL ", 5) == 0)
            row = cells_named(open, &table, at + 5, (size_t)(end - at) - 5, longest);
        else
            points += memcmp(at, "STPT", 4) == 0 || memcmp(at, "LIPT", 4) == 0 || memcmp(at, "ARCP", 4) == 0;
    }
    cells = least(cells, length);
    struct rooms rooms = {enough.text, enough.marks, least(rows, enough.rows), least(cells, enough.cells),
                          least(4 * points, enough.points)};
    return rooms;
}

/* Four times the rooms and some more, up to what is enough. */
static struct rooms rooms_more(struct rooms rooms, struct rooms enough)
{
    rooms.rows = least(4 * rooms.rows + enough.rows / 64 + 1, enough.rows);
    rooms.cells = least(4 * rooms.cells + enough.cells / 64 + 1, enough.cells);
    rooms.points = least(4 * rooms.points + enough.points / 64 + 4, enough.points);
    return rooms;
}

static int same_rooms(struct rooms a, struct rooms b)
{
    return a.rows == b.rows && a.cells == b.cells && a.points == b.points;
}

/* Memory; much of it in large pages, where the system has them, which spares a tenth of reading's time. */
static void *get_memory(size_t length)
{
    const size_t page = 2097152, pages = (length + page - 1) / page;
    if (pages < 2)
        return malloc(length);
    void *memory = aligned_alloc(page, pages * page);
    if (memory)
        madvise(memory, pages * page, MADV_HUGEPAGE);
    return memory;
}

/* Cuts the table's memory into these rooms and an index behind them, and gets more where it is too little. */
static uint64_t *lend(struct vendorfinch_table *table, struct rooms rooms)
{
    size_t words = rooms.rows + rooms.cells + rooms.points + 3 * rooms.rows;
    size_t length = 8 * words + rooms.text + rooms.marks + 8;
    if (length > table->memory_length) {
        vendorfinch_table_free(table);
        table->memory = get_memory(length);
        if (!table->memory)
            return NULL;
        table->memory_length = length;
    }
    table->rows = table->memory;
    table->cells = (int64_t *)(table->rows + rooms.rows);
    table->points = table->cells + rooms.cells;
    uint64_t *index = (uint64_t *)(table->points + rooms.points);
    table->text = (uint8_t *)(index + 3 * rooms.rows);
    table->marks = table->text + rooms.text;
    table->text_length = rooms.text;
    table->marks_length = rooms.marks;
    table->rows_length = rooms.rows;
    table->cells_length = rooms.cells;
    table->points_length = rooms.points;
    return index;
}

/* One call of reading in these rooms; the counts or the place are the table's then. */
static int read_in(struct vendorfinch_table *table, struct rooms rooms, const uint8_t *model, size_t model_length,
                   const uint8_t *file, size_t file_length)
{
    uint64_t answer[4], *index = lend(table, rooms);
    if (!index)
        return VENDORFINCH_NO_MEMORY;
    vendorfinch_read(model, model_length, file, file_length, table->text, rooms.text, table->marks, rooms.marks,
                     table->rows, rooms.rows, table->cells, rooms.cells, table->points, rooms.points,
                     index, 3 * rooms.rows, seed(index), answer, 4);
    int good = answer[0] == 0;
    table->objects = good ? answer[1] : 0;
    table->cells_used = good ? answer[2] : 0;
    table->points_used = good ? answer[3] : 0;
    table->place[0] = good ? 0 : answer[1];
    table->place[1] = good ? 0 : answer[2];
    /* marks that are all zeros would be a table: one without topics */
    if (!good)
        table->text_length = table->marks_length = table->rows_length = table->cells_length = table->points_length = 0;
    return (int)answer[0];
}

int vendorfinch_table_read(struct vendorfinch_table *table, const uint8_t *model, size_t model_length,
                           const uint8_t *file, size_t file_length)
{
    struct vendorfinch_model open;
    struct rooms rooms = {0, 0, 0, 0, 0}, enough = rooms;
    if ((!model && model_length) || (!file && file_length)) {
        vendorfinch_table_free(table);
        return VENDORFINCH_NULL_SLICE;
    }
    model = slice(model);
    file = slice(file);
    int got = vendorfinch_model_open(&open, model, model_length);
    /* a bad model and a file above the limit are refused in no room */
    if (got == 0 && file_length <= LIMIT) {
        enough = rooms_enough(&open, file_length);
        rooms = rooms_counted(&open, file, file_length, enough);
    }
    vendorfinch_model_free(&open);
    if (got == VENDORFINCH_NO_MEMORY) {
        vendorfinch_table_free(table);
        return got;
    }
    got = read_in(table, rooms, model, model_length, file, file_length);
    while (got == VENDORFINCH_TABLE_ROOM && !same_rooms(rooms, enough)) {
        rooms = rooms_more(rooms, enough);
        got = read_in(table, rooms, model, model_length, file, file_length);
    }
    return got;
}

/* The bytes of a first try: a cut adds seven bytes to a line of this width. What reading took as one field for all
 * remaining ones, and short numbers, may need more. */
static size_t output_counted(const struct vendorfinch_table *table, size_t width)
{
    size_t cuts = width < 16 ? 0 : table->text_length / (width - 6) + 1;
    return least(table->text_length + 7 * cuts + 1024, LIMIT);
}

/* One call of writing into an output room of this length, which is the caller's where it is written. */
static int write_in(const struct vendorfinch_table *table, const uint8_t *model, size_t model_length, size_t width,
                    size_t room, struct written *into)
{
    struct vendorfinch_table t = *table;
    uint64_t answer[4], *index = malloc(8 * (3 * t.objects + 1));
    uint8_t *out = malloc(room);
    if (!t.memory && index) {
        t.text = t.marks = (uint8_t *)index;
        t.rows = index;
        t.cells = t.points = (int64_t *)index;
    }
    if (!index || !out)
        answer[0] = (uint64_t)VENDORFINCH_NO_MEMORY;
    else
        vendorfinch_write(model, model_length, t.text, t.text_length, t.marks, t.marks_length, t.rows, t.rows_length,
                          t.cells, t.cells_length, t.points, t.points_length, t.objects, t.cells_used, t.points_used,
                          width, out, room, index, 3 * t.objects, seed(index), answer, 4);
    free(index);
    if (answer[0] == 0) {
        into->bytes = out;
        into->length = answer[1];
    } else
        free(out);
    return (int)answer[0];
}

int vendorfinch_table_write(const struct vendorfinch_table *table, const uint8_t *model, size_t model_length,
                            size_t width, uint8_t **out, size_t *out_length)
{
    struct written written = {NULL, 0};
    size_t room = output_counted(table, width);
    int got = VENDORFINCH_NULL_SLICE;
    if (model || !model_length)
        got = write_in(table, slice(model), model_length, width, room, &written);
    while (got == VENDORFINCH_OUTPUT_ROOM && room < LIMIT) {
        room = least(4 * room, LIMIT);
        got = write_in(table, slice(model), model_length, width, room, &written);
    }
    *out = written.bytes;
    *out_length = written.length;
    return got;
}

void vendorfinch_table_free(struct vendorfinch_table *table)
{
    static const struct vendorfinch_table none = VENDORFINCH_NO_TABLE;
    free(table->memory);
    *table = none;
}
