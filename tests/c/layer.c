/* Calls the layer in host/table.h and host/model.h as a host does, and compares what it answers and leaves with what
 * the headers say and with what the proved call answers into rooms that are surely enough. Its exit status is 0 only
 * where all agree. argv[1] to argv[3]: the sample's compiled model, its file, and the file cut at 16.
 *
 * That there is no memory is tried by an allocator of its own, which the linker takes before the C library's: it maps
 * each block by itself, and can fail at its k-th call. A build with sanitizers has their allocator, and leaves it out.
 */
#ifndef _GNU_SOURCE
#define _GNU_SOURCE /* MAP_ANONYMOUS */
#endif
#include "model.h"
#include "table.h"

#include <errno.h>
#include <pthread.h>
#include <stdio.h>
#include <stdlib.h>
#include <string.h>
#include <sys/mman.h>

#if defined(__has_feature)
#if __has_feature(address_sanitizer) || __has_feature(thread_sanitizer) || __has_feature(memory_sanitizer)
#define SANITIZED 1
#endif
#endif
#if defined(__SANITIZE_ADDRESS__) || defined(__SANITIZE_THREAD__)
#define SANITIZED 1
#endif

enum { MIB = 1048576, MARKS = 576 };
static int compared, wrong;

static void is_so(const char *what, const char *which, int so)
{
    compared++;
    if (!so) {
        wrong++;
        printf("%s: %s\n", what, which);
    }
}

static void is_number(const char *what, const char *which, long long got, long long expected)
{
    compared++;
    if (got != expected) {
        wrong++;
        printf("%s: %s is %lld, expected %lld\n", what, which, got, expected);
    }
}

/* ---- An allocator that can fail ------------------------------------------------------------------------------- */

#ifndef SANITIZED
static long calls;          /* since it was set to 0 */
static long fails_at = -1;  /* the call that fails, from 0; -1 for none. Both only change while one thread runs */
static int fails_on;        /* and all calls behind it */

/* What stands right before a block. */
struct mapped {
    char *from;
    size_t whole, size;
};

static struct mapped mapped_of(const void *block)
{
    struct mapped before;
    memcpy(&before, (const char *)block - sizeof before, sizeof before);
    return before;
}

void *aligned_alloc(size_t alignment, size_t size)
{
    if (fails_at >= 0) {
        long call = calls++;
        if (call == fails_at || (fails_on && call > fails_at)) {
            errno = ENOMEM;
            return NULL;
        }
    }
    struct mapped before = {NULL, sizeof before + alignment + size, size};
    if (before.whole < size) {
        errno = ENOMEM;
        return NULL;
    }
    void *from = mmap(NULL, before.whole, PROT_READ | PROT_WRITE, MAP_PRIVATE | MAP_ANONYMOUS, -1, 0);
    if (from == MAP_FAILED)
        return NULL;
    before.from = from;
    char *block = before.from + sizeof before;
    block += (alignment - (uintptr_t)block % alignment) % alignment;
    memcpy(block - sizeof before, &before, sizeof before);
    return block;
}

void *malloc(size_t size)
{
    return aligned_alloc(16, size);
}

void free(void *block)
{
    if (block) {
        struct mapped before = mapped_of(block);
        munmap(before.from, before.whole);
    }
}

void *calloc(size_t count, size_t size)
{
    if (size && count > (size_t)-1 / size) {
        errno = ENOMEM;
        return NULL;
    }
    return aligned_alloc(16, count * size); /* what is mapped is zero */
}

void *realloc(void *block, size_t size)
{
    void *other = malloc(size);
    if (other && block) {
        size_t old = mapped_of(block).size;
        memcpy(other, block, old < size ? old : size);
        free(block);
    }
    return other;
}

int posix_memalign(void **block, size_t alignment, size_t size)
{
    *block = aligned_alloc(alignment, size);
    return *block ? 0 : ENOMEM;
}
#endif

/* ---- Models and files ----------------------------------------------------------------------------------------- */

/* Bytes that grow. */
struct bytes {
    uint8_t *at;
    size_t length, room;
};

static void put(struct bytes *to, const void *from, size_t length)
{
    if (to->length + length > to->room) {
        to->room = 2 * (to->length + length) + 1000;
        to->at = realloc(to->at, to->room);
        if (!to->at) {
            printf("layer: no memory for its own files\n");
            exit(2);
        }
    }
    memcpy(to->at + to->length, from, length);
    to->length += length;
}

static void say(struct bytes *to, const char *words)
{
    put(to, words, strlen(words));
}

static void record(struct bytes *to, unsigned kind, const void *payload, size_t length)
{
    uint8_t head[4] = {(uint8_t)length, (uint8_t)(length / 256), (uint8_t)kind, 0};
    put(to, head, 4);
    put(to, payload, length);
}

/* A component, scaled: decimals, least, greatest. */
static void component(struct bytes *to, unsigned decimals, int64_t least, int64_t greatest)
{
    uint8_t bytes[17] = {(uint8_t)decimals};
    for (int i = 0; i < 8; i++) {
        bytes[1 + i] = (uint8_t)((uint64_t)least >> 8 * i);
        bytes[9 + i] = (uint8_t)((uint64_t)greatest >> 8 * i);
    }
    put(to, bytes, 17);
}

static void open_model(struct bytes *to, const char *topic)
{
    record(to, 1, "_@\\T", 4);
    record(to, 2, "M", 1);
    record(to, 3, topic, strlen(topic));
}

/* The bytes of a file. */
static struct bytes load(const char *name)
{
    struct bytes bytes = {0};
    uint8_t some[4096];
    FILE *f = fopen(name, "rb");
    for (size_t length = 1; f && length > 0;) {
        length = fread(some, 1, sizeof some, f);
        put(&bytes, some, length);
    }
    if (f)
        fclose(f);
    return bytes;
}

/* 01's sample: its file, and the same cut at 16. */
static struct bytes sample, sample_16;
#define SAMPLE sample.at, sample.length

/* Topic N with the table A of one optional line of two numbers without decimals; or of so many optional texts. */
static struct bytes line_model(void)
{
    struct bytes model = {0}, attribute = {0};
    open_model(&model, "N");
    record(&model, 4, "\0A", 2);
    put(&attribute, "\1\10\3\2", 4);
    component(&attribute, 0, 0, 9);
    component(&attribute, 0, 0, 9);
    say(&attribute, "L");
    record(&model, 5, attribute.at, attribute.length);
    record(&model, 6, "", 0);
    free(attribute.at);
    return model;
}

static struct bytes text_model(unsigned texts)
{
    struct bytes model = {0};
    open_model(&model, "N");
    record(&model, 4, "\0A", 2);
    for (unsigned i = 0; i < texts; i++) {
        uint8_t attribute[6] = {1, 5, 9, 0, (uint8_t)('A' + i / 8), (uint8_t)('a' + i % 8)};
        record(&model, 5, attribute, 6);
    }
    record(&model, 6, "", 0);
    return model;
}

/* The n-th identification: as short as there is one left. */
static void put_name(struct bytes *to, unsigned n)
{
    char name[8];
    int length = 0;
    do {
        name[length++] = (char)('A' + n % 26);
        n /= 26;
    } while (n-- > 0);
    put(to, name, (size_t)length);
}

static void open_file(struct bytes *file)
{
    say(file, "SCNT\n////\nMTID T\nMODL M\nTOPI N\nTABL A\n");
}

static void close_file(struct bytes *file)
{
    say(file, "ETAB\nETOP\nEMOD\nENDE\n");
}

/* A file of about so many bytes: `before`, an identification and `behind` again and again. Counts the objects. */
static struct bytes objects_file(size_t length, const char *before, const char *behind, size_t *objects)
{
    struct bytes file = {0};
    open_file(&file);
    for (*objects = 0; file.length < length - 100; ++*objects) {
        say(&file, before);
        put_name(&file, (unsigned)*objects);
        say(&file, behind);
    }
    close_file(&file);
    return file;
}

/* ---- A table ---------------------------------------------------------------------------------------------------- */

/* What the proved call leaves in rooms that are enough for the file, and its four numbers. */
struct rooms {
    uint8_t *text, *marks;
    uint64_t *rows, *index, answer[4];
    int64_t *cells, *points;
};

static void *room(size_t count, size_t size)
{
    void *at = calloc(count ? count : 1, size);
    if (!at) {
        printf("layer: no memory for its own rooms\n");
        exit(2);
    }
    return at;
}

static struct rooms read_plainly(struct bytes model, const uint8_t *file, size_t length, size_t row_cells)
{
    struct rooms r;
    size_t rows = length / 7 + 1, points = 4 * (length / 9 + 1);
    r.text = room(length, 1);
    r.marks = room(MARKS, 1);
    r.rows = room(rows, 8);
    r.cells = room(rows * row_cells, 8);
    r.points = room(points, 8);
    r.index = room(3 * rows, 8);
    vendorfinch_read(model.at, model.length, file, length, r.text, length, r.marks, MARKS, r.rows, rows, r.cells,
                     rows * row_cells, r.points, points, r.index, 3 * rows, 1, r.answer, 4);
    return r;
}

static void give_back(struct rooms *r)
{
    free(r->text);
    free(r->marks);
    free(r->rows);
    free(r->cells);
    free(r->points);
    free(r->index);
}

/* The table has no objects, and the last refusal's place. */
static void has_nothing(const char *what, const struct vendorfinch_table *t, uint64_t line, uint64_t field)
{
    is_number(what, "objects", (long long)t->objects, 0);
    is_number(what, "cells_used", (long long)t->cells_used, 0);
    is_number(what, "points_used", (long long)t->points_used, 0);
    is_number(what, "place[0]", (long long)t->place[0], (long long)line);
    is_number(what, "place[1]", (long long)t->place[1], (long long)field);
}

/* It is empty and owns nothing. */
static void owns_nothing(const char *what, const struct vendorfinch_table *t)
{
    has_nothing(what, t, 0, 0);
    is_so(what, "it owns memory", t->memory == NULL && t->memory_length == 0);
    is_so(what, "it has a slice", t->text_length == 0 && t->marks_length == 0 && t->rows_length == 0
          && t->cells_length == 0 && t->points_length == 0);
}

/* Whether a slice begins with so many numbers of this size. */
static int holds(const void *slice, size_t length, const void *expected, size_t count, size_t size)
{
    return count <= length && (count == 0 || memcmp(slice, expected, count * size) == 0);
}

/* Reads into the table and holds it to the proved call's answer and rooms. */
static void reads_as_proved(const char *what, struct vendorfinch_table *t, struct bytes model, const uint8_t *file,
                            size_t length, size_t row_cells)
{
    struct rooms r = read_plainly(model, file, length, row_cells);
    size_t text = length, marks = MARKS;
    while (text && r.text[text - 1] == 0)
        text--;
    while (marks && r.marks[marks - 1] == 0)
        marks--;
    int answer = vendorfinch_table_read(t, model.at, model.length, file, length);
    is_number(what, "the answer", answer, (long long)r.answer[0]);
    if (r.answer[0] == 0 && answer == 0) {
        is_number(what, "objects", (long long)t->objects, (long long)r.answer[1]);
        is_number(what, "cells_used", (long long)t->cells_used, (long long)r.answer[2]);
        is_number(what, "points_used", (long long)t->points_used, (long long)r.answer[3]);
        is_so(what, "a place is left", t->place[0] == 0 && t->place[1] == 0);
        is_so(what, "a slice is too short", t->objects <= t->rows_length && t->cells_used <= t->cells_length
              && t->points_used <= t->points_length / 4);
        is_so(what, "other rows", holds(t->rows, t->rows_length, r.rows, r.answer[1], 8));
        is_so(what, "other cells", holds(t->cells, t->cells_length, r.cells, r.answer[2], 8));
        is_so(what, "other points", holds(t->points, t->points_length, r.points, 4 * r.answer[3], 8));
        is_so(what, "other text", holds(t->text, t->text_length, r.text, text, 1));
        is_so(what, "other marks", holds(t->marks, t->marks_length, r.marks, marks, 1));
    } else {
        has_nothing(what, t, r.answer[1], r.answer[2]);
    }
    give_back(&r);
}

/* Writes the table and holds it to these bytes. */
static void writes(const char *what, const struct vendorfinch_table *t, struct bytes model, size_t width,
                   const char *expected, size_t length)
{
    struct vendorfinch_table before = *t;
    uint8_t *out = (uint8_t *)&before;
    size_t out_length = 77;
    is_number(what, "the answer", vendorfinch_table_write(t, model.at, model.length, width, &out, &out_length), 0);
    is_number(what, "the bytes written", (long long)out_length, (long long)length);
    is_so(what, "other bytes were written", out && out_length == length && memcmp(out, expected, length) == 0);
    is_so(what, "the table was changed", memcmp(&before, t, sizeof before) == 0);
    free(out);
}

static void writes_not(const char *what, const struct vendorfinch_table *t, const uint8_t *model, size_t model_length,
                       size_t width, int expected)
{
    uint8_t own = 0, *out = &own;
    size_t out_length = 77;
    is_number(what, "the answer", vendorfinch_table_write(t, model, model_length, width, &out, &out_length), expected);
    is_so(what, "out is not NULL", out == NULL);
    is_number(what, "out_length", (long long)out_length, 0);
}

/* ---- The tests -------------------------------------------------------------------------------------------------- */

static void the_sample(struct bytes model)
{
    struct vendorfinch_table t = VENDORFINCH_NO_TABLE;
    static const int64_t cells[18] = {0, 51, 2, 4, 54, 1, 100, 1, 205, 1, 91, 2, 1, 0, 0, 0, 4, 0};
    static const int64_t points[12] = {0, 100, 205, 0, 2, 110, 210, 0, 1, 120, 205, 0};
    reads_as_proved("the sample", &t, model, SAMPLE, 9);
    is_number("the sample", "objects", (long long)t.objects, 2);
    is_so("the sample", "its rows", t.rows && t.rows[0] == 0 && t.rows[1] == 9);
    is_so("the sample", "its cells", t.cells && memcmp(t.cells, cells, sizeof cells) == 0);
    is_so("the sample", "its points", t.points && memcmp(t.points, points, sizeof points) == 0);
    is_so("the sample", "its marks", t.marks && memcmp(t.marks, "\1\1\1", 3) == 0);
    writes("the sample at 80", &t, model, 80, (const char *)sample.at, sample.length);
    writes("the sample at 65,535", &t, model, 65535, (const char *)sample.at, sample.length);
    writes("the sample at 16", &t, model, 16, (const char *)sample_16.at, sample_16.length);
    writes_not("width 15", &t, model.at, model.length, 15, VENDORFINCH_WIDTH_WRONG);
    writes_not("width 65,536", &t, model.at, model.length, 65536, VENDORFINCH_WIDTH_WRONG);
    writes_not("width 0", &t, model.at, model.length, 0, VENDORFINCH_WIDTH_WRONG);
    writes_not("the greatest width", &t, model.at, model.length, (size_t)-1, VENDORFINCH_WIDTH_WRONG);
    writes_not("a bad model", &t, model.at, model.length - 4, 80, VENDORFINCH_MODEL_BAD);
    writes_not("no model", &t, NULL, 0, 80, VENDORFINCH_MODEL_BAD);
    writes_not("a NULL model with a length", &t, NULL, 5, 80, VENDORFINCH_NULL_SLICE);
    struct bytes other = text_model(1);
    writes_not("another model", &t, other.at, other.length, 80, VENDORFINCH_UNWRITABLE);
    free(other.at);
    vendorfinch_table_free(&t);
    owns_nothing("freed", &t);
    vendorfinch_table_free(&t);
    owns_nothing("freed twice", &t);
    reads_as_proved("read behind that", &t, model, SAMPLE, 9);
    vendorfinch_table_free(&t);
}

static void null_slices(struct bytes model)
{
    struct vendorfinch_table t = VENDORFINCH_NO_TABLE;
    is_number("no file", "the answer", vendorfinch_table_read(&t, model.at, model.length, NULL, 0),
              VENDORFINCH_CODE_EXPECTED);
    has_nothing("no file", &t, 1, 1);
    is_number("no model", "the answer", vendorfinch_table_read(&t, NULL, 0, SAMPLE), VENDORFINCH_MODEL_BAD);
    has_nothing("no model", &t, 0, 0);
    is_number("neither", "the answer", vendorfinch_table_read(&t, NULL, 0, NULL, 0), VENDORFINCH_MODEL_BAD);
    has_nothing("neither", &t, 0, 0);
    is_number("an unended model", "the answer", vendorfinch_table_read(&t, model.at, 186, SAMPLE),
              VENDORFINCH_MODEL_BAD);
    has_nothing("an unended model", &t, 186, 0);
    /* each of them over a table that has something */
    for (int which = 0; which < 4; which++) {
        reads_as_proved("before a NULL", &t, model, SAMPLE, 9);
        int answer = which == 0   ? vendorfinch_table_read(&t, model.at, model.length, NULL, 1)
                     : which == 1 ? vendorfinch_table_read(&t, NULL, 1, SAMPLE)
                     : which == 2 ? vendorfinch_table_read(&t, NULL, (size_t)-1, NULL, (size_t)-1)
                                  : vendorfinch_table_read(&t, NULL, 0, NULL, 16777217);
        is_number("a NULL with a length", "the answer", answer, VENDORFINCH_NULL_SLICE);
        owns_nothing("a NULL with a length", &t);
    }
    vendorfinch_table_free(&t);
}

static void again_and_again(struct bytes model)
{
    struct bytes small = text_model(1), file, wrong_file = {0};
    struct vendorfinch_table t = VENDORFINCH_NO_TABLE;
    size_t objects;
    file = objects_file(MIB, "OBJE ", " @\n", &objects);
    put(&wrong_file, SAMPLE);
    memcpy(wrong_file.at + 56, "\xd7", 1); /* within A_1 */
    for (int i = 0; i < 3; i++) {
        reads_as_proved("a small file", &t, model, SAMPLE, 9);
        reads_as_proved("a large one behind it", &t, small, file.at, file.length, 5);
        is_number("a large one", "objects", (long long)t.objects, (long long)objects);
        void *kept = t.memory;
        size_t kept_length = t.memory_length;
        reads_as_proved("a refused one behind it", &t, model, wrong_file.at, wrong_file.length, 9);
        reads_as_proved("a small one behind that", &t, model, SAMPLE, 9);
        writes("a small one behind that", &t, model, 80, (const char *)sample.at, sample.length);
        is_so("memory", "it was not kept", t.memory == kept && t.memory_length == kept_length);
        reads_as_proved("a large one, cut", &t, small, file.at, file.length - 1, 5);
        has_nothing("a large one, cut", &t, t.place[0], 0);
        is_so("a large one, cut", "its place", t.place[0] > objects);
        reads_as_proved("under another model", &t, model, file.at, file.length, 9);
        reads_as_proved("an empty file", &t, model, file.at, 0, 9);
    }
    vendorfinch_table_free(&t);
    free(small.at);
    free(file.at);
    free(wrong_file.at);
}

/* Writes a table that was not read, and one whose file was refused: no lines read as it. */
static void tables_without_objects(struct bytes model)
{
    struct vendorfinch_table t = VENDORFINCH_NO_TABLE;
    owns_nothing("a new table", &t);
    writes_not("a new table", &t, model.at, model.length, 80, VENDORFINCH_UNWRITABLE);
    writes_not("a new table at width 0", &t, model.at, model.length, 0, VENDORFINCH_WIDTH_WRONG);
    writes_not("a new table under no model", &t, NULL, 0, 80, VENDORFINCH_MODEL_BAD);
    vendorfinch_table_free(&t);
    owns_nothing("a new table, freed", &t);

    is_number("refused", "the answer", vendorfinch_table_read(&t, model.at, model.length, NULL, 0), 7);
    writes_not("refused, and written", &t, model.at, model.length, 80, VENDORFINCH_UNWRITABLE);

    /* a file that is read and has no objects */
    static const char none[] = "SCNT\n////\nMTID T\nMODL M\nEMOD\nENDE\n";
    reads_as_proved("no topics", &t, model, (const uint8_t *)none, sizeof none - 1, 9);
    writes("no topics", &t, model, 80, none, sizeof none - 1);
    vendorfinch_table_free(&t);
}

/* Files for which rooms by the wayside would be too small. */
static const struct shape {
    const char *what, *before, *behind;
    size_t length, texts; /* 0: the model of a line */
    size_t points;        /* of each object */
} shapes[] = {
    {"every OBJE cut within its code", "OB\\\nCONT JE ", " @\n", 4 * MIB, 1, 0},
    {"every byte of OBJE cut", "O\\\r\nCONT B\\\nCONT J\\\nCONT E\\\nCONT  ", " @\n", 4 * MIB, 1, 0},
    {"OBJE cut by nothing", "\\\nCONT OBJE ", " @\n", 4 * MIB, 1, 0},
    {"smallest objects", "OBJE ", " @\n", 4 * MIB, 1, 0},
    {"blanks before OBJE", " \tOBJE\t", " @@\n", 4 * MIB, 1, 0},
    {"objects of a line that is undefined", "OBJE ", "\nELIN\n", 4 * MIB, 0, 0},
    {"such objects, cut", "OB\\\nCONT JE ", "\nE\\\nCONT LIN\n", 4 * MIB, 0, 0},
    {"objects of two points", "OBJE ", "\nSTPT 1 1\nLIPT 1 1\nELIN\n", 4 * MIB, 0, 2},
    {"objects of many points", "OBJE ",
     "\nSTPT 1 1\nLIPT 1 1\nLIPT 1 1\nLIPT 1 1\nARCP 1 1\nLIPT 1 1\nLIPT 1 1\nLIPT 1 1\nLIPT 1 1\nLIPT 1 1\nELIN\n",
     4 * MIB, 0, 10},
    {"points cut within their codes", "OBJE ",
     "\nST\\\nCONT PT 1 1\nL\\\nCONT IPT 1 1\nLI\\\nCONT PT 1 1\nLIP\\\nCONT T 1 1\nELIN\n", 4 * MIB, 0, 4},
    {"rows of 64 attributes for two bytes", "OBJE ", " @@\n", MIB / 4, 64, 0},
};

/* What is written of a table is read with the same counts again. */
static void reads_again(const char *what, const struct vendorfinch_table *t, struct bytes model)
{
    struct vendorfinch_table again = VENDORFINCH_NO_TABLE;
    uint8_t *out;
    size_t out_length;
    is_number(what, "writing", vendorfinch_table_write(t, model.at, model.length, 16, &out, &out_length), 0);
    is_number(what, "reading again", vendorfinch_table_read(&again, model.at, model.length, out, out_length), 0);
    is_so(what, "it has other counts", again.objects == t->objects && again.cells_used == t->cells_used
          && again.points_used == t->points_used);
    free(out);
    vendorfinch_table_free(&again);
}

/* Each is read, and none is refused with 6 or 16. */
static void rooms_are_enough(const struct shape *shape)
{
    struct bytes model = shape->texts ? text_model((unsigned)shape->texts) : line_model();
    size_t objects, row_cells = shape->texts ? 3 + 2 * shape->texts : 5;
    struct bytes file = objects_file(shape->length, shape->before, shape->behind, &objects);
    struct vendorfinch_table t = VENDORFINCH_NO_TABLE;
    reads_as_proved(shape->what, &t, model, file.at, file.length, row_cells);
    is_number(shape->what, "objects", (long long)t.objects, (long long)objects);
    is_number(shape->what, "cells_used", (long long)t.cells_used, (long long)(objects * row_cells));
    is_number(shape->what, "points_used", (long long)t.points_used, (long long)(objects * shape->points));
    reads_again(shape->what, &t, model);
    vendorfinch_table_free(&t);
    free(file.at);
    free(model.at);
}

/* One object of a line of as many points as there can be. */
static void the_longest_line(void)
{
    struct bytes model = line_model(), file = {0};
    struct vendorfinch_table t = VENDORFINCH_NO_TABLE;
    size_t points = 1;
    open_file(&file);
    say(&file, "OBJE a\nSTPT 1 1\n");
    for (; file.length < 4 * MIB; points++)
        say(&file, "LIPT 1 1\n");
    say(&file, "ELIN\n");
    close_file(&file);
    reads_as_proved("a long line", &t, model, file.at, file.length, 5);
    is_number("a long line", "points_used", (long long)t.points_used, (long long)points);
    vendorfinch_table_free(&t);
    free(file.at);
    free(model.at);
}

/* A file above 16,777,216 bytes is refused, one of these is read. */
static void the_longest(struct bytes model)
{
    struct bytes file = {0};
    struct vendorfinch_table t = VENDORFINCH_NO_TABLE;
    say(&file, "SCNT\n");
    while (file.length < 16777216 - (sample.length - 5) - 80)
        say(&file, "a description\n");
    while (file.length < 16777216 - (sample.length - 5) - 1)
        say(&file, "x");
    say(&file, "\n");
    put(&file, sample.at + 5, sample.length - 5);
    is_number("16,777,216 bytes", "the length", (long long)file.length, 16777216);
    is_number("16,777,216 bytes", "the answer",
              vendorfinch_table_read(&t, model.at, model.length, file.at, file.length), 0);
    is_number("16,777,216 bytes", "objects", (long long)t.objects, 2);
    say(&file, "\n");
    is_number("16,777,217 bytes", "the answer",
              vendorfinch_table_read(&t, model.at, model.length, file.at, file.length), VENDORFINCH_FILE_TOO_LONG);
    has_nothing("16,777,217 bytes", &t, 0, 0);
    /* one that nobody has: nothing of it is looked at */
    is_number("the longest length", "the answer",
              vendorfinch_table_read(&t, model.at, model.length, file.at, (size_t)-1), VENDORFINCH_FILE_TOO_LONG);
    has_nothing("the longest length", &t, 0, 0);
    vendorfinch_table_free(&t);
    free(file.at);
}

#ifndef SANITIZED
/* Each call for memory of reading fails in turn, until it needs no more: into a new table, or into one that has to
 * grow. */
static void no_memory_to_read(struct bytes model, struct bytes file, size_t objects, const struct bytes *before)
{
    struct vendorfinch_table t = VENDORFINCH_NO_TABLE;
    int answer = VENDORFINCH_NO_MEMORY;
    long k;
    for (k = 0; k < 100 && answer == VENDORFINCH_NO_MEMORY; k++) {
        if (before)
            is_number("before there is no memory", "the answer",
                      vendorfinch_table_read(&t, before->at, before->length, SAMPLE), 0);
        calls = 0;
        fails_at = k;
        answer = vendorfinch_table_read(&t, model.at, model.length, file.at, file.length);
        fails_at = -1;
        if (answer == VENDORFINCH_NO_MEMORY)
            owns_nothing("no memory for reading", &t);
    }
    is_so("no memory for reading", "no call for memory was seen to fail", k > 1);
    is_number("memory for reading", "the answer", answer, 0);
    is_number("memory for reading", "objects", (long long)t.objects, (long long)objects);
    vendorfinch_table_free(&t);
}

/* The same of writing, which leaves the table as it was. */
static void no_memory_to_write(struct bytes model, struct bytes file)
{
    struct vendorfinch_table t = VENDORFINCH_NO_TABLE;
    is_number("before writing", "the answer",
              vendorfinch_table_read(&t, model.at, model.length, file.at, file.length), 0);
    struct vendorfinch_table before = t;
    uint8_t *out = NULL;
    size_t out_length;
    int answer = VENDORFINCH_NO_MEMORY;
    long k;
    for (k = 0; k < 100 && answer == VENDORFINCH_NO_MEMORY; k++) {
        out = (uint8_t *)&before;
        out_length = 77;
        calls = 0;
        fails_at = k;
        answer = vendorfinch_table_write(&t, model.at, model.length, 80, &out, &out_length);
        fails_at = -1;
        is_so("no memory for writing", "the table was changed", memcmp(&before, &t, sizeof t) == 0);
        if (answer == VENDORFINCH_NO_MEMORY)
            is_so("no memory for writing", "out is not NULL", out == NULL && out_length == 0);
    }
    is_so("no memory for writing", "no call for memory was seen to fail", k > 1);
    is_number("memory for writing", "the answer", answer, 0);
    is_so("memory for writing", "other bytes", out && out_length == file.length
          && memcmp(out, file.at, file.length) == 0);
    free(out);
    vendorfinch_table_free(&t);
}

/* One call for memory fails alone, then with all behind it. */
static void no_memory(struct bytes model)
{
    struct bytes small = text_model(1);
    size_t objects;
    struct bytes file = objects_file(100000, "OBJE ", " @\n", &objects);
    for (fails_on = 0; fails_on < 2; fails_on++) {
        no_memory_to_read(small, file, objects, NULL);
        no_memory_to_read(small, file, objects, &model);
        no_memory_to_write(small, file);
    }
    fails_on = 0;
    free(small.at);
    free(file.at);
}
#endif

/* What a thread reads, again and again, and how often it was another table. */
struct reader {
    struct bytes model, file;
    struct rooms plain;
    int others, answers;
};

static void *read_on(void *given)
{
    struct reader *r = given;
    struct vendorfinch_table t = VENDORFINCH_NO_TABLE;
    for (int i = 0; i < 100; i++) {
        r->answers += vendorfinch_table_read(&t, r->model.at, r->model.length, r->file.at, r->file.length) != 0;
        r->others += t.objects != r->plain.answer[1] || t.cells_used != r->plain.answer[2]
                     || t.points_used != r->plain.answer[3]
                     || !holds(t.rows, t.rows_length, r->plain.rows, r->plain.answer[1], 8)
                     || !holds(t.cells, t.cells_length, r->plain.cells, r->plain.answer[2], 8)
                     || !holds(t.points, t.points_length, r->plain.points, 4 * r->plain.answer[3], 8);
        if (i % 10 == 0) {
            uint8_t *out;
            size_t out_length;
            r->answers += vendorfinch_table_write(&t, r->model.at, r->model.length, 80, &out, &out_length) != 0;
            r->others += !out || out_length != r->file.length || memcmp(out, r->file.at, out_length) != 0;
            free(out);
        }
        if (i % 25 == 0)
            vendorfinch_table_free(&t);
    }
    vendorfinch_table_free(&t);
    return NULL;
}

static void side_by_side(void)
{
    struct reader readers[2];
    pthread_t threads[2];
    size_t objects;
    memset(readers, 0, sizeof readers);
    readers[0].model = text_model(1);
    readers[0].file = objects_file(200000, "OBJE ", " @\n", &objects);
    readers[1].model = line_model();
    readers[1].file = objects_file(100000, "OBJE ", "\nSTPT 1 1\nLIPT 2 2\nELIN\n", &objects);
    for (int i = 0; i < 2; i++)
        readers[i].plain = read_plainly(readers[i].model, readers[i].file.at, readers[i].file.length, 5);
    for (int i = 0; i < 2; i++)
        is_number("threads", "starting one", pthread_create(&threads[i], NULL, read_on, &readers[i]), 0);
    for (int i = 0; i < 2; i++) {
        pthread_join(threads[i], NULL);
        is_number("threads", "other answers", readers[i].answers, 0);
        is_number("threads", "other tables", readers[i].others, 0);
        is_number("threads", "the plain answer", (long long)readers[i].plain.answer[0], 0);
        give_back(&readers[i].plain);
        free(readers[i].model.at);
        free(readers[i].file.at);
    }
}

/* ---- model.h ---------------------------------------------------------------------------------------------------- */

static int is_name(struct vendorfinch_name name, const char *expected)
{
    return name.length == strlen(expected) && memcmp(name.bytes, expected, name.length) == 0;
}

/* Nothing is in it. */
static void is_closed(const char *what, const struct vendorfinch_model *open)
{
    is_so(what, "something is in it", open->topics == 0 && open->tables == 0 && open->attributes == 0
          && open->attribute == NULL);
}

/* The attributes of the sample's model. */
static void sample_attributes(const struct vendorfinch_model *open)
{
    static const struct {
        const char *name;
        enum vendorfinch_type type;
        int optional;
        unsigned number, components, cell, decimals;
        int64_t least, greatest;
    } attributes[5] = {
        {"Nr", VENDORFINCH_TEXT, 0, 4, 0, 3, 0, 0, 0},
        {"Lage", VENDORFINCH_COORDINATE_2, 0, 0, 2, 5, 1, 0, 999},
        {"Von", VENDORFINCH_REFERENCE, 0, 0, 0, 3, 0, 0, 0},
        {"Tiefe", VENDORFINCH_NUMBER_TYPE, 1, 0, 1, 5, 2, -500, 999},
        {"Verlauf", VENDORFINCH_LINE, 0, 3, 2, 7, 1, 0, 999},
    };
    for (int i = 0; i < 5; i++) {
        const struct vendorfinch_attribute *a = &open->attribute[i];
        is_so("an attribute", attributes[i].name, is_name(a->name, attributes[i].name)
              && a->type == attributes[i].type && a->optional == attributes[i].optional
              && a->number == attributes[i].number && a->components == attributes[i].components
              && a->cell == attributes[i].cell);
        for (unsigned c = 0; c < attributes[i].components; c++)
            is_so("its component", attributes[i].name, a->component[c].decimals == attributes[i].decimals
                  && a->component[c].least == attributes[i].least
                  && a->component[c].greatest == attributes[i].greatest);
    }
}

static void sample_opened(struct bytes model)
{
    static struct vendorfinch_model open;
    is_number("a model", "the answer", vendorfinch_model_open(&open, model.at, model.length), 0);
    is_so("a model", "its bytes", open.blank == '_' && open.undefined == '@' && open.continuation == '\\');
    is_so("a model", "its counts", open.topics == 1 && open.tables == 2 && open.attributes == 5);
    is_so("a model", "its names", is_name(open.transfer, "T") && is_name(open.name, "M")
          && is_name(open.topic[0], "Netz") && is_name(open.table[0].name, "Knoten")
          && is_name(open.table[1].name, "Leitung"));
    is_so("a model", "its first table", open.table[0].topic == 0 && open.table[0].attributes == 2
          && open.table[0].first == 0 && open.table[0].cells == 9 && !open.table[0].optional);
    is_so("a model", "its second table", open.table[1].topic == 0 && open.table[1].attributes == 3
          && open.table[1].first == 2 && open.table[1].cells == 9 && !open.table[1].optional);
    sample_attributes(&open);
    vendorfinch_model_free(&open);
    is_closed("a model, freed", &open);
    vendorfinch_model_free(&open);
    is_closed("a model, freed twice", &open);
}

static void models_not_opened(struct bytes model)
{
    static struct vendorfinch_model open;
    for (size_t length = 0; length < model.length; length++) {
        memset(&open, 1, sizeof open);
        is_number("a model's beginning", "the answer", vendorfinch_model_open(&open, model.at, length),
                  VENDORFINCH_MODEL_BAD);
        is_closed("a model's beginning", &open);
    }
    is_number("no model", "the answer", vendorfinch_model_open(&open, NULL, 0), VENDORFINCH_MODEL_BAD);
    is_closed("no model", &open);
    is_number("a NULL", "the answer", vendorfinch_model_open(&open, NULL, 190), VENDORFINCH_NULL_SLICE);
    is_closed("a NULL", &open);
}

#ifndef SANITIZED
static void no_memory_to_open(struct bytes model)
{
    static struct vendorfinch_model open;
    int answer = VENDORFINCH_NO_MEMORY;
    long k;
    for (k = 0; k < 100 && answer == VENDORFINCH_NO_MEMORY; k++) {
        calls = 0;
        fails_at = k;
        answer = vendorfinch_model_open(&open, model.at, model.length);
        fails_at = -1;
        if (answer == VENDORFINCH_NO_MEMORY)
            is_closed("no memory for a model", &open);
    }
    is_so("no memory for a model", "no call for memory was seen to fail", k > 1);
    is_number("memory for a model", "the answer", answer, 0);
    vendorfinch_model_free(&open);
}
#endif

static void wide_model_opened(void)
{
    static struct vendorfinch_model open;
    struct bytes wide = text_model(64);
    is_number("64 attributes", "the answer", vendorfinch_model_open(&open, wide.at, wide.length), 0);
    is_so("64 attributes", "their cells", open.attributes == 64 && open.table[0].cells == 131
          && open.attribute[0].cell == 3 && open.attribute[63].cell == 129);
    vendorfinch_model_free(&open);
    free(wide.at);
}

static void words(void)
{
    is_so("words", "14", strcmp(vendorfinch_words(14), "outside its domain, text too long") == 0);
    is_so("words", "no memory", strcmp(vendorfinch_words(VENDORFINCH_NO_MEMORY), "no memory") == 0);
    for (int number = -1000; number < 1000; number++)
        if (!vendorfinch_words(number) || !*vendorfinch_words(number))
            is_number("words", "none for a number", number, 0);
}

int main(int count, char **names)
{
    if (count != 4)
        return 2;
    struct bytes model = load(names[1]);
    sample = load(names[2]);
    sample_16 = load(names[3]);
    is_number("the sample's model", "its length", (long long)model.length, 190);
    is_number("the sample", "its length", (long long)sample.length, 169);
    if (wrong)
        return 2;
    the_sample(model);
    null_slices(model);
    again_and_again(model);
    tables_without_objects(model);
    for (size_t i = 0; i < sizeof shapes / sizeof *shapes; i++)
        rooms_are_enough(&shapes[i]);
    the_longest_line();
    the_longest(model);
    side_by_side();
    sample_opened(model);
    models_not_opened(model);
    wide_model_opened();
#ifndef SANITIZED
    no_memory(model);
    no_memory_to_open(model);
#endif
    words();
    free(model.at);
    free(sample.at);
    free(sample_16.at);
    printf("layer: %d compared, %d wrong\n", compared, wrong);
    return wrong != 0;
}
