/* Calls the proved library with what is too large for tests/cases: files of 16,777,216 lines, a table read from and
 * written to 16,777,216 bytes, and of one more. Its exit status is 0 only where all agree. argv[1] and argv[2]: the
 * sample's compiled model and file. */
#include "vendorfinch.h"

#include <stdio.h>
#include <stdlib.h>
#include <string.h>

enum { LIMIT = 16777216 };

static uint8_t model[200], file[200];
static size_t model_length, file_length;
static int compared, wrong;

/* A file, and a room for a text or an output. */
static uint8_t large[LIMIT + 1], room[LIMIT + 1];

static size_t load(const char *name, uint8_t into[200])
{
    FILE *f = fopen(name, "rb");
    if (!f)
        return 0;
    size_t n = fread(into, 1, 200, f);
    fclose(f);
    return n;
}

static void same(const char *what, uint64_t got, uint64_t number, uint64_t second)
{
    compared++;
    if (got != number + 256 * second) {
        wrong++;
        printf("%s: %llu %llu, expected %llu %llu\n", what, (unsigned long long)(got % 256),
               (unsigned long long)(got / 256), (unsigned long long)number, (unsigned long long)second);
    }
}

static void holds(const char *what, const void *got, const void *expected, size_t length)
{
    compared++;
    if (memcmp(got, expected, length) != 0) {
        wrong++;
        printf("%s: the buffer holds something else\n", what);
    }
}

static void is_zero(const char *what, const void *got, size_t length)
{
    static const uint8_t zeros[LIMIT + 1];
    holds(what, got, zeros, length);
}

/* ---- Files of 16,777,216 bytes and of one more ------------------------------------------------------------------ */

/* The sample with a description that makes it so many bytes. */
static void describe(size_t length)
{
    memset(large, 'x', length);
    memcpy(large, file, 5);
    large[length - file_length + 4] = '\n';
    memcpy(large + length - file_length + 5, file + 5, file_length - 5);
}

static uint64_t unfold(size_t of_model, size_t length, size_t lent)
{
    memset(room, 1, sizeof room);
    return vendorfinch_unfold(model, of_model, large, length, room, lent);
}

static void unfold_large(void)
{
    memset(large, '\n', sizeof large);
    same("16,777,217 lines", unfold(model_length, LIMIT + 1, 50), 1, 0);
    is_zero("16,777,217 lines", room, 50);
    same("16,777,217 lines under a bad model", unfold(0, LIMIT + 1, 50), 1, 0);
    is_zero("16,777,217 lines under a bad model", room, 50);
    same("16,777,216 lines, room for 50", unfold(model_length, LIMIT, 50), 6, 0);
    is_zero("16,777,216 lines, room for 50", room, 50);
}

/* What a call lends: of the sample's table just enough. */
static uint8_t marks[3];
static uint64_t rows[2], links[9], answer[8];
static int64_t cells[18], points[12];

/* Reads into buffers that were full of ones. */
static uint64_t read_into(size_t length)
{
    memset(room, 1, length);
    memset(marks, 1, sizeof marks);
    memset(rows, 1, sizeof rows);
    memset(cells, 1, sizeof cells);
    memset(points, 1, sizeof points);
    memset(links, 1, sizeof links);
    memset(answer, 1, sizeof answer);
    return vendorfinch_read(model, model_length, large, length, room, length, marks, 3, rows, 2, cells, 18, points, 12,
                            links, 9, 20260101, answer, 8);
}

/* The answer, and zeros behind it. */
static void numbers(const char *what, uint64_t number, uint64_t second, uint64_t third, uint64_t fourth)
{
    uint64_t expected[8] = {number, second, third, fourth, 0, 0, 0, 0};
    holds(what, answer, expected, sizeof expected);
}

/* 01's table of the sample, with so many bytes before its lines. */
static void is_sample(const char *what, int64_t before)
{
    static const uint8_t delivered[3] = {1, 1, 1};
    static const uint64_t starts[2] = {0, 9};
    int64_t row_cells[18] = {0, before + 51, 2, 4, before + 54, 1, 100, 1, 205, 1, before + 91, 2, 1, 0, 0, 0, 4, 0};
    static const int64_t point_cells[12] = {0, 100, 205, 0, 2, 110, 210, 0, 1, 120, 205, 0};
    holds(what, marks, delivered, sizeof marks);
    holds(what, rows, starts, sizeof rows);
    holds(what, cells, row_cells, sizeof cells);
    holds(what, points, point_cells, sizeof points);
    is_zero(what, links, sizeof links);
}

static void read_large(void)
{
    describe(LIMIT);
    same("reading 16,777,216 bytes", read_into(LIMIT), 0, 2);
    numbers("reading 16,777,216 bytes", 0, 2, 18, 3);
    holds("reading 16,777,216 bytes", room, large, LIMIT);
    is_sample("reading 16,777,216 bytes", LIMIT - (int64_t)file_length);
    describe(LIMIT + 1);
    same("reading 16,777,217 bytes", read_into(LIMIT + 1), 1, 0);
    numbers("reading 16,777,217 bytes", 1, 0, 0, 0);
    is_zero("reading 16,777,217 bytes", room, LIMIT + 1);
    is_zero("reading 16,777,217 bytes", marks, sizeof marks);
    is_zero("reading 16,777,217 bytes", rows, sizeof rows);
    is_zero("reading 16,777,217 bytes", cells, sizeof cells);
    is_zero("reading 16,777,217 bytes", points, sizeof points);
    is_zero("reading 16,777,217 bytes", links, sizeof links);
}

/* ---- Outputs of 16,777,216 bytes and of one more ---------------------------------------------------------------- */

/* 256 objects, each with a line of 65,535 bytes but the last: the file has 16,777,216 bytes, and with one byte more in
 * the last it would be too long. */
static uint64_t write_objects(size_t more)
{
    static const uint8_t wide[] = {4, 0, 1, 0, '_', '@', '\\', 'T', 1, 0, 2, 0, 'M', 1, 0, 3, 0, 'N',
                                   2, 0, 4, 0, 0, 'A', 5, 0, 5, 0, 0, 5, 255, 255, 'Y', 0, 0, 6, 0};
    static uint8_t long_text[768 + 65526];
    static uint64_t long_rows[256];
    static int64_t long_cells[5 * 256];
    static const uint8_t both[2] = {1, 1};
    memset(long_text, 'x', sizeof long_text);
    for (int n = 0; n < 256; n++) {
        int64_t row[5] = {0, 3 * n, 3, 1 + (n < 255 ? 65526 : 65468 + (int64_t)more), 768};
        uint8_t name[3] = {'a' + n / 16, 'a' + n % 16, 'z'};
        memcpy(long_cells + 5 * n, row, sizeof row);
        memcpy(long_text + 3 * n, name, 3);
        long_rows[n] = 5 * n;
    }
    memset(room, 1, sizeof room);
    memset(answer, 1, sizeof answer);
    return vendorfinch_write(wide, sizeof wide, long_text, sizeof long_text, both, 2, long_rows, 256, long_cells, 1280,
                             points, 0, 256, 1280, 0, 65535, room, LIMIT + 1, links, 0, 0, answer, 8);
}

static void write_large(void)
{
    same("16,777,216 bytes to be written", write_objects(0), 0, LIMIT);
    numbers("16,777,216 bytes to be written", 0, LIMIT, 0, 0);
    holds("16,777,216 bytes to be written", room, "SCNT\n////\nMTID T\nMODL M\nTOPI N\nTABL A\nOBJE aaz xxx", 50);
    holds("16,777,216 bytes to be written", room + LIMIT - 23, "xx\nETAB\nETOP\nEMOD\nENDE\n\0", 24);
    same("16,777,217 bytes to be written", write_objects(1), 21, 0);
    numbers("16,777,217 bytes to be written", 21, 0, 0, 0);
    is_zero("16,777,217 bytes to be written", room, LIMIT + 1);
}

int main(int count, char **names)
{
    if (count != 3)
        return 2;
    model_length = load(names[1], model);
    file_length = load(names[2], file);
    if (model_length != 190 || file_length != 169) {
        printf("the sample is not there\n");
        return 2;
    }
    unfold_large();
    read_large();
    write_large();
    printf("large: %d compared, %d wrong\n", compared, wrong);
    return wrong != 0;
}
