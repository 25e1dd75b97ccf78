/* Asks the proved library every case of a file that tests/cases/prepare.py wrote (its form stands there), and compares
 * each answer and the whole content of each room with what is expected by hand and with what the independent
 * implementation answers. Of a case that is wrong it prints the text, the three side by side, and which one is alone.
 * Its exit status is 0 only where all agree, each count is above zero and none by hand is missing; 2 where the file
 * cannot be taken apart. */
#include "vendorfinch.h"

#include <stdio.h>
#include <stdlib.h>
#include <string.h>
#include <sys/stat.h>

enum call { CHECK, UNFOLD, READ, WRITE, CALLS };
enum part { NUMBER, OUTPUT, TEXT, MARKS, ROWS, CELLS, POINTS, INDEX, ANSWER, PARTS };
enum side { HAND, INDEPENDENT, LIBRARY, SIDES };

static const size_t size_of[PARTS] = {8, 1, 1, 1, 8, 8, 8, 8, 8};

/* The parts that are compared. */
static const int compared[CALLS][PARTS] = {
    [CHECK] = {[NUMBER] = 1},
    [UNFOLD] = {[NUMBER] = 1, [TEXT] = 1},
    [READ] = {[NUMBER] = 1, [TEXT] = 1, [MARKS] = 1, [ROWS] = 1, [CELLS] = 1, [POINTS] = 1, [ANSWER] = 1},
    [WRITE] = {[NUMBER] = 1, [OUTPUT] = 1, [ANSWER] = 1},
};

struct bytes {
    const uint8_t *at;
    size_t length;
};

/* The numbers of a part, little-endian, with zeros behind them; at is NULL where nothing is said. */
struct numbers {
    const uint8_t *at;
    size_t count;
};

struct a_case {
    enum call call;
    struct bytes words, model, file;     /* words: as it stands in its file */
    uint8_t *room[PARTS];                /* what is lent, and GUARD bytes of ones behind it */
    size_t length[PARTS];                /* of a room, in numbers */
    struct numbers table[PARTS];         /* what writing is lent, as it was before the call */
    uint64_t objects, cells_used, points_used, width, seed;
    uint64_t got;
    struct numbers side[SIDES][PARTS];
};

enum { GUARD = 8 };

/* ---- The file of cases ------------------------------------------------------------------------------------------ */

static const uint8_t *at, *end;
static size_t taken, due_by_hand;

static _Noreturn void stop(const char *where, const char *why)
{
    fprintf(stderr, "%s: %s\n", where, why);
    exit(2);
}

static _Noreturn void stop_in_case(const char *why)
{
    char where[32];
    snprintf(where, sizeof where, "case %zu", taken);
    stop(where, why);
}

static void load(const char *name)
{
    struct stat about;
    FILE *f = fopen(name, "rb");
    if (!f || stat(name, &about) != 0 || !S_ISREG(about.st_mode))
        stop(name, "is not there, or no file");
    size_t size = about.st_size;
    uint8_t *whole = malloc(size + 1);
    if (!whole)
        stop(name, "no memory for all of it");
    if (fread(whole, 1, size, f) != size)
        stop(name, "cannot be read");
    fclose(f);
    at = whole;
    end = whole + size;
}

static const uint8_t *take_bytes(size_t length)
{
    const uint8_t *from = at;
    if (length > (size_t)(end - at))
        stop_in_case("the file ends in the middle of it");
    at += length;
    return from;
}

/* A number of so many bytes, and one of a part; there are zeros behind its last. */
static uint64_t number_at(const uint8_t *from, size_t size)
{
    uint64_t number = 0;
    for (size_t i = size; i > 0; i--)
        number = 256 * number + from[i - 1];
    return number;
}

static uint64_t number_of(struct numbers n, enum part part, size_t i)
{
    return i < n.count ? number_at(n.at + i * size_of[part], size_of[part]) : 0;
}

static uint64_t take(size_t size)
{
    return number_at(take_bytes(size), size);
}

static struct numbers take_part(enum part part)
{
    struct numbers nothing = {NULL, 0}, n;
    n.count = take(4);
    if (n.count == 4294967295)
        return nothing;
    n.at = take_bytes(n.count * size_of[part]);
    return n;
}

static struct numbers take_said(enum part part)
{
    struct numbers n = take_part(part);
    if (!n.at)
        stop_in_case("a part that must be said is not");
    return n;
}

/* A room full of ones. */
static void lend(struct a_case *c, enum part part, size_t length)
{
    size_t size = length * size_of[part] + GUARD;
    c->length[part] = length;
    c->room[part] = malloc(size);
    if (!c->room[part])
        stop_in_case("no memory for its rooms");
    memset(c->room[part], 1, size);
}

static void take_reading(struct a_case *c)
{
    for (enum part part = TEXT; part <= ANSWER; part++)
        lend(c, part, take(4));
    c->seed = take(8);
}

static void take_writing(struct a_case *c)
{
    for (enum part part = TEXT; part <= POINTS; part++) {
        struct numbers n = c->table[part] = take_said(part);
        lend(c, part, n.count);
        memcpy(c->room[part], n.at, n.count * size_of[part]);
    }
    c->objects = take(8);
    c->cells_used = take(8);
    c->points_used = take(8);
    c->width = take(8);
    lend(c, OUTPUT, take(4));
    lend(c, INDEX, take(4));
    lend(c, ANSWER, take(4));
    c->seed = take(8);
}

static void take_case(struct a_case *c)
{
    memset(c, 0, sizeof *c);
    taken++;
    uint64_t call = take(4);
    if (call >= CALLS)
        stop_in_case("there is no such call");
    c->call = call;
    c->words.length = take(4);
    c->model.length = take(4);
    c->file.length = take(4);
    c->words.at = take_bytes(c->words.length);
    c->model.at = take_bytes(c->model.length);
    c->file.at = take_bytes(c->file.length);
    if (call == UNFOLD)
        lend(c, TEXT, take(4));
    if (call == READ)
        take_reading(c);
    if (call == WRITE)
        take_writing(c);
    for (enum side side = HAND; side <= INDEPENDENT; side++)
        for (enum part part = 0; part < PARTS; part++)
            if (compared[call][part])
                c->side[side][part] = side == HAND ? take_part(part) : take_said(part);
}

/* ---- The library ------------------------------------------------------------------------------------------------ */

#define BYTES(part) c->room[part], c->length[part]
#define UNSIGNED(part) (uint64_t *)c->room[part], c->length[part]
#define SIGNED(part) (int64_t *)c->room[part], c->length[part]

static uint64_t answer(struct a_case *c)
{
    const uint8_t *model = c->model.at, *file = c->file.at;
    size_t model_length = c->model.length, file_length = c->file.length;
    switch (c->call) {
    case CHECK:
        return vendorfinch_check_model(model, model_length);
    case UNFOLD:
        return vendorfinch_unfold(model, model_length, file, file_length, BYTES(TEXT));
    case READ:
        return vendorfinch_read(model, model_length, file, file_length, BYTES(TEXT), BYTES(MARKS), UNSIGNED(ROWS),
                                SIGNED(CELLS), SIGNED(POINTS), UNSIGNED(INDEX), c->seed, UNSIGNED(ANSWER));
    default:
        return vendorfinch_write(model, model_length, BYTES(TEXT), BYTES(MARKS), UNSIGNED(ROWS), SIGNED(CELLS),
                                 SIGNED(POINTS), c->objects, c->cells_used, c->points_used, c->width, BYTES(OUTPUT),
                                 UNSIGNED(INDEX), c->seed, UNSIGNED(ANSWER));
    }
}

static void ask(struct a_case *c)
{
    c->got = answer(c);
    for (enum part part = 0; part < PARTS; part++) {
        struct numbers n = {c->room[part], c->length[part]};
        c->side[LIBRARY][part] = n;
    }
    struct numbers one = {(const uint8_t *)&c->got, 1};
    c->side[LIBRARY][NUMBER] = one;
}

static void give_back(struct a_case *c)
{
    for (enum part part = 0; part < PARTS; part++)
        free(c->room[part]);
}

/* ---- What is wrong ---------------------------------------------------------------------------------------------- */

static const size_t nowhere = (size_t)-1;

/* The first number that is another one, or nowhere. What is not said is not another. */
static size_t difference(struct numbers a, struct numbers b, enum part part)
{
    if (!a.at || !b.at)
        return nowhere;
    struct numbers shorter = a.count < b.count ? a : b, longer = a.count < b.count ? b : a;
    size_t common = shorter.count * size_of[part], size = longer.count * size_of[part], i = 0;
    if (memcmp(a.at, b.at, common) == 0)
        i = common;
    while (i < size && longer.at[i] == (i < common ? shorter.at[i] : 0))
        i++;
    return i < size ? i / size_of[part] : nowhere;
}

/* The first number of a part in which any two of the three differ, or nowhere. */
static size_t first_difference(const struct a_case *c, enum part part)
{
    size_t first = nowhere;
    for (enum side a = HAND; a < SIDES; a++)
        for (enum side b = a + 1; b < SIDES; b++) {
            size_t i = difference(c->side[a][part], c->side[b][part], part);
            first = i < first ? i : first;
        }
    return first;
}

static int agree(const struct a_case *c, enum side a, enum side b)
{
    for (enum part part = 0; part < PARTS; part++)
        if (compared[c->call][part] && difference(c->side[a][part], c->side[b][part], part) != nowhere)
            return 0;
    return 1;
}

/* Which one is alone; NULL where all agree. */
static const char *who_is_alone(const struct a_case *c)
{
    int hand_library = agree(c, HAND, LIBRARY), hand_independent = agree(c, HAND, INDEPENDENT);
    if (agree(c, INDEPENDENT, LIBRARY))
        return hand_library ? NULL : "The expectation is alone.";
    if (hand_library && hand_independent)
        return "The library and the independent implementation differ.";
    if (hand_independent)
        return "The library is alone.";
    if (hand_library)
        return "The independent implementation is alone.";
    return "All three differ.";
}

static int all(const uint8_t *bytes, size_t length, uint8_t byte)
{
    for (size_t i = 0; i < length; i++)
        if (bytes[i] != byte)
            return 0;
    return 1;
}

static int wrote_behind_a_room(const struct a_case *c)
{
    for (enum part part = 0; part < PARTS; part++)
        if (c->room[part] && !all(c->room[part] + c->length[part] * size_of[part], GUARD, 1))
            return 1;
    return 0;
}

static int index_is_not_zero(const struct a_case *c)
{
    return c->room[INDEX] && !all(c->room[INDEX], c->length[INDEX] * size_of[INDEX], 0);
}

static int table_was_changed(const struct a_case *c)
{
    for (enum part part = 0; part < PARTS; part++)
        if (c->table[part].at && memcmp(c->room[part], c->table[part].at, c->length[part] * size_of[part]) != 0)
            return 1;
    return 0;
}

/* ---- Side by side ----------------------------------------------------------------------------------------------- */

enum { COLUMN = 30, MOST_NUMBERS = 8, BYTES_BEFORE = 8 };

/* One column of a line. */
struct column {
    char words[COLUMN + 1];
    size_t length;
};

/* Adds a word where so much room is left behind it; whether it was added. */
static int add(struct column *column, const char *word, size_t behind)
{
    size_t length = strlen(word);
    if (column->length + length + behind > COLUMN)
        return 0;
    memcpy(column->words + column->length, word, length + 1);
    column->length += length;
    return 1;
}

/* The same of a number, where there is room for dots behind it. */
static int add_number(struct column *column, uint64_t number, enum part part)
{
    char word[32];
    const char *space = column->length ? " " : "";
    if (part == CELLS || part == POINTS)
        snprintf(word, sizeof word, "%s%lld", space, (long long)number);
    else
        snprintf(word, sizeof word, "%s%llu", space, (unsigned long long)number);
    return add(column, word, 3);
}

/* A byte as a case says it. */
static void escape(char word[8], uint8_t byte)
{
    const char *escapes = "\\\\\nn\rr\tt";
    for (const char *e = escapes; *e; e += 2)
        if (byte == (uint8_t)*e) {
            snprintf(word, 8, "\\%c", e[1]);
            return;
        }
    snprintf(word, 8, byte >= ' ' && byte <= '~' ? "%c" : "\\x%02x", byte);
}

/* How many numbers there are before the zeros at the end. */
static size_t used(struct numbers n, enum part part)
{
    size_t count = n.count;
    while (count > 0 && number_of(n, part, count - 1) == 0)
        count--;
    return count;
}

static struct column quoted(struct numbers n, enum part part, size_t from)
{
    struct column column = {"\"", 1};
    size_t to = used(n, part), i = from;
    char word[8];
    for (; i < to; i++) {
        escape(word, n.at[i]);
        if (!add(&column, word, 3))
            break;
    }
    add(&column, i < to ? "\".." : "\"", 0);
    return column;
}

static struct column in_numbers(struct numbers n, enum part part, size_t from, size_t to)
{
    struct column column = {"", 0};
    size_t i = from;
    while (i < to && i < from + MOST_NUMBERS && add_number(&column, number_of(n, part, i), part))
        i++;
    add(&column, i < to ? " .." : "", 0);
    return column;
}

/* The number that C gets, as two. */
static struct column in_two(struct numbers n)
{
    struct column column = {"", 0};
    uint64_t number = number_of(n, NUMBER, 0);
    add_number(&column, VENDORFINCH_NUMBER(number), NUMBER);
    add_number(&column, VENDORFINCH_SECOND(number), NUMBER);
    return column;
}

static void show_line(const char *part, const char *hand, const char *independent, const char *library)
{
    printf("  %-22s%-32s%-32s%s\n", part, hand, independent, library);
}

static int has_four_numbers(const struct a_case *c)
{
    return c->length[ANSWER] >= 4;
}

/* Where a part is shown from that differs first at a number. */
static size_t shown_from(const struct a_case *c, enum part part, size_t first)
{
    if (part == ANSWER && first < 4 && has_four_numbers(c))
        return 0;
    if (part == TEXT || part == OUTPUT)
        return first > BYTES_BEFORE ? first - BYTES_BEFORE : 0;
    return first;
}

/* The end of what the longest of the three has. */
static size_t shown_to(const struct a_case *c, enum part part)
{
    size_t to = part == ANSWER && has_four_numbers(c) ? 4 : 0;
    for (enum side side = HAND; side < SIDES; side++) {
        size_t count = used(c->side[side][part], part);
        to = count > to ? count : to;
    }
    return to;
}

/* The name of a part's line. The answer is its four numbers where there is room for them, else what C gets. */
static const char *name_of(const struct a_case *c, enum part part)
{
    static const char *const names[PARTS] = {
        [NUMBER] = "answer", [OUTPUT] = "output", [TEXT] = "text", [MARKS] = "marks", [ROWS] = "rows",
        [CELLS] = "cells", [POINTS] = "points", [ANSWER] = "answer room",
    };
    if (has_four_numbers(c) && (part == ANSWER || part == NUMBER))
        return part == ANSWER ? "answer" : "C gets";
    return names[part];
}

static void show_part(const struct a_case *c, enum part part, size_t first)
{
    struct column columns[SIDES];
    size_t from = shown_from(c, part, first), to = shown_to(c, part);
    char place[64];
    snprintf(place, sizeof place, from ? "%s from %zu" : "%s", name_of(c, part), from);
    for (enum side side = HAND; side < SIDES; side++) {
        struct column nothing = {"-", 1};
        struct numbers n = c->side[side][part];
        if (!n.at)
            columns[side] = nothing;
        else if (part == NUMBER)
            columns[side] = in_two(n);
        else if (part == TEXT || part == OUTPUT)
            columns[side] = quoted(n, part, from);
        else
            columns[side] = in_numbers(n, part, from, to);
    }
    show_line(place, columns[HAND].words, columns[INDEPENDENT].words, columns[LIBRARY].words);
}

/* Whether the line of the answer says what C gets. */
static int answer_says_number(const struct a_case *c)
{
    if (!has_four_numbers(c) || first_difference(c, ANSWER) == nowhere)
        return 0;
    for (enum side side = HAND; side < SIDES; side++) {
        const struct numbers *parts = c->side[side];
        uint64_t number = number_of(parts[ANSWER], ANSWER, 0), second = number_of(parts[ANSWER], ANSWER, 1);
        if (number_of(parts[NUMBER], NUMBER, 0) != number + 256 * second)
            return 0;
    }
    return 1;
}

static void show_parts(const struct a_case *c)
{
    static const enum part shown[] = {NUMBER, ANSWER, OUTPUT, TEXT, MARKS, ROWS, CELLS, POINTS};
    show_line("part", "expected by hand", "the independent implementation", "the library");
    for (size_t i = 0; i < sizeof shown / sizeof *shown; i++) {
        enum part part = shown[i];
        size_t first = compared[c->call][part] ? first_difference(c, part) : nowhere;
        if (first != nowhere && !(part == NUMBER && answer_says_number(c)))
            show_part(c, part, first);
    }
}

static void show_case(const struct a_case *c)
{
    const char *alone = who_is_alone(c);
    fwrite(c->words.at, 1, c->words.length, stdout);
    printf(c->words.length && c->words.at[c->words.length - 1] == '\n' ? "\n" : "\n\n");
    if (alone) {
        show_parts(c);
        printf("\n%s\n", alone);
    }
    if (wrote_behind_a_room(c))
        printf("The library wrote behind a room.\n");
    if (index_is_not_zero(c))
        printf("The index is not zero.\n");
    if (table_was_changed(c))
        printf("The lent table was changed.\n");
    printf("\n");
}

/* ---- All cases -------------------------------------------------------------------------------------------------- */

enum { MOST_SHOWN = 20 };
static size_t of_call[CALLS], by_hand, wrong;

static int is_wrong(const struct a_case *c)
{
    return who_is_alone(c) || wrote_behind_a_room(c) || index_is_not_zero(c) || table_was_changed(c);
}

static int is_by_hand(const struct a_case *c)
{
    for (enum part part = 0; part < PARTS; part++)
        if (c->side[HAND][part].at)
            return 1;
    return 0;
}

static void try_case(void)
{
    struct a_case c;
    take_case(&c);
    ask(&c);
    of_call[c.call]++;
    by_hand += is_by_hand(&c);
    if (is_wrong(&c) && ++wrong <= MOST_SHOWN)
        show_case(&c);
    give_back(&c);
}

int main(int count, char **names)
{
    if (count != 2)
        stop("cases", "say the file that tests/cases/prepare.py wrote");
    load(names[1]);
    due_by_hand = take(4);
    while (at < end)
        try_case();
    if (wrong > MOST_SHOWN)
        printf("%zu more cases are wrong.\n", wrong - MOST_SHOWN);
    printf("cases: %zu of the check, %zu of unfolding, %zu of reading, %zu of writing; "
           "%zu with an expectation by hand; %zu wrong\n",
           of_call[CHECK], of_call[UNFOLD], of_call[READ], of_call[WRITE], by_hand, wrong);
    if (by_hand != due_by_hand)
        printf("%zu cases should have an expectation by hand.\n", due_by_hand);
    return wrong || !of_call[CHECK] || !of_call[UNFOLD] || !of_call[READ] || !of_call[WRITE] || !by_hand ||
           by_hand != due_by_hand;
}
