/* A refusal in words: number, meaning, place, and the line with the field marked beneath. */
#include "command.h"

#include <stdio.h>

enum { BEFORE = 30, WIDEST = 150 }; /* bytes shown before the marked part, and columns in all: a byte has at most 4 */

static void put_count(struct text *text, const char *words, uint64_t number)
{
    put(text, words);
    put_number(text, (int64_t)number);
}

static void put_physical(struct text *text, const struct place *place)
{
    if (place->lines == 0)
        put(text, " (the file is empty)");
    else if (place->last == 0) {
        put_count(text, " (behind physical line ", place->lines);
        put(text, ", the last)");
    } else if (place->first == place->last) {
        put_count(text, " (physical line ", place->first);
        put(text, ")");
    } else {
        put_count(text, " (physical lines ", place->first);
        put_count(text, " to ", place->last);
        if (place->at)
            put_count(text, ", at ", place->at);
        put(text, ")");
    }
}

static void put_place(struct text *text, const struct refusal *refusal, const struct place *place)
{
    if (refusal->number == VENDORFINCH_MODEL_BAD)
        put_count(text, ": record at byte ", refusal->place[0]);
    if (place->line == 0)
        return;
    put(text, ": ");
    if (refusal->number == VENDORFINCH_NO_OBJECT) {
        put_count(text, "object ", refusal->place[0]);
        put(text, ", ");
    }
    put_count(text, "line ", place->line);
    if (refusal->place[1])
        put_count(text, ", field ", refusal->place[1]);
    put_physical(text, place);
}

/* The columns of a byte as it is shown. */
static unsigned columns_of(uint8_t byte)
{
    return byte == 9 || (byte >= 0x20 && (byte < 0x7F || byte > 0x9F)) ? 1 : 4;
}

static void put_shown(struct text *text, uint8_t byte)
{
    char escape[8];
    snprintf(escape, sizeof escape, "\\x%02X", byte);
    if (columns_of(byte) > 1)
        put(text, escape);
    else
        put_latin(text, byte == 9 ? ' ' : byte);
}

/* The first byte that is shown: of a line that is too wide some before its marked part. */
static size_t first_shown(const struct place *place)
{
    size_t columns = 0;
    for (size_t i = 0; i < place->length && columns <= WIDEST; i++)
        columns += columns_of(place->shown[i]);
    return columns > WIDEST && place->from > BEFORE ? place->from - BEFORE : 0;
}

/* The line, or as much of it as is wide enough, and the marks beneath. */
static void put_marked(struct text *text, const struct place *place)
{
    struct text marks = TEXT_KEPT;
    size_t at = first_shown(place), columns = 0;
    size_t end = place->from + (place->count ? place->count : 1);
    put(text, at ? "    ..." : "    ");
    put(&marks, at ? "       " : "    ");
    for (; at < place->length && columns < WIDEST; at++) {
        unsigned wide = columns_of(place->shown[at]);
        put_shown(text, place->shown[at]);
        columns += wide;
        for (; wide > 0; wide--)
            if (at < end)
                put(&marks, at < place->from ? " " : "^");
    }
    put(text, at < place->length ? "...\n" : "\n");
    for (; at < end && columns < WIDEST; at++)
        put(&marks, at < place->from ? " " : "^");
    put(&marks, "\n");
    put_bytes(text, marks.bytes, marks.length);
    text->error = text->error ? text->error : marks.error;
    text_free(&marks);
}

void put_refusal(struct text *text, const char *name, const struct refusal *refusal, const struct place *place)
{
    put_path(text, name);
    put_count(text, ": refused, ", (uint64_t)refusal->number);
    put(text, " ");
    put(text, vendorfinch_words(refusal->number));
    put_place(text, refusal, place);
    put(text, "\n");
    if (place->shown)
        put_marked(text, place);
}

static void put_place_json(struct text *text, const struct refusal *refusal, const struct place *place)
{
    if (refusal->number == VENDORFINCH_MODEL_BAD)
        put_count(text, ", \"byte\": ", refusal->place[0]);
    if (refusal->number == VENDORFINCH_NO_OBJECT)
        put_count(text, ", \"object\": ", refusal->place[0]);
    if (place->line)
        put_count(text, ", \"line\": ", place->line);
    if (refusal->place[1])
        put_count(text, ", \"field\": ", refusal->place[1]);
    if (place->last) {
        put_count(text, ", \"physical\": [", place->first);
        put_count(text, ", ", place->last);
        put(text, "]");
    }
    if (place->at)
        put_count(text, ", \"at\": ", place->at);
    if (place->shown) {
        put(text, ", \"text\": ");
        put_json_latin(text, place->shown, place->length);
        put_count(text, ", \"column\": ", place->from + 1);
        put_count(text, ", \"length\": ", place->count);
    }
}

void put_refusal_json(struct text *text, const struct refusal *refusal, const struct place *place)
{
    put_count(text, ", \"number\": ", (uint64_t)refusal->number);
    put(text, ", \"words\": \"");
    put(text, vendorfinch_words(refusal->number));
    put(text, "\"");
    put_place_json(text, refusal, place);
}
