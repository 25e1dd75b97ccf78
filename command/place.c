/* Where a refusal is, for people: the physical lines that its logical line stands on, and the part to mark. What is
 * looked for here has been found by the library; nothing here decides about a file. */
#include "command.h"

#include <errno.h>
#include <stdlib.h>
#include <string.h>

/* A line within bytes: its content, without LF or CR LF, and where the next one begins. */
struct line {
    const uint8_t *bytes;
    size_t length;
    const uint8_t *next;
};

static struct line line_at(const uint8_t *at, const uint8_t *end)
{
    const uint8_t *found = memchr(at, '\n', (size_t)(end - at));
    struct line line = {at, (size_t)((found ? found : end) - at), found ? found + 1 : end};
    if (found && line.length > 0 && at[line.length - 1] == '\r')
        line.length--;
    return line;
}

static int is_blank(uint8_t byte)
{
    return byte == ' ' || byte == '\t';
}

static int is_permitted(uint8_t byte)
{
    return byte == 9 || (byte >= 0x20 && byte <= 0x7E) || byte >= 0xA0;
}

static int has_cont(struct line line)
{
    return line.length >= 5 && memcmp(line.bytes, "CONT ", 5) == 0;
}

/* The first physical line of a place that unfolding refuses: for 3 the last one, for 4 the one with the byte, for 5 the
 * one that should begin with CONT. */
static int is_at_fault(int number, struct line line, int continued, const uint8_t *end)
{
    if (number == VENDORFINCH_END_MISSING)
        return line.next == end;
    if (number == VENDORFINCH_CONT_MISSING)
        return continued && !has_cont(line);
    if (number != VENDORFINCH_BYTE_NOT_PERMITTED)
        return 0;
    for (size_t i = 0; i < line.length; i++)
        if (!is_permitted(line.bytes[i]))
            return 1;
    return 0;
}

/* Counts physical lines up to the last one of the place's logical line. Answers the line at fault, for 3, 4 and 5. */
static struct line physical_lines(struct place *place, int number, char mark, const struct bytes *file)
{
    const uint8_t *end = file->bytes + file->length;
    struct line line, fault = {NULL, 0, NULL};
    uint64_t logical = 0;
    int continued = 0;
    for (const uint8_t *at = file->bytes; at < end; at = line.next) {
        line = line_at(at, end);
        logical += !continued;
        if (logical > place->line)
            break;
        place->lines++;
        if (logical == place->line) {
            place->first = place->first ? place->first : place->lines;
            place->last = place->lines;
            if (!fault.bytes && is_at_fault(number, line, continued, end)) {
                fault = line;
                place->at = place->lines;
            }
            if (fault.bytes && number == VENDORFINCH_CONT_MISSING)
                break;
        }
        continued = line.length > 0 && line.bytes[line.length - 1] == (uint8_t)mark;
    }
    return fault;
}

/* The part of a physical line to mark, for 3, 4 and 5. */
static void mark_fault(struct place *place, int number, struct line line)
{
    if (number == VENDORFINCH_END_MISSING)
        place->from = line.length;
    if (number == VENDORFINCH_CONT_MISSING)
        place->count = line.length < 5 ? line.length : 5;
    if (number == VENDORFINCH_BYTE_NOT_PERMITTED) {
        while (is_permitted(line.bytes[place->from]))
            place->from++;
        place->count = 1;
    }
}

/* A field of a line, from 1; a missing one begins where it would stand. */
static void mark_field(struct place *place, struct line line, uint64_t field)
{
    size_t at = 0, end = 0;
    for (uint64_t i = 0; i < field; i++) {
        for (at = end; at < line.length && is_blank(line.bytes[at]);)
            at++;
        for (end = at; end < line.length && !is_blank(line.bytes[end]);)
            end++;
    }
    place->from = at;
    place->count = end - at;
    if (at == end && at > 0 && !is_blank(line.bytes[at - 1]))
        place->from++;
}

static int has_code(struct line line, const char *code)
{
    struct place field;
    mark_field(&field, line, 1);
    return field.count == 4 && memcmp(line.bytes + field.from, code, 4) == 0;
}

/* The logical line of an object, from 0: objects begin behind the description, which ends in the first line that begins
 * with ////, without a blank before it. */
static uint64_t line_of_object(const uint8_t *text, const uint8_t *end, uint64_t object)
{
    uint64_t number = 0, objects = 0;
    int described = 0;
    struct line line;
    for (const uint8_t *at = text; at < end; at = line.next) {
        line = line_at(at, end);
        number++;
        described = described || (line.length >= 4 && memcmp(line.bytes, "////", 4) == 0);
        if (described && has_code(line, "OBJE") && objects++ == object)
            return number;
    }
    return 0;
}

static struct line line_number(const uint8_t *text, const uint8_t *end, uint64_t number)
{
    struct line line = {text, 0, text};
    for (uint64_t i = 0; i < number && line.next < end; i++)
        line = line_at(line.next, end);
    return line;
}

/* A copy of the line to show; 0, or an errno. */
static int show(struct place *place, struct line line)
{
    place->shown = malloc(line.length + 1);
    if (!place->shown)
        return ENOMEM;
    memcpy(place->shown, line.bytes, line.length);
    place->length = line.length;
    return 0;
}

/* A place in the logical lines, as the library unfolds them; 0, or an errno. */
static int place_in_text(struct place *place, const struct refusal *refusal, const struct bytes *model,
                         const struct bytes *file, char mark)
{
    uint8_t *text = malloc(file->length + 1);
    int error = 0;
    if (!text)
        return ENOMEM;
    uint64_t got = vendorfinch_unfold(model->bytes, model->length, file->bytes, file->length, text, file->length);
    const uint8_t *end = text + VENDORFINCH_SECOND(got);
    if (refusal->number == VENDORFINCH_NO_OBJECT)
        place->line = line_of_object(text, end, refusal->place[0]);
    physical_lines(place, refusal->number, mark, file);
    if (place->last) {
        struct line line = line_number(text, end, place->line);
        mark_field(place, line, refusal->place[1]);
        error = show(place, line);
    }
    free(text);
    return error;
}

/* A place in the physical lines; 0, or an errno. */
static int place_in_file(struct place *place, int number, const struct bytes *file, char mark)
{
    struct line fault = physical_lines(place, number, mark, file);
    if (!fault.bytes)
        return 0;
    mark_fault(place, number, fault);
    return show(place, fault);
}

int place_of(struct place *place, const struct refusal *refusal, const struct bytes *model, const struct bytes *file)
{
    static const struct place none;
    struct vendorfinch_model open;
    int number = refusal->number;
    *place = none;
    if (number < VENDORFINCH_END_MISSING || number > VENDORFINCH_FORM_WRONG)
        return 0;
    if (vendorfinch_model_open(&open, model->bytes, model->length) != 0)
        return ENOMEM;
    char mark = open.continuation;
    vendorfinch_model_free(&open);
    place->line = refusal->place[0];
    if (number > VENDORFINCH_CONT_MISSING)
        return place_in_text(place, refusal, model, file, mark);
    return place_in_file(place, number, file, mark);
}
