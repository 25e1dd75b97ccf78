/* Bytes put behind one another: a report that is kept, or output that goes to a descriptor. */
#include "command.h"

#include <errno.h>
#include <stdlib.h>
#include <string.h>
#include <unistd.h>

enum { MANY = 65536 };

/* Writes all bytes, or says why not. */
static int write_all(int to, const char *bytes, size_t length)
{
    while (length > 0) {
        ssize_t some = write(to, bytes, length);
        if (some < 0 && errno == EINTR)
            continue;
        if (some < 0)
            return errno;
        bytes += some;
        length -= (size_t)some;
    }
    return 0;
}

int text_flush(struct text *text)
{
    if (!text->error && text->to >= 0)
        text->error = write_all(text->to, text->bytes, text->length);
    text->length = 0;
    return text->error;
}

/* Room for so many more bytes, if there is memory: a descriptor's is of one size, and written out when it is full. */
static void make_room(struct text *text, size_t more)
{
    if (text->to >= 0)
        text_flush(text);
    size_t room = text->to >= 0 ? MANY : 256;
    while (room < text->length + more && text->to < 0)
        room *= 2;
    char *bytes = room > text->room ? realloc(text->bytes, room) : NULL;
    if (bytes) {
        text->bytes = bytes;
        text->room = room;
    }
}

void put_bytes(struct text *text, const void *bytes, size_t length)
{
    if (!text->error && text->length + length > text->room)
        make_room(text, length);
    if (text->error || length == 0)
        return;
    if (text->length + length <= text->room) {
        memcpy(text->bytes + text->length, bytes, length);
        text->length += length;
    } else
        text->error = text->to >= 0 ? write_all(text->to, bytes, length) : ENOMEM;
}

void put(struct text *text, const char *words)
{
    put_bytes(text, words, strlen(words));
}

void put_name(struct text *text, struct vendorfinch_name name)
{
    put_bytes(text, name.bytes, name.length);
}

void put_digits(struct text *text, uint64_t number, unsigned least)
{
    char digits[20];
    unsigned from = sizeof digits;
    do
        digits[--from] = (char)('0' + number % 10);
    while ((number /= 10) > 0 || sizeof digits - from < least);
    put_bytes(text, digits + from, sizeof digits - from);
}

void put_number(struct text *text, int64_t number)
{
    put_scaled(text, number, 0);
}

void put_scaled(struct text *text, int64_t value, unsigned decimals)
{
    uint64_t size = value < 0 ? -(uint64_t)value : (uint64_t)value, unit = 1;
    for (unsigned i = 0; i < decimals; i++)
        unit *= 10;
    if (value < 0)
        put_bytes(text, "-", 1);
    put_digits(text, size / unit, 1);
    if (decimals == 0)
        return;
    put_bytes(text, ".", 1);
    put_digits(text, size % unit, decimals);
}

void put_latin(struct text *text, uint8_t byte)
{
    char bytes[2] = {(char)(0xC0 | byte >> 6), (char)(0x80 | (byte & 0x3F))};
    if (byte < 0x80)
        put_bytes(text, &byte, 1);
    else
        put_bytes(text, bytes, 2);
}

int text_end(struct text *text)
{
    int error = text_flush(text);
    text_free(text);
    return error;
}

void text_free(struct text *text)
{
    free(text->bytes);
    text->bytes = NULL;
    text->length = text->room = 0;
}
