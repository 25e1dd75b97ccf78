/* Names of files, and lines of files, for people and for machines. */
#include "command.h"

#include <stdio.h>

/* How many bytes the character of UTF-8 has that begins here; 0 where these bytes are none. */
static size_t utf8_here(const unsigned char *at)
{
    size_t length = at[0] < 0x80 ? 1 : at[0] < 0xC2 ? 0 : at[0] < 0xE0 ? 2 : at[0] < 0xF0 ? 3 : at[0] < 0xF5 ? 4 : 0;
    for (size_t i = 1; i < length; i++)
        if (at[i] >> 6 != 2)
            return 0;
    if (length < 3)
        return length;
    /* too long for their character, a half of a pair, or above the last character */
    unsigned first = (unsigned)at[0] << 8 | at[1];
    int none = first < 0xE0A0 || (first >= 0xEDA0 && first < 0xEE80) || (first >= 0xF000 && first < 0xF090) ||
               first >= 0xF490;
    return none ? 0 : length;
}

/* Whether it is a control character, by its first two bytes as UTF-8. */
static int is_control(const unsigned char *at)
{
    return at[0] < 0x20 || at[0] == 0x7F || (at[0] == 0xC2 && at[1] < 0xA0);
}

void put_path(struct text *text, const char *name)
{
    char escape[8];
    const unsigned char *at = (const unsigned char *)name;
    while (*at) {
        size_t length = utf8_here(at);
        if (length > 0 && !is_control(at)) {
            put_bytes(text, at, length);
            at += length;
            continue;
        }
        for (length = length ? length : 1; length > 0; length--) {
            snprintf(escape, sizeof escape, "\\x%02X", *at++);
            put(text, escape);
        }
    }
}

/* A character of ISO 8859-1 within a string of JSON. */
static void put_json_byte(struct text *text, unsigned char byte)
{
    char escape[8];
    snprintf(escape, sizeof escape, "\\u%04x", byte);
    if (byte < 0x20 || (byte >= 0x7F && byte <= 0x9F))
        put(text, escape);
    else {
        put(text, byte == '"' || byte == '\\' ? "\\" : "");
        put_latin(text, byte);
    }
}

void put_json_path(struct text *text, const char *name)
{
    char escape[8];
    const unsigned char *at = (const unsigned char *)name;
    put(text, "\"");
    while (*at) {
        size_t length = utf8_here(at);
        snprintf(escape, sizeof escape, "\\udc%02x", *at);
        if (length == 0)
            put(text, escape);
        else if (length == 1)
            put_json_byte(text, at[0]);
        else if (is_control(at))
            put_json_byte(text, at[1]);
        else
            put_bytes(text, at, length);
        at += length ? length : 1;
    }
    put(text, "\"");
}

void put_json_latin(struct text *text, const uint8_t *bytes, size_t length)
{
    put(text, "\"");
    for (size_t i = 0; i < length; i++)
        put_json_byte(text, bytes[i]);
    put(text, "\"");
}
