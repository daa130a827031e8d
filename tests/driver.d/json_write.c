/* The writer: a text that grows. */
#include "json.h"
#include "memory.h"

#include <inttypes.h>
#include <stdio.h>
#include <string.h>

/* Room for n bytes more, and where they go. */
static char *room_for(json_text *text, size_t n) {
    if (text->room - text->length < n) {
        text->room = 2 * text->room + n;
        text->at = memory_grow(text->at, text->room);
    }
    char *at = text->at + text->length;
    text->length += n;
    return at;
}

static void put(json_text *text, const char *bytes, size_t n) {
    if (n > 0) memcpy(room_for(text, n), bytes, n);
}

/* A comma, unless the text begins here, or a bracket or a member's name stands before. */
static void separate(json_text *text) {
    if (text->length > 0 && !strchr("{[:", text->at[text->length - 1])) put(text, ",", 1);
}

static void put_value(json_text *text, const char *value) {
    separate(text);
    put(text, value, strlen(value));
}

void json_begin(json_text *text, char bracket) {
    separate(text);
    put(text, &bracket, 1);
}

void json_end(json_text *text, char bracket) { put(text, &bracket, 1); }

void json_key(json_text *text, const char *name) {
    json_string(text, name, strlen(name));
    put(text, ":", 1);
}

void json_null(json_text *text) { put_value(text, "null"); }

void json_bool(json_text *text, bool value) { put_value(text, value ? "true" : "false"); }

void json_number(json_text *text, uint64_t value) {
    char digits[24];
    snprintf(digits, sizeof digits, "%" PRIu64, value);
    put_value(text, digits);
}

static void put_character(json_text *text, unsigned char c) {
    char escape[8];
    if (c == '\n') {
        put(text, "\\n", 2);
    } else if (c == '"' || c == '\\') {
        put(text, (char[]){'\\', (char)c}, 2);
    } else if (c < 0x20 || c > 0x7E) {
        snprintf(escape, sizeof escape, "\\u%04x", c);
        put(text, escape, 6);
    } else {
        put(text, (char *)&c, 1);
    }
}

void json_string(json_text *text, const char *bytes, size_t n) {
    separate(text);
    put(text, "\"", 1);
    for (size_t i = 0; i < n; i++) put_character(text, (unsigned char)bytes[i]);
    put(text, "\"", 1);
}

void json_hex(json_text *text, const uint8_t *bytes, size_t n) {
    static const char digits[] = "0123456789abcdef";
    separate(text);
    put(text, "\"", 1);
    char *at = room_for(text, 2 * n);
    for (size_t i = 0; i < n; i++) {
        at[2 * i] = digits[bytes[i] >> 4];
        at[2 * i + 1] = digits[bytes[i] & 15];
    }
    put(text, "\"", 1);
}
