#include "request.h"
#include "memory.h"

#include <inttypes.h>
#include <stdarg.h>
#include <stdio.h>
#include <stdlib.h>
#include <string.h>

enum { FILLED = 0xA5 };

struct block {
    void *at;
    struct block *before;
};

_Noreturn void request_fault(request *q, const char *format, ...) {
    va_list more;
    va_start(more, format);
    vsnprintf(q->fault, sizeof q->fault, format, more);
    va_end(more);
    longjmp(q->unanswered, 1);
}

/* A block of just n bytes: malloc, or calloc, so that the many zeros of an overlong input take no memory. */
static void *make_block(request *q, uint64_t n, bool zeros) {
    void *at = n > PTRDIFF_MAX ? NULL : zeros ? calloc(n, 1) : malloc(n);
    if (!at) request_fault(q, "no memory for %" PRIu64 " bytes", n);
    struct block *block = memory_zeros(sizeof *block);
    *block = (struct block){at, q->blocks};
    q->blocks = block;
    return at;
}

void request_free(request *q, const struct block *last) {
    while (q->blocks != last) {
        struct block *before = q->blocks->before;
        free(q->blocks->at);
        free(q->blocks);
        q->blocks = before;
    }
}

/* ---- Fields ---- */

const json_value *field_find(const json_value *object, const char *name) { return json_member(object, name); }

static const json_value *field_of(request *q, const json_value *object, const char *name) {
    const json_value *value = field_find(object, name);
    if (!value) request_fault(q, "no field %s", name);
    return value;
}

static const json_value *field_of_kind(request *q, const char *name, json_kind kind, const char *kind_name) {
    const json_value *value = field_of(q, q->asked, name);
    if (value->kind != kind) request_fault(q, "%s: not %s", name, kind_name);
    return value;
}

const json_value *field_array(request *q, const char *name) {
    return field_of_kind(q, name, JSON_ARRAY, "an array");
}

const json_value *field_object(request *q, const char *name) {
    return field_of_kind(q, name, JSON_OBJECT, "an object");
}

uint64_t value_number(request *q, const json_value *value, const char *name, uint64_t most) {
    if (value->kind != JSON_NUMBER || !value->whole || value->number > most)
        request_fault(q, "%s: no integer from 0 to %" PRIu64, name, most);
    return value->number;
}

uint64_t field_number(request *q, const json_value *object, const char *name, uint64_t most) {
    return value_number(q, field_of(q, object, name), name, most);
}

bool field_is(request *q, const json_value *object, const char *name, const char *text) {
    const json_value *value = field_of(q, object, name);
    if (value->kind != JSON_STRING) request_fault(q, "%s: not a string", name);
    return value->length == strlen(text) && memcmp(value->text, text, value->length) == 0;
}

static int hex_digit(char c) {
    if ('0' <= c && c <= '9') return c - '0';
    return 'a' <= c && c <= 'f' ? c - 'a' + 10 : -1;
}

static slice hex_bytes(request *q, const json_value *value, const char *name) {
    if (value->kind != JSON_STRING || value->length % 2 != 0) request_fault(q, "%s: not hexadecimal", name);
    size_t n = value->length / 2;
    uint8_t *bytes = make_block(q, n, false);
    for (size_t i = 0; i < n; i++) {
        int high = hex_digit(value->text[2 * i]), low = hex_digit(value->text[2 * i + 1]);
        if (high < 0 || low < 0) request_fault(q, "%s: not lower-case hexadecimal", name);
        bytes[i] = (uint8_t)(high * 16 + low);
    }
    return (slice){bytes, n};
}

slice value_bytes(request *q, const json_value *value, const char *name) {
    if (value->kind != JSON_OBJECT) return hex_bytes(q, value, name);
    return lend_input(q, (slice){NULL, 0}, field_number(q, value, "zeros", UINT64_MAX));
}

slice field_bytes(request *q, const json_value *object, const char *name) {
    return value_bytes(q, field_of(q, object, name), name);
}

const uint8_t *field_array_of(request *q, const json_value *object, const char *name, size_t n) {
    slice bytes = field_bytes(q, object, name);
    if (bytes.length != n) request_fault(q, "%s: not %zu bytes", name, n);
    return bytes.at;
}

size_t lent_within(uint64_t asked, size_t enough) { return asked < enough ? (size_t)asked : enough; }

size_t field_lent(request *q, size_t enough) {
    const json_value *asked = field_find(q->asked, "lent");
    return asked ? lent_within(value_number(q, asked, "lent", UINT64_MAX), enough) : enough;
}

/* ---- What is lent ---- */

void *lend(request *q, size_t n) {
    void *out = make_block(q, n, false);
    memset(out, FILLED, n);
    return out;
}

slice lend_input(request *q, slice bytes, uint64_t n) {
    uint8_t *at = make_block(q, n, true);
    size_t front = bytes.length < n ? bytes.length : (size_t)n;
    if (front > 0) memcpy(at, bytes.at, front);
    return (slice){at, (size_t)n};
}

bool as_due(request *q, uint8_t no, const void *out, size_t n, size_t due) {
    const uint8_t *bytes = out;
    if (no == 0 && due > n) request_fault(q, "more bytes are said to be written than were lent");
    for (size_t i = no == 0 ? due : 0; i < n; i++)
        if (bytes[i] != FILLED) return false;
    return true;
}

void see(request *q, uint8_t no, const void *out, size_t n, size_t due) {
    if (!as_due(q, no, out, n, due)) q->touched = true;
}

slice stretch(request *q, slice bytes, kdbx4_place place) {
    if (place.start > bytes.length || place.length > bytes.length - place.start)
        request_fault(q, "a place outside the bytes: %" PRIu64 ", %" PRIu64, place.start, place.length);
    return (slice){bytes.at + place.start, (size_t)place.length};
}

/* ---- Answers ---- */

bool answer_no(request *q, uint8_t no) {
    answer_number(q, "no", no);
    return no == 0;
}

bool answer_read(request *q, uint8_t no, const size_t *place) {
    if (no == 0 && *place != 0) q->touched = true;
    if (answer_no(q, no)) return true;
    answer_number(q, "place", *place);
    return false;
}

void answer_number(request *q, const char *name, uint64_t value) {
    json_key(&q->answer, name);
    json_number(&q->answer, value);
}

void answer_bytes(request *q, const char *name, slice bytes) {
    json_key(&q->answer, name);
    json_hex(&q->answer, bytes.at, bytes.length);
}

void answer_place(request *q, const char *name, kdbx4_place place) {
    json_key(&q->answer, name);
    json_begin(&q->answer, '[');
    json_number(&q->answer, place.start);
    json_number(&q->answer, place.length);
    json_end(&q->answer, ']');
}
