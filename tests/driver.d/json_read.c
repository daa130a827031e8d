/* The reader. A fault ends the reading: every function that can meet one answers whether it did not. */
#include "json.h"
#include "memory.h"

#include <stdlib.h>
#include <string.h>

enum { DEEPEST = 64 };

typedef struct {
    unsigned char *at, *end;
    json_tree tree;
    int depth;
} reader;

static bool fault(reader *r, const char *what) {
    r->tree.fault = what;
    return false;
}

static int peek(const reader *r) { return r->at < r->end ? *r->at : -1; }

static void skip_space(reader *r) {
    while (peek(r) == ' ' || peek(r) == '\t' || peek(r) == '\r' || peek(r) == '\n') r->at++;
}

static bool is_digit(int c) { return '0' <= c && c <= '9'; }

/* ---- Strings ---- */

static int hex_digit(int c) {
    if (is_digit(c)) return c - '0';
    if ('a' <= c && c <= 'f') return c - 'a' + 10;
    if ('A' <= c && c <= 'F') return c - 'A' + 10;
    return -1;
}

/* The four hexadecimal digits behind \u, or -1. */
static int32_t code_unit(reader *r) {
    int32_t unit = 0;
    for (int i = 0; i < 4; i++) {
        int digit = hex_digit(peek(r));
        if (digit < 0) return -1;
        unit = unit * 16 + digit;
        r->at++;
    }
    return unit;
}

/* The character of \u, which is two of them for one outside the basic plane; or -1. */
static int32_t code_point(reader *r) {
    int32_t high = code_unit(r);
    if (high < 0xD800 || high > 0xDFFF) return high;
    if (high > 0xDBFF || r->end - r->at < 2 || r->at[0] != '\\' || r->at[1] != 'u') return -1;
    r->at += 2;
    int32_t low = code_unit(r);
    if (low < 0xDC00 || low > 0xDFFF) return -1;
    return 0x10000 + (high - 0xD800) * 0x400 + (low - 0xDC00);
}

/* Puts a character in UTF-8, and answers the place behind it. */
static unsigned char *put_utf8(unsigned char *out, int32_t c) {
    if (c < 0x80) {
        *out++ = (unsigned char)c;
        return out;
    }
    int more = c < 0x800 ? 1 : c < 0x10000 ? 2 : 3;
    static const unsigned char lead[] = {0, 0xC0, 0xE0, 0xF0};
    *out++ = (unsigned char)(lead[more] | c >> 6 * more);
    while (more-- > 0) *out++ = (unsigned char)(0x80 | (c >> 6 * more & 0x3F));
    return out;
}

/* How many bytes the UTF-8 character at p has, or 0 where it is none (RFC 3629). */
static size_t utf8_size(const unsigned char *p, const unsigned char *end) {
    if (*p < 0x80) return 1;
    size_t size = *p >= 0xC2 && *p < 0xE0 ? 2 : *p >= 0xE0 && *p < 0xF0 ? 3 : *p >= 0xF0 && *p < 0xF5 ? 4 : 0;
    if (size == 0 || (size_t)(end - p) < size) return 0;
    for (size_t i = 1; i < size; i++)
        if ((p[i] & 0xC0) != 0x80) return 0;
    if ((*p == 0xE0 && p[1] < 0xA0) || (*p == 0xED && p[1] > 0x9F)) return 0;
    if ((*p == 0xF0 && p[1] < 0x90) || (*p == 0xF4 && p[1] > 0x8F)) return 0;
    return size;
}

/* The escape behind a backslash, put at `out`; NULL where it is none. */
static unsigned char *read_escape(reader *r, unsigned char *out) {
    static const char names[] = "\"\\/bfnrt", meant[] = "\"\\/\b\f\n\r\t";
    int c = peek(r);
    if (c < 0) return NULL;
    r->at++;
    if (c == 'u') {
        int32_t point = code_point(r);
        return point < 0 ? NULL : put_utf8(out, point);
    }
    const char *found = c ? strchr(names, c) : NULL;
    if (!found) return NULL;
    *out++ = (unsigned char)meant[found - names];
    return out;
}

/* A string, decoded over itself: what it means is never longer than how it is written. */
static bool read_string(reader *r, char **text, size_t *length) {
    if (peek(r) != '"') return fault(r, "a string is due");
    unsigned char *start = ++r->at, *out = start;
    while (peek(r) != '"') {
        int c = peek(r);
        if (c < 0) return fault(r, "a string without its end");
        if (c < 0x20) return fault(r, "a control character in a string");
        if (c == '\\') {
            r->at++;
            if (!(out = read_escape(r, out))) return fault(r, "a wrong escape in a string");
            continue;
        }
        size_t size = utf8_size(r->at, r->end);
        if (size == 0) return fault(r, "bytes that are no UTF-8 in a string");
        while (size-- > 0) *out++ = *r->at++;
    }
    r->at++;
    *text = (char *)start;
    *length = (size_t)(out - start);
    return true;
}

/* ---- Numbers ---- */

static bool skip_digits(reader *r) {
    if (!is_digit(peek(r))) return fault(r, "a digit is due");
    while (is_digit(peek(r))) r->at++;
    return true;
}

/* The integer part; answers whether it is one, and clears `whole` where it passes 2^64 - 1. */
static bool read_integer(reader *r, json_value *value) {
    const unsigned char *start = r->at;
    if (!skip_digits(r)) return false;
    if (*start == '0' && r->at - start > 1) return fault(r, "a number that begins with 0");
    for (const unsigned char *p = start; p < r->at; p++) {
        uint64_t digit = (uint64_t)(*p - '0');
        if (value->number > (UINT64_MAX - digit) / 10) value->whole = false;
        value->number = value->number * 10 + digit;
    }
    return true;
}

static bool read_number(reader *r, json_value *value) {
    value->kind = JSON_NUMBER;
    value->whole = peek(r) != '-';
    if (peek(r) == '-') r->at++;
    if (!read_integer(r, value)) return false;
    if (peek(r) == '.') {
        value->whole = false;
        r->at++;
        if (!skip_digits(r)) return false;
    }
    if (peek(r) == 'e' || peek(r) == 'E') {
        value->whole = false;
        r->at++;
        if (peek(r) == '+' || peek(r) == '-') r->at++;
        if (!skip_digits(r)) return false;
    }
    return true;
}

/* ---- Values ---- */

static json_value *make_value(reader *r) {
    json_value *value = memory_zeros(sizeof *value);
    value->made = r->tree.made;
    r->tree.made = value;
    return value;
}

static bool read_value(reader *r, json_value *value);

static bool read_word(reader *r, json_value *value, const char *word, json_kind kind) {
    size_t n = strlen(word);
    if ((size_t)(r->end - r->at) < n || memcmp(r->at, word, n) != 0) return fault(r, "a value is due");
    r->at += n;
    value->kind = kind;
    return true;
}

/* A member's name with its colon, which no member before it has. */
static bool read_name(reader *r, const json_value *object, json_value *member) {
    if (!read_string(r, &member->name, &member->name_length)) return false;
    for (const json_value *m = object->first; m; m = m->next)
        if (m->name_length == member->name_length && memcmp(m->name, member->name, m->name_length) == 0)
            return fault(r, "an object with a name twice");
    skip_space(r);
    if (peek(r) != ':') return fault(r, "a colon is due");
    r->at++;
    skip_space(r);
    return true;
}

/* The parts of an array or object, the opening bracket behind us, up to its end. */
static bool read_parts(reader *r, json_value *whole, char end) {
    json_value **behind = &whole->first;
    skip_space(r);
    if (peek(r) == end) {
        r->at++;
        return true;
    }
    while (true) {
        json_value *part = make_value(r);
        skip_space(r);
        if (whole->kind == JSON_OBJECT && !read_name(r, whole, part)) return false;
        if (!read_value(r, part)) return false;
        *behind = part;
        behind = &part->next;
        skip_space(r);
        int c = peek(r);
        if (c != ',' && c != end) return fault(r, "a comma or a closing bracket is due");
        r->at++;
        if (c == end) return true;
    }
}

static bool read_nested(reader *r, json_value *value, json_kind kind, char end) {
    value->kind = kind;
    r->at++;
    if (++r->depth > DEEPEST) return fault(r, "brackets nested too deep");
    bool good = read_parts(r, value, end);
    r->depth--;
    return good;
}

static bool read_value(reader *r, json_value *value) {
    switch (peek(r)) {
    case '{': return read_nested(r, value, JSON_OBJECT, '}');
    case '[': return read_nested(r, value, JSON_ARRAY, ']');
    case '"': value->kind = JSON_STRING; return read_string(r, &value->text, &value->length);
    case 'n': return read_word(r, value, "null", JSON_NULL);
    case 't': return read_word(r, value, "true", JSON_TRUE);
    case 'f': return read_word(r, value, "false", JSON_FALSE);
    case '-': return read_number(r, value);
    default: return is_digit(peek(r)) ? read_number(r, value) : fault(r, "a value is due");
    }
}

json_tree json_read(char *text, size_t n) {
    reader r = {.at = (unsigned char *)text, .end = (unsigned char *)text + n};
    skip_space(&r);
    json_value *root = make_value(&r);
    if (read_value(&r, root)) {
        skip_space(&r);
        if (r.at != r.end) fault(&r, "something stands behind the value");
    }
    r.tree.root = r.tree.fault ? NULL : root;
    return r.tree;
}

void json_free(json_tree *tree) {
    while (tree->made) {
        json_value *before = tree->made->made;
        free(tree->made);
        tree->made = before;
    }
    tree->root = NULL;
}

const json_value *json_member(const json_value *object, const char *name) {
    size_t n = strlen(name);
    for (const json_value *m = object->first; m; m = m->next)
        if (m->name_length == n && memcmp(m->name, name, n) == 0) return m;
    return NULL;
}
