/* JSON (RFC 8259): a strict reader of one text, and a writer. */
#ifndef JSON_H
#define JSON_H

#include <stdbool.h>
#include <stddef.h>
#include <stdint.h>

typedef enum { JSON_NULL, JSON_FALSE, JSON_TRUE, JSON_NUMBER, JSON_STRING, JSON_ARRAY, JSON_OBJECT } json_kind;

typedef struct json_value {
    json_kind kind;
    bool whole;             /* a number that is an integer from 0 to 2^64 - 1 */
    uint64_t number;        /* that integer */
    char *name, *text;      /* a member's name; a string's bytes, in UTF-8 */
    size_t name_length, length;
    struct json_value *first, *next; /* an array's or object's first part; the part behind this one */
    struct json_value *made;         /* the value made before this one, for json_free */
} json_value;

/* What was read: `fault` is NULL, or says why the text is no JSON, and then there is no root. */
typedef struct {
    json_value *root, *made;
    const char *fault;
} json_tree;

/* Reads the n bytes of `text`. Strings are decoded in place, so that the text has to live as long as the tree. */
json_tree json_read(char *text, size_t n);
void json_free(json_tree *tree);

/* The member of an object with this name, or NULL. */
const json_value *json_member(const json_value *object, const char *name);

/* A text being written. Commas are put where they are due. */
typedef struct {
    char *at;
    size_t length, room;
} json_text;

void json_begin(json_text *text, char bracket); /* '{' or '[' */
void json_end(json_text *text, char bracket);   /* '}' or ']' */
void json_key(json_text *text, const char *name);
void json_null(json_text *text);
void json_bool(json_text *text, bool value);
void json_number(json_text *text, uint64_t value);
void json_string(json_text *text, const char *bytes, size_t n); /* a byte above 7E is written as that character */
void json_hex(json_text *text, const uint8_t *bytes, size_t n);

#endif
