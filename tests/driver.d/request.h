/* One request: its fields, the memory lent to the library for it, and its answer.
 *
 * Every input and output of the library is a block of its own, of exactly its length, so that memcheck sees each access
 * outside it. All of them are freed once the request is answered.
 */
#ifndef REQUEST_H
#define REQUEST_H

#include "json.h"

#include "../../include/kdbx4.h"

#include <setjmp.h>

/* Bytes of a request, or of such bytes. */
typedef struct {
    const uint8_t *at;
    size_t length;
} slice;

struct block;

typedef struct {
    const json_value *asked;
    json_text answer;
    bool touched;         /* whether a lent byte that was to stay has changed */
    struct block *blocks; /* what is lent */
    char fault[128];      /* why the request cannot be answered */
    jmp_buf unanswered;
} request;

/* Leaves the request: it is none that the library could be asked. */
_Noreturn void request_fault(request *q, const char *format, ...);

/* Frees what was lent after the block `last`, which is what `blocks` was then; with NULL, all. */
void request_free(request *q, const struct block *last);

/* ---- Fields: one that is absent, of another kind or out of range is a fault ---- */

const json_value *field_find(const json_value *object, const char *name); /* NULL where it is absent */
const json_value *field_array(request *q, const char *name);
const json_value *field_object(request *q, const char *name);
uint64_t field_number(request *q, const json_value *object, const char *name, uint64_t most);
bool field_is(request *q, const json_value *object, const char *name, const char *text);
slice field_bytes(request *q, const json_value *object, const char *name);
const uint8_t *field_array_of(request *q, const json_value *object, const char *name, size_t n); /* just n bytes */

/* A value as bytes, which are hexadecimal or {"zeros": n}, so many zeros; or as a number. */
slice value_bytes(request *q, const json_value *value, const char *name);
uint64_t value_number(request *q, const json_value *value, const char *name, uint64_t most);

/* The length to lend: that of the field `lent`, at most what is surely enough, and that where it is absent. */
size_t field_lent(request *q, size_t enough);
size_t lent_within(uint64_t asked, size_t enough);

/* ---- What is lent ---- */

/* A block of n bytes of A5. */
void *lend(request *q, size_t n);

/* n bytes for an input: the front of `bytes`, and zeros behind them. */
slice lend_input(request *q, slice bytes, uint64_t n);

/* Whether an output of n bytes is as it is to be: A5 all over after a refusal, and after a success behind those due. */
bool as_due(request *q, uint8_t no, const void *out, size_t n, size_t due);

/* Sees to the same, and notes a byte that was touched. */
void see(request *q, uint8_t no, const void *out, size_t n, size_t due);

/* The stretch at a place, which has to be in the bytes. */
slice stretch(request *q, slice bytes, kdbx4_place place);

/* ---- Answers ---- */

/* The number, and whether more is to be answered. */
bool answer_no(request *q, uint8_t no);
/* .. of a reader, whose place is answered beside a refusal, and is to be 0 beside a success. */
bool answer_read(request *q, uint8_t no, const size_t *place);
void answer_number(request *q, const char *name, uint64_t value);
void answer_bytes(request *q, const char *name, slice bytes);
void answer_place(request *q, const char *name, kdbx4_place place);

#endif
