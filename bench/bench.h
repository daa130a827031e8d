// What a family of measurements is made of. A new family: a file with a `struct family`, and its name in main.c and in run.
#include <stdio.h>
#include <stdlib.h>
#include <string.h>

#include "../include/kdbx4.h"

// How a row is counted: WORK, a call of `size` bytes; SLOPE, of many rounds less a call of few; STEP, a call of `size` rounds
// beside that many rounds of the slope.
enum kind { WORK, SLOPE, STEP };

// One row: ours and the peer do the same work on `size` bytes or rounds.
struct row {
    const char *name;
    const char *goal; // the ratio of instructions that ours is to stay within, or "-"
    const char *unit; // what the figures are for: one call does `units` of them
    size_t units;
    size_t size;
    void (*ours)(size_t size);
    void (*peer)(size_t size);
    enum kind kind;
};

// The bytes of a state between calls: the fields of a struct of ours, and the peer's context with what it holds elsewhere.
struct state {
    const char *name;
    const char *crate;
    const char *type;
    size_t peer;
};

// Both lists end in a row without a name. `check` compares both sides on many inputs, and answers whether all were equal.
struct family {
    const struct row *rows;
    const struct state *states;
    int (*check)(void);
};

#define RESULT_LIMIT 1048576

// What the rows work on: a message of one byte over the limit, a key, and the results of both sides.
extern uint8_t message[KDBX4_MESSAGE_LIMIT + 1], key[64], ours[RESULT_LIMIT], peers[RESULT_LIMIT];

// Whether both results agree in their first `n` bytes; says so where they do not.
int same(const char *what, size_t length, size_t n);

// Both results made n bytes of the message, for work that is done in place.
void in_place(size_t n);

// Whether a refusal answered its number and left the result as `untouched` made it.
int refused(const char *what, uint8_t number, uint8_t expected);
void untouched(void);
