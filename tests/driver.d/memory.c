#include "memory.h"

#include <stdio.h>
#include <stdlib.h>

static void *there(void *block) {
    if (block) return block;
    fputs("driver: out of memory\n", stderr);
    exit(2);
}

void *memory_zeros(size_t n) { return there(calloc(1, n)); }

void *memory_grow(void *block, size_t n) { return there(realloc(block, n)); }
