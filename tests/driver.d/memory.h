/* Memory that the program cannot do without: where there is none, it ends. */
#ifndef MEMORY_H
#define MEMORY_H

#include <stddef.h>

void *memory_zeros(size_t n);
void *memory_grow(void *block, size_t n);

#endif
