/* What the bindings take of C's library: memory.c has it. */
#pragma once
#include <stddef.h>
void *malloc(size_t size);
void free(void *block);
