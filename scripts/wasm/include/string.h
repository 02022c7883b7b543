/* What the compiler and the bindings take of C's library: memory.c has it. The compiler's sizes have 32 bits. */
#pragma once
#include <stddef.h>
void *memcpy(void *to, const void *from, __SIZE_TYPE__ size);
void *memmove(void *to, const void *from, __SIZE_TYPE__ size);
void *memset(void *to, int byte, __SIZE_TYPE__ size);
int memcmp(const void *a, const void *b, __SIZE_TYPE__ size);
