/* What the bindings take of C's library: memory.c and words.c have it. */
#pragma once
int sprintf(char *to, const char *form, ...);
