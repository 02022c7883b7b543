/* The allocator, and what moves memory. A call allocates one block after the other, and all of them are given back before the
 * next call. Of those that are given back earlier only the last block's place is used again. */
#include "memory.h"
#include <stdint.h>
#include <stdlib.h>
#include <string.h>

/* A place in memory, whose pointers have 32 bits, and the end of what is allocated. */
typedef uint32_t place;
extern uint8_t __heap_base;
static place end;

enum { ALIGNMENT = 16, PAGE = 1 << 16, MOST_PAGES = 1 << 16 };

void let_go(void) {
    end = (place)&__heap_base;
}

/* Whether memory has this many bytes, or gets them: a fourth more, so that a text takes few steps, or as much as there is. */
static int reaches(uint64_t bytes) {
    uint64_t pages = __builtin_wasm_memory_size(0), wanted = (bytes + PAGE - 1) / PAGE;
    if (wanted <= pages) return 1;
    if (wanted >= MOST_PAGES) return 0;
    return __builtin_wasm_memory_grow(0, (place)(wanted - pages + pages / 4)) != UINT32_MAX
           || __builtin_wasm_memory_grow(0, (place)(wanted - pages)) != UINT32_MAX;
}

/* So many bytes after what is allocated; 0 if there is no memory for them. */
static place more(uint64_t size) {
    uint64_t at = ((uint64_t)end + ALIGNMENT - 1) / ALIGNMENT * ALIGNMENT;
    if (size > UINT32_MAX || !reaches(at + size)) return 0;
    end = (place)(at + size);
    return (place)at;
}

/* What the library asks of its allocator, as the kit's object has it. */
typedef struct {
    uint64_t is_some, at;
} block;

static block block_of(place at) {
    return (block){at != 0, at != 0 ? at : 1};
}

block rattle_alloc(uint64_t size, uint64_t align) {
    (void)align;
    return block_of(more(size));
}

block rattle_realloc(void *old, uint64_t before, uint64_t size, uint64_t align) {
    (void)align;
    /* The last block gets longer where it is. */
    if ((place)old + before == end && size >= before) {
        if (!reaches((place)old + size)) return block_of(0);
        end = (place)((place)old + size);
        return block_of((place)old);
    }
    place at = more(size);
    if (at != 0) memcpy((void *)at, old, (place)(before < size ? before : size));
    return block_of(at);
}

void rattle_dealloc(void *old) {
    (void)old;
}

int rattle_errno(void) {
    return 0;
}

void *malloc(size_t size) {
    return (void *)more(size);
}

void free(void *old) {
    (void)old;
}

/* Instructions that move and set memory would be calls of the engine, so loads and stores do it: of 16 bytes, and of one. */
typedef uint8_t chunk __attribute__((vector_size(16), aligned(1), may_alias));
enum { CHUNK = sizeof(chunk) };

void *memmove(void *to, const void *from, __SIZE_TYPE__ size) {
    uint8_t *t = to;
    const uint8_t *f = from;
    if (t <= f || t >= f + size) {
        for (; size >= CHUNK; size -= CHUNK, t += CHUNK, f += CHUNK) *(chunk *)t = *(const chunk *)f;
        for (; size > 0; size--) *t++ = *f++;
    } else {
        for (; size >= CHUNK; size -= CHUNK) *(chunk *)(t + size - CHUNK) = *(const chunk *)(f + size - CHUNK);
        for (; size > 0; size--) t[size - 1] = f[size - 1];
    }
    return to;
}

void *memcpy(void *to, const void *from, __SIZE_TYPE__ size) {
    return memmove(to, from, size);
}

void *memset(void *to, int byte, __SIZE_TYPE__ size) {
    uint8_t *t = to, b = (uint8_t)byte;
    chunk all = {b, b, b, b, b, b, b, b, b, b, b, b, b, b, b, b};
    for (; size >= CHUNK; size -= CHUNK, t += CHUNK) *(chunk *)t = all;
    for (; size > 0; size--) *t++ = b;
    return to;
}

int memcmp(const void *a, const void *b, __SIZE_TYPE__ size) {
    const uint8_t *p = a, *q = b;
    for (; size > 0; size--, p++, q++)
        if (*p != *q) return *p - *q;
    return 0;
}
