/* The calls by which the library asks for memory, scripts/heap.c or the kit's object: what they ask the allocator for, and what they
 * return. Linked with --wrap of malloc, realloc and free. */
#include "checks.h"
#include <stddef.h>
#include <stdint.h>

typedef struct {
    uint64_t is_some;
    void *block;
} answer;

answer rattle_alloc(size_t size, size_t align);
answer rattle_realloc(void *block, size_t before, size_t size, size_t align);
void rattle_dealloc(void *block);

/* The allocator: it notes the last request, and returns one of these blocks or nothing. */
static struct {
    char call;
    void *given;
    size_t size;
} last;
static char blocks[2][64];
static void *next;

void *__wrap_malloc(size_t size) {
    last.call = 'm', last.given = NULL, last.size = size;
    return next;
}

void *__wrap_realloc(void *block, size_t size) {
    last.call = 'r', last.given = block, last.size = size;
    return next;
}

void __wrap_free(void *block) {
    last.call = 'f', last.given = block, last.size = 0;
}

/* Checks the last request to the allocator, and the answer to it. */
static void expect(const char *what, char call, void *given, size_t size, answer a) {
    check(last.call == call && last.given == given && last.size == size, "%s: %c of %p, %zu bytes", what, last.call, last.given,
          last.size);
    check(a.is_some == (next != NULL), "%s: %llu", what, (unsigned long long)a.is_some);
    check(next != NULL ? a.block == next : a.block != NULL, "%s: %p is returned, where the allocator returned %p", what,
          a.block, next);
}

int main(void) {
    static const size_t aligns[] = {1, 4, 8, 16};
    for (size_t i = 0; i < sizeof aligns / sizeof *aligns; i++) {
        for (int is_refused = 0; is_refused < 2; is_refused++) {
            next = is_refused ? NULL : blocks[1];
            expect("a block", 'm', NULL, 48, rattle_alloc(48, aligns[i]));
            expect("a block of no bytes", 'm', NULL, aligns[i], rattle_alloc(0, aligns[i]));
            expect("a larger block", 'r', blocks[0], 64, rattle_realloc(blocks[0], 48, 64, aligns[i]));
            expect("a smaller block", 'r', blocks[0], 16, rattle_realloc(blocks[0], 48, 16, aligns[i]));
            expect("a block without bytes", 'r', blocks[0], aligns[i], rattle_realloc(blocks[0], 48, 0, aligns[i]));
        }
    }
    rattle_dealloc(blocks[1]);
    check(last.call == 'f' && last.given == blocks[1], "a block that is freed: %c of %p", last.call, last.given);
    return counted();
}
