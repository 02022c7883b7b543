/* How the library asks for memory on a processor that the Rattle kit has no object for: by malloc, realloc and free. ./c-library
 * links it. It does what the kit's heap.pic.o does on x86-64. */
#include <stddef.h>
#include <stdint.h>
#include <stdlib.h>

/* A block, or 0 and an address that is never used, since a reference in Rattle is never null. */
typedef struct {
    uint64_t is_some;
    void *block;
} answer;

answer rattle_alloc(size_t size, size_t align);
answer rattle_realloc(void *block, size_t before, size_t size, size_t align);
void rattle_dealloc(void *block);

static char nothing;

static answer answer_of(void *block) {
    return block != NULL ? (answer){1, block} : (answer){0, &nothing};
}

/* A request for no bytes is one for as many as its alignment, since malloc may return NULL for it. The header asks that each block
 * is aligned as the library needs it. */
answer rattle_alloc(size_t size, size_t align) {
    return answer_of(malloc(size != 0 ? size : align));
}

/* The block stays as it was if it can't be made larger. */
answer rattle_realloc(void *block, size_t before, size_t size, size_t align) {
    (void)before;
    return answer_of(realloc(block, size != 0 ? size : align));
}

void rattle_dealloc(void *block) {
    free(block);
}
