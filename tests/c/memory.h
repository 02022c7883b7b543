/* Memory of which every byte is known, memory that can't be read, stacks of a known size, and threads. */
#ifndef MEMORY_H
#define MEMORY_H

#include "../../include/firthnapkin.h"
#include "checks.h"
#include <pthread.h>
#include <stdlib.h>
#include <string.h>
#include <sys/mman.h>
#include <unistd.h>

enum { CANARY = 0xA5, BEYOND = 64 };

/* A block of memory, filled with one byte. */
static inline uint8_t *canaries(size_t length) {
    uint8_t *block = malloc(length);
    if (block == NULL) abort();
    memset(block, CANARY, length);
    return block;
}

static inline int are_canaries(const void *block, size_t length) {
    for (size_t i = 0; i < length; i++)
        if (((const uint8_t *)block)[i] != CANARY) return 0;
    return 1;
}

/* The bytes after a node's last field have no meaning. */
static inline int same_nodes(const firthnapkin_node *a, const firthnapkin_node *b, size_t count) {
    for (size_t i = 0; i < count; i++)
        if (memcmp(&a[i], &b[i], offsetof(firthnapkin_node, value_length) + sizeof a[i].value_length)) return 0;
    return 1;
}

static const size_t FOUR_GIB = (size_t)1 << 32;

/* A source of 4 GiB of which no byte can be read; NULL, and skipped, if there is no address space for it. */
static inline void *too_long_source(void) {
    void *source = mmap(NULL, FOUR_GIB, PROT_NONE, MAP_PRIVATE | MAP_ANONYMOUS | MAP_NORESERVE, -1, 0);
    if (source != MAP_FAILED) return source;
    skip("no address space for 4 GiB, so status %d is not tried", FIRTHNAPKIN_SOURCE_TOO_LONG);
    return NULL;
}

/* Runs it in four threads at once. Each counts failures where its argument points, and none may have any. */
static inline void in_threads(void *(*run)(void *)) {
    pthread_t thread[4];
    long failures[4] = {0};
    for (int i = 0; i < 4; i++)
        if (pthread_create(&thread[i], NULL, run, &failures[i])) abort();
    for (int i = 0; i < 4; i++) {
        pthread_join(thread[i], NULL);
        check(failures[i] == 0, "thread %d", i);
    }
}

/* How many bytes a page has here: 4,096, and up to 65,536 on aarch64. */
static inline size_t page_size(void) {
    return (size_t)sysconf(_SC_PAGESIZE);
}

static inline size_t whole_pages(size_t size) {
    return (size + page_size() - 1) / page_size() * page_size();
}

/* Runs it in a thread with as much stack as the header says for this depth, and pages below that nothing may touch. These pages are
 * part of the thread's stack, since each C library wants one of some size: glibc on aarch64 one of 128 KiB. */
static inline void on_stack(uint32_t depth, void *(*run)(void *), void *argument) {
    size_t guard = whole_pages(1 << 18), size = whole_pages(FIRTHNAPKIN_STACK_SIZE(depth));
    char *memory = mmap(NULL, guard + size, PROT_READ | PROT_WRITE, MAP_PRIVATE | MAP_ANONYMOUS, -1, 0);
    pthread_attr_t attributes;
    pthread_t thread;
    if (memory == MAP_FAILED || mprotect(memory, guard, PROT_NONE) || pthread_attr_init(&attributes)
        || pthread_attr_setstack(&attributes, memory, guard + size) || pthread_create(&thread, &attributes, run, argument)
        || pthread_join(thread, NULL))
        abort();
    pthread_attr_destroy(&attributes);
    munmap(memory, guard + size);
}

#endif
