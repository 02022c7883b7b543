/* An allocator that refuses requests, and measures: a library for LD_PRELOAD that calls the allocator of glibc.
 *
 * It counts the requests for memory that a program makes between the first and the second line that it writes to
 * standard output or, if REFUSALS_FROM_START is set, all of them. It refuses the request of number REFUSED_REQUEST,
 * counted from 1, and if REFUSED_ONWARDS is set each counted one after it. At the end it writes five numbers to the file
 * that REFUSALS_FILE names: the requests that were counted, those that were refused, the blocks that were not freed, how
 * many more bytes the program held at most while requests were counted than it held before, and how many bytes the counted
 * requests asked for, the whole block if one is resized. To the file that REQUESTS_FILE names it writes, at each line of
 * standard output, how many bytes were asked for up to there.
 */
#define _GNU_SOURCE
#include <errno.h>
#include <fcntl.h>
#include <malloc.h>
#include <stddef.h>
#include <stdio.h>
#include <stdlib.h>
#include <sys/syscall.h>
#include <unistd.h>

extern void *__libc_malloc(size_t);
extern void *__libc_calloc(size_t, size_t);
extern void *__libc_realloc(void *, size_t);
extern void *__libc_memalign(size_t, size_t);
extern void __libc_free(void *);

static int is_from_start, is_onwards, requests_file = -1;
static unsigned long refused_request, requests, refusals, lines, requested;
static long blocks, held, most_held;

__attribute__((constructor)) static void begin(void) {
    const char *number = getenv("REFUSED_REQUEST");
    refused_request = number ? strtoul(number, NULL, 10) : 0;
    is_onwards = getenv("REFUSED_ONWARDS") != NULL;
    is_from_start = getenv("REFUSALS_FROM_START") != NULL;
    const char *name = getenv("REQUESTS_FILE");
    if (name != NULL) requests_file = open(name, O_WRONLY | O_CREAT | O_TRUNC | O_CLOEXEC, 0600);
    blocks = 0;
}

static int is_counting(void) {
    return is_from_start || lines == 1;
}

/* Counts a request for so many bytes, and returns whether it is refused. */
static int is_refused(size_t size) {
    if (!is_counting()) return 0;
    requests++;
    if (__builtin_add_overflow(requested, size, &requested)) requested = (unsigned long)-1;
    if (refused_request == 0 || requests < refused_request) return 0;
    if (requests > refused_request && !is_onwards) return 0;
    refusals++;
    errno = ENOMEM;
    return 1;
}

/* Counts the bytes of a block that is held, or no longer held. */
static void hold(void *block, long sign) {
    if (block == NULL || !is_counting()) return;
    held += sign * (long)malloc_usable_size(block);
    if (held > most_held) most_held = held;
}

/* Counts a block that was allocated. */
static void *given(void *block) {
    if (block != NULL) blocks++;
    hold(block, 1);
    return block;
}

void *malloc(size_t size) {
    return is_refused(size) ? NULL : given(__libc_malloc(size));
}

void *calloc(size_t count, size_t size) {
    size_t bytes;
    if (__builtin_mul_overflow(count, size, &bytes)) bytes = (size_t)-1;
    return is_refused(bytes) ? NULL : given(__libc_calloc(count, size));
}

void *realloc(void *block, size_t size) {
    if (is_refused(size)) return NULL;
    if (block == NULL) return given(__libc_realloc(block, size));
    hold(block, -1);
    void *other = __libc_realloc(block, size);
    if (other == NULL && size == 0) {
        blocks--;
    } else {
        hold(other == NULL ? block : other, 1);
    }
    return other;
}

void *memalign(size_t border, size_t size) {
    return is_refused(size) ? NULL : given(__libc_memalign(border, size));
}

void *aligned_alloc(size_t border, size_t size) {
    return memalign(border, size);
}

int posix_memalign(void **place, size_t border, size_t size) {
    void *block = memalign(border, size);
    if (block == NULL) return ENOMEM;
    *place = block;
    return 0;
}

void free(void *block) {
    if (block != NULL) blocks--;
    hold(block, -1);
    __libc_free(block);
}

/* Counts a line of standard output, and notes what was asked for. */
static void end_line(void) {
    char line[30];
    lines++;
    if (requests_file >= 0) syscall(SYS_write, requests_file, line, snprintf(line, sizeof line, "%lu\n", requested));
}

/* Writes, and counts the lines that are written to standard output. */
ssize_t write(int file, const void *bytes, size_t count) {
    ssize_t written = syscall(SYS_write, file, bytes, count);
    if (file == 1) {
        for (ssize_t i = 0; i < written; i++) {
            if (((const char *)bytes)[i] == '\n') end_line();
        }
    }
    return written;
}

ssize_t __write(int file, const void *bytes, size_t count) {
    return write(file, bytes, count);
}

__attribute__((destructor)) static void end(void) {
    const char *name = getenv("REFUSALS_FILE");
    char line[120];
    int length = snprintf(line, sizeof line, "%lu %lu %ld %ld %lu\n", requests, refusals, blocks, most_held, requested);
    int file = name == NULL ? -1 : open(name, O_WRONLY | O_CREAT | O_TRUNC, 0600);
    if (file < 0) return;
    syscall(SYS_write, file, line, length);
    close(file);
}
