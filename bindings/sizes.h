/* Limits on how large each operation of a document may be, and the error of one that exceeds a limit, for bindings. */
#ifndef FIRTHNAPKIN_SIZES_H
#define FIRTHNAPKIN_SIZES_H

#include "firthnapkin.h"
#include <stdio.h>
#include <string.h>

/* The status of a call that found an operation beyond a limit, and the kind of its error: beside those of the header. */
enum { OPERATION_TOO_LARGE = 101 };

/* How many numbers an operation has: those after `definition`. */
enum { SIZES = sizeof(firthnapkin_complexity) / sizeof(uint32_t) - 1 };

/* How many of each an operation may have, in the order of a firthnapkin_complexity. UINT32_MAX is no limit. */
typedef struct {
    uint32_t most[SIZES];
} size_limits;

/* What each number counts, in that order. */
static inline const char *size_name(size_t number) {
    /* tables.toml: complexity as a list */
    static const char *const names[SIZES] = {"fields", "aliases", "directives", "root fields", "levels of fields"};
    /* tables.toml: end */
    return names[number];
}

/* Whether one of them is a limit. */
static inline int has_limit(const size_limits *limits) {
    int found = 0;
    for (size_t i = 0; i < SIZES; i++) found |= limits->most[i] != UINT32_MAX;
    return found;
}

/* The numbers of an operation, in that order. */
static inline size_limits sizes_of(const firthnapkin_complexity *complexity) {
    size_limits sizes;
    memcpy(sizes.most, (const char *)complexity + offsetof(firthnapkin_complexity, fields), sizeof sizes.most);
    return sizes;
}

/* The first number of an operation that exceeds its limit; SIZES if none does. */
static inline size_t number_beyond(const firthnapkin_complexity *complexity, const size_limits *limits) {
    size_limits sizes = sizes_of(complexity);
    size_t i = 0;
    while (i < SIZES && sizes.most[i] <= limits->most[i]) i++;
    return i;
}

/* An operation beyond a limit: the first in the order of the source, and its first number that is. */
typedef struct {
    size_t operation, number;
} excess;

/* The first of these operations that exceeds a limit; their count if none does. */
static inline excess first_beyond(const firthnapkin_complexity *complexities, size_t count, const size_limits *limits) {
    excess found = {0, SIZES};
    for (; found.operation < count; found.operation++) {
        found.number = number_beyond(&complexities[found.operation], limits);
        if (found.number < SIZES) break;
    }
    return found;
}

/* The error of an operation beyond a limit: it is where the operation is. */
static inline firthnapkin_error error_at(const firthnapkin_node *operation) {
    return (firthnapkin_error){.kind = OPERATION_TOO_LARGE,
                               .start = operation->start,
                               .end = operation->end,
                               .text_start = operation->start.byte,
                               .text_end = operation->start.byte};
}

/* The bytes that suffice for the words of an operation whose name has so many. */
static inline size_t bytes_of_words(size_t name) {
    enum { OTHER_WORDS = 160 };
    return name + OTHER_WORDS;
}

/* Writes `Too many fields in operation "Q": 61, with a limit of 60`, without a byte 0 at its end, and returns how many bytes
 * that is. The largest number stands for all above it, too. */
static inline size_t write_words(uint8_t *buffer, const uint8_t *source, const firthnapkin_node *operation,
                                 const firthnapkin_complexity *complexity, const size_limits *limits, size_t number) {
    char *at = (char *)buffer;
    size_t name = operation->name_end - operation->name_start;
    uint32_t size = sizes_of(complexity).most[number];
    at += sprintf(at, "Too many %s in %s", size_name(number), name > 0 ? "operation \"" : "an operation without a name");
    memcpy(at, source + operation->name_start, name);
    at += name;
    at += sprintf(at, "%s: %lu%s, with a limit of %lu", name > 0 ? "\"" : "", (unsigned long)size,
                  size == UINT32_MAX ? " or more" : "", (unsigned long)limits->most[number]);
    return (size_t)(at - (char *)buffer);
}

#endif
