/* Checks of sources, for bindings: whether a source is a document within limits. No document is built. */
#ifndef FIRTHNAPKIN_CHECK_H
#define FIRTHNAPKIN_CHECK_H

#include "calls.h"
#include "sizes.h"
#include <stdlib.h>

/* What a check finds: FIRTHNAPKIN_OK for a document within limits, OPERATION_TOO_LARGE with the first operation that exceeds one,
 * or another status of the library with its error. */
typedef struct {
    uint32_t status;
    firthnapkin_error error;
    firthnapkin_complexity beyond;
} finding;

/* Parses a source without room for nodes and texts. A document has a node, so it is a buffer too small, and that alone is. */
static inline finding check_document(const uint8_t *source, size_t length, const firthnapkin_limits *limits) {
    finding found = {0};
    size_t nodes, texts;
    found.status = parse_on_stack(source, length, limits, NULL, 0, &nodes, NULL, 0, &texts, &found.error);
    if (found.status == FIRTHNAPKIN_BUFFER_TOO_SMALL) found.status = FIRTHNAPKIN_OK;
    return found;
}

/* Finds in the same way how large the operations are, into an array of that capacity. The status of a document stays
 * FIRTHNAPKIN_BUFFER_TOO_SMALL, and `count` is the number of its operations. */
static inline finding measure_operations(const uint8_t *source, size_t length, const firthnapkin_limits *limits,
                                         firthnapkin_complexity *complexities, size_t capacity, size_t *count) {
    finding found = {0};
    size_t nodes, texts;
    found.status = parse_complexities_on_stack(source, length, limits, NULL, 0, &nodes, NULL, 0, &texts, complexities, capacity,
                                               count, &found.error);
    return found;
}

/* Makes the finding of a document that of its operations. */
static inline void judge_operations(finding *found, const firthnapkin_complexity *complexities, size_t count,
                                    const size_limits *sizes) {
    size_t first = first_beyond(complexities, count, sizes).operation;
    found->status = first < count ? OPERATION_TOO_LARGE : FIRTHNAPKIN_OK;
    if (first < count) found->beyond = complexities[first];
}

/* For how many operations of a source there is room at first: one for 32 bytes, and four. */
static inline size_t operations_at_first(size_t length) {
    enum { MOST_AT_FIRST = 1 << 19 };
    return (length / 32 < MOST_AT_FIRST ? length / 32 : MOST_AT_FIRST) + 4;
}

/* Checks the numbers of each operation, too. Those of a few operations of a small source need no memory. A source with more
 * operations than there is room for is parsed again. */
static inline finding check_operations(const uint8_t *source, size_t length, const firthnapkin_limits *limits,
                                       const size_limits *sizes) {
    enum { FEW = 64 };
    firthnapkin_complexity few[FEW], *all = few;
    size_t capacity = FEW, count = operations_at_first(length);
    finding found;
    do {
        if (count > FEW) {
            if (all != few) free(all);
            capacity = count;
            all = malloc(capacity * sizeof *all);
            if (all == NULL) return (finding){.status = FIRTHNAPKIN_OUT_OF_MEMORY};
        }
        found = measure_operations(source, length, limits, all, capacity, &count);
    } while (count > capacity);
    if (found.status == FIRTHNAPKIN_BUFFER_TOO_SMALL) judge_operations(&found, all, count, sizes);
    if (all != few) free(all);
    return found;
}

/* Whether a source is a document within these limits. Where an operation exceeds one, the error is that of a parse within the
 * same limits: it needs the operation's node. */
static inline finding check_source(const uint8_t *source, size_t length, const firthnapkin_limits *limits,
                                   const size_limits *sizes) {
    return has_limit(sizes) ? check_operations(source, length, limits, sizes) : check_document(source, length, limits);
}

#endif
