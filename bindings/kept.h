/* Calls for small sources, in memory that a binding keeps: of other calls nearly all of the time would go to buffers. */
#ifndef FIRTHNAPKIN_KEPT_H
#define FIRTHNAPKIN_KEPT_H

#include "calls.h"
#include "check.h"
#include "sizes.h"
#include <string.h>

/* The source as UTF-8, and what a call finds. */
enum { KEPT_SOURCE = 1 << 14, KEPT_NODES = 1 << 10, KEPT_OPERATIONS = 1 << 6 };
typedef struct {
    firthnapkin_node nodes[KEPT_NODES];
    /* Room for the complexities, the texts and the counts after all nodes. */
    uint8_t after[KEPT_OPERATIONS * sizeof(firthnapkin_complexity) + KEPT_SOURCE + 32];
    firthnapkin_complexity complexities[KEPT_OPERATIONS];
    uint8_t texts[KEPT_SOURCE], source[KEPT_SOURCE];
} kept;

/* What comes last of a packed result. */
typedef struct {
    uint32_t nodes, operations, texts, source; /* the nodes and operations, and the bytes of texts and of the source */
} packed_counts;

/* Whether a string of this length in `source` isn't cut off: another character, of up to four bytes, and the byte 0 at the end
 * would have fit. */
static inline int is_whole(size_t length) {
    return length + sizeof(uint32_t) < KEPT_SOURCE;
}

/* Moves so many bytes to a place before which the result is; the place after them. */
static inline uint8_t *put(uint8_t *at, const void *from, size_t size) {
    memmove(at, from, size);
    return at + size;
}

/* Puts the complexities after the nodes, the texts after these and the counts last, at a multiple of four bytes; how many bytes
 * the result has. */
static inline size_t pack(kept *k, const packed_counts *counts) {
    uint8_t *begin = (uint8_t *)k->nodes, *at = begin + counts->nodes * sizeof *k->nodes;
    at = put(at, k->complexities, counts->operations * sizeof *k->complexities);
    at = put(at, k->texts, counts->texts);
    at = put(at, "\0\0\0", -counts->texts % sizeof(uint32_t));
    return (size_t)(put(at, counts, sizeof *counts) - begin);
}

/* Parses the source that is there, of so many bytes; the size of the packed result, and 0 if there is none. */
static inline size_t parse_kept(kept *k, size_t length, const firthnapkin_limits *limits, const size_limits *sizes) {
    size_t nodes, texts, operations = 0;
    firthnapkin_error error;
    uint32_t status;
    if (!is_whole(length)) return 0;
    status =
        has_limit(sizes)
            ? parse_complexities_on_stack(k->source, length, limits, k->nodes, KEPT_NODES, &nodes, k->texts, KEPT_SOURCE,
                                          &texts, k->complexities, KEPT_OPERATIONS, &operations, &error)
            : parse_on_stack(k->source, length, limits, k->nodes, KEPT_NODES, &nodes, k->texts, KEPT_SOURCE, &texts, &error);
    if (status != FIRTHNAPKIN_OK || first_beyond(k->complexities, operations, sizes).operation < operations) return 0;
    return pack(k, &(packed_counts){(uint32_t)nodes, (uint32_t)operations, (uint32_t)texts, (uint32_t)length});
}

/* Whether the source that is there, of so many bytes, is a document within limits; false if it is cut off. */
static inline int is_kept_document(const kept *k, size_t length, const firthnapkin_limits *limits, const size_limits *sizes) {
    return is_whole(length) && check_source(k->source, length, limits, sizes).status == FIRTHNAPKIN_OK;
}

#endif
