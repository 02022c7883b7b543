/* Calls that allocate their buffers: for bindings that copy the result into their own language's memory. */
#ifndef FIRTHNAPKIN_WHOLE_H
#define FIRTHNAPKIN_WHOLE_H

#include "calls.h"
#include "check.h"
#include "sizes.h"
#include <stdlib.h>

/* The result for a source. The texts are those of the nodes, or the canonical text. If there is an error they are its
 * words. */
typedef struct {
    uint32_t status;
    firthnapkin_node *nodes;
    size_t nodes_count;
    firthnapkin_token *tokens;
    size_t tokens_count;
    firthnapkin_complexity *complexities;
    size_t complexities_count;
    uint8_t *texts;
    size_t texts_count;
    firthnapkin_error error;
} whole;

static inline void give_back(whole *w) {
    free(w->nodes);
    free(w->tokens);
    free(w->complexities);
    free(w->texts);
    w->nodes = NULL;
    w->tokens = NULL;
    w->complexities = NULL;
    w->texts = NULL;
}

/* Allocates arrays of so many nodes and bytes, in place of those that are there; never NULL. False if memory runs out. */
static inline int make_buffers(whole *w, size_t nodes, size_t texts) {
    give_back(w);
    w->nodes = malloc((nodes + 1) * sizeof *w->nodes);
    w->texts = malloc(texts + 1);
    return w->nodes != NULL && w->texts != NULL;
}

/* What a call writes on an error, as message_on_stack does, into the texts. */
static inline uint32_t find_words(whole *w, const uint8_t *source, size_t length,
                                  uint32_t (*call)(const uint8_t *, size_t, const firthnapkin_error *, uint8_t *, size_t,
                                                   size_t *)) {
    size_t capacity = 256;
    uint32_t status;
    do {
        if (!make_buffers(w, 0, capacity)) return FIRTHNAPKIN_OUT_OF_MEMORY;
        status = call(source, length, &w->error, w->texts, capacity, &w->texts_count);
        capacity = w->texts_count;
    } while (status == FIRTHNAPKIN_BUFFER_TOO_SMALL);
    return status;
}

/* Whether a status of the library comes with an error. */
static inline int has_error(uint32_t status) {
    return status == FIRTHNAPKIN_SYNTAX_ERROR || status == FIRTHNAPKIN_TOO_DEEP || status == FIRTHNAPKIN_TOO_MANY_TOKENS
           || status == FIRTHNAPKIN_UNKNOWN_FRAGMENT || status == FIRTHNAPKIN_FRAGMENT_CYCLE;
}

/* Puts the words of the source's error into the texts, if the status says that there is one. */
static inline void add_words(whole *w, const uint8_t *source, size_t length) {
    if (!has_error(w->status)) return;
    uint32_t status = find_words(w, source, length, message_on_stack);
    if (status != FIRTHNAPKIN_OK) w->status = status;
}

/* The lines around this byte of a source, as texts. The result has to be freed, whatever the status. */
static inline whole excerpt_whole(const uint8_t *source, size_t length, uint32_t byte) {
    whole w = {.error.start.byte = byte};
    w.status = find_words(&w, source, length, excerpt_on_stack);
    return w;
}

/* How many nodes, tokens or bytes of texts are allocated at first: one for four bytes of the source. */
static inline size_t at_first(size_t length) {
    enum { MOST_AT_FIRST = 1 << 22 };
    return length / 4 < MOST_AT_FIRST ? length / 4 : MOST_AT_FIRST;
}

/* What a source is parsed as. A constant is a value without variables. */
typedef enum { AS_DOCUMENT, AS_VALUE, AS_CONSTANT, AS_TYPE } parsed_as;

/* The call of the library that parses a source as this. */
static inline uint32_t parse_as_on_stack(parsed_as as, const uint8_t *source, size_t length, const firthnapkin_limits *limits,
                                         firthnapkin_node *nodes, size_t nodes_capacity, size_t *nodes_length, uint8_t *texts,
                                         size_t texts_capacity, size_t *texts_length, firthnapkin_error *error) {
    switch (as) {
    case AS_VALUE:
    case AS_CONSTANT:
        return parse_value_on_stack(source, length, as == AS_CONSTANT, limits, nodes, nodes_capacity, nodes_length, texts,
                                    texts_capacity, texts_length, error);
    case AS_TYPE:
        return parse_type_on_stack(source, length, limits, nodes, nodes_capacity, nodes_length, texts, texts_capacity,
                                   texts_length, error);
    default:
        return parse_on_stack(source, length, limits, nodes, nodes_capacity, nodes_length, texts, texts_capacity, texts_length,
                              error);
    }
}

/* Parses a source as this within limits. The result has to be freed, whatever the status. Few texts have more nodes than one for
 * four bytes. For those, and for the largest, the second try has the size that the first returned. Memory that is not written to
 * costs nothing. */
static inline whole whole_as(parsed_as as, const uint8_t *source, size_t length, const firthnapkin_limits *limits) {
    whole w = {.status = FIRTHNAPKIN_OUT_OF_MEMORY};
    size_t nodes = at_first(length) + 16, texts = at_first(length) + 64;
    do {
        if (!make_buffers(&w, nodes, texts)) {
            w.status = FIRTHNAPKIN_OUT_OF_MEMORY;
            return w;
        }
        w.status = parse_as_on_stack(as, source, length, limits, w.nodes, nodes, &w.nodes_count, w.texts, texts, &w.texts_count,
                                     &w.error);
        nodes = w.nodes_count;
        texts = w.texts_count;
    } while (w.status == FIRTHNAPKIN_BUFFER_TOO_SMALL);
    add_words(&w, source, length);
    return w;
}

/* The same of a document. */
static inline whole parse_whole(const uint8_t *source, size_t length, const firthnapkin_limits *limits) {
    return whole_as(AS_DOCUMENT, source, length, limits);
}

/* Makes the status and the error those of the first operation that exceeds a limit, if one does, and puts its words into the
 * texts. The nodes stay. */
static inline void refuse_large(whole *w, const uint8_t *source, const size_limits *sizes) {
    excess found = first_beyond(w->complexities, w->complexities_count, sizes);
    if (found.operation == w->complexities_count) return;
    const firthnapkin_complexity *complexity = &w->complexities[found.operation];
    const firthnapkin_node *operation = &w->nodes[complexity->definition];
    uint8_t *words = malloc(bytes_of_words(operation->name_end - operation->name_start));
    w->status = words != NULL ? OPERATION_TOO_LARGE : FIRTHNAPKIN_OUT_OF_MEMORY;
    if (words == NULL) return;
    w->error = error_at(operation);
    w->texts_count = write_words(words, source, operation, complexity, sizes, found.number);
    free(w->texts);
    w->texts = words;
}

/* Allocates an array of so many operations, too, as make_buffers does. */
static inline int make_all_buffers(whole *w, size_t nodes, size_t texts, size_t operations) {
    if (!make_buffers(w, nodes, texts)) return 0;
    w->complexities = malloc((operations + 1) * sizeof *w->complexities);
    return w->complexities != NULL;
}

/* Parses a source as parse_whole does, and finds how large its operations are. The status is OPERATION_TOO_LARGE if one exceeds
 * a limit, with an error that says which. A source has few operations for its nodes. */
static inline whole measure_whole(const uint8_t *source, size_t length, const firthnapkin_limits *limits,
                                  const size_limits *sizes) {
    whole w = {.status = FIRTHNAPKIN_OUT_OF_MEMORY};
    size_t nodes = at_first(length) + 16, texts = at_first(length) + 64, operations = operations_at_first(length);
    do {
        if (!make_all_buffers(&w, nodes, texts, operations)) {
            w.status = FIRTHNAPKIN_OUT_OF_MEMORY;
            return w;
        }
        w.status = parse_complexities_on_stack(source, length, limits, w.nodes, nodes, &w.nodes_count, w.texts, texts,
                                               &w.texts_count, w.complexities, operations, &w.complexities_count, &w.error);
        nodes = w.nodes_count;
        texts = w.texts_count;
        operations = w.complexities_count;
    } while (w.status == FIRTHNAPKIN_BUFFER_TOO_SMALL);
    if (w.status == FIRTHNAPKIN_OK) refuse_large(&w, source, sizes);
    /* The nodes of one that can't be expanded make room for its words. */
    if (has_error(w.status)) w.nodes_count = 0;
    add_words(&w, source, length);
    return w;
}

/* The document that a source is within these limits: measured if one of the sizes has a limit, and otherwise only parsed. */
static inline whole document_whole(const uint8_t *source, size_t length, const firthnapkin_limits *limits,
                                   const size_limits *sizes) {
    return has_limit(sizes) ? measure_whole(source, length, limits, sizes) : parse_whole(source, length, limits);
}

/* Makes the status, the error and its words those of an operation that a check found. Nodes are made up to that operation's. */
static inline void refuse_operation(whole *w, const uint8_t *source, size_t length, const firthnapkin_limits *limits,
                                    const size_limits *sizes, const firthnapkin_complexity *beyond) {
    size_t nodes = (size_t)beyond->definition + 1, texts;
    w->status = FIRTHNAPKIN_OUT_OF_MEMORY;
    if (!make_all_buffers(w, nodes, 0, 1)) return;
    if (parse_on_stack(source, length, limits, w->nodes, nodes, &w->nodes_count, NULL, 0, &texts, &w->error)
        == FIRTHNAPKIN_OUT_OF_MEMORY)
        return;
    *w->complexities = *beyond;
    w->complexities_count = 1;
    refuse_large(w, source, sizes);
}

/* What check_source finds, with the words of its error as texts. The result has to be freed, whatever the status. */
static inline whole check_whole(const uint8_t *source, size_t length, const firthnapkin_limits *limits,
                                const size_limits *sizes) {
    finding found = check_source(source, length, limits, sizes);
    whole w = {.status = found.status, .error = found.error};
    if (w.status == OPERATION_TOO_LARGE) refuse_operation(&w, source, length, limits, sizes, &found.beyond);
    add_words(&w, source, length);
    return w;
}

/* How large the operations of a document are, whatever its depth: no nodes, and no texts but those of an error. The result has
 * to be freed, whatever the status. */
static inline whole complexities_whole(const uint8_t *source, size_t length) {
    static const firthnapkin_limits loosest = {.depth = FIRTHNAPKIN_MAX_DEPTH, .tokens = UINT32_MAX};
    whole w = {.status = FIRTHNAPKIN_OUT_OF_MEMORY};
    size_t capacity, needed = operations_at_first(length);
    do {
        capacity = needed;
        if (!make_all_buffers(&w, 0, 0, capacity)) {
            w.status = FIRTHNAPKIN_OUT_OF_MEMORY;
            return w;
        }
        w.status = parse_complexities_on_stack(source, length, &loosest, NULL, 0, &w.nodes_count, NULL, 0, &w.texts_count,
                                               w.complexities, capacity, &w.complexities_count, &w.error);
        needed = w.complexities_count;
    } while (needed > capacity);
    w.nodes_count = w.texts_count = 0;
    /* There was no capacity for nodes. */
    if (w.status == FIRTHNAPKIN_BUFFER_TOO_SMALL) w.status = FIRTHNAPKIN_OK;
    add_words(&w, source, length);
    return w;
}

/* Cuts a source into no more than so many tokens, its end not counted; UINT32_MAX is no limit. The result has to be freed,
 * whatever the status. */
static inline whole cut_whole(const uint8_t *source, size_t length, uint32_t max_tokens) {
    whole w = {.status = FIRTHNAPKIN_OUT_OF_MEMORY};
    size_t tokens = at_first(length) + 16;
    do {
        give_back(&w);
        w.tokens = malloc(tokens * sizeof *w.tokens);
        w.status = w.tokens == NULL
            ? FIRTHNAPKIN_OUT_OF_MEMORY
            : tokens_on_stack(source, length, max_tokens, w.tokens, tokens, &w.tokens_count, &w.error);
        tokens = w.tokens_count;
    } while (w.status == FIRTHNAPKIN_BUFFER_TOO_SMALL);
    add_words(&w, source, length);
    return w;
}

/* The canonical text of a source, which is seldom longer than the source. The result has to be freed, whatever the status. */
static inline whole canonical_whole(const uint8_t *source, size_t length) {
    whole w = {.status = FIRTHNAPKIN_OUT_OF_MEMORY};
    size_t texts = length;
    do {
        w.status = make_buffers(&w, 0, texts)
            ? canonical_on_stack(source, length, w.texts, texts, &w.texts_count, &w.error)
            : FIRTHNAPKIN_OUT_OF_MEMORY;
        texts = w.texts_count;
    } while (w.status == FIRTHNAPKIN_BUFFER_TOO_SMALL);
    add_words(&w, source, length);
    return w;
}

#endif
