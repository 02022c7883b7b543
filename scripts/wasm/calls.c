/* The library's calls for JavaScript, as the exports of a WebAssembly module. bindings/node/lib/wasm.js makes them, in the place of
 * the addon. A call's source is written where `source` says. Its result is seven numbers: the status, and where the parts, the
 * texts and the complexities are, each with its bytes. They stay until the next call. */
#include "include/one_stack.h"

#include "kept.h"
#include "memory.h"
#include "whole.h"

#define EXPORT(name) __attribute__((export_name(#name)))

typedef struct {
    uint32_t status, parts, parts_size, texts, texts_size, complexities, complexities_size;
    uint32_t packed_size; /* of a small source, where it is packed */
} found_numbers;

/* What the call before has found. */
static whole found;
static found_numbers numbers;

static found_numbers *result_of(const void *parts, uint64_t size) {
    const whole *w = &found;
    uint64_t complexities = w->status == FIRTHNAPKIN_OK && w->complexities != NULL ? w->complexities_count : 0;
    if (has_error(w->status) || w->status == OPERATION_TOO_LARGE) {
        parts = &w->error;
        size = sizeof w->error;
    }
    numbers = (found_numbers){.status = w->status,
                              .parts = (uint32_t)parts,
                              .parts_size = (uint32_t)size,
                              .texts = (uint32_t)w->texts,
                              .texts_size = (uint32_t)w->texts_count,
                              .complexities = (uint32_t)w->complexities,
                              .complexities_size = (uint32_t)(complexities * sizeof *w->complexities)};
    return &numbers;
}

/* Where a source of so many bytes is to be written; NULL if there is no memory for it. */
EXPORT(source) void *place_of_source(uint32_t length) {
    let_go();
    return malloc(length);
}

/* Limits as JavaScript writes them, in the order of both. */
static struct {
    firthnapkin_limits call;
    size_limits sizes;
} limits;

EXPORT(limits) void *place_of_limits(void) {
    return &limits;
}

EXPORT(parse) found_numbers *parse(const uint8_t *source, uint32_t length) {
    found = document_whole(source, length, &limits.call, &limits.sizes);
    return result_of(found.nodes, found.nodes_count * sizeof *found.nodes);
}

static found_numbers *parse_literal(parsed_as as, const uint8_t *source, uint32_t length) {
    found = whole_as(as, source, length, &limits.call);
    return result_of(found.nodes, found.nodes_count * sizeof *found.nodes);
}

EXPORT(parse_value) found_numbers *parse_value(const uint8_t *source, uint32_t length) {
    return parse_literal(AS_VALUE, source, length);
}

EXPORT(parse_constant) found_numbers *parse_constant(const uint8_t *source, uint32_t length) {
    return parse_literal(AS_CONSTANT, source, length);
}

EXPORT(parse_type) found_numbers *parse_type(const uint8_t *source, uint32_t length) {
    return parse_literal(AS_TYPE, source, length);
}

EXPORT(check) found_numbers *check(const uint8_t *source, uint32_t length) {
    found = check_whole(source, length, &limits.call, &limits.sizes);
    return result_of(NULL, 0);
}

EXPORT(complexities) found_numbers *complexities(const uint8_t *source, uint32_t length) {
    found = complexities_whole(source, length);
    return result_of(NULL, 0);
}

EXPORT(tokens) found_numbers *tokens(const uint8_t *source, uint32_t length, uint32_t most) {
    found = cut_whole(source, length, most);
    return result_of(found.tokens, found.tokens_count * sizeof *found.tokens);
}

EXPORT(canonical) found_numbers *canonical(const uint8_t *source, uint32_t length) {
    found = canonical_whole(source, length);
    return result_of(NULL, 0);
}

EXPORT(excerpt) found_numbers *excerpt(const uint8_t *source, uint32_t length, uint32_t byte) {
    found = excerpt_whole(source, length, byte);
    return result_of(NULL, 0);
}

/* Small sources, and their packed results. */
static kept small;

EXPORT(small_source) void *place_of_small_source(void) {
    return small.source;
}

EXPORT(small_result) void *place_of_small_result(void) {
    return small.nodes;
}

/* Whether what was found may be packed, as parse_kept has it. */
static int is_small(void) {
    return found.status == FIRTHNAPKIN_OK && found.nodes_count <= KEPT_NODES && found.texts_count <= KEPT_SOURCE
           && found.complexities_count <= KEPT_OPERATIONS;
}

static uint32_t pack_found(uint32_t length) {
    packed_counts counts = {(uint32_t)found.nodes_count, (uint32_t)found.complexities_count, (uint32_t)found.texts_count,
                            length};
    memcpy(small.nodes, found.nodes, counts.nodes * sizeof *found.nodes);
    memcpy(small.complexities, found.complexities, counts.operations * sizeof *found.complexities);
    memcpy(small.texts, found.texts, counts.texts);
    return (uint32_t)pack(&small, &counts);
}

/* Parses the small source, and packs what is found if it is small, too, and the caller wants that. NULL if the source is cut off. */
EXPORT(parse_small) found_numbers *parse_small(uint32_t length, uint32_t packs) {
    let_go();
    if (!is_whole(length)) return NULL;
    parse(small.source, length);
    if (packs && is_small()) numbers.packed_size = pack_found(length);
    return &numbers;
}

EXPORT(check_small) uint32_t check_small(uint32_t length) {
    let_go();
    return (uint32_t)is_kept_document(&small, length, &limits.call, &limits.sizes);
}

/* The numbers of the header that JavaScript is told, in the order in which lib/wasm.js asks for them. */
EXPORT(number) uint32_t number(uint32_t which) {
    const uint32_t all[] = {sizeof(firthnapkin_limits) / sizeof(uint32_t), SIZES, FIRTHNAPKIN_MAX_DEPTH, KEPT_SOURCE};
    return all[which];
}

/* The name of a number, as a text that a byte 0 ends, in the same way: "unknown" after the last one. */
EXPORT(name) const char *name(uint32_t which, uint32_t number) {
    switch (which) {
    case 0: return number == OPERATION_TOO_LARGE ? "operation_too_large" : firthnapkin_status_name(number);
    case 1: return firthnapkin_kind_name(number);
    case 2: return firthnapkin_token_kind_name(number);
    case 3: return firthnapkin_error_kind_name(number);
    case 4: return firthnapkin_error_detail_name(number);
    default: return FIRTHNAPKIN_VERSION_STRING;
    }
}
