/* The library's calls for lib/calls.js, which checks the types of arguments. The limits are an Uint32Array of the words of a
 * firthnapkin_limits and of limits on sizes, and `allocate` makes an ArrayBuffer of so many bytes:
 *
 *     parse(buffer, limits, allocate)     the nodes, and their texts; with a limit on sizes the complexities, too
 *     check(buffer, limits, allocate)     no parts, and no texts except an error's words
 *     complexities(buffer, allocate)      no parts, and the complexities of the operations
 *     tokens(buffer, tokens, allocate)    the tokens
 *     canonical(buffer, allocate)         the canonical text
 *     excerpt(buffer, byte, allocate)     the lines around a byte
 *
 * Each returns { status, parts, texts, complexities }: the name of its status, an ArrayBuffer of nodes, of tokens or of the error,
 * one of texts or of the error's words, and one of complexities if any were found.
 *
 * Two calls are for small sources, of which nearly all of the time would go to buffers and objects. They use memory that is kept,
 * and make no errors: another call finds those.
 *
 *     parsePacked(source, limits)         what a parse found, as a string; undefined if it found no document, or much
 *     isDocument(source, limits)          whether a source is a document within limits; false if it is large, too */
#define _GNU_SOURCE
#include "kept.h"
#include "whole.h"

#include <node_api.h>
#include <string.h>

static napi_value failed(napi_env env, const char *words) {
    bool is_pending = false;
    if (napi_is_exception_pending(env, &is_pending) != napi_ok || !is_pending) napi_throw_error(env, NULL, words);
    return NULL;
}

/* Adds a property to an object; false if that failed. */
static int has(napi_env env, napi_value object, const char *name, napi_status made, const napi_value *value) {
    return made == napi_ok && napi_set_named_property(env, object, name, *value) == napi_ok;
}

static napi_status text_of(napi_env env, const char *text, napi_value *result) {
    return napi_create_string_utf8(env, text, NAPI_AUTO_LENGTH, result);
}

/* Copies bytes into an ArrayBuffer that JavaScript allocates: it throws if memory is short, while napi_create_arraybuffer ends
 * the process. */
static napi_status copied(napi_env env, napi_value allocate, const void *from, size_t size, napi_value *result) {
    napi_value receiver, argument;
    void *bytes;
    size_t length;
    if (napi_get_undefined(env, &receiver) != napi_ok || napi_create_double(env, (double)size, &argument) != napi_ok
        || napi_call_function(env, receiver, allocate, 1, &argument, result) != napi_ok
        || napi_get_arraybuffer_info(env, *result, &bytes, &length) != napi_ok || length != size)
        return napi_generic_failure;
    if (size != 0) memcpy(bytes, from, size);
    return napi_ok;
}

static const char *status_name(uint32_t status) {
    return status == OPERATION_TOO_LARGE ? "operation_too_large" : firthnapkin_status_name(status);
}

/* What a call found: so many bytes of parts, or the error, and the complexities. Frees the result. */
static napi_value result_of(napi_env env, whole *w, const void *parts, size_t size, napi_value allocate) {
    size_t complexities = w->status == FIRTHNAPKIN_OK && w->complexities != NULL ? w->complexities_count : 0;
    napi_value result, value;
    if (has_error(w->status) || w->status == OPERATION_TOO_LARGE) {
        parts = &w->error;
        size = sizeof w->error;
    }
    if (w->status == FIRTHNAPKIN_OUT_OF_MEMORY)
        result = failed(env, "memory ran out");
    else if (napi_create_object(env, &result) != napi_ok
             || !has(env, result, "status", text_of(env, status_name(w->status), &value), &value)
             || !has(env, result, "texts", copied(env, allocate, w->texts, w->texts_count, &value), &value)
             || !has(env, result, "parts", copied(env, allocate, parts, size, &value), &value)
             || (complexities != 0
                 && !has(env, result, "complexities",
                         copied(env, allocate, w->complexities, complexities * sizeof *w->complexities, &value), &value)))
        result = failed(env, "the result was not made");
    give_back(w);
    return result;
}

/* A call's arguments: a buffer, a function that allocates, and perhaps another one between them. */
enum { MOST_ARGUMENTS = 3 };
typedef struct {
    void *source;
    size_t length;
    napi_value other, allocate;
} call_arguments;

static int are_read(napi_env env, napi_callback_info info, size_t wanted, call_arguments *a) {
    napi_value values[MOST_ARGUMENTS];
    size_t count = wanted;
    bool is_buffer = false;
    if (napi_get_cb_info(env, info, &count, values, NULL, NULL) != napi_ok || count < wanted) return 0;
    a->other = values[1];
    a->allocate = values[wanted - 1];
    /* Node 18 ends the process if it is asked for the bytes of anything else. */
    if (napi_is_buffer(env, values[0], &is_buffer) != napi_ok || !is_buffer) return 0;
    return napi_get_buffer_info(env, values[0], &a->source, &a->length) == napi_ok;
}

/* Limits as they are passed. */
typedef struct {
    firthnapkin_limits call;
    size_limits sizes;
} package_limits;

/* Reads the limits between the two; false where they are others than these. */
static int are_limits(napi_env env, napi_value value, package_limits *limits) {
    napi_typedarray_type type;
    size_t length;
    void *words;
    if (napi_get_typedarray_info(env, value, &type, &length, &words, NULL, NULL) != napi_ok || type != napi_uint32_array
        || length != sizeof *limits / sizeof(uint32_t))
        return 0;
    memcpy(limits, words, sizeof *limits);
    return 1;
}

/* Reads a number as the library takes it; the largest for one that is out of its range. NaN is neither less than 0 nor more. */
static int is_number(napi_env env, napi_value value, uint32_t *number) {
    double given;
    if (napi_get_value_double(env, value, &given) != napi_ok) return 0;
    *number = given >= 0 && given < UINT32_MAX ? (uint32_t)given : UINT32_MAX;
    return 1;
}

static napi_value parse(napi_env env, napi_callback_info info) {
    call_arguments a;
    package_limits limits;
    if (!are_read(env, info, 3, &a) || !are_limits(env, a.other, &limits))
        return failed(env, "parse takes a buffer, limits and a function");
    whole w = document_whole(a.source, a.length, &limits.call, &limits.sizes);
    return result_of(env, &w, w.nodes, w.nodes_count * sizeof *w.nodes, a.allocate);
}

/* A parse of a source that is no document. */
static napi_value parse_literal(napi_env env, napi_callback_info info, parsed_as as) {
    call_arguments a;
    package_limits limits;
    if (!are_read(env, info, 3, &a) || !are_limits(env, a.other, &limits))
        return failed(env, "it takes a buffer, limits and a function");
    whole w = whole_as(as, a.source, a.length, &limits.call);
    return result_of(env, &w, w.nodes, w.nodes_count * sizeof *w.nodes, a.allocate);
}

static napi_value parse_value(napi_env env, napi_callback_info info) {
    return parse_literal(env, info, AS_VALUE);
}

static napi_value parse_constant(napi_env env, napi_callback_info info) {
    return parse_literal(env, info, AS_CONSTANT);
}

static napi_value parse_type(napi_env env, napi_callback_info info) {
    return parse_literal(env, info, AS_TYPE);
}

static napi_value check(napi_env env, napi_callback_info info) {
    call_arguments a;
    package_limits limits;
    if (!are_read(env, info, 3, &a) || !are_limits(env, a.other, &limits))
        return failed(env, "check takes a buffer, limits and a function");
    whole w = check_whole(a.source, a.length, &limits.call, &limits.sizes);
    return result_of(env, &w, NULL, 0, a.allocate);
}

static napi_value complexities(napi_env env, napi_callback_info info) {
    call_arguments a;
    if (!are_read(env, info, 2, &a)) return failed(env, "complexities takes a buffer and a function");
    whole w = complexities_whole(a.source, a.length);
    return result_of(env, &w, NULL, 0, a.allocate);
}

static napi_value tokens(napi_env env, napi_callback_info info) {
    call_arguments a;
    uint32_t most;
    if (!are_read(env, info, 3, &a) || !is_number(env, a.other, &most))
        return failed(env, "tokens takes a buffer, a number of tokens and a function");
    whole w = cut_whole(a.source, a.length, most);
    return result_of(env, &w, w.tokens, w.tokens_count * sizeof *w.tokens, a.allocate);
}

static napi_value canonical(napi_env env, napi_callback_info info) {
    call_arguments a;
    if (!are_read(env, info, 2, &a)) return failed(env, "canonical takes a buffer and a function");
    whole w = canonical_whole(a.source, a.length);
    return result_of(env, &w, NULL, 0, a.allocate);
}

static napi_value excerpt(napi_env env, napi_callback_info info) {
    call_arguments a;
    uint32_t byte;
    if (!are_read(env, info, 3, &a) || !is_number(env, a.other, &byte))
        return failed(env, "excerpt takes a buffer, a byte and a function");
    whole w = excerpt_whole(a.source, a.length, byte);
    return result_of(env, &w, NULL, 0, a.allocate);
}

/* What is kept for small sources, by each thread that loads the addon. */
static void drop_kept(napi_env env, void *data, void *hint) {
    (void)env, (void)hint;
    free(data);
}

/* Reads the arguments of a call for a small source, a string and limits, and writes the string to `source`, which may cut it off.
 * Half of a surrogate pair would become another character. */
static kept *kept_with(napi_env env, napi_callback_info info, size_t *length, package_limits *limits) {
    napi_value values[2];
    size_t count = 2;
    void *data;
    if (napi_get_cb_info(env, info, &count, values, NULL, NULL) != napi_ok || count < 2 || !are_limits(env, values[1], limits)
        || napi_get_instance_data(env, &data) != napi_ok || data == NULL)
        return NULL;
    kept *k = data;
    if (napi_get_value_string_utf8(env, values[0], (char *)k->source, KEPT_SOURCE, length) != napi_ok) return NULL;
    return k;
}

static napi_value parse_packed(napi_env env, napi_callback_info info) {
    package_limits limits;
    size_t length, size;
    napi_value result;
    kept *k = kept_with(env, info, &length, &limits);
    if (k == NULL) return failed(env, "parsePacked takes a string and limits");
    size = parse_kept(k, length, &limits.call, &limits.sizes);
    if (size == 0) return NULL;
    if (napi_create_string_utf16(env, (const char16_t *)k->nodes, size / sizeof(char16_t), &result) != napi_ok)
        return failed(env, "the result was not made");
    return result;
}

static napi_value is_document(napi_env env, napi_callback_info info) {
    package_limits limits;
    size_t length;
    napi_value result;
    kept *k = kept_with(env, info, &length, &limits);
    if (k == NULL) return failed(env, "isDocument takes a string and limits");
    bool found = is_kept_document(k, length, &limits.call, &limits.sizes);
    return napi_get_boolean(env, found, &result) == napi_ok ? result : failed(env, "the result was not made");
}

/* The names of the numbers from 0, as an array. */
static napi_status names(napi_env env, const char *name_of(uint32_t), napi_value *result) {
    napi_value name;
    if (napi_create_array(env, result) != napi_ok) return napi_generic_failure;
    for (uint32_t i = 0; strcmp(name_of(i), "unknown") != 0; i++)
        if (text_of(env, name_of(i), &name) != napi_ok || napi_set_element(env, *result, i, name) != napi_ok)
            return napi_generic_failure;
    return napi_ok;
}

NAPI_MODULE_INIT() {
    napi_value value;
    kept *k = malloc(sizeof *k);
    if (k == NULL || napi_set_instance_data(env, k, drop_kept, NULL) != napi_ok) {
        free(k);
        return failed(env, "memory ran out");
    }
    if (!has(env, exports, "parse", napi_create_function(env, "parse", NAPI_AUTO_LENGTH, parse, NULL, &value), &value)
        || !has(env, exports, "parseValue", napi_create_function(env, "parseValue", NAPI_AUTO_LENGTH, parse_value, NULL, &value), &value)
        || !has(env, exports, "parseConstant", napi_create_function(env, "parseConstant", NAPI_AUTO_LENGTH, parse_constant, NULL, &value), &value)
        || !has(env, exports, "parseType", napi_create_function(env, "parseType", NAPI_AUTO_LENGTH, parse_type, NULL, &value), &value)
        || !has(env, exports, "check", napi_create_function(env, "check", NAPI_AUTO_LENGTH, check, NULL, &value), &value)
        || !has(env, exports, "parsePacked", napi_create_function(env, "parsePacked", NAPI_AUTO_LENGTH, parse_packed, NULL, &value), &value)
        || !has(env, exports, "isDocument", napi_create_function(env, "isDocument", NAPI_AUTO_LENGTH, is_document, NULL, &value), &value)
        || !has(env, exports, "complexities", napi_create_function(env, "complexities", NAPI_AUTO_LENGTH, complexities, NULL, &value), &value)
        || !has(env, exports, "tokens", napi_create_function(env, "tokens", NAPI_AUTO_LENGTH, tokens, NULL, &value), &value)
        || !has(env, exports, "canonical", napi_create_function(env, "canonical", NAPI_AUTO_LENGTH, canonical, NULL, &value), &value)
        || !has(env, exports, "excerpt", napi_create_function(env, "excerpt", NAPI_AUTO_LENGTH, excerpt, NULL, &value), &value)
        || !has(env, exports, "KINDS", names(env, firthnapkin_kind_name, &value), &value)
        || !has(env, exports, "TOKEN_KINDS", names(env, firthnapkin_token_kind_name, &value), &value)
        || !has(env, exports, "ERROR_KINDS", names(env, firthnapkin_error_kind_name, &value), &value)
        || !has(env, exports, "ERROR_DETAILS", names(env, firthnapkin_error_detail_name, &value), &value)
        || !has(env, exports, "LIMITS_LENGTH", napi_create_uint32(env, sizeof(firthnapkin_limits) / sizeof(uint32_t), &value), &value)
        || !has(env, exports, "SIZES_LENGTH", napi_create_uint32(env, SIZES, &value), &value)
        || !has(env, exports, "MAX_DEPTH", napi_create_uint32(env, FIRTHNAPKIN_MAX_DEPTH, &value), &value)
        || !has(env, exports, "VERSION", text_of(env, FIRTHNAPKIN_VERSION_STRING, &value), &value))
        return failed(env, "the module was not made");
    return exports;
}
