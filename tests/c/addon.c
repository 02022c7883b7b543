/* Loads the addon of Node's package where no Node is, as with musl: this program has the functions of Node-API that the addon takes,
 * for the kinds of values that it gives and gets. What its calls make of sources is compared with what the bindings' headers make of
 * them here. It is linked with the archive, and so that the addon finds its functions. Its one word is the addon's path. */
#define _GNU_SOURCE
#include "../../bindings/kept.h"
#include "../../bindings/whole.h"
#include "checks.h"
#include "memory.h"
#include <dlfcn.h>
#include <node_api.h>
#pragma GCC diagnostic ignored "-Wunused-parameter"

typedef enum { OBJECT, TEXT, NUMBER, BYTES, WORDS, FUNCTION } kind;

/* A value, and as a property of an object its name and the next one. An element of an array has its number as its name. */
struct napi_value__ {
    kind kind;
    double number;
    size_t size;
    void *bytes;
    napi_callback call;
    char name[32];
    napi_value first, next;
};

struct napi_callback_info__ {
    size_t count;
    const napi_value *arguments;
};

/* What the addon keeps, and the words of the error that is thrown. */
static void *instance;
static napi_finalize give_up;
static const char *thrown;

static napi_value made(kind kind, const void *bytes, size_t size, double number) {
    napi_value value = calloc(1, sizeof *value);
    if (value == NULL || (value->bytes = malloc(size + 1)) == NULL) abort();
    if (bytes != NULL) memcpy(value->bytes, bytes, size);
    return value->kind = kind, value->size = size, value->number = number, value;
}

/* ---- the functions that the addon takes */
napi_status napi_create_object(napi_env env, napi_value *result) {
    return *result = made(OBJECT, NULL, 0, 0), napi_ok;
}
napi_status napi_create_array(napi_env env, napi_value *result) __attribute__((alias("napi_create_object")));
napi_status napi_get_undefined(napi_env env, napi_value *result) __attribute__((alias("napi_create_object")));
napi_status napi_create_double(napi_env env, double number, napi_value *result) {
    return *result = made(NUMBER, NULL, 0, number), napi_ok;
}
napi_status napi_create_uint32(napi_env env, uint32_t number, napi_value *result) {
    return *result = made(NUMBER, NULL, 0, number), napi_ok;
}
napi_status napi_get_boolean(napi_env env, bool number, napi_value *result) {
    return *result = made(NUMBER, NULL, 0, number), napi_ok;
}
napi_status napi_create_string_utf8(napi_env env, const char *text, size_t length, napi_value *result) {
    return *result = made(TEXT, text, length == NAPI_AUTO_LENGTH ? strlen(text) : length, 0), napi_ok;
}
napi_status napi_create_string_utf16(napi_env env, const char16_t *text, size_t length, napi_value *result) {
    return *result = made(TEXT, text, length * sizeof *text, 0), napi_ok;
}
napi_status napi_create_function(napi_env env, const char *name, size_t length, napi_callback call, void *data,
                                 napi_value *result) {
    *result = made(FUNCTION, NULL, 0, 0);
    return (*result)->call = call, napi_ok;
}

napi_status napi_set_named_property(napi_env env, napi_value object, const char *name, napi_value value) {
    if (object->kind != OBJECT) return napi_object_expected;
    snprintf(value->name, sizeof value->name, "%s", name);
    return value->next = object->first, object->first = value, napi_ok;
}
napi_status napi_set_element(napi_env env, napi_value object, uint32_t index, napi_value value) {
    char name[16];
    snprintf(name, sizeof name, "%u", index);
    return napi_set_named_property(env, object, name, value);
}

napi_status napi_is_buffer(napi_env env, napi_value value, bool *result) {
    return *result = value->kind == BYTES, napi_ok;
}
napi_status napi_get_buffer_info(napi_env env, napi_value value, void **bytes, size_t *size) {
    *bytes = value->bytes, *size = value->size;
    return value->kind == BYTES ? napi_ok : napi_invalid_arg;
}
napi_status napi_get_arraybuffer_info(napi_env env, napi_value value, void **bytes, size_t *size)
    __attribute__((alias("napi_get_buffer_info")));
napi_status napi_get_typedarray_info(napi_env env, napi_value value, napi_typedarray_type *type, size_t *length, void **words,
                                     napi_value *buffer, size_t *offset) {
    *words = value->bytes, *length = value->size / sizeof(uint32_t), *type = napi_uint32_array;
    return value->kind == WORDS ? napi_ok : napi_invalid_arg;
}
napi_status napi_get_value_double(napi_env env, napi_value value, double *number) {
    *number = value->number;
    return value->kind == NUMBER ? napi_ok : napi_number_expected;
}
napi_status napi_get_value_string_utf8(napi_env env, napi_value value, char *text, size_t size, size_t *length) {
    if (value->kind != TEXT) return napi_string_expected;
    *length = value->size < size ? value->size : size - 1;
    memcpy(text, value->bytes, *length);
    return text[*length] = 0, napi_ok;
}

napi_status napi_get_cb_info(napi_env env, napi_callback_info info, size_t *count, napi_value *values, napi_value *self,
                             void **data) {
    for (size_t i = 0; i < *count && i < info->count; i++) values[i] = info->arguments[i];
    return *count = info->count, napi_ok;
}
napi_status napi_call_function(napi_env env, napi_value self, napi_value function, size_t count, const napi_value *arguments,
                               napi_value *result) {
    if (function->kind != FUNCTION) return napi_function_expected;
    *result = function->call(env, &(struct napi_callback_info__){count, arguments});
    return thrown == NULL ? napi_ok : napi_pending_exception;
}
napi_status napi_set_instance_data(napi_env env, void *data, napi_finalize finalize, void *hint) {
    return instance = data, give_up = finalize, napi_ok;
}
napi_status napi_get_instance_data(napi_env env, void **data) {
    return *data = instance, napi_ok;
}
napi_status napi_is_exception_pending(napi_env env, bool *result) {
    return *result = thrown != NULL, napi_ok;
}
napi_status napi_throw_error(napi_env env, const char *code, const char *words) {
    return thrown = words, napi_ok;
}

/* ---- what is compared */

static napi_value exports;
static napi_value property(napi_value object, const char *name) {
    napi_value value = object == NULL ? NULL : object->first;
    while (value != NULL && strcmp(value->name, name) != 0) value = value->next;
    return value;
}

/* The function that gives so many bytes. */
static napi_value allocated(napi_env env, napi_callback_info info) {
    return made(BYTES, NULL, (size_t)info->arguments[0]->number, 0);
}

static napi_value called(const char *name, size_t count, const napi_value *arguments) {
    thrown = NULL;
    return property(exports, name)->call(NULL, &(struct napi_callback_info__){count, arguments});
}

static int has_bytes(napi_value value, const void *bytes, size_t size) {
    return value != NULL && value->size == size && (size == 0 || memcmp(value->bytes, bytes, size) == 0);
}

static int has_text(napi_value value, const char *text) {
    return has_bytes(value, text, strlen(text));
}

/* Whether a call gives what a result has: its tokens or, if they are wanted, its nodes, or its error. */
static void compare(const char *name, const char *source, size_t count, const napi_value *arguments, whole w, int has_nodes) {
    int is_large = w.status == OPERATION_TOO_LARGE, is_error = has_error(w.status) || is_large;
    const char *status = is_large ? "operation_too_large" : firthnapkin_status_name(w.status);
    napi_value found = called(name, count, arguments);
    napi_value parts = property(found, "parts"), sizes = property(found, "complexities");
    check(has_text(property(found, "status"), status), "the status of %s of %.20s", name, source);
    check(has_bytes(property(found, "texts"), w.texts, w.texts_count), "the texts of %s of %.20s", name, source);
    check(is_error    ? has_bytes(parts, &w.error, sizeof w.error)
          : has_nodes ? parts != NULL && parts->size == w.nodes_count * sizeof *w.nodes
                            && same_nodes(parts->bytes, w.nodes, w.nodes_count)
                      : has_bytes(parts, w.tokens, w.tokens_count * sizeof *w.tokens),
          "the parts of %s of %.20s", name, source);
    if (w.status == FIRTHNAPKIN_OK && w.complexities_count != 0)
        check(has_bytes(sizes, w.complexities, w.complexities_count * sizeof *w.complexities), "the sizes of %.20s", source);
    else
        check(sizes == NULL, "%s of %.20s has complexities", name, source);
    give_back(&w);
}

/* Whether a value is a packed result: its nodes, and what is after them. */
static int is_packed(napi_value value, const kept *k, size_t size) {
    const char *bytes = value->bytes, *wanted = (const char *)k->nodes;
    packed_counts counts;
    memcpy(&counts, wanted + size - sizeof counts, sizeof counts);
    size_t nodes = counts.nodes * sizeof *k->nodes;
    return value->size == size && same_nodes(value->bytes, k->nodes, counts.nodes)
           && !memcmp(bytes + nodes, wanted + nodes, size - nodes);
}

static void try_source(const char *text, uint32_t depth, uint32_t fields) {
    static kept here;
    struct {
        firthnapkin_limits call;
        size_limits sizes;
    } limits = {{depth, UINT32_MAX, {0}}, {{fields, UINT32_MAX, UINT32_MAX, UINT32_MAX, UINT32_MAX}}};
    size_t length = strlen(text), size;
    const uint8_t *source = (const uint8_t *)text;
    napi_value bytes = made(BYTES, text, length, 0), string = made(TEXT, text, length, 0), number = made(NUMBER, NULL, 0, 5);
    napi_value words = made(WORDS, &limits, sizeof limits, 0), allocate = made(FUNCTION, NULL, 0, 0), found;
    allocate->call = allocated;
    const napi_value given[] = {bytes, words, allocate}, two[] = {bytes, allocate}, five[] = {bytes, number, allocate};

    compare("parse", text, 3, given, document_whole(source, length, &limits.call, &limits.sizes), 1);
    compare("parseValue", text, 3, given, whole_as(AS_VALUE, source, length, &limits.call), 1);
    compare("parseConstant", text, 3, given, whole_as(AS_CONSTANT, source, length, &limits.call), 1);
    compare("parseType", text, 3, given, whole_as(AS_TYPE, source, length, &limits.call), 1);
    compare("check", text, 3, given, check_whole(source, length, &limits.call, &limits.sizes), 0);
    compare("complexities", text, 2, two, complexities_whole(source, length), 0);
    compare("tokens", text, 3, five, cut_whole(source, length, 5), 0);
    compare("canonical", text, 2, two, canonical_whole(source, length), 0);
    compare("excerpt", text, 3, five, excerpt_whole(source, length, 5), 0);
    memcpy(here.source, text, length < KEPT_SOURCE ? length : KEPT_SOURCE);
    found = called("isDocument", 2, (napi_value[]){string, words});
    check(found->number == is_kept_document(&here, length, &limits.call, &limits.sizes), "isDocument of %.20s", text);
    found = called("parsePacked", 2, (napi_value[]){string, words});
    size = parse_kept(&here, length, &limits.call, &limits.sizes);
    check(size == 0 ? found == NULL && thrown == NULL : is_packed(found, &here, size), "parsePacked of %.20s", text);
    found = called("parse", 3, (napi_value[]){number, words, allocate});
    check(found == NULL && thrown != NULL, "parse of a number throws nothing");
}

static void *try_all(void *unused) {
    static char deep[4000], wide[40000] = "{a b}";
    for (int i = 0; i < 1000; i++) deep[2 * i] = '{', deep[2 * i + 1] = 'a', deep[2000 + i] = '}';
    memset(wide + 5, ' ', sizeof wide - 6);
    const char *sources[] = {"{a}",
                             "",
                             "{ a ) }",
                             "# \xc3\xa9\n{ a(b: \"\\u00e9\") b }",
                             "query($a: [T!]) { ...F }",
                             "[$a {b: \"\xc3\xa9\"}]",
                             "[\"c\" 1.5]",
                             "[ID!]!",
                             deep,
                             wide};
    for (size_t i = 0; i < sizeof sources / sizeof *sources; i++)
        try_source(sources[i], 200, UINT32_MAX), try_source(sources[i], FIRTHNAPKIN_MAX_DEPTH, 1);
    return unused;
}

/* Whether an array has the names of all numbers. */
static void compare_names(const char *name, const char *name_of(uint32_t)) {
    uint32_t count = 0;
    for (napi_value at = property(exports, name)->first; at != NULL; at = at->next, count++)
        check(has_text(at, name_of((uint32_t)atoi(at->name))), "%s %s", name, at->name);
    check(count != 0 && strcmp(name_of(count), "unknown") == 0, "%s has %u names", name, count);
}

int main(int count, char **words) {
    void *addon = count == 2 ? dlopen(words[1], RTLD_NOW) : NULL;
    napi_value (*init)(napi_env, napi_value) = NULL;
    pthread_t thread;
    if (addon != NULL) *(void **)&init = dlsym(addon, "napi_register_module_v1");
    check(init != NULL, "no addon is loaded: %s", count == 2 ? dlerror() : "its path is missing");
    if (init == NULL) return counted();
    exports = made(OBJECT, NULL, 0, 0);
    check(init(NULL, exports) == exports && thrown == NULL, "the addon isn't made: %s", thrown == NULL ? "" : thrown);
    compare_names("KINDS", firthnapkin_kind_name), compare_names("TOKEN_KINDS", firthnapkin_token_kind_name);
    compare_names("ERROR_KINDS", firthnapkin_error_kind_name), compare_names("ERROR_DETAILS", firthnapkin_error_detail_name);
    check(has_text(property(exports, "VERSION"), FIRTHNAPKIN_VERSION_STRING), "the version");
    try_all(NULL);
    /* A thread's stack is smaller. */
    check(pthread_create(&thread, NULL, try_all, NULL) == 0 && pthread_join(thread, NULL) == 0, "no thread is made");
    give_up(NULL, instance, NULL);
    return counted();
}
