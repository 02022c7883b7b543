/* Refuses each request for memory of each call in turn, and of each call of bindings/whole.h and bindings/check.h: that one
 * alone, or it and all after it. The call reports that memory ran out, or returns what it returns with ample memory, and frees what it was given.
 * Linked with --wrap. */
#define _GNU_SOURCE
#include "../../bindings/check.h"
#include "../../bindings/whole.h"
#include "checks.h"
#include <stdlib.h>
#include <string.h>

extern void *__real_malloc(size_t);
extern void *__real_realloc(void *, size_t);
extern void __real_free(void *);

static long asked, refused_request, live;
static int is_onwards;

static int is_refused(void) {
    asked++;
    return refused_request != 0 && (asked == refused_request || (is_onwards && asked > refused_request));
}

/* A block has no bytes of one that was freed before. */
void *__wrap_malloc(size_t size) {
    if (is_refused()) return NULL;
    void *block = __real_malloc(size);
    if (block == NULL) return NULL;
    live++;
    return memset(block, 0xA5, size);
}

void *__wrap_realloc(void *block, size_t size) {
    if (is_refused()) return NULL;
    void *grown = __real_realloc(block, size);
    if (block == NULL && grown != NULL) live++;
    return grown;
}

void __wrap_free(void *block) {
    if (block != NULL) live--;
    __real_free(block);
}

static uint8_t words[4096];
static firthnapkin_node nodes[4096];
static firthnapkin_token cut[4096];

typedef struct {
    uint32_t status;
    size_t nodes_length, texts_length;
} answer;

static const firthnapkin_limits DEFAULT = FIRTHNAPKIN_LIMITS_DEFAULT;

static answer parse(const char *source) {
    answer a = {.nodes_length = 1, .texts_length = 1};
    firthnapkin_error error;
    a.status = firthnapkin_parse((const uint8_t *)source, strlen(source), &DEFAULT, nodes, 4096, &a.nodes_length, words, 4096,
                                 &a.texts_length, &error);
    return a;
}

static answer parse_value_as(const char *source, uint32_t constant) {
    answer a = {.nodes_length = 1, .texts_length = 1};
    firthnapkin_error error;
    a.status = firthnapkin_parse_value((const uint8_t *)source, strlen(source), constant, &DEFAULT, nodes, 4096,
                                       &a.nodes_length, words, 4096, &a.texts_length, &error);
    return a;
}

static answer parse_value(const char *source) {
    return parse_value_as(source, 0);
}

static answer parse_constant(const char *source) {
    return parse_value_as(source, 1);
}

static answer parse_type(const char *source) {
    answer a = {.nodes_length = 1, .texts_length = 1};
    firthnapkin_error error;
    a.status = firthnapkin_parse_type((const uint8_t *)source, strlen(source), &DEFAULT, nodes, 4096, &a.nodes_length, words,
                                      4096, &a.texts_length, &error);
    return a;
}

/* With the number of operations among the lengths. */
static answer parse_complexities(const char *source) {
    static firthnapkin_complexity complexities[64];
    answer a = {.nodes_length = 1, .texts_length = 1};
    size_t operations = 1;
    firthnapkin_error error;
    a.status = firthnapkin_parse_complexities((const uint8_t *)source, strlen(source), &DEFAULT, nodes, 4096, &a.nodes_length,
                                              words, 4096, &a.texts_length, complexities, 64, &operations, &error);
    a.texts_length += operations;
    return a;
}

/* An error of the source, found with ample memory. */
static firthnapkin_error error_of(const char *source) {
    long number = refused_request;
    size_t nodes_length, texts_length;
    firthnapkin_error error = {.kind = FIRTHNAPKIN_ERROR_TOO_DEEP};
    refused_request = 0;
    firthnapkin_parse((const uint8_t *)source, strlen(source), &DEFAULT, nodes, 4096, &nodes_length, words, 4096, &texts_length,
                      &error);
    asked = 0;
    refused_request = number;
    return error;
}

static answer message(const char *source) {
    answer a = {.nodes_length = 1, .texts_length = 0};
    firthnapkin_error error = error_of(source);
    a.status = firthnapkin_message((const uint8_t *)source, strlen(source), &error, words, 4096, &a.nodes_length);
    return a;
}

static answer excerpt(const char *source) {
    answer a = {.nodes_length = 1, .texts_length = 0};
    firthnapkin_error error = error_of(source);
    a.status = firthnapkin_excerpt((const uint8_t *)source, strlen(source), &error, words, 4096, &a.nodes_length);
    return a;
}

/* With an array of two tokens, so that a position is written. */
static answer count(const char *source) {
    answer a = {.nodes_length = 0, .texts_length = 0};
    firthnapkin_error error;
    a.status = firthnapkin_count((const uint8_t *)source, strlen(source), 2, &error);
    return a;
}

/* What is written to the array before memory runs out is not reported. */
static answer tokens(const char *source) {
    answer a = {.nodes_length = 1, .texts_length = 0};
    firthnapkin_error error;
    a.status = firthnapkin_tokens((const uint8_t *)source, strlen(source), UINT32_MAX, cut, 4096, &a.nodes_length, &error);
    return a;
}

static answer canonical(const char *source) {
    answer a = {.nodes_length = 1, .texts_length = 0};
    firthnapkin_error error;
    a.status = firthnapkin_canonical((const uint8_t *)source, strlen(source), words, 4096, &a.nodes_length, &error);
    return a;
}

/* What a call of bindings/whole.h returned. The lengths of one for which memory ran out say nothing. */
static answer answer_of(whole w, size_t count) {
    int is_there = w.status != FIRTHNAPKIN_OUT_OF_MEMORY;
    answer a = {w.status, is_there ? count : 0, is_there ? w.texts_count : 0};
    give_back(&w);
    return a;
}

static answer whole_parse(const char *source) {
    whole w = parse_whole((const uint8_t *)source, strlen(source), &DEFAULT);
    return answer_of(w, w.nodes_count);
}

static answer whole_parse_of_few(const char *source) {
    static const firthnapkin_limits few = {.depth = 200, .tokens = 20};
    whole w = parse_whole((const uint8_t *)source, strlen(source), &few);
    return answer_of(w, w.nodes_count);
}

static answer whole_parsed_as(parsed_as as, const char *source) {
    whole w = whole_as(as, (const uint8_t *)source, strlen(source), &DEFAULT);
    return answer_of(w, w.nodes_count);
}

static answer whole_value(const char *source) {
    return whole_parsed_as(AS_VALUE, source);
}

static answer whole_constant(const char *source) {
    return whole_parsed_as(AS_CONSTANT, source);
}

static answer whole_type(const char *source) {
    return whole_parsed_as(AS_TYPE, source);
}

/* With a limit that most operations keep, and with one that none with a field keeps. */
static answer whole_measured_within(const char *source, uint32_t fields) {
    size_limits sizes = {{fields, UINT32_MAX, UINT32_MAX, UINT32_MAX, UINT32_MAX}};
    whole w = document_whole((const uint8_t *)source, strlen(source), &DEFAULT, &sizes);
    return answer_of(w, w.nodes_count + w.complexities_count);
}

static answer whole_measured(const char *source) {
    return whole_measured_within(source, 1000);
}

static answer whole_measured_of_none(const char *source) {
    return whole_measured_within(source, 0);
}

static answer whole_complexities(const char *source) {
    whole w = complexities_whole((const uint8_t *)source, strlen(source));
    return answer_of(w, w.complexities_count);
}

/* Without limits on operations, and with one that most operations keep. */
static answer checked_within(const char *source, uint32_t fields) {
    size_limits sizes = {{fields, UINT32_MAX, UINT32_MAX, UINT32_MAX, UINT32_MAX}};
    return (answer){.status = check_source((const uint8_t *)source, strlen(source), &DEFAULT, &sizes).status};
}

static answer checked(const char *source) {
    return checked_within(source, UINT32_MAX);
}

static answer checked_operations(const char *source) {
    return checked_within(source, 1000);
}

/* With the end of the error among the lengths: an operation's is known once all of it is read. */
static answer whole_checked_within(const char *source, uint32_t fields) {
    size_limits sizes = {{fields, UINT32_MAX, UINT32_MAX, UINT32_MAX, UINT32_MAX}};
    whole w = check_whole((const uint8_t *)source, strlen(source), &DEFAULT, &sizes);
    return answer_of(w, w.error.end.byte);
}

static answer whole_checked(const char *source) {
    return whole_checked_within(source, 1000);
}

static answer whole_checked_of_none(const char *source) {
    return whole_checked_within(source, 0);
}

static answer whole_tokens(const char *source) {
    whole w = cut_whole((const uint8_t *)source, strlen(source), UINT32_MAX);
    return answer_of(w, w.tokens_count);
}

static answer whole_excerpt(const char *source) {
    return answer_of(excerpt_whole((const uint8_t *)source, strlen(source), (uint32_t)strlen(source)), 0);
}

static answer whole_canonical(const char *source) {
    return answer_of(canonical_whole((const uint8_t *)source, strlen(source)), 0);
}

/* The call with this request refused, and whether it freed all. */
static answer with_refused(answer (*call)(const char *), const char *source, long number, int onwards) {
    asked = live = 0;
    refused_request = number;
    is_onwards = onwards;
    answer a = call(source);
    refused_request = 0;
    check(live == 0, "%ld blocks kept if request %ld is refused, of %s", live, number, source);
    return a;
}

static void each(answer (*call)(const char *), const char *source) {
    answer ample = with_refused(call, source, 0, 0);
    long requests = asked, memory = 0;
    check(ample.status != FIRTHNAPKIN_OUT_OF_MEMORY, "memory is ample for %s", source);
    for (int onwards = 0; onwards < 2; onwards++) {
        for (long number = 1; number <= requests; number++) {
            answer a = with_refused(call, source, number, onwards);
            if (a.status == FIRTHNAPKIN_OUT_OF_MEMORY) {
                memory++;
                check(a.nodes_length == 0 && a.texts_length == 0, "the lengths after memory ran out, for %s", source);
            } else {
                check(a.status == ample.status && a.nodes_length == ample.nodes_length && a.texts_length == ample.texts_length,
                      "the answer for %s if request %ld is refused: %u", source, number, a.status);
            }
        }
    }
    check(requests == 0 || memory > 0, "memory is said to have run out, for %s", source);
}

/* The call makes so many requests for memory. */
static void asks(answer (*call)(const char *), const char *source, long requests) {
    with_refused(call, source, 0, 0);
    check(asked == requests, "%ld requests for memory, not %ld, of %s", asked, requests, source);
}

/* A count takes memory for the position of a token past the limit alone, in a source that isn't ASCII. A parse takes none of an
 * ASCII source, except for the words of an error and for a type with more modifiers than these. */
#define EIGHT "{a}{a}{a}{a}{a}{a}{a}{a}"
#define SIXTY_FOUR EIGHT EIGHT EIGHT EIGHT EIGHT EIGHT EIGHT EIGHT
#define TEN(text) text text text text text text text text text text
/* So many operations that a check expects as many, and so many that it doesn't. */
#define HUNDRED TEN(TEN("{a} # of 32 bytes and one line end\n"))
#define THOUSAND TEN(TEN(TEN("{a}")))

static void takes_little(void) {
    asks(count, "{ a", 0);
    asks(count, "{ a }", 0);
    asks(count, "\"\\q\"", 0);
    asks(count, "{ \"\\u12\" }", 0);
    asks(count, "# \xc3\xa9\n{ \"\\q\" }", 0);
    asks(count, "# \xc3\xa9\n{ a }", 1);
    asks(parse, "{ a }", 0);
    asks(parse, "query($v: T!){a}", 0);
    asks(parse, "query($v: [T]){a}", 0);
    asks(parse, "query($v: [T!]){a}", 0);
    asks(parse, "query($v: [T]!){a}", 1);
    /* A value takes none, and a type alone as many as in a document. */
    asks(parse_value, "[{a: \"b\"} 1.5 $c]", 0);
    asks(parse_constant, "[{a: \"b\"} 1.5]", 0);
    asks(parse_type, "T!", 0);
    asks(parse_type, "[T]", 0);
    asks(parse_type, "[T!]", 0);
    asks(parse_type, "[T]!", 1);
    /* A check has no nodes, and an array for many operations alone. It parses again where there are more than it expects. */
    asks(checked, SIXTY_FOUR, 0);
    asks(checked, SIXTY_FOUR "{a}", 0);
    with_refused(parse_complexities, SIXTY_FOUR, 0, 0);
    asks(checked_operations, SIXTY_FOUR, asked);
    with_refused(parse_complexities, SIXTY_FOUR "{a}", 0, 0);
    asks(checked_operations, SIXTY_FOUR "{a}", 2 * asked + 1);
    with_refused(parse_complexities, HUNDRED, 0, 0);
    asks(checked_operations, HUNDRED, asked + 1);
    with_refused(parse_complexities, THOUSAND, 0, 0);
    asks(checked_operations, THOUSAND, 2 * (asked + 1));
}

#define LONG_ERROR "query a " TEN(TEN("nnn"))

int main(void) {
    static const char *const sources[] = {
        "{a}",
        "query Q($x: [Int!]! = [1] @d) { b: c(d: {e: $x, s: \"q\\n\", f: 1.5, g: 99999999999}) { ... on T { g } ...F } }",
        "# \xc3\xa9\n{ a(b: \"\"\"\n  \xc3\xa9\n\"\"\") }\nfragment F on T { a }",
        "# \xc3\xa9\n{ a ) }",
        "{ a(b: \"\\q\") }",
        "# \xc3\xa9\n{",
        "# \xc3\xa9\n{ a(b: \"\\q\") }",
        "a \xc3\xa9",
        /* More nodes, longer texts and longer words than are allocated at first. */
        "{a a a a a a a a a a a a a a a a a a a a a a a a a a a a a a a a a a a a a a a a a a}",
        "{a(b:\"ccccccccccccccccccccccccccccccccccccccccccccccccccccccccccccccccccccccccccccccccccccccccccccccccccccccccccccc\")}",
        "1a\"\"2b\"\"3c",
        "{ ...A b { ...B } } fragment A on T { a @c ...B } fragment B on T { b ...C } fragment C on T { c } query Q { ...C }",
        "{ ...A } fragment A on T { b { ...B } } fragment B on T { ...A }",
        LONG_ERROR,
        /* A type for which memory is asked, in an operation that can be past a limit. */
        "query($v: [T]!) { a b }",
        /* Values and types, and what is none. */
        "{a: [1, $b, \"c\"]} # \xc3\xa9",
        "# \xc3\xa9\n[\"\"\"\n  \xc3\xa9\n\"\"\" 1.5 -99999999999 E]",
        "[[T!]!]! # \xc3\xa9",
        "[[[[[[[[T!]!]!]!]!]!]!]!]!",
        "# \xc3\xa9\n[[T!]!]! )",
        "[1 # \xc3\xa9",
        /* More operations than a check has room for at first. */
        SIXTY_FOUR EIGHT,
        HUNDRED,
        THOUSAND,
    };
    for (size_t i = 0; i < sizeof sources / sizeof *sources; i++) {
        each(parse, sources[i]);
        each(parse_complexities, sources[i]);
        each(parse_value, sources[i]);
        each(parse_constant, sources[i]);
        each(parse_type, sources[i]);
        each(message, sources[i]);
        each(excerpt, sources[i]);
        each(count, sources[i]);
        each(tokens, sources[i]);
        each(canonical, sources[i]);
        each(whole_parse, sources[i]);
        each(whole_parse_of_few, sources[i]);
        each(whole_value, sources[i]);
        each(whole_constant, sources[i]);
        each(whole_type, sources[i]);
        each(whole_measured, sources[i]);
        each(whole_measured_of_none, sources[i]);
        each(whole_complexities, sources[i]);
        each(checked, sources[i]);
        each(checked_operations, sources[i]);
        each(whole_checked, sources[i]);
        each(whole_checked_of_none, sources[i]);
        each(whole_tokens, sources[i]);
        each(whole_canonical, sources[i]);
        each(whole_excerpt, sources[i]);
    }
    takes_little();
    return counted();
}
