/* What bindings/calls.h and bindings/whole.h do around the library's calls: which stack each call gets, what becomes of the
 * thread's signals, how many calls are made, and what is returned if no thread can be made.
 *
 * THREAD_LOCAL is how many bytes each thread has of its own. IS_EMULATED says that qemu-user runs the program: it blocks neither
 * signal 63 nor 64, and with pages of 64 KiB it doesn't show the first thread's stack. */
#define _GNU_SOURCE
#include "../../include/firthnapkin.h"
#include "checks.h"
#include <errno.h>
#include <pthread.h>
#include <signal.h>
#include <stdlib.h>
#include <string.h>
#ifdef __GLIBC__
#include <ucontext.h>
#endif

#ifndef THREAD_LOCAL
#define THREAD_LOCAL 1
#endif

/* The frames of this program between a look at the stack and the next. A sanitizer makes them larger. */
#ifdef __SANITIZE_ADDRESS__
enum { FRAMES = 8192 };
#else
enum { FRAMES = 4096 };
#endif

static __thread volatile char own[THREAD_LOCAL];

/* How many bytes of this thread's stack are left, found anew each time; 0 on a stack that the program made itself. */
static size_t left_here(void) {
    pthread_attr_t attributes;
    void *start;
    size_t size;
    char here;
    if (pthread_getattr_np(pthread_self(), &attributes) != 0 || pthread_attr_getstack(&attributes, &start, &size) != 0) abort();
    pthread_attr_destroy(&attributes);
    char *lowest = start;
    return lowest < &here && &here < lowest + size ? (size_t)(&here - lowest) : 0;
}

/* ---- What is seen at the library's calls */

static struct {
    pthread_t caller;
    int parses, values, types, measures, messages, excerpts, cuts, canonicals;
    /* Calls in another thread, those of them that got signals, and calls with too little stack. */
    int in_threads, with_signals, narrow;
} seen;

/* Whether a thread can't be made, and whether none can be asked for its stack. */
static int is_refused_thread, is_refused_look;

/* The signals that can be blocked here. */
static sigset_t blockable;

/* Finds them, and checks that they are all but SIGKILL, SIGSTOP, and those of the C library, which are before SIGRTMIN, and of
 * qemu-user. */
static void find_blockable(void) {
    sigset_t all, before;
    int last = SIGRTMAX;
    sigfillset(&all);
    pthread_sigmask(SIG_SETMASK, &all, &before);
    pthread_sigmask(SIG_SETMASK, &before, &blockable);
#ifdef IS_EMULATED
    last -= 2;
#endif
    for (int number = 1; number <= last; number++) {
        int is_kept = number == SIGKILL || number == SIGSTOP || (number >= 32 && number < SIGRTMIN);
        check(is_kept || sigismember(&blockable, number) == 1, "signal %d can't be blocked", number);
    }
}

static int all_are_blocked(void) {
    sigset_t mask;
    pthread_sigmask(SIG_SETMASK, NULL, &mask);
    for (int number = 1; number <= SIGRTMAX; number++)
        if (sigismember(&blockable, number) == 1 && sigismember(&mask, number) != 1) return 0;
    return 1;
}

/* Writes to as much of the stack as a call may take, from its top. */
static void use_stack(size_t size) {
    volatile char block[size];
    for (size_t i = size; i > 0; i -= i < 1024 ? i : 1024) block[i - 1] = 1;
    (void)block[0];
}

/* A call with a depth that is refused takes next to nothing. */
static void look(uint32_t depth) {
    size_t size = FIRTHNAPKIN_STACK_SIZE(depth <= FIRTHNAPKIN_MAX_DEPTH ? depth : 0);
    if (!pthread_equal(pthread_self(), seen.caller)) {
        seen.in_threads++;
        own[THREAD_LOCAL - 1] = 1;
        if (!all_are_blocked()) seen.with_signals++;
    }
    if (left_here() + FRAMES < size)
        seen.narrow++;
    else
        use_stack(size - FRAMES);
}

static uint32_t seen_parse(const uint8_t *source, size_t length, const firthnapkin_limits *limits, firthnapkin_node *nodes,
                           size_t nodes_capacity, size_t *nodes_length, uint8_t *texts, size_t texts_capacity,
                           size_t *texts_length, firthnapkin_error *error) {
    seen.parses++;
    look(limits->depth);
    return firthnapkin_parse(source, length, limits, nodes, nodes_capacity, nodes_length, texts, texts_capacity, texts_length,
                             error);
}

static uint32_t seen_parse_complexities(const uint8_t *source, size_t length, const firthnapkin_limits *limits,
                                        firthnapkin_node *nodes, size_t nodes_capacity, size_t *nodes_length, uint8_t *texts,
                                        size_t texts_capacity, size_t *texts_length, firthnapkin_complexity *complexities,
                                        size_t complexities_capacity, size_t *complexities_length, firthnapkin_error *error) {
    seen.measures++;
    look(limits->depth);
    return firthnapkin_parse_complexities(source, length, limits, nodes, nodes_capacity, nodes_length, texts, texts_capacity,
                                          texts_length, complexities, complexities_capacity, complexities_length, error);
}

static uint32_t seen_parse_value(const uint8_t *source, size_t length, uint32_t constant, const firthnapkin_limits *limits,
                                 firthnapkin_node *nodes, size_t nodes_capacity, size_t *nodes_length, uint8_t *texts,
                                 size_t texts_capacity, size_t *texts_length, firthnapkin_error *error) {
    seen.values++;
    look(limits->depth);
    return firthnapkin_parse_value(source, length, constant, limits, nodes, nodes_capacity, nodes_length, texts, texts_capacity,
                                   texts_length, error);
}

static uint32_t seen_parse_type(const uint8_t *source, size_t length, const firthnapkin_limits *limits, firthnapkin_node *nodes,
                                size_t nodes_capacity, size_t *nodes_length, uint8_t *texts, size_t texts_capacity,
                                size_t *texts_length, firthnapkin_error *error) {
    seen.types++;
    look(limits->depth);
    return firthnapkin_parse_type(source, length, limits, nodes, nodes_capacity, nodes_length, texts, texts_capacity,
                                  texts_length, error);
}

static uint32_t seen_message(const uint8_t *source, size_t length, const firthnapkin_error *error, uint8_t *buffer,
                             size_t buffer_capacity, size_t *buffer_length) {
    seen.messages++;
    look(0);
    return firthnapkin_message(source, length, error, buffer, buffer_capacity, buffer_length);
}

static uint32_t seen_excerpt(const uint8_t *source, size_t length, const firthnapkin_error *error, uint8_t *buffer,
                             size_t buffer_capacity, size_t *buffer_length) {
    seen.excerpts++;
    look(0);
    return firthnapkin_excerpt(source, length, error, buffer, buffer_capacity, buffer_length);
}

static uint32_t seen_tokens(const uint8_t *source, size_t length, uint32_t max_tokens, firthnapkin_token *tokens,
                            size_t tokens_capacity, size_t *tokens_length, firthnapkin_error *error) {
    seen.cuts++;
    look(0);
    return firthnapkin_tokens(source, length, max_tokens, tokens, tokens_capacity, tokens_length, error);
}

static uint32_t seen_canonical(const uint8_t *source, size_t length, uint8_t *buffer, size_t buffer_capacity,
                               size_t *buffer_length, firthnapkin_error *error) {
    seen.canonicals++;
    look(0);
    return firthnapkin_canonical(source, length, buffer, buffer_capacity, buffer_length, error);
}

static int create_thread(pthread_t *thread, const pthread_attr_t *attributes, void *(*run)(void *), void *argument) {
    return is_refused_thread ? EAGAIN : pthread_create(thread, attributes, run, argument);
}

static int get_attributes(pthread_t thread, pthread_attr_t *attributes) {
    return is_refused_look ? ENOMEM : pthread_getattr_np(thread, attributes);
}

/* The headers make their calls by these. */
#define firthnapkin_parse seen_parse
#define firthnapkin_parse_complexities seen_parse_complexities
#define firthnapkin_parse_value seen_parse_value
#define firthnapkin_parse_type seen_parse_type
#define firthnapkin_message seen_message
#define firthnapkin_excerpt seen_excerpt
#define firthnapkin_tokens seen_tokens
#define firthnapkin_canonical seen_canonical
#define pthread_create create_thread
#define pthread_getattr_np get_attributes
#include "../../bindings/whole.h"

/* ---- The sources, and how many calls of the library each takes */

typedef struct {
    const char *source;
    uint32_t depth, tokens, status;
    int parses, messages;
} parse_row;

/* Names of seven letters: with more than one node for four bytes a second call is needed. */
#define DEEPER "{abcdefg"
#define CLOSING "}"
#define TEN(text) text text text text text text text text text text
#define THOUSAND(text) TEN(TEN(TEN(text)))

static const parse_row PARSES[] = {
    {"{a}", 200, UINT32_MAX, FIRTHNAPKIN_OK, 1, 0},
    {"{a}", 200, 3, FIRTHNAPKIN_OK, 1, 0},
    {"{a}", 200, 2, FIRTHNAPKIN_TOO_MANY_TOKENS, 1, 1},
    {"{a}", 200, 0, FIRTHNAPKIN_TOO_MANY_TOKENS, 1, 1},
    {"{ a ) }", 200, UINT32_MAX, FIRTHNAPKIN_SYNTAX_ERROR, 1, 1},
    {"{a{b}}", 1, UINT32_MAX, FIRTHNAPKIN_TOO_DEEP, 1, 1},
    {"{\xff}", 200, UINT32_MAX, FIRTHNAPKIN_NOT_UTF8, 1, 0},
    {"{a}", 1001, UINT32_MAX, FIRTHNAPKIN_INVALID_LIMIT, 1, 0},
    /* As many nodes as a request of its length has: 25. */
    {"query Q($v: [T! ]! = [1, \"\\u00e9b\"] @d) { x: a(v: {k: 1.5, l: 99999999999, m: E, n: $v, o: true, p: null}) }", 200,
     UINT32_MAX, FIRTHNAPKIN_OK, 1, 0},
    /* A node for two bytes, texts as long as the source, and words of more than 256 bytes. */
    {"{" THOUSAND("a ") "}", 200, UINT32_MAX, FIRTHNAPKIN_OK, 2, 0},
    {"{a(b:\"" THOUSAND("c") "\")}", 200, UINT32_MAX, FIRTHNAPKIN_OK, 2, 0},
    {"query a " THOUSAND("b"), 200, UINT32_MAX, FIRTHNAPKIN_SYNTAX_ERROR, 1, 2},
    {THOUSAND(DEEPER) THOUSAND(CLOSING), 1000, UINT32_MAX, FIRTHNAPKIN_OK, 1, 0},
    {THOUSAND(DEEPER) "{b", 1000, UINT32_MAX, FIRTHNAPKIN_TOO_DEEP, 1, 1},
};

/* A source that is parsed as a value or as a type, and how many nodes and bytes of texts it has. */
typedef struct {
    parsed_as as;
    const char *source;
    uint32_t depth, tokens, status;
    size_t nodes, texts;
    int calls;
} literal_row;

#define ANY UINT32_MAX

static const literal_row LITERALS[] = {
    {AS_VALUE, "[1 $a]", 200, ANY, FIRTHNAPKIN_OK, 3, 0, 1},
    {AS_CONSTANT, "[1 $a]", 200, ANY, FIRTHNAPKIN_SYNTAX_ERROR, 0, 14, 1},
    {AS_CONSTANT, "[1 \"b\"]", 200, ANY, FIRTHNAPKIN_OK, 3, 1, 1},
    {AS_DOCUMENT, "{a}", 200, ANY, FIRTHNAPKIN_OK, 2, 0, 1},
    {AS_VALUE, "{a}", 200, ANY, FIRTHNAPKIN_SYNTAX_ERROR, 0, 14, 1},
    {AS_VALUE, "[1 2]", 200, 4, FIRTHNAPKIN_OK, 3, 0, 1},
    {AS_VALUE, "[1 2]", 200, 3, FIRTHNAPKIN_TOO_MANY_TOKENS, 0, 15, 1},
    {AS_VALUE, "[[1]]", 1, ANY, FIRTHNAPKIN_TOO_DEEP, 0, 17, 1},
    {AS_VALUE, "\xff", 200, ANY, FIRTHNAPKIN_NOT_UTF8, 0, 0, 1},
    {AS_VALUE, "1", 1001, ANY, FIRTHNAPKIN_INVALID_LIMIT, 0, 0, 1},
    {AS_TYPE, "[ ID! ]", 200, ANY, FIRTHNAPKIN_OK, 1, 5, 1},
    {AS_TYPE, "[ID", 200, ANY, FIRTHNAPKIN_SYNTAX_ERROR, 0, 23, 1},
    {AS_TYPE, "T!!", 200, 2, FIRTHNAPKIN_TOO_MANY_TOKENS, 0, 15, 1},
    {AS_TYPE, "[[T]]", 1, ANY, FIRTHNAPKIN_TOO_DEEP, 0, 17, 1},
    {AS_TYPE, "\xff", 200, ANY, FIRTHNAPKIN_NOT_UTF8, 0, 0, 1},
    {AS_TYPE, "T", 1001, ANY, FIRTHNAPKIN_INVALID_LIMIT, 0, 0, 1},
    {AS_VALUE, "[" THOUSAND("1 ") "]", 200, ANY, FIRTHNAPKIN_OK, 1001, 0, 2},
    {AS_CONSTANT, "\"" THOUSAND("c") "\"", 200, ANY, FIRTHNAPKIN_OK, 1, 1000, 2},
    {AS_VALUE, THOUSAND("[") THOUSAND("]"), 1000, ANY, FIRTHNAPKIN_OK, 1000, 0, 2},
    {AS_TYPE, THOUSAND("[") "T" THOUSAND("]"), 1000, ANY, FIRTHNAPKIN_OK, 1, 2001, 2},
};

typedef struct {
    const char *source;
    uint32_t status;
    size_t count;
    int calls, messages;
} text_row;

/* The last token is the source's end. */
static const text_row CUTS[] = {
    {"{a}", FIRTHNAPKIN_OK, 4, 1, 0},
    {"{" THOUSAND("abc ") "}", FIRTHNAPKIN_OK, 1003, 1, 0},
    {"{" THOUSAND("a ") "}", FIRTHNAPKIN_OK, 1003, 2, 0},
    {"{a ?", FIRTHNAPKIN_SYNTAX_ERROR, 2, 1, 1},
};

static const text_row CANONICALS[] = {
    {"{ a }", FIRTHNAPKIN_OK, 3, 1, 0},
    /* Longer than the source, by a space at each seam. */
    {"1a\"\"2b", FIRTHNAPKIN_OK, 10, 2, 0},
    {"{ a ?", FIRTHNAPKIN_SYNTAX_ERROR, 20, 1, 1},
};

/* ---- Each of them, with as much stack as there is */

typedef enum { SOME, NONE, ALL } threads;

static int same_mask(const sigset_t *a, const sigset_t *b) {
    for (int number = 1; number <= SIGRTMAX; number++)
        if (sigismember(a, number) != sigismember(b, number)) return 0;
    return 1;
}

static void begin(void) {
    memset(&seen, 0, sizeof seen);
    seen.caller = pthread_self();
}

/* What holds after each call, whatever it was. */
static void check_seen(const char *where, const char *source, threads wanted, const sigset_t *before) {
    sigset_t after;
    pthread_sigmask(SIG_SETMASK, NULL, &after);
    int calls =
        seen.parses + seen.values + seen.types + seen.measures + seen.messages + seen.excerpts + seen.cuts + seen.canonicals;
    check(seen.narrow == 0, "%s: %d calls with too little stack, for %.20s", where, seen.narrow, source);
    check(seen.with_signals == 0, "%s: %d calls with signals, for %.20s", where, seen.with_signals, source);
    check(wanted == SOME || seen.in_threads == (wanted == ALL ? calls : 0), "%s: %d of %d calls in threads, for %.20s", where,
          seen.in_threads, calls, source);
    check(same_mask(before, &after), "%s: the signals that are blocked after a call, for %.20s", where, source);
}

static whole parsed(parse_row row) {
    firthnapkin_limits limits = {.depth = row.depth, .tokens = row.tokens};
    return parse_whole((const uint8_t *)row.source, strlen(row.source), &limits);
}

static void parse_rows(const char *where, threads wanted, const sigset_t *mask) {
    for (size_t i = 0; i < sizeof PARSES / sizeof *PARSES; i++) {
        parse_row row = PARSES[i];
        begin();
        whole w = parsed(row);
        check(w.status == row.status, "%s: %u is returned for %.20s", where, w.status, row.source);
        check(seen.parses == row.parses && seen.messages == row.messages, "%s: %d parses and %d messages, for %.20s", where,
              seen.parses, seen.messages, row.source);
        check_seen(where, row.source, wanted, mask);
        give_back(&w);
    }
}

static void literal_rows(const char *where, threads wanted, const sigset_t *mask) {
    for (size_t i = 0; i < sizeof LITERALS / sizeof *LITERALS; i++) {
        literal_row row = LITERALS[i];
        firthnapkin_limits limits = {.depth = row.depth, .tokens = row.tokens};
        begin();
        whole w = whole_as(row.as, (const uint8_t *)row.source, strlen(row.source), &limits);
        check(w.status == row.status && w.nodes_count == row.nodes && w.texts_count == row.texts,
              "%s: %u, %zu nodes and %zu bytes for %.20s", where, w.status, w.nodes_count, w.texts_count, row.source);
        int is_document = row.as == AS_DOCUMENT, is_type = row.as == AS_TYPE;
        check(seen.parses == is_document * row.calls && seen.types == is_type * row.calls
                  && seen.values == !is_document * !is_type * row.calls && seen.messages == has_error(row.status),
              "%s: %d, %d and %d calls, for %.20s", where, seen.parses, seen.values, seen.types, row.source);
        check_seen(where, row.source, wanted, mask);
        give_back(&w);
    }
}

static void text_rows(const char *where, threads wanted, const sigset_t *mask) {
    for (size_t i = 0; i < sizeof CUTS / sizeof *CUTS; i++) {
        text_row row = CUTS[i];
        begin();
        whole w = cut_whole((const uint8_t *)row.source, strlen(row.source), UINT32_MAX);
        check(w.status == row.status && w.tokens_count == row.count && seen.cuts == row.calls && seen.messages == row.messages,
              "%s: %u, %zu tokens by %d calls, for %.20s", where, w.status, w.tokens_count, seen.cuts, row.source);
        check_seen(where, row.source, wanted, mask);
        give_back(&w);
    }
    for (size_t i = 0; i < sizeof CANONICALS / sizeof *CANONICALS; i++) {
        text_row row = CANONICALS[i];
        begin();
        whole w = canonical_whole((const uint8_t *)row.source, strlen(row.source));
        check(w.status == row.status && (row.messages != 0 || w.texts_count == row.count) && seen.canonicals == row.calls
                  && seen.messages == row.messages,
              "%s: %u, %zu bytes by %d calls, for %.20s", where, w.status, w.texts_count, seen.canonicals, row.source);
        check_seen(where, row.source, wanted, mask);
        give_back(&w);
    }
}

/* Sources within limits on the fields of an operation, and on how deep these are; or the numbers alone if there are none. */
typedef struct {
    const char *source;
    uint32_t depth, fields, levels, status;
    size_t count;
    int calls, messages;
    uint32_t byte;
    const char *words;
} measure_row;

static const measure_row MEASURES[] = {
    {"{a}", 200, 1, 1, FIRTHNAPKIN_OK, 1, 1, 0, 0, ""},
    {"{a}", 200, 0, UINT32_MAX, OPERATION_TOO_LARGE, 1, 1, 0, 0,
     "Too many fields in an operation without a name: 1, with a limit of 0"},
    {"query A {b} # \xc3\xa9\nquery C { a {b} }", 200, 2, 1, OPERATION_TOO_LARGE, 2, 1, 0, 17,
     "Too many levels of fields in operation \"C\": 2, with a limit of 1"},
    {"query A {b} query C { a b }", 200, 1, 9, OPERATION_TOO_LARGE, 2, 1, 0, 12,
     "Too many fields in operation \"C\": 2, with a limit of 1"},
    {"{...A}", 200, 0, 0, FIRTHNAPKIN_UNKNOWN_FRAGMENT, 0, 1, 1, 1, "Unknown fragment"},
    {"{...A} fragment A on T {...A}", 200, 9, 9, FIRTHNAPKIN_FRAGMENT_CYCLE, 0, 1, 1, 24, "Fragment spread within itself"},
    {"{a{b}}", 1, 1, 1, FIRTHNAPKIN_TOO_DEEP, 0, 1, 1, 2, "Too deeply nested"},
    {"{ a b ) }", 200, 1, 1, FIRTHNAPKIN_SYNTAX_ERROR, 0, 1, 1, 6, "Unexpected \")\""},
    {"fragment A on T {...A}", 200, 0, 0, FIRTHNAPKIN_OK, 0, 1, 0, 0, ""},
    /* More operations than are expected, and more nodes and texts. */
    {THOUSAND("{a}"), 200, 1, 1, FIRTHNAPKIN_OK, 1000, 2, 0, 0, ""},
    {THOUSAND("{a}") "{a b}", 200, 1, 1, OPERATION_TOO_LARGE, 1001, 2, 0, 3000,
     "Too many fields in an operation without a name: 2, with a limit of 1"},
    {"{a(b:\"" THOUSAND("c") "\")}", 200, 1, 1, FIRTHNAPKIN_OK, 1, 2, 0, 0, ""},
    {THOUSAND(DEEPER) THOUSAND(CLOSING), 1000, 1000, 1000, FIRTHNAPKIN_OK, 1, 1, 0, 0, ""},
};

static void measure_rows(const char *where, threads wanted, const sigset_t *mask) {
    for (size_t i = 0; i < sizeof MEASURES / sizeof *MEASURES; i++) {
        measure_row row = MEASURES[i];
        firthnapkin_limits limits = {.depth = row.depth, .tokens = UINT32_MAX};
        size_limits sizes = {{row.fields, UINT32_MAX, UINT32_MAX, UINT32_MAX, row.levels}};
        begin();
        whole w = document_whole((const uint8_t *)row.source, strlen(row.source), &limits, &sizes);
        int has_nodes = w.status == FIRTHNAPKIN_OK || w.status == OPERATION_TOO_LARGE;
        check(w.status == row.status && (w.nodes_count > 0) == has_nodes && w.complexities_count == row.count,
              "%s: %u, %zu nodes and %zu numbers for %.20s", where, w.status, w.nodes_count, w.complexities_count, row.source);
        check(seen.measures == row.calls && seen.parses == 0 && seen.messages == row.messages, "%s: %d calls for %.20s", where,
              seen.measures, row.source);
        check(row.words[0] == 0
                  || (w.error.start.byte == row.byte && w.texts_count == strlen(row.words)
                      && !memcmp(w.texts, row.words, w.texts_count)),
              "%s: the words for %.20s: %.*s", where, row.source, (int)w.texts_count, w.texts);
        check_seen(where, row.source, wanted, mask);
        give_back(&w);
    }
}

/* The numbers alone: whatever the depth, and with as many calls as the number of operations needs. */
static void complexity_rows(const char *where, threads wanted, const sigset_t *mask) {
    static const measure_row rows[] = {
        {"{a{b}}", 0, 2, 2, FIRTHNAPKIN_OK, 1, 1, 0, 0, ""},
        {"fragment A on T {...A}", 0, 0, 0, FIRTHNAPKIN_OK, 0, 1, 0, 0, ""},
        {THOUSAND("{a}"), 0, 1, 1, FIRTHNAPKIN_OK, 1000, 2, 0, 0, ""},
        {THOUSAND(DEEPER) THOUSAND(CLOSING), 0, 1000, 1000, FIRTHNAPKIN_OK, 1, 1, 0, 0, ""},
        {"{...A}", 0, 0, 0, FIRTHNAPKIN_UNKNOWN_FRAGMENT, 0, 1, 1, 1, ""},
        {"{...A} fragment A on T {...A}", 0, 0, 0, FIRTHNAPKIN_FRAGMENT_CYCLE, 0, 1, 1, 24, ""},
        {"{ a ) }", 0, 0, 0, FIRTHNAPKIN_SYNTAX_ERROR, 0, 1, 1, 4, ""},
    };
    for (size_t i = 0; i < sizeof rows / sizeof *rows; i++) {
        measure_row row = rows[i];
        begin();
        whole w = complexities_whole((const uint8_t *)row.source, strlen(row.source));
        check(w.status == row.status && w.nodes_count == 0 && w.complexities_count == row.count && seen.measures == row.calls
                  && seen.messages == row.messages && (row.messages == 0 || w.error.start.byte == row.byte),
              "%s: %u, %zu numbers by %d calls for %.20s", where, w.status, w.complexities_count, seen.measures, row.source);
        for (size_t k = 0; k < row.count; k++)
            check(w.complexities[k].fields == row.fields && w.complexities[k].depth == row.levels, "%s: numbers of %.20s",
                  where, row.source);
        check_seen(where, row.source, wanted, mask);
        give_back(&w);
    }
}

/* Without a limit a source is only parsed. The largest number is no limit, and each number has its own. */
static void size_rows(const char *where) {
    static const char source[] = "query Q @d { x: a { y: b c } z: e { f } ...F } fragment F on T { g: a { h } }";
    static const char *const names[] = {"fields", "aliases", "directives", "root fields", "levels of fields"};
    static const uint32_t numbers[] = {7, 4, 1, 3, 2};
    const firthnapkin_limits limits = FIRTHNAPKIN_LIMITS_DEFAULT;
    for (size_t i = 0; i < SIZES; i++) {
        for (uint32_t limit = 0; limit <= 8; limit++) {
            char words[80];
            size_limits sizes;
            memset(&sizes, 0xFF, sizeof sizes);
            if (limit < 8) sizes.most[i] = limit;
            begin();
            whole w = document_whole((const uint8_t *)source, strlen(source), &limits, &sizes);
            int is_large = limit < numbers[i];
            snprintf(words, sizeof words, "Too many %s in operation \"Q\": %u, with a limit of %u", names[i], numbers[i],
                     limit);
            check(w.status == (is_large ? OPERATION_TOO_LARGE : FIRTHNAPKIN_OK) && seen.measures == (limit < 8)
                      && seen.parses == (limit == 8),
                  "%s: %u for %u %s", where, w.status, limit, names[i]);
            check(!is_large || (w.texts_count == strlen(words) && !memcmp(w.texts, words, w.texts_count)),
                  "%s: the words of %u %s", where, limit, names[i]);
            give_back(&w);
        }
    }
}

/* An excerpt of a line that is longer than the first buffer, and of one that isn't. */
static void excerpt_rows(const char *where, threads wanted, const sigset_t *mask) {
    static const text_row rows[] = {
        {"{ a ) }", FIRTHNAPKIN_OK, 11 + 1 + 9, 1, 0},
        {"{" THOUSAND("\xc3\xa9") "\n" THOUSAND("\xc3\xa9"), FIRTHNAPKIN_OK, 0, 2, 0},
    };
    for (size_t i = 0; i < sizeof rows / sizeof *rows; i++) {
        begin();
        whole w = excerpt_whole((const uint8_t *)rows[i].source, strlen(rows[i].source), i == 0 ? 4 : 101);
        check(w.status == rows[i].status && (i != 0 || w.texts_count == rows[i].count) && seen.excerpts == rows[i].calls,
              "%s: %u, %zu bytes by %d calls, for %.20s", where, w.status, w.texts_count, seen.excerpts, rows[i].source);
        check_seen(where, rows[i].source, wanted, mask);
        give_back(&w);
    }
}

static void has_words(const char *where, whole w, uint32_t status, uint32_t byte, const char *words) {
    check(w.status == status && w.error.start.byte == byte && w.texts_count == strlen(words)
              && !memcmp(w.texts, words, w.texts_count),
          "%s: %u at %u, %.*s, and not %s", where, w.status, w.error.start.byte, (int)w.texts_count, w.texts, words);
    give_back(&w);
}

/* The words of each call's error, and the lines about a byte. */
static void words_rows(const char *where) {
    const uint8_t *source = (const uint8_t *)"{ a ) ?";
    const firthnapkin_limits few = {.depth = 200, .tokens = 2}, shallow = {.tokens = UINT32_MAX},
                             unknown = {.depth = 200, .reserved = {0, 1}};
    has_words(where, parse_whole(source, 7, &few), FIRTHNAPKIN_TOO_MANY_TOKENS, 4, "Too many tokens");
    has_words(where, parse_whole(source, 5, &shallow), FIRTHNAPKIN_TOO_DEEP, 0, "Too deeply nested");
    has_words(where, parse_whole(source, 5, &unknown), FIRTHNAPKIN_INVALID_LIMIT, 0, "");
    has_words(where, parsed((parse_row){"{ a )", 200, UINT32_MAX, 0, 0, 0}), FIRTHNAPKIN_SYNTAX_ERROR, 4, "Unexpected \")\"");
    has_words(where, whole_as(AS_CONSTANT, (const uint8_t *)"{a: $b}", 7, &(firthnapkin_limits)FIRTHNAPKIN_LIMITS_DEFAULT),
              FIRTHNAPKIN_SYNTAX_ERROR, 4, "Unexpected \"$\"");
    has_words(where, cut_whole(source, 7, 2), FIRTHNAPKIN_TOO_MANY_TOKENS, 4, "Too many tokens");
    has_words(where, cut_whole(source, 7, 3), FIRTHNAPKIN_SYNTAX_ERROR, 6, "Unknown character \"?\"");
    has_words(where, canonical_whole(source, 7), FIRTHNAPKIN_SYNTAX_ERROR, 6, "Unknown character \"?\"");
    has_words(where, excerpt_whole(source, 7, 4), FIRTHNAPKIN_OK, 4, "1 | { a ) ?\n  |     ^");
    has_words(where, excerpt_whole(source, 7, 8), FIRTHNAPKIN_INVALID_ERROR, 8, "");
}

/* A check in a frame of its own: each has an array, and little of a stack may be left. */
__attribute__((noinline)) static whole checked(const char *source, const firthnapkin_limits *limits, const size_limits *sizes) {
    return check_whole((const uint8_t *)source, strlen(source), limits, sizes);
}

/* What a check finds, and its words: those of an operation past a limit are of the first one that is. */
static void check_rows(const char *where, threads wanted, const sigset_t *mask) {
    static const char source[] = "{a} query Q {b c} query R {d e f}";
    const firthnapkin_limits limits = FIRTHNAPKIN_LIMITS_DEFAULT, few = {.depth = 200, .tokens = 2};
    const size_limits none = {{UINT32_MAX, UINT32_MAX, UINT32_MAX, UINT32_MAX, UINT32_MAX}};
    size_limits sizes = none;
    for (uint32_t most = 1; most <= 4; most++) {
        sizes.most[0] = most < 4 ? most : UINT32_MAX;
        begin();
        whole w = checked(source, &limits, &sizes);
        int is_large = most < 3;
        check(w.status == (is_large ? OPERATION_TOO_LARGE : FIRTHNAPKIN_OK) && seen.measures == (most < 4)
                  && seen.parses == (is_large || most == 4) && seen.messages == 0 && (is_large || w.texts_count == 0),
              "%s: a check within %u fields: %u", where, most, w.status);
        check_seen(where, source, wanted, mask);
        if (is_large)
            has_words(where, w, OPERATION_TOO_LARGE, most == 1 ? 4 : 18,
                      most == 1 ? "Too many fields in operation \"Q\": 2, with a limit of 1"
                                : "Too many fields in operation \"R\": 3, with a limit of 2");
        else
            give_back(&w);
    }
    sizes.most[0] = 9;
    has_words(where, checked("{ a ) }", &limits, &none), FIRTHNAPKIN_SYNTAX_ERROR, 4, "Unexpected \")\"");
    has_words(where, checked("{ a ) }", &few, &sizes), FIRTHNAPKIN_TOO_MANY_TOKENS, 4, "Too many tokens");
    has_words(where, checked("{...A}", &limits, &sizes), FIRTHNAPKIN_UNKNOWN_FRAGMENT, 1, "Unknown fragment");
}

static void all_rows(const char *where, threads wanted) {
    sigset_t mask;
    pthread_sigmask(SIG_SETMASK, NULL, &mask);
    parse_rows(where, wanted, &mask);
    literal_rows(where, wanted, &mask);
    measure_rows(where, wanted, &mask);
    complexity_rows(where, wanted, &mask);
    size_rows(where);
    text_rows(where, wanted, &mask);
    excerpt_rows(where, wanted, &mask);
    words_rows(where);
    check_rows(where, wanted, &mask);
}

/* ---- Where they are made */

/* Deep in a thread's stack, of which so many bytes are left. */
typedef struct {
    size_t left;
    threads wanted;
} depth_of_stack;

/* Calls with so many bytes of this thread's stack left. */
static void descend(size_t left, void (*run)(const depth_of_stack *), const depth_of_stack *argument) {
    volatile char taken[left_here() - left];
    taken[0] = 0;
    run(argument);
    /* What is used after the call is on the stack meanwhile. */
    taken[0] = taken[0] + 1;
}

static void rows_at(const depth_of_stack *d) {
    char where[40];
    snprintf(where, sizeof where, "%zu bytes left", d->left);
    /* One signal is blocked, the others are not. */
    sigset_t one;
    sigemptyset(&one);
    sigaddset(&one, SIGUSR1);
    pthread_sigmask(SIG_SETMASK, &one, NULL);
    all_rows(where, d->wanted);
}

static void *deep(void *argument) {
    const depth_of_stack *d = argument;
    descend(d->left, rows_at, d);
    return NULL;
}

static void in_thread(void *(*run)(void *), void *argument) {
    pthread_attr_t attributes;
    pthread_t thread;
    size_t size = FIRTHNAPKIN_STACK_SIZE(FIRTHNAPKIN_MAX_DEPTH) + THREAD_LOCAL + (1 << 18);
    if (pthread_attr_init(&attributes) || pthread_attr_setstacksize(&attributes, size)
        || pthread_create(&thread, &attributes, run, argument) || pthread_join(thread, NULL))
        abort();
    pthread_attr_destroy(&attributes);
}

static void deep_in_stacks(void) {
    const depth_of_stack depths[] = {
        {20000, ALL},
        {FIRTHNAPKIN_STACK_SIZE(0) - 1000, ALL},
        {FIRTHNAPKIN_STACK_SIZE(0) + 2 * FRAMES, SOME},
        {FIRTHNAPKIN_STACK_SIZE(200) - 1000, SOME},
        {FIRTHNAPKIN_STACK_SIZE(200) + 2 * FRAMES, SOME},
        {FIRTHNAPKIN_STACK_SIZE(FIRTHNAPKIN_MAX_DEPTH) - 1000, SOME},
        {FIRTHNAPKIN_STACK_SIZE(FIRTHNAPKIN_MAX_DEPTH) + 2 * FRAMES, NONE},
    };
    for (size_t i = 0; i < sizeof depths / sizeof *depths; i++) {
        depth_of_stack d = depths[i];
        in_thread(deep, &d);
    }
}

/* On a stack that the program made, whose bounds no thread knows. musl has no calls that change stacks. */
#ifdef __GLIBC__
static ucontext_t outside, inside;

static void on_own_stack(void) {
    check(stack_left() == 0, "%zu bytes are left of a stack that the program made", stack_left());
    all_rows("a stack of the program's", ALL);
}

static void on_stack_of_program(void) {
    size_t size = 1 << 20;
    char *stack = malloc(size);
    if (stack == NULL || getcontext(&inside)) abort();
    inside.uc_stack.ss_sp = stack;
    inside.uc_stack.ss_size = size;
    inside.uc_link = &outside;
    makecontext(&inside, on_own_stack, 0);
    if (swapcontext(&outside, &inside)) abort();
    free(stack);
}
#else
static void on_stack_of_program(void) {
}
#endif

/* ---- If no thread can be made, or its stack isn't known */

static int never_made;

static void never(void *argument) {
    (void)argument;
    never_made++;
}

static void no_calls(const depth_of_stack *d) {
    sigset_t before;
    pthread_sigmask(SIG_SETMASK, NULL, &before);
    for (size_t i = 0; i < sizeof PARSES / sizeof *PARSES; i++) {
        begin();
        whole w = parsed(PARSES[i]);
        check(w.status == FIRTHNAPKIN_OUT_OF_MEMORY && w.nodes_count == 0 && w.texts_count == 0,
              "%u is returned without a stack", w.status);
        check(seen.parses + seen.messages == 0, "a call is made without a stack, for %.20s", PARSES[i].source);
        check_seen("no stack", PARSES[i].source, d->wanted, &before);
        give_back(&w);
    }
    whole w = cut_whole((const uint8_t *)"{a}", 3, UINT32_MAX);
    check(w.status == FIRTHNAPKIN_OUT_OF_MEMORY && w.tokens_count == 0, "%u is returned without a stack, by a cut", w.status);
    give_back(&w);
    w = canonical_whole((const uint8_t *)"{a}", 3);
    check(w.status == FIRTHNAPKIN_OUT_OF_MEMORY && w.texts_count == 0, "%u is returned without a stack, by a canonical text",
          w.status);
    give_back(&w);
    w = excerpt_whole((const uint8_t *)"{a}", 3, 0);
    check(w.status == FIRTHNAPKIN_OUT_OF_MEMORY && w.texts_count == 0, "%u is returned without a stack, by an excerpt",
          w.status);
    give_back(&w);
}

static void *without_threads(void *argument) {
    const depth_of_stack d = {16000, NONE};
    (void)argument;
    is_refused_thread = 1;
    descend(d.left, no_calls, &d);
    is_refused_thread = 0;
    run_on_stack((size_t)1 << 60, never, NULL);
    check(never_made == 0, "a call is made on a stack of 2^60 bytes");
    return NULL;
}

static void *without_looks(void *argument) {
    const depth_of_stack d = {0, NONE};
    (void)argument;
    is_refused_look = 1;
    no_calls(&d);
    is_refused_look = 0;
    all_rows("a thread whose stack wasn't known before", NONE);
    return NULL;
}

/* Which calls from the first thread are made in another one: none if it knows its stack. To musl its stack is what was used of it. */
static threads from_first_thread(void) {
#ifndef __GLIBC__
    return SOME;
#else
#ifdef IS_EMULATED
    pthread_attr_t attributes;
    if (pthread_getattr_np(pthread_self(), &attributes) != 0) return ALL;
    pthread_attr_destroy(&attributes);
#endif
    return NONE;
#endif
}

int main(void) {
    own[0] = 1;
    find_blockable();
    all_rows("the first thread", from_first_thread());
    deep_in_stacks();
    on_stack_of_program();
    in_thread(without_threads, NULL);
    in_thread(without_looks, NULL);
    return counted();
}
