/* Checks of sources, which write no nodes: the library's calls with null pointers and capacities of 0, and bindings/check.h over
 * them. Documents, each kind of error, limits on operations and one less, and more operations than there is room for. */
#define _GNU_SOURCE
#include "../../bindings/check.h"
#include "checks.h"
#include "memory.h"

#define NONE UINT32_MAX
#define DEFAULT FIRTHNAPKIN_LIMITS_DEFAULT

static const size_limits NO_SIZES = {{NONE, NONE, NONE, NONE, NONE}};

/* ---- the library's calls */

/* Sources that are documents within a depth of 2 and 20 tokens, with how many nodes, bytes of texts and operations they have. */
static const struct {
    const char *source;
    size_t nodes, texts, operations;
} DOCUMENTS[] = {
    {"{a}", 2, 0, 1},
    {"# \xc3\xa9\n{ a(b: \"\xc3\xa9\") }", 5, 2, 1},
    {"query A { a } query B { b { c } }", 5, 0, 2},
    {"fragment F on T { a }", 2, 0, 0},
    {"mutation ($v: [ T ! ]) { x: a }", 6, 4, 1},
    {"{a}{a}{a}{a}{a}{a}", 12, 0, 6},
};

/* Sources that aren't, with the status, the kind and the detail of the error, and the byte where it begins. */
static const struct {
    const char *source;
    uint32_t status, kind, detail, byte;
} OTHERS[] = {
    {"{ a ) }", FIRTHNAPKIN_SYNTAX_ERROR, FIRTHNAPKIN_ERROR_UNEXPECTED_TOKEN, 0, 4},
    {"", FIRTHNAPKIN_SYNTAX_ERROR, FIRTHNAPKIN_ERROR_UNEXPECTED_END, 0, 0},
    {"{ \xc3\xa9", FIRTHNAPKIN_SYNTAX_ERROR, FIRTHNAPKIN_ERROR_LEXICAL, FIRTHNAPKIN_DETAIL_UNKNOWN_CHARACTER, 2},
    {"{ a(b: 01) }", FIRTHNAPKIN_SYNTAX_ERROR, FIRTHNAPKIN_ERROR_LEXICAL, FIRTHNAPKIN_DETAIL_UNEXPECTED_CHARACTER, 8},
    {"{ a(b: \"c\n\") }", FIRTHNAPKIN_SYNTAX_ERROR, FIRTHNAPKIN_ERROR_LEXICAL, FIRTHNAPKIN_DETAIL_UNTERMINATED_STRING, 9},
    {"{ a(b: \"\\q\") }", FIRTHNAPKIN_SYNTAX_ERROR, FIRTHNAPKIN_ERROR_LEXICAL, FIRTHNAPKIN_DETAIL_UNKNOWN_ESCAPE, 9},
    {"{ a { b { c } } }", FIRTHNAPKIN_TOO_DEEP, FIRTHNAPKIN_ERROR_TOO_DEEP, 0, 8},
    {"{a a a a a a a a a a a a a a a a a a a a", FIRTHNAPKIN_TOO_MANY_TOKENS, FIRTHNAPKIN_ERROR_TOO_MANY_TOKENS, 0, 39},
    {"{ a } \xff", FIRTHNAPKIN_NOT_UTF8, 0, 0, 0},
};

/* Documents of which an operation can't be expanded. */
static const struct {
    const char *source;
    uint32_t status, kind, byte;
} SPREADS[] = {
    {"{ a ...F }", FIRTHNAPKIN_UNKNOWN_FRAGMENT, FIRTHNAPKIN_ERROR_UNKNOWN_FRAGMENT, 4},
    {"{ ...F } fragment F on T { a ...F }", FIRTHNAPKIN_FRAGMENT_CYCLE, FIRTHNAPKIN_ERROR_FRAGMENT_CYCLE, 29},
};

static const firthnapkin_limits NARROW = {.depth = 2, .tokens = 20};

/* What a call without room for nodes and texts returns. */
typedef struct {
    uint32_t status;
    size_t nodes, texts, operations;
    firthnapkin_error error;
} answer;

static answer parsed(const char *source, firthnapkin_limits limits) {
    answer a = {.nodes = 99, .texts = 99};
    memset(&a.error, CANARY, sizeof a.error);
    a.status =
        firthnapkin_parse((const uint8_t *)source, strlen(source), &limits, NULL, 0, &a.nodes, NULL, 0, &a.texts, &a.error);
    return a;
}

static answer weighed(const char *source, firthnapkin_limits limits, firthnapkin_complexity *complexities, size_t capacity) {
    answer a = {.nodes = 99, .texts = 99, .operations = 99};
    memset(&a.error, CANARY, sizeof a.error);
    a.status = firthnapkin_parse_complexities((const uint8_t *)source, strlen(source), &limits, NULL, 0, &a.nodes, NULL, 0,
                                              &a.texts, complexities, capacity, &a.operations, &a.error);
    return a;
}

/* Whether there is no error. */
static int has_none(const answer *a) {
    return are_canaries(&a->error, sizeof a->error);
}

static int has(const answer *a, uint32_t kind, uint32_t detail, uint32_t byte) {
    return a->error.kind == kind && a->error.detail == detail && a->error.start.byte == byte;
}

static void documents(void) {
    for (size_t i = 0; i < sizeof DOCUMENTS / sizeof *DOCUMENTS; i++) {
        const char *source = DOCUMENTS[i].source;
        answer a = parsed(source, NARROW);
        check(a.status == FIRTHNAPKIN_BUFFER_TOO_SMALL && has_none(&a), "%s: %u", source, a.status);
        check(a.nodes == DOCUMENTS[i].nodes && a.texts == DOCUMENTS[i].texts, "%s: %zu and %zu", source, a.nodes, a.texts);
        a = weighed(source, NARROW, NULL, 0);
        check(a.status == FIRTHNAPKIN_BUFFER_TOO_SMALL && has_none(&a), "%s with complexities: %u", source, a.status);
        check(a.operations == DOCUMENTS[i].operations && a.nodes == DOCUMENTS[i].nodes, "%s: %zu", source, a.operations);
    }
}

static void others(void) {
    for (size_t i = 0; i < sizeof OTHERS / sizeof *OTHERS; i++) {
        answer a = parsed(OTHERS[i].source, NARROW), b = weighed(OTHERS[i].source, NARROW, NULL, 0);
        int is_read = OTHERS[i].status != FIRTHNAPKIN_NOT_UTF8;
        check(a.status == OTHERS[i].status && b.status == a.status, "%s: %u and %u", OTHERS[i].source, a.status, b.status);
        check(is_read ? has(&a, OTHERS[i].kind, OTHERS[i].detail, OTHERS[i].byte) : has_none(&a), "%s: at %u", OTHERS[i].source,
              a.error.start.byte);
        check(!memcmp(&a.error, &b.error, sizeof a.error), "%s: both errors", OTHERS[i].source);
        check(a.nodes == 0 && a.texts == 0 && b.operations == 0, "%s: lengths", OTHERS[i].source);
    }
    firthnapkin_limits invalid = {.depth = FIRTHNAPKIN_MAX_DEPTH + 1, .tokens = NONE};
    check(parsed("{a}", invalid).status == FIRTHNAPKIN_INVALID_LIMIT, "a depth of 1001");
}

static void spreads(void) {
    for (size_t i = 0; i < sizeof SPREADS / sizeof *SPREADS; i++) {
        answer a = weighed(SPREADS[i].source, NARROW, NULL, 0);
        check(a.status == SPREADS[i].status && has(&a, SPREADS[i].kind, 0, SPREADS[i].byte), "%s: %u at %u", SPREADS[i].source,
              a.status, a.error.start.byte);
        check(parsed(SPREADS[i].source, NARROW).status == FIRTHNAPKIN_BUFFER_TOO_SMALL, "%s is a document", SPREADS[i].source);
    }
}

/* Six operations, each of one field, into room for fewer, for all and for more. */
static void growth(void) {
    for (size_t capacity = 0; capacity <= 8; capacity++) {
        firthnapkin_complexity *complexities = (firthnapkin_complexity *)canaries(8 * sizeof *complexities);
        size_t written = capacity < 6 ? capacity : 6;
        answer a = weighed("{a}{a}{a}{a}{a}{a}", NARROW, complexities, capacity);
        check(a.status == FIRTHNAPKIN_BUFFER_TOO_SMALL && a.operations == 6, "%zu: %u, %zu", capacity, a.status, a.operations);
        for (size_t i = 0; i < written; i++)
            check(complexities[i].definition == 2 * i && complexities[i].fields == 1, "operation %zu of %zu", i, capacity);
        check(are_canaries(complexities + written, (8 - written) * sizeof *complexities), "what is after %zu", capacity);
        free(complexities);
    }
}

/* ---- bindings/check.h */

static uint32_t status_of(const char *source, firthnapkin_limits limits, size_limits sizes) {
    return check_source((const uint8_t *)source, strlen(source), &limits, &sizes).status;
}

/* One limit on operations. */
static size_limits only(size_t number, uint32_t most) {
    size_limits sizes = NO_SIZES;
    sizes.most[number] = most;
    return sizes;
}

/* With limits on operations and without any, what the library finds. */
static void statuses(void) {
    const size_limits each[] = {NO_SIZES, {{20, 20, 20, 20, 20}}};
    for (int i = 0; i < 2; i++) {
        for (size_t k = 0; k < sizeof DOCUMENTS / sizeof *DOCUMENTS; k++)
            check(status_of(DOCUMENTS[k].source, NARROW, each[i]) == FIRTHNAPKIN_OK, "%s, checked", DOCUMENTS[k].source);
        for (size_t k = 0; k < sizeof OTHERS / sizeof *OTHERS; k++) {
            const char *source = OTHERS[k].source;
            finding found = check_source((const uint8_t *)source, strlen(source), &NARROW, &each[i]);
            check(found.status == OTHERS[k].status && found.error.kind == OTHERS[k].kind
                      && found.error.start.byte == OTHERS[k].byte,
                  "%s, checked: %u at %u", source, found.status, found.error.start.byte);
        }
        for (size_t k = 0; k < sizeof SPREADS / sizeof *SPREADS; k++)
            check(status_of(SPREADS[k].source, NARROW, each[i]) == (i ? SPREADS[k].status : (uint32_t)FIRTHNAPKIN_OK),
                  "%s, checked", SPREADS[k].source);
    }
}

/* An operation's numbers, which all differ, are allowed, and one less is not. */
static void limits(void) {
    static const char *source = "query A @d { x: a { y: b c } ...F z: e { ...G @d } }\nfragment F on T @d { g: a { h } }\n"
                                "query B { i: a }\nfragment G on T { j: a @d }";
    static const uint32_t numbers[SIZES] = {7, 5, 4, 3, 2};
    for (size_t i = 0; i < SIZES; i++) {
        check(status_of(source, (firthnapkin_limits)DEFAULT, only(i, numbers[i])) == FIRTHNAPKIN_OK, "%s", size_name(i));
        check(status_of(source, (firthnapkin_limits)DEFAULT, only(i, numbers[i] - 1)) == OPERATION_TOO_LARGE, "%s less one",
              size_name(i));
        check(status_of(source, (firthnapkin_limits)DEFAULT, only(i, NONE - 1)) == FIRTHNAPKIN_OK, "any %s", size_name(i));
        check(status_of(source, (firthnapkin_limits)DEFAULT, only(i, 0)) == OPERATION_TOO_LARGE, "no %s", size_name(i));
    }
}

/* So many operations, of which one has two fields. */
static void many(size_t count, size_t large) {
    char *source = malloc(4 * count + 3), *at = source;
    if (source == NULL) abort();
    for (size_t i = 0; i < count; i++) at = stpcpy(at, i == large ? "{a b}" : "{a}");
    check(status_of(source, (firthnapkin_limits)DEFAULT, only(0, 1)) == OPERATION_TOO_LARGE, "%zu of %zu", large, count);
    check(status_of(source, (firthnapkin_limits)DEFAULT, only(0, 2)) == FIRTHNAPKIN_OK, "%zu operations", count);
    free(source);
}

static void too_long(void) {
    void *source = too_long_source();
    if (source == NULL) return;
    const size_limits sizes[] = {NO_SIZES, {{0, 0, 0, 0, 0}}};
    for (int i = 0; i < 2; i++)
        check(check_source(source, FOUR_GIB, &NARROW, &sizes[i]).status == FIRTHNAPKIN_SOURCE_TOO_LONG, "4 GiB, checked");
    munmap(source, FOUR_GIB);
}

static void *in_each_thread(void *failures) {
    for (int round = 0; round < 500; round++) {
        if (status_of("{a b}{c}", (firthnapkin_limits)DEFAULT, only(0, 1)) != OPERATION_TOO_LARGE) ++*(long *)failures;
        if (status_of("{a b}{c}", (firthnapkin_limits)DEFAULT, NO_SIZES) != FIRTHNAPKIN_OK) ++*(long *)failures;
    }
    return NULL;
}

int main(void) {
    documents();
    others();
    spreads();
    growth();
    statuses();
    limits();
    for (size_t count = 1; count <= 100; count++) {
        many(count, 0);
        many(count, count - 1);
    }
    too_long();
    in_threads(in_each_thread);
    return counted();
}
