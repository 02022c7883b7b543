/* A document's nodes with how large its operations are: numbers that were counted by hand, spreads that can't be expanded, every
 * status, buffers of every size, stacks and threads. */
#define _GNU_SOURCE
#include "../../include/firthnapkin.h"
#include "checks.h"
#include "memory.h"

static const firthnapkin_limits DEFAULT = FIRTHNAPKIN_LIMITS_DEFAULT;

/* A call into buffers of these sizes. */
typedef struct {
    uint32_t status;
    size_t nodes_capacity, texts_capacity, capacity, nodes_length, texts_length, length;
    firthnapkin_node *nodes;
    uint8_t *texts;
    firthnapkin_complexity *complexities;
    firthnapkin_error error;
} run;

static run weighed_within(const char *source, size_t length, firthnapkin_limits limits, size_t nodes_capacity,
                          size_t texts_capacity, size_t capacity) {
    run r = {.nodes_capacity = nodes_capacity, .texts_capacity = texts_capacity, .capacity = capacity};
    r.nodes_length = r.texts_length = r.length = 1;
    r.nodes = (firthnapkin_node *)canaries(nodes_capacity * sizeof *r.nodes + BEYOND);
    r.texts = canaries(texts_capacity + BEYOND);
    r.complexities = (firthnapkin_complexity *)canaries(capacity * sizeof *r.complexities + BEYOND);
    memset(&r.error, CANARY, sizeof r.error);
    r.status =
        firthnapkin_parse_complexities((const uint8_t *)source, length, &limits, r.nodes, nodes_capacity, &r.nodes_length,
                                       r.texts, texts_capacity, &r.texts_length, r.complexities, capacity, &r.length, &r.error);
    return r;
}

static run weighed(const char *source, size_t capacity) {
    return weighed_within(source, strlen(source), DEFAULT, capacity, capacity, capacity);
}

static void give_back(run r) {
    free(r.nodes);
    free(r.texts);
    free(r.complexities);
}

static size_t least(size_t a, size_t b) {
    return a < b ? a : b;
}

/* Nothing is written after a buffer, nor after what is needed, and no numbers but of a document that can be expanded. */
static int is_kept(run r) {
    int has_numbers = r.status == FIRTHNAPKIN_OK || r.status == FIRTHNAPKIN_BUFFER_TOO_SMALL;
    int has_nodes = has_numbers || r.status == FIRTHNAPKIN_UNKNOWN_FRAGMENT || r.status == FIRTHNAPKIN_FRAGMENT_CYCLE;
    int is_read =
        r.status != FIRTHNAPKIN_NOT_UTF8 && r.status != FIRTHNAPKIN_SOURCE_TOO_LONG && r.status != FIRTHNAPKIN_INVALID_LIMIT;
    size_t nodes = has_nodes ? least(r.nodes_length, r.nodes_capacity) : is_read ? r.nodes_capacity : 0;
    size_t texts = has_nodes ? least(r.texts_length, r.texts_capacity) : is_read ? r.texts_capacity : 0;
    size_t numbers = has_numbers ? least(r.length, r.capacity) : 0;
    return are_canaries(r.nodes + nodes, (r.nodes_capacity - nodes) * sizeof *r.nodes + BEYOND)
           && are_canaries(r.texts + texts, r.texts_capacity - texts + BEYOND)
           && are_canaries(r.complexities + numbers, (r.capacity - numbers) * sizeof *r.complexities + BEYOND)
           && (has_nodes || (r.nodes_length == 0 && r.texts_length == 0)) && (has_numbers || r.length == 0);
}

/* The nodes and texts that a parse writes, and its error if it has one. */
static int is_parsed(const char *source, firthnapkin_limits limits, run r) {
    firthnapkin_error error;
    size_t nodes_length, texts_length;
    firthnapkin_node *nodes = (firthnapkin_node *)canaries(r.nodes_capacity * sizeof *nodes + 1);
    uint8_t *texts = canaries(r.texts_capacity + 1);
    memset(&error, CANARY, sizeof error);
    uint32_t status = firthnapkin_parse((const uint8_t *)source, strlen(source), &limits, nodes, r.nodes_capacity,
                                        &nodes_length, texts, r.texts_capacity, &texts_length, &error);
    int is_document = status == FIRTHNAPKIN_OK || status == FIRTHNAPKIN_BUFFER_TOO_SMALL;
    int same = nodes_length == r.nodes_length && texts_length == r.texts_length
               && same_nodes(nodes, r.nodes, least(nodes_length, r.nodes_capacity))
               && !memcmp(texts, r.texts, least(texts_length, r.texts_capacity));
    if (!is_document) same = same && status == r.status && !memcmp(&error, &r.error, sizeof error);
    free(nodes);
    free(texts);
    return same;
}

static int same_numbers(firthnapkin_complexity a, firthnapkin_complexity b) {
    return !memcmp(&a, &b, sizeof a);
}

/* ---- numbers */

/* Sources with the numbers of their operations: the node, fields, aliases, directives, root fields and the depth. */
static const struct {
    const char *source;
    size_t count;
    firthnapkin_complexity numbers[2];
} COUNTED[] = {
    {"{a}", 1, {{0, 1, 0, 0, 1, 1}}},
    {"{ a a @skip(if: true) x: b { c } }", 1, {{0, 4, 1, 1, 3, 2}}},
    {"{ a { b { c } d } e }", 1, {{0, 5, 0, 0, 2, 3}}},
    {"{ x: a { y: b ... on T { z: c } } }", 1, {{0, 3, 3, 0, 1, 2}}},
    /* Directives of variable definitions are the operation's, and those of a fragment count each time that it is spread. */
    {"query ($v: [Int! ] = [1] @n) @a @b { c: a @d { b ...F @e ... @g { h } } } fragment F on T @f { i: j { k } }",
     1,
     {{0, 5, 2, 7, 1, 3}}},
    {"{ ...F ...F @a } fragment F on T @b { c @d }", 1, {{0, 2, 0, 5, 2, 1}}},
    /* A chain of fragments. */
    {"{ ...A ...A } fragment A on T { a ...B } fragment B on T { b { c ...C } } fragment C on T { d }",
     1,
     {{0, 8, 0, 0, 4, 2}}},
    /* Two operations, the second after a fragment; and none. */
    {"query A { ...F } fragment F on T { a(b: \"c\") } mutation B { b { ...F } }", 2, {{0, 1, 0, 0, 1, 1}, {7, 2, 0, 0, 1, 2}}},
    {"fragment F on T { a }", 0, {{0, 0, 0, 0, 0, 0}}},
    /* Of two fragments of a name the first is expanded, and what no operation reaches isn't looked at. */
    {"{ ...A } fragment A on T { a } fragment A on T { b c }", 1, {{0, 1, 0, 0, 1, 1}}},
    {"fragment A on T { ...A ...B } { a }", 1, {{3, 1, 0, 0, 1, 1}}},
};

/* A source into buffers of every size up to what is needed. */
static void every_capacity(const char *source, size_t count, const firthnapkin_complexity *numbers) {
    run whole = weighed(source, strlen(source));
    check(whole.status == FIRTHNAPKIN_OK && whole.length == count && is_kept(whole) && is_parsed(source, DEFAULT, whole)
              && are_canaries(&whole.error, sizeof whole.error),
          "ample buffers for %s: %u, %zu operations", source, whole.status, whole.length);
    for (size_t nodes = 0; nodes <= whole.nodes_length; nodes++) {
        for (size_t texts = 0; texts <= whole.texts_length; texts++) {
            for (size_t capacity = 0; capacity <= count + 1; capacity++) {
                int fits = nodes == whole.nodes_length && texts == whole.texts_length && capacity >= count;
                run r = weighed_within(source, strlen(source), DEFAULT, nodes, texts, capacity);
                check(r.status == (fits ? FIRTHNAPKIN_OK : FIRTHNAPKIN_BUFFER_TOO_SMALL) && r.length == count && is_kept(r)
                          && is_parsed(source, DEFAULT, r) && are_canaries(&r.error, sizeof r.error)
                          && !memcmp(r.complexities, numbers, least(capacity, count) * sizeof *numbers),
                      "capacity for %zu nodes, %zu bytes and %zu operations, for %s: %u", nodes, texts, capacity, source,
                      r.status);
                give_back(r);
            }
        }
    }
    give_back(whole);
}

/* ---- many fragments */

/* An operation and so many fragments, of which each has this before and after the next one's name, and the last this alone. */
static char *chained(size_t count, const char *head, const char *before, const char *after, const char *last) {
    char *source = malloc((count + 1) * 96), *at = source;
    if (source == NULL) abort();
    at += sprintf(at, "%s", head);
    for (size_t i = 1; i < count; i++) {
        at += sprintf(at, " fragment F%zu on T { ", i);
        at += sprintf(at, before, i + 1);
        at += sprintf(at, after, i + 1);
        at += sprintf(at, " }");
    }
    sprintf(at, " fragment F%zu on T { %s }", count, last);
    return source;
}

/* The numbers of a source's one operation. */
static void numbers_of(const char *source, firthnapkin_complexity wanted, const char *name, size_t count) {
    run r = weighed_within(source, strlen(source), DEFAULT, 0, 0, 1);
    check(r.status == FIRTHNAPKIN_BUFFER_TOO_SMALL && r.length == 1 && is_kept(r) && same_numbers(r.complexities[0], wanted),
          "%s of %zu fragments: %u, %u fields, %u at the root, %u deep", name, count, r.status, r.complexities[0].fields,
          r.complexities[0].root_fields, r.complexities[0].depth);
    give_back(r);
}

/* Fragments that are a field and twice the next one, alone and after one more field: a number that 32 bits don't hold is the
 * largest of them. */
static void doubled(void) {
    static const struct {
        size_t count;
        uint32_t fields;
    } rows[] = {{1, 1}, {2, 3}, {31, 2147483647}, {32, UINT32_MAX}, {33, UINT32_MAX}, {61, UINT32_MAX}, {65, UINT32_MAX}};
    for (size_t i = 0; i < sizeof rows / sizeof *rows; i++) {
        uint32_t fields = rows[i].fields;
        char *source = chained(rows[i].count, "{ ...F1 }", "a ...F%zu ", "...F%zu", "a");
        numbers_of(source, (firthnapkin_complexity){0, fields, 0, 0, fields, 1}, "doublings", rows[i].count);
        free(source);
        fields += fields < UINT32_MAX;
        source = chained(rows[i].count, "{ x: a @d ...F1 }", "x: a @d ...F%zu ", "...F%zu", "x: a @d");
        numbers_of(source, (firthnapkin_complexity){0, fields, fields, fields, fields, 1}, "doublings", rows[i].count);
        free(source);
    }
}

static void *call_chain(void *source) {
    numbers_of(source, (firthnapkin_complexity){0, 20000, 0, 0, 1, 20000}, "a chain", 20000);
    return NULL;
}

/* A chain of fragments takes no stack, and neither does a cycle of them. */
static void chains(void) {
    char *source = chained(20000, "{ ...F1 }", "a { ...F%zu }", "", "a");
    firthnapkin_limits limits = DEFAULT;
    on_stack(limits.depth, call_chain, source);
    free(source);
    source = chained(20000, "{ ...F1 }", "a { ...F%zu }", "", "...F7");
    run r = weighed(source, 0);
    check(r.status == FIRTHNAPKIN_FRAGMENT_CYCLE && r.error.start.byte == strlen(source) - 7 && r.nodes_length == 60001,
          "a cycle of %d fragments: %u at %u", 20000, r.status, r.error.start.byte);
    give_back(r);
    free(source);
}

/* ---- spreads that can't be expanded */

static const struct {
    const char *source;
    uint32_t status, line, start_byte, start, end;
} FAULTS[] = {
    {"{ ...A }", FIRTHNAPKIN_UNKNOWN_FRAGMENT, 0, 2, 2, 6},
    {"{ ...A @b }", FIRTHNAPKIN_UNKNOWN_FRAGMENT, 0, 2, 2, 9},
    {"{ ...A } fragment A on T { ...A }", FIRTHNAPKIN_FRAGMENT_CYCLE, 0, 27, 27, 31},
    {"{ ...A }\nfragment A on T { a(x: \"\xc3\xa9\") { ...B @c } }\nfragment B on T { ...A }", FIRTHNAPKIN_FRAGMENT_CYCLE, 2,
     70, 69, 73},
    /* The first for a reader who goes through a spread's fragment before going on. */
    {"{ ...A ...X } fragment A on T { ...Y ...A }", FIRTHNAPKIN_UNKNOWN_FRAGMENT, 0, 32, 32, 36},
    {"{ ...A ...X } fragment A on T { ...A ...Y }", FIRTHNAPKIN_FRAGMENT_CYCLE, 0, 32, 32, 36},
    {"{ ...A ...X } fragment A on T { a }", FIRTHNAPKIN_UNKNOWN_FRAGMENT, 0, 7, 7, 11},
    {"{ a } query B { ...X }", FIRTHNAPKIN_UNKNOWN_FRAGMENT, 0, 16, 16, 20},
};

static void spread(size_t i, size_t capacity) {
    uint32_t status = FAULTS[i].status, is_cycle = status == FIRTHNAPKIN_FRAGMENT_CYCLE;
    uint32_t kind = is_cycle ? FIRTHNAPKIN_ERROR_FRAGMENT_CYCLE : FIRTHNAPKIN_ERROR_UNKNOWN_FRAGMENT;
    const char *words = is_cycle ? "Fragment spread within itself" : "Unknown fragment", *source = FAULTS[i].source;
    uint8_t buffer[64];
    size_t length;
    run r = weighed(source, capacity);
    firthnapkin_error e = r.error;
    check(r.status == status && is_kept(r) && is_parsed(source, DEFAULT, r), "%s in %zu: %u", source, capacity, r.status);
    check(e.kind == kind && e.detail == 0 && e.character == 0 && e.start.index == FAULTS[i].start
              && e.start.line == FAULTS[i].line && e.start.byte == FAULTS[i].start_byte && e.end.index == FAULTS[i].end
              && e.text_start == e.start.byte && e.text_end == e.start.byte,
          "the error of %s: %u from %u to %u, byte %u", source, e.kind, e.start.index, e.end.index, e.start.byte);
    uint32_t said = firthnapkin_message((const uint8_t *)source, strlen(source), &e, buffer, sizeof buffer, &length);
    check(said == FIRTHNAPKIN_OK && length == strlen(words) && !memcmp(buffer, words, length), "the words for %s: %u", source,
          said);
    give_back(r);
}

/* ---- other statuses */

/* What no document is, or not within limits, is refused as a parse refuses it. */
static void refused(const char *source, firthnapkin_limits limits, uint32_t status) {
    for (size_t capacity = 0; capacity < 10; capacity += 9) {
        run r = weighed_within(source, strlen(source), limits, capacity, capacity, capacity);
        check(r.status == status && is_kept(r) && is_parsed(source, limits, r), "%s: %u", source, r.status);
        give_back(r);
    }
}

static void statuses(void) {
    firthnapkin_limits shallow = DEFAULT, few = DEFAULT, invalid = DEFAULT;
    shallow.depth = 1;
    few.tokens = 2;
    invalid.reserved[5] = 1;
    refused("{ a ) }", DEFAULT, FIRTHNAPKIN_SYNTAX_ERROR);
    refused("{ ...A } ?", DEFAULT, FIRTHNAPKIN_SYNTAX_ERROR);
    refused("", DEFAULT, FIRTHNAPKIN_SYNTAX_ERROR);
    refused("{a{b}}", shallow, FIRTHNAPKIN_TOO_DEEP);
    refused("{ a b }", few, FIRTHNAPKIN_TOO_MANY_TOKENS);
    refused("{ ...A } \xff", DEFAULT, FIRTHNAPKIN_NOT_UTF8);
    refused("{ ...A }", invalid, FIRTHNAPKIN_INVALID_LIMIT);
    size_t nodes_length = 1, texts_length = 1, length = 1;
    firthnapkin_error error;
    check(firthnapkin_parse_complexities((const uint8_t *)"{a}", 3, &DEFAULT, NULL, 0, &nodes_length, NULL, 0, &texts_length,
                                         NULL, 0, &length, &error)
                  == FIRTHNAPKIN_BUFFER_TOO_SMALL
              && nodes_length == 2 && texts_length == 0 && length == 1,
          "no capacity");
    void *source = too_long_source();
    if (source == NULL) return;
    run r = weighed_within(source, FOUR_GIB, DEFAULT, 1, 1, 1);
    check(r.status == FIRTHNAPKIN_SOURCE_TOO_LONG && is_kept(r), "4 GiB");
    give_back(r);
    munmap(source, FOUR_GIB);
}

/* ---- stacks and threads */

typedef struct {
    const char *source;
    uint32_t depth, status;
} deep_call;

static void *call_deep(void *argument) {
    deep_call *d = argument;
    firthnapkin_limits limits = DEFAULT;
    limits.depth = d->depth;
    run r = weighed_within(d->source, strlen(d->source), limits, strlen(d->source), 9, 9);
    d->status = r.status;
    give_back(r);
    return NULL;
}

/* Nesting up to the limit and one more, on a stack of no more than the header says. */
static void stacks(void) {
    static const char *const openings[] = {"{a", "{...", "{x:a"};
    static char text[5 * FIRTHNAPKIN_MAX_DEPTH + 16];
    for (size_t i = 0; i < sizeof openings / sizeof *openings; i++) {
        for (uint32_t depth = 10; depth <= FIRTHNAPKIN_MAX_DEPTH; depth *= 10) {
            for (uint32_t beyond = 0; beyond < 2; beyond++) {
                char *at = text;
                for (uint32_t level = 1; level < depth + beyond; level++) at = stpcpy(at, openings[i]);
                at = stpcpy(at, "{b}");
                for (uint32_t level = 1; level < depth + beyond; level++) *at++ = '}';
                *at = '\0';
                deep_call d = {text, depth, 99};
                on_stack(depth, call_deep, &d);
                check(d.status == (beyond ? FIRTHNAPKIN_TOO_DEEP : FIRTHNAPKIN_OK), "%u of %s: %u", depth + beyond, openings[i],
                      d.status);
            }
        }
    }
}

static void *many(void *failures) {
    for (int round = 0; round < 200; round++) {
        for (size_t i = 0; i < sizeof COUNTED / sizeof *COUNTED; i++) {
            run r = weighed(COUNTED[i].source, strlen(COUNTED[i].source));
            size_t size = COUNTED[i].count * sizeof *r.complexities;
            if (r.status != FIRTHNAPKIN_OK || !is_kept(r) || memcmp(r.complexities, COUNTED[i].numbers, size))
                ++*(long *)failures;
            give_back(r);
        }
    }
    return NULL;
}

int main(void) {
    for (size_t i = 0; i < sizeof COUNTED / sizeof *COUNTED; i++)
        every_capacity(COUNTED[i].source, COUNTED[i].count, COUNTED[i].numbers);
    doubled();
    chains();
    for (size_t i = 0; i < sizeof FAULTS / sizeof *FAULTS; i++)
        for (size_t capacity = 0; capacity < 100; capacity = capacity * 2 + 1) spread(i, capacity);
    statuses();
    stacks();
    in_threads(many);
    return counted();
}
