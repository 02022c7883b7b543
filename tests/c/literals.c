/* Sources that are one value or one type, and then end: what the two calls write, and where. Buffers of every size, no source, errors,
 * limits, threads and large sources. Their nodes are those that the same value or type has in a document. */
#define _GNU_SOURCE
#include "../../include/firthnapkin.h"
#include "checks.h"
#include "memory.h"

enum { ROOM = 64 };

typedef enum { VALUE, CONSTANT, TYPE } form;

static const char *const FORMS[] = {"the value", "the constant", "the type"};

/* A call with buffers of these sizes. */
typedef struct {
    uint32_t status;
    size_t nodes_capacity, texts_capacity, nodes_length, texts_length;
    firthnapkin_node *nodes;
    uint8_t *texts;
    firthnapkin_error error;
} run;

static uint32_t call(form as, const void *source, size_t length, const firthnapkin_limits *limits, run *r) {
    if (as == TYPE)
        return firthnapkin_parse_type(source, length, limits, r->nodes, r->nodes_capacity, &r->nodes_length, r->texts,
                                      r->texts_capacity, &r->texts_length, &r->error);
    /* Each number but 0 says that the value is constant. */
    return firthnapkin_parse_value(source, length, as == CONSTANT ? 1u << (length % 32) : 0, limits, r->nodes,
                                   r->nodes_capacity, &r->nodes_length, r->texts, r->texts_capacity, &r->texts_length,
                                   &r->error);
}

static run parsed(form as, const void *source, size_t length, firthnapkin_limits limits, size_t nodes, size_t texts) {
    run r = {.nodes_capacity = nodes, .texts_capacity = texts, .nodes_length = 99, .texts_length = 99};
    r.nodes = (firthnapkin_node *)canaries(nodes * sizeof *r.nodes + BEYOND);
    r.texts = canaries(texts + BEYOND);
    memset(&r.error, CANARY, sizeof r.error);
    r.status = call(as, source, length, &limits, &r);
    return r;
}

static run parsed_by_default(form as, const char *source) {
    return parsed(as, source, strlen(source), (firthnapkin_limits)FIRTHNAPKIN_LIMITS_DEFAULT, ROOM, ROOM);
}

static void give_back(run r) {
    free(r.nodes);
    free(r.texts);
}

static size_t lesser(size_t a, size_t b) {
    return a < b ? a : b;
}

/* Whether the buffers are as they were, after what is needed or after so much. */
static int are_kept(const run *r, size_t nodes, size_t texts) {
    nodes = lesser(nodes, r->nodes_capacity);
    texts = lesser(texts, r->texts_capacity);
    return are_canaries(r->nodes + nodes, (r->nodes_capacity - nodes) * sizeof *r->nodes + BEYOND)
           && are_canaries(r->texts + texts, r->texts_capacity - texts + BEYOND);
}

static int has_no_error(const run *r) {
    return are_canaries(&r->error, sizeof r->error);
}

/* ---- what is written */

/* A node: its kind, its descendants, its bytes, those of its name, its value and the value's length. */
typedef struct {
    uint32_t kind, descendants, start, end, name_start, name_end;
    int64_t value;
    uint32_t value_length;
} node_row;

/* A source, its nodes and its texts. */
static const struct {
    form as;
    const char *source;
    size_t count;
    node_row nodes[8];
    const char *texts;
} WRITTEN[] = {
    {CONSTANT, "1", 1, {{FIRTHNAPKIN_INT, 0, 0, 1, 0, 1, 1, 0}}, ""},
    {CONSTANT, " -2147483648 # least", 1, {{FIRTHNAPKIN_INT, 0, 1, 12, 1, 12, -2147483648LL, 0}}, ""},
    {CONSTANT, "2147483648", 1, {{FIRTHNAPKIN_LARGE_INT, 0, 0, 10, 0, 10, 0, 0}}, ""},
    {CONSTANT, "1.5e3", 1, {{FIRTHNAPKIN_FLOAT, 0, 0, 5, 0, 5, 0, 0}}, ""},
    {CONSTANT, "true", 1, {{FIRTHNAPKIN_BOOLEAN, 0, 0, 4, 0, 4, 1, 0}}, ""},
    {CONSTANT, "false", 1, {{FIRTHNAPKIN_BOOLEAN, 0, 0, 5, 0, 5, 0, 0}}, ""},
    {CONSTANT, "null", 1, {{FIRTHNAPKIN_NULL, 0, 0, 4, 0, 4, 0, 0}}, ""},
    {CONSTANT, "on", 1, {{FIRTHNAPKIN_ENUM, 0, 0, 2, 0, 2, 0, 0}}, ""},
    {CONSTANT,
     "\"\\u00e9b\"",
     1,
     {{FIRTHNAPKIN_STRING, 0, 0, 9, 0, 9, 0, 3}},
     "\xc3\xa9"
     "b"},
    {CONSTANT, "\"\"\"\n  \xc3\xa9\n    c\n\"\"\"", 1, {{FIRTHNAPKIN_BLOCK_STRING, 0, 0, 18, 0, 18, 0, 6}}, "\xc3\xa9\n  c"},
    {VALUE, "$v", 1, {{FIRTHNAPKIN_VARIABLE, 0, 0, 2, 1, 2, 0, 0}}, ""},
    {VALUE, "#\xc3\xa9\n$ v,", 1, {{FIRTHNAPKIN_VARIABLE, 0, 4, 7, 6, 7, 0, 0}}, ""},
    {CONSTANT, "[]", 1, {{FIRTHNAPKIN_LIST, 0, 0, 2, 0, 0, 0, 0}}, ""},
    {CONSTANT, "{}", 1, {{FIRTHNAPKIN_OBJECT, 0, 0, 2, 0, 0, 0, 0}}, ""},
    {VALUE,
     "[1 {a:$b c:\"d\"} E]",
     8,
     {{FIRTHNAPKIN_LIST, 7, 0, 18, 0, 0, 0, 0},
      {FIRTHNAPKIN_INT, 0, 1, 2, 1, 2, 1, 0},
      {FIRTHNAPKIN_OBJECT, 4, 3, 15, 3, 3, 0, 0},
      {FIRTHNAPKIN_OBJECT_FIELD, 1, 4, 5, 4, 5, 0, 0},
      {FIRTHNAPKIN_VARIABLE, 0, 6, 8, 7, 8, 0, 0},
      {FIRTHNAPKIN_OBJECT_FIELD, 1, 9, 10, 9, 10, 0, 0},
      {FIRTHNAPKIN_STRING, 0, 11, 14, 11, 14, 0, 1},
      {FIRTHNAPKIN_ENUM, 0, 16, 17, 16, 17, 0, 0}},
     "d"},
    {TYPE, "T", 1, {{FIRTHNAPKIN_TYPE, 0, 0, 1, 0, 1, 0, 1}}, "T"},
    {TYPE, "[ID!]!", 1, {{FIRTHNAPKIN_TYPE, 0, 0, 6, 0, 6, 0, 6}}, "[ID!]!"},
    {TYPE, " [ [ T ] , ! ]#\xc3\xa9\n!\n", 1, {{FIRTHNAPKIN_TYPE, 0, 1, 19, 1, 19, 0, 7}}, "[[T]!]!"},
};

static int is_as_written(const firthnapkin_node *n, const node_row *w) {
    return n->kind == w->kind && n->descendants == w->descendants && n->start.byte == w->start && n->end.byte == w->end
           && n->name_start == w->name_start && n->name_end == w->name_end && n->value == w->value
           && n->value_length == w->value_length;
}

static void written(void) {
    for (size_t i = 0; i < sizeof WRITTEN / sizeof *WRITTEN; i++) {
        const char *source = WRITTEN[i].source;
        /* A constant is a value. */
        for (int as = WRITTEN[i].as == TYPE ? TYPE : VALUE; as <= (int)WRITTEN[i].as; as++) {
            run r = parsed_by_default(as, source);
            check(r.status == FIRTHNAPKIN_OK && r.nodes_length == WRITTEN[i].count && has_no_error(&r), "%s %s: %u", FORMS[as],
                  source, r.status);
            for (size_t k = 0; k < lesser(r.nodes_length, WRITTEN[i].count); k++)
                check(is_as_written(&r.nodes[k], &WRITTEN[i].nodes[k]), "node %zu of %s %s", k, FORMS[as], source);
            check(r.texts_length == strlen(WRITTEN[i].texts) && !memcmp(r.texts, WRITTEN[i].texts, r.texts_length),
                  "the texts of %s %s", FORMS[as], source);
            check(are_kept(&r, r.nodes_length, r.texts_length), "what is after %s %s", FORMS[as], source);
            give_back(r);
        }
    }
}

/* Every size of both buffers up to the one that suffices. */
static void every_capacity(form as, const char *source) {
    run whole = parsed_by_default(as, source);
    for (size_t nodes = 0; nodes <= whole.nodes_length + 1; nodes++) {
        for (size_t texts = 0; texts <= whole.texts_length + 1; texts++) {
            int fits = nodes >= whole.nodes_length && texts >= whole.texts_length;
            run r = parsed(as, source, strlen(source), (firthnapkin_limits)FIRTHNAPKIN_LIMITS_DEFAULT, nodes, texts);
            check(r.status == (fits ? FIRTHNAPKIN_OK : FIRTHNAPKIN_BUFFER_TOO_SMALL) && r.nodes_length == whole.nodes_length
                      && r.texts_length == whole.texts_length && has_no_error(&r),
                  "%zu nodes and %zu bytes for %s %s: %u", nodes, texts, FORMS[as], source, r.status);
            check(same_nodes(r.nodes, whole.nodes, lesser(nodes, whole.nodes_length))
                      && !memcmp(r.texts, whole.texts, lesser(texts, whole.texts_length))
                      && are_kept(&r, whole.nodes_length, whole.texts_length),
                  "what is in %zu nodes and %zu bytes for %s %s", nodes, texts, FORMS[as], source);
            give_back(r);
        }
    }
    give_back(whole);
}

static void capacities(void) {
    for (size_t i = 0; i < sizeof WRITTEN / sizeof *WRITTEN; i++) every_capacity(WRITTEN[i].as, WRITTEN[i].source);
}

/* ---- the same in a document */

static firthnapkin_position moved(firthnapkin_position p, uint32_t by) {
    p.index -= by;
    p.byte -= by;
    if (p.line == 0) p.column -= by;
    return p;
}

/* Compares the nodes of a source with those that a document has for it. The document begins with so many bytes, all ASCII, and so
 * many nodes. */
static void in_document(form as, const char *source, const char *before, const char *after, size_t others) {
    static firthnapkin_node nodes[ROOM + 8];
    static uint8_t texts[ROOM];
    const firthnapkin_limits limits = FIRTHNAPKIN_LIMITS_DEFAULT;
    char document[256];
    size_t nodes_length, texts_length;
    uint32_t by = (uint32_t)strlen(before);
    firthnapkin_error error;
    snprintf(document, sizeof document, "%s%s\n%s", before, source, after);
    uint32_t status = firthnapkin_parse((const uint8_t *)document, strlen(document), &limits, nodes, ROOM + 8, &nodes_length,
                                        texts, ROOM, &texts_length, &error);
    run r = parsed_by_default(as, source);
    check(status == FIRTHNAPKIN_OK && texts_length == r.texts_length && !memcmp(texts, r.texts, texts_length), "%s has %u",
          document, status);
    for (size_t i = 0; i < r.nodes_length; i++) {
        firthnapkin_node n = nodes[others + i];
        n.start = moved(n.start, by);
        n.end = moved(n.end, by);
        n.name_start -= by;
        n.name_end -= by;
        check(same_nodes(&n, &r.nodes[i], 1), "node %zu of %s, in a document", i, source);
    }
    give_back(r);
}

static void documents(void) {
    for (size_t i = 0; i < sizeof WRITTEN / sizeof *WRITTEN; i++) {
        if (WRITTEN[i].as == TYPE)
            in_document(TYPE, WRITTEN[i].source, "query($v:", "){a}", 3);
        else
            in_document(WRITTEN[i].as, WRITTEN[i].source, "{a(b:", ")}", 4);
    }
}

/* ---- errors */

/* A source within a depth that isn't one value or type, with its error. */
static const struct {
    form as;
    const char *source;
    uint32_t depth, status, kind, start, end, line, column;
} WRONG[] = {
    {VALUE, "", 200, FIRTHNAPKIN_SYNTAX_ERROR, FIRTHNAPKIN_ERROR_UNEXPECTED_END, 0, 0, 0, 0},
    {TYPE, "", 200, FIRTHNAPKIN_SYNTAX_ERROR, FIRTHNAPKIN_ERROR_UNEXPECTED_END, 0, 0, 0, 0},
    {VALUE, "#\xc3\xa9\n [", 200, FIRTHNAPKIN_SYNTAX_ERROR, FIRTHNAPKIN_ERROR_UNEXPECTED_END, 6, 6, 1, 2},
    {VALUE, "1 2", 200, FIRTHNAPKIN_SYNTAX_ERROR, FIRTHNAPKIN_ERROR_UNEXPECTED_TOKEN, 2, 3, 0, 2},
    {VALUE, "[1]\n]", 200, FIRTHNAPKIN_SYNTAX_ERROR, FIRTHNAPKIN_ERROR_UNEXPECTED_TOKEN, 4, 5, 1, 0},
    {VALUE, "{a}", 200, FIRTHNAPKIN_SYNTAX_ERROR, FIRTHNAPKIN_ERROR_UNEXPECTED_TOKEN, 2, 3, 0, 2},
    {VALUE, "{a:}", 200, FIRTHNAPKIN_SYNTAX_ERROR, FIRTHNAPKIN_ERROR_UNEXPECTED_TOKEN, 3, 4, 0, 3},
    {VALUE, "{1:1}", 200, FIRTHNAPKIN_SYNTAX_ERROR, FIRTHNAPKIN_ERROR_UNEXPECTED_TOKEN, 1, 2, 0, 1},
    {VALUE, "$", 200, FIRTHNAPKIN_SYNTAX_ERROR, FIRTHNAPKIN_ERROR_UNEXPECTED_END, 1, 1, 0, 1},
    {VALUE, "$1", 200, FIRTHNAPKIN_SYNTAX_ERROR, FIRTHNAPKIN_ERROR_UNEXPECTED_TOKEN, 1, 2, 0, 1},
    {VALUE, "$a.b", 200, FIRTHNAPKIN_SYNTAX_ERROR, FIRTHNAPKIN_ERROR_LEXICAL, 2, 2, 0, 2},
    {VALUE, "a: 1", 200, FIRTHNAPKIN_SYNTAX_ERROR, FIRTHNAPKIN_ERROR_UNEXPECTED_TOKEN, 1, 2, 0, 1},
    {VALUE, "...", 200, FIRTHNAPKIN_SYNTAX_ERROR, FIRTHNAPKIN_ERROR_UNEXPECTED_TOKEN, 0, 3, 0, 0},
    {CONSTANT, "$a", 200, FIRTHNAPKIN_SYNTAX_ERROR, FIRTHNAPKIN_ERROR_UNEXPECTED_TOKEN, 0, 1, 0, 0},
    {CONSTANT, "[1 $a]", 200, FIRTHNAPKIN_SYNTAX_ERROR, FIRTHNAPKIN_ERROR_UNEXPECTED_TOKEN, 3, 4, 0, 3},
    {CONSTANT, "{a: [{b: $c}]}", 200, FIRTHNAPKIN_SYNTAX_ERROR, FIRTHNAPKIN_ERROR_UNEXPECTED_TOKEN, 9, 10, 0, 9},
    {VALUE, "[[1]]", 1, FIRTHNAPKIN_TOO_DEEP, FIRTHNAPKIN_ERROR_TOO_DEEP, 1, 2, 0, 1},
    {VALUE, "{a:{}}", 1, FIRTHNAPKIN_TOO_DEEP, FIRTHNAPKIN_ERROR_TOO_DEEP, 3, 4, 0, 3},
    {TYPE, "T T", 200, FIRTHNAPKIN_SYNTAX_ERROR, FIRTHNAPKIN_ERROR_UNEXPECTED_TOKEN, 2, 3, 0, 2},
    {TYPE, "T!!", 200, FIRTHNAPKIN_SYNTAX_ERROR, FIRTHNAPKIN_ERROR_UNEXPECTED_TOKEN, 2, 3, 0, 2},
    {TYPE, "!", 200, FIRTHNAPKIN_SYNTAX_ERROR, FIRTHNAPKIN_ERROR_UNEXPECTED_TOKEN, 0, 1, 0, 0},
    {TYPE, "[]", 200, FIRTHNAPKIN_SYNTAX_ERROR, FIRTHNAPKIN_ERROR_UNEXPECTED_TOKEN, 1, 2, 0, 1},
    {TYPE, "[T", 200, FIRTHNAPKIN_SYNTAX_ERROR, FIRTHNAPKIN_ERROR_UNEXPECTED_END, 2, 2, 0, 2},
    {TYPE, "[T]]", 200, FIRTHNAPKIN_SYNTAX_ERROR, FIRTHNAPKIN_ERROR_UNEXPECTED_TOKEN, 3, 4, 0, 3},
    {TYPE, "$T", 200, FIRTHNAPKIN_SYNTAX_ERROR, FIRTHNAPKIN_ERROR_UNEXPECTED_TOKEN, 0, 1, 0, 0},
    {TYPE, "T = 1", 200, FIRTHNAPKIN_SYNTAX_ERROR, FIRTHNAPKIN_ERROR_UNEXPECTED_TOKEN, 2, 3, 0, 2},
    {TYPE, "T @d", 200, FIRTHNAPKIN_SYNTAX_ERROR, FIRTHNAPKIN_ERROR_UNEXPECTED_TOKEN, 2, 3, 0, 2},
    {TYPE, "\"T\"", 200, FIRTHNAPKIN_SYNTAX_ERROR, FIRTHNAPKIN_ERROR_UNEXPECTED_TOKEN, 0, 3, 0, 0},
    {TYPE, "[[T]]", 1, FIRTHNAPKIN_TOO_DEEP, FIRTHNAPKIN_ERROR_TOO_DEEP, 1, 2, 0, 1},
    {TYPE, "[T]", 0, FIRTHNAPKIN_TOO_DEEP, FIRTHNAPKIN_ERROR_TOO_DEEP, 0, 1, 0, 0},
};

static void wrong(void) {
    for (size_t i = 0; i < sizeof WRONG / sizeof *WRONG; i++) {
        const char *source = WRONG[i].source;
        firthnapkin_limits limits = {.depth = WRONG[i].depth, .tokens = UINT32_MAX};
        run r = parsed(WRONG[i].as, source, strlen(source), limits, ROOM, ROOM);
        const firthnapkin_error *e = &r.error;
        check(r.status == WRONG[i].status && r.nodes_length == 0 && r.texts_length == 0, "%s %s: %u", FORMS[WRONG[i].as],
              source, r.status);
        check(e->kind == WRONG[i].kind && e->start.byte == WRONG[i].start && e->end.byte == WRONG[i].end
                  && e->start.line == WRONG[i].line && e->start.column == WRONG[i].column,
              "the error of %s %s: %u, %u to %u, at %u:%u", FORMS[WRONG[i].as], source, e->kind, e->start.byte, e->end.byte,
              e->start.line, e->start.column);
        check(are_kept(&r, ROOM, ROOM), "what is after the buffers of %s %s", FORMS[WRONG[i].as], source);
        give_back(r);
    }
}

/* The words and the lines of an error are found by its source alone. */
static void words(void) {
    run r = parsed_by_default(CONSTANT, "[1\n $a]");
    uint8_t buffer[99];
    size_t length;
    uint32_t status = firthnapkin_message((const uint8_t *)"[1\n $a]", 7, &r.error, buffer, sizeof buffer, &length);
    check(status == FIRTHNAPKIN_OK && length == 14 && !memcmp(buffer, "Unexpected \"$\"", length), "the words of an error");
    status = firthnapkin_excerpt((const uint8_t *)"[1\n $a]", 7, &r.error, buffer, sizeof buffer, &length);
    check(status == FIRTHNAPKIN_OK && length == 22 && !memcmp(buffer, "1 | [1\n2 |  $a]\n  |  ^", length),
          "the lines of an error");
    give_back(r);
}

/* ---- sources and limits of any kind */

/* Where no source is read, nothing is written except the lengths. */
static void unread(form as, const void *source, size_t length, firthnapkin_limits limits, uint32_t status) {
    run r = parsed(as, source, length, limits, 3, 3);
    check(r.status == status && r.nodes_length == 0 && r.texts_length == 0 && has_no_error(&r) && are_kept(&r, 0, 0),
          "%s of %zu bytes, %u deep: %u, not %u", FORMS[as], length, limits.depth, r.status, status);
    give_back(r);
}

static void invalid_limits(form as) {
    static const uint32_t depths[] = {FIRTHNAPKIN_MAX_DEPTH + 1, (uint32_t)1 << 31, UINT32_MAX};
    firthnapkin_limits limits = FIRTHNAPKIN_LIMITS_DEFAULT;
    for (size_t i = 0; i < sizeof depths / sizeof *depths; i++) {
        limits.depth = depths[i];
        unread(as, "T", 1, limits, FIRTHNAPKIN_INVALID_LIMIT);
        unread(as, "\xff", 1, limits, FIRTHNAPKIN_INVALID_LIMIT);
    }
    limits.depth = FIRTHNAPKIN_MAX_DEPTH;
    for (size_t i = 0; i < sizeof limits.reserved / sizeof *limits.reserved; i++) {
        limits.reserved[i] = i % 2 ? UINT32_MAX : 1;
        unread(as, "T", 1, limits, FIRTHNAPKIN_INVALID_LIMIT);
        limits.reserved[i] = 0;
    }
    run r = parsed(as, "[T]", 3, limits, 3, 3);
    check(r.status == FIRTHNAPKIN_OK, "%s within the largest depth: %u", FORMS[as], r.status);
    give_back(r);
}

/* Every limit on tokens from 0: below their number it is an error at the first token past it. */
static void every_count(form as, const char *source, uint32_t tokens, const uint32_t *starts) {
    for (uint32_t most = 0; most < tokens + 2; most++) {
        firthnapkin_limits limits = {.depth = 200, .tokens = most};
        run r = parsed(as, source, strlen(source), limits, ROOM, ROOM);
        if (most < tokens)
            check(r.status == FIRTHNAPKIN_TOO_MANY_TOKENS && r.error.kind == FIRTHNAPKIN_ERROR_TOO_MANY_TOKENS
                      && r.error.start.byte == starts[most] && !r.nodes_length && !r.texts_length,
                  "%s %s of more than %u tokens: %u at %u", FORMS[as], source, most, r.status, r.error.start.byte);
        else
            check(r.status == FIRTHNAPKIN_OK && r.nodes_length > 0, "%s %s of %u tokens: %u", FORMS[as], source, most,
                  r.status);
        give_back(r);
    }
}

/* A source may be NULL if it has no bytes, and so may a buffer without room. */
static void no_memory(form as) {
    const firthnapkin_limits limits = FIRTHNAPKIN_LIMITS_DEFAULT;
    run r = {.nodes_length = 9, .texts_length = 9};
    uint32_t status = call(as, NULL, 0, &limits, &r);
    check(status == FIRTHNAPKIN_SYNTAX_ERROR && r.error.kind == FIRTHNAPKIN_ERROR_UNEXPECTED_END && r.error.end.byte == 0
              && r.nodes_length == 0 && r.texts_length == 0,
          "no source of %s: %u", FORMS[as], status);
    status = call(as, "[T]", 3, &limits, &r);
    check(status == FIRTHNAPKIN_BUFFER_TOO_SMALL && r.nodes_length == (as == TYPE ? 1 : 2)
              && r.texts_length == (as == TYPE ? 3 : 0),
          "no room for %s: %u", FORMS[as], status);
    firthnapkin_node nodes[2];
    r.nodes = nodes;
    r.nodes_capacity = 2;
    status = call(as, "[E]", 3, &limits, &r);
    check(status == (as == TYPE ? FIRTHNAPKIN_BUFFER_TOO_SMALL : FIRTHNAPKIN_OK) && nodes[0].end.byte == 3,
          "no room for texts of %s: %u", FORMS[as], status);
}

static void too_long(void) {
    void *source = too_long_source();
    if (source == NULL) return;
    for (int as = VALUE; as <= TYPE; as++) {
        unread(as, source, FOUR_GIB, (firthnapkin_limits)FIRTHNAPKIN_LIMITS_DEFAULT, FIRTHNAPKIN_SOURCE_TOO_LONG);
        unread(as, source, FOUR_GIB, (firthnapkin_limits){.depth = 1001}, FIRTHNAPKIN_SOURCE_TOO_LONG);
        unread(as, source, FOUR_GIB - 1, (firthnapkin_limits){.depth = 1001}, FIRTHNAPKIN_INVALID_LIMIT);
    }
    munmap(source, FOUR_GIB);
}

/* ---- depth, size and threads */

/* A source nested so deep, on as much stack as the header says. */
typedef struct {
    form as;
    const char *source;
    uint32_t depth, status;
} deep;

static void *call_deep(void *argument) {
    deep *d = argument;
    const firthnapkin_limits limits = {.depth = d->depth, .tokens = UINT32_MAX};
    run r = {0};
    d->status = call(d->as, d->source, strlen(d->source), &limits, &r);
    return NULL;
}

static void nested(form as, const char *opening, const char *middle, const char *closing, uint32_t count) {
    char *source = malloc(count * (strlen(opening) + strlen(closing)) + strlen(middle) + 1), *at = source;
    if (source == NULL) abort();
    for (uint32_t i = 0; i < count; i++) at = stpcpy(at, opening);
    at = stpcpy(at, middle);
    for (uint32_t i = 0; i < count; i++) at = stpcpy(at, closing);
    for (uint32_t depth = count > 0 ? count - 1 : 0; depth <= count && depth <= FIRTHNAPKIN_MAX_DEPTH; depth++) {
        deep d = {as, source, depth, 99};
        on_stack(depth, call_deep, &d);
        check(d.status == (depth < count ? FIRTHNAPKIN_TOO_DEEP : FIRTHNAPKIN_BUFFER_TOO_SMALL), "%u of %s, %u deep: %u", count,
              opening, depth, d.status);
    }
    free(source);
}

/* A million parts. */
static void large(form as, const char *part, size_t nodes, size_t texts) {
    size_t step = strlen(part), count = 1000000, length = count * step + 2;
    char *source = malloc(length);
    if (source == NULL) abort();
    source[0] = '[';
    for (size_t i = 0; i < count; i++) memcpy(source + 1 + i * step, part, step);
    source[length - 1] = ']';
    run r = parsed(as, source, length, (firthnapkin_limits)FIRTHNAPKIN_LIMITS_DEFAULT, count * nodes + 1, count * texts);
    check(r.status == FIRTHNAPKIN_OK && r.nodes_length == count * nodes + 1 && r.texts_length == count * texts
              && r.nodes[0].end.byte == length && are_kept(&r, r.nodes_length, r.texts_length),
          "a million of %s: %u, %zu nodes", part, r.status, r.nodes_length);
    give_back(r);
    free(source);
}

static void *in_each_thread(void *failures) {
    for (int round = 0; round < 100; round++) {
        for (size_t i = 0; i < sizeof WRITTEN / sizeof *WRITTEN; i++) {
            run r = parsed_by_default(WRITTEN[i].as, WRITTEN[i].source);
            if (r.status != FIRTHNAPKIN_OK || r.nodes_length != WRITTEN[i].count
                || !is_as_written(&r.nodes[0], &WRITTEN[i].nodes[0]))
                ++*(long *)failures;
            give_back(r);
        }
    }
    return NULL;
}

int main(void) {
    written();
    capacities();
    documents();
    wrong();
    words();
    for (int as = VALUE; as <= TYPE; as++) {
        invalid_limits(as);
        no_memory(as);
        unread(as, "T\xff", 2, (firthnapkin_limits)FIRTHNAPKIN_LIMITS_DEFAULT, FIRTHNAPKIN_NOT_UTF8);
    }
    every_count(VALUE, "# \xc3\xa9\n[$a {b: 1.5}]", 9, (const uint32_t[]){5, 6, 7, 9, 10, 11, 13, 16, 17});
    every_count(TYPE, "[ [T]! ]", 6, (const uint32_t[]){0, 2, 3, 4, 5, 7});
    too_long();
    for (uint32_t count = 1; count <= 1000; count = count == 1 ? 200 : count + 800) {
        nested(VALUE, "[", "", "]", count);
        nested(CONSTANT, "{k:", "1", "}", count);
        nested(TYPE, "[", "T", "]", count);
        nested(TYPE, "[", "T!", "]!", count);
    }
    large(VALUE, "{a:$b}", 3, 0);
    large(CONSTANT, "\"\xd0\xbc\"#\xd0\xbc\n", 1, 2);
    in_threads(in_each_thread);
    return counted();
}
