/* What the library writes, and where: buffers of every size, no source, threads, a large text, every status. */
#define _GNU_SOURCE
#include "../../include/firthnapkin.h"
#include "checks.h"
#include "memory.h"

enum { DEPTH = 200 };

static const firthnapkin_limits DEFAULT = FIRTHNAPKIN_LIMITS_DEFAULT;

static const char *const SOURCES[] = {
    "{a}",
    "query Q($v: [T! ]! = [1, \"\\u00e9b\"] @d) { x: a(v: {k: 1.5, l: 99999999999, m: E, n: $v, o: true, p: null}) }",
    "{ a(b: \"\"\"\n  \xc3\xa9\n    c\n\"\"\") { ...F @d ... on T { b } ... { c } } }\nfragment F on T { d }",
    "mutation { m }\nsubscription S { s }",
};

/* A parse into buffers of these sizes. */
typedef struct {
    uint32_t status;
    size_t nodes_capacity, texts_capacity, nodes_length, texts_length;
    firthnapkin_node *nodes;
    uint8_t *texts;
    firthnapkin_error error;
} run;

static run parsed_within(const char *source, size_t length, firthnapkin_limits limits, size_t nodes_capacity,
                         size_t texts_capacity) {
    run r = {.nodes_capacity = nodes_capacity, .texts_capacity = texts_capacity, .nodes_length = 1, .texts_length = 1};
    r.nodes = (firthnapkin_node *)canaries(nodes_capacity * sizeof *r.nodes + BEYOND);
    r.texts = canaries(texts_capacity + BEYOND);
    memset(&r.error, CANARY, sizeof r.error);
    r.status = firthnapkin_parse((const uint8_t *)source, length, &limits, r.nodes, nodes_capacity, &r.nodes_length, r.texts,
                                 texts_capacity, &r.texts_length, &r.error);
    return r;
}

static run parsed(const char *source, size_t length, uint32_t depth, size_t nodes_capacity, size_t texts_capacity) {
    firthnapkin_limits limits = FIRTHNAPKIN_LIMITS_DEFAULT;
    limits.depth = depth;
    return parsed_within(source, length, limits, nodes_capacity, texts_capacity);
}

static void give_back(run r) {
    free(r.nodes);
    free(r.texts);
}

/* How much of a buffer of this capacity may be written: of a document as much as fits, nothing if the source wasn't read, and
 * after an error any of it. */
static size_t written(uint32_t status, size_t capacity, size_t length) {
    switch (status) {
    case FIRTHNAPKIN_OK:
    case FIRTHNAPKIN_BUFFER_TOO_SMALL:
        return length < capacity ? length : capacity;
    case FIRTHNAPKIN_NOT_UTF8:
    case FIRTHNAPKIN_SOURCE_TOO_LONG:
    case FIRTHNAPKIN_INVALID_LIMIT:
        return 0;
    default:
        return capacity;
    }
}

/* Nothing is written after the buffer, nor after what is needed, and nothing at all if the source wasn't read. */
static int is_kept(run r) {
    size_t nodes = written(r.status, r.nodes_capacity, r.nodes_length);
    size_t texts = written(r.status, r.texts_capacity, r.texts_length);
    return are_canaries(r.nodes + nodes, (r.nodes_capacity - nodes) * sizeof *r.nodes + BEYOND)
        && are_canaries(r.texts + texts, r.texts_capacity - texts + BEYOND);
}

static int is_error_kept(run r) {
    return are_canaries(&r.error, sizeof r.error);
}

static void every_capacity(const char *source) {
    size_t length = strlen(source);
    run whole = parsed(source, length, DEPTH, length, length);
    check(whole.status == FIRTHNAPKIN_OK && is_kept(whole) && is_error_kept(whole), "ample buffers for %s", source);
    check(whole.nodes_length <= length && whole.texts_length <= length, "one call suffices for %s", source);
    for (size_t nodes = 0; nodes <= whole.nodes_length; nodes++) {
        for (size_t texts = 0; texts <= whole.texts_length; texts++) {
            int fits = nodes == whole.nodes_length && texts == whole.texts_length;
            run r = parsed(source, length, DEPTH, nodes, texts);
            check(r.status == (fits ? FIRTHNAPKIN_OK : FIRTHNAPKIN_BUFFER_TOO_SMALL) && r.nodes_length == whole.nodes_length
                      && r.texts_length == whole.texts_length && is_kept(r) && is_error_kept(r),
                  "capacity for %zu nodes and %zu bytes, for %s", nodes, texts, source);
            check(same_nodes(r.nodes, whole.nodes, nodes) && !memcmp(r.texts, whole.texts, texts),
                  "as many as fit into buffers for %zu nodes and %zu bytes, for %s", nodes, texts, source);
            give_back(r);
        }
    }
    give_back(whole);
}

/* A source without a tree. */
static void refused(const char *source, uint32_t depth, uint32_t status, uint32_t kind, uint32_t detail,
                    uint32_t character, uint32_t line, uint32_t column, uint32_t byte) {
    run r = parsed(source, strlen(source), depth, 9, 9);
    check(r.status == status && r.nodes_length == 0 && r.texts_length == 0 && is_kept(r), "the status for %s", source);
    check(r.error.kind == kind && r.error.detail == detail && r.error.character == character
              && r.error.start.line == line && r.error.start.column == column && r.error.start.byte == byte,
          "the error of %s: %u %u %u at %u:%u, byte %u", source, r.error.kind, r.error.detail, r.error.character,
          r.error.start.line, r.error.start.column, r.error.start.byte);
    give_back(r);
}

static void statuses(void) {
    refused("{ a ) }", DEPTH, FIRTHNAPKIN_SYNTAX_ERROR, FIRTHNAPKIN_ERROR_UNEXPECTED_TOKEN, 0, 0, 0, 4, 4);
    refused("#\xc3\xa9\n{ a", DEPTH, FIRTHNAPKIN_SYNTAX_ERROR, FIRTHNAPKIN_ERROR_UNEXPECTED_END, 0, 0, 1, 3, 7);
    refused("{ \xc3\xa9 }", DEPTH, FIRTHNAPKIN_SYNTAX_ERROR, FIRTHNAPKIN_ERROR_LEXICAL, FIRTHNAPKIN_DETAIL_UNKNOWN_CHARACTER,
            0xE9, 0, 2, 2);
    refused("{ .a }", DEPTH, FIRTHNAPKIN_SYNTAX_ERROR, FIRTHNAPKIN_ERROR_LEXICAL, FIRTHNAPKIN_DETAIL_UNEXPECTED_CHARACTER,
            '.', 0, 2, 2);
    refused("{a(b:\"c", DEPTH, FIRTHNAPKIN_SYNTAX_ERROR, FIRTHNAPKIN_ERROR_LEXICAL, FIRTHNAPKIN_DETAIL_UNTERMINATED_STRING,
            0, 0, 7, 7);
    refused("{a(b:\"\x01\")}", DEPTH, FIRTHNAPKIN_SYNTAX_ERROR, FIRTHNAPKIN_ERROR_LEXICAL,
            FIRTHNAPKIN_DETAIL_UNKNOWN_CHARACTER_IN_STRING, 1, 0, 6, 6);
    refused("{a(b:\"\\q\")}", DEPTH, FIRTHNAPKIN_SYNTAX_ERROR, FIRTHNAPKIN_ERROR_LEXICAL, FIRTHNAPKIN_DETAIL_UNKNOWN_ESCAPE,
            0, 0, 7, 7);
    refused("{a{b}}", 1, FIRTHNAPKIN_TOO_DEEP, FIRTHNAPKIN_ERROR_TOO_DEEP, 0, 0, 0, 2, 2);
    refused("{a}", 0, FIRTHNAPKIN_TOO_DEEP, FIRTHNAPKIN_ERROR_TOO_DEEP, 0, 0, 0, 0, 0);
    /* A lexical error comes before a token that is nested too deep, wherever it is; of other errors the first one counts. */
    refused("{a{b}} ?", 1, FIRTHNAPKIN_SYNTAX_ERROR, FIRTHNAPKIN_ERROR_LEXICAL, FIRTHNAPKIN_DETAIL_UNKNOWN_CHARACTER, '?', 0, 7,
            7);
    refused("{a{b}} )", 1, FIRTHNAPKIN_TOO_DEEP, FIRTHNAPKIN_ERROR_TOO_DEEP, 0, 0, 0, 2, 2);
    refused("{a)a{b}}", 1, FIRTHNAPKIN_SYNTAX_ERROR, FIRTHNAPKIN_ERROR_UNEXPECTED_TOKEN, 0, 0, 0, 2, 2);

    run r = parsed("\xff{", 2, DEPTH, 3, 3);
    check(r.status == FIRTHNAPKIN_NOT_UTF8 && is_kept(r) && is_error_kept(r) && !r.nodes_length, "bytes that are not UTF-8");
    give_back(r);
    check(firthnapkin_version() == FIRTHNAPKIN_VERSION, "the number of the interface");
}

/* If a count is 0 no memory is needed. */
static void no_memory(void) {
    size_t nodes_length = 1, texts_length = 1;
    firthnapkin_error error;
    memset(&error, CANARY, sizeof error);
    check(firthnapkin_parse(NULL, 0, &DEFAULT, NULL, 0, &nodes_length, NULL, 0, &texts_length, &error) == FIRTHNAPKIN_SYNTAX_ERROR
              && error.kind == FIRTHNAPKIN_ERROR_UNEXPECTED_END && error.start.index == 0 && error.end.byte == 0 && !nodes_length
              && !texts_length,
          "no source");
    check(firthnapkin_parse((const uint8_t *)"{a}", 3, &DEFAULT, NULL, 0, &nodes_length, NULL, 0, &texts_length, &error)
                  == FIRTHNAPKIN_BUFFER_TOO_SMALL
              && nodes_length == 2 && texts_length == 0,
          "no capacity");
    firthnapkin_node nodes[2];
    check(firthnapkin_parse((const uint8_t *)"{a}", 3, &DEFAULT, nodes, 2, &nodes_length, NULL, 0, &texts_length, &error)
                  == FIRTHNAPKIN_OK
              && nodes[0].kind == FIRTHNAPKIN_QUERY && nodes[1].kind == FIRTHNAPKIN_FIELD,
          "no capacity for texts that aren't there");
}

/* A source that is too long is not read. */
static void too_long(void) {
    void *source = too_long_source();
    if (source == NULL) return;
    run r = parsed(source, FOUR_GIB, DEPTH, 1, 1);
    check(r.status == FIRTHNAPKIN_SOURCE_TOO_LONG && is_kept(r) && is_error_kept(r) && !r.nodes_length && !r.texts_length, "4 GiB");
    give_back(r);
    check(firthnapkin_count(source, FOUR_GIB, 1, &r.error) == FIRTHNAPKIN_SOURCE_TOO_LONG && is_error_kept(r), "4 GiB, counted");
    munmap(source, FOUR_GIB);
}

/* Limits that no call takes: the source is not read. */
static void invalid_limits(firthnapkin_limits limits) {
    static const char *const sources[] = {"{a}", "{ a ) }", "\xff{", ""};
    for (size_t k = 0; k < sizeof sources / sizeof *sources; k++) {
        run r = parsed_within(sources[k], strlen(sources[k]), limits, 9, 9);
        check(r.status == FIRTHNAPKIN_INVALID_LIMIT && is_kept(r) && is_error_kept(r) && !r.nodes_length && !r.texts_length,
              "the depth %u for %s: %u", limits.depth, sources[k], r.status);
        give_back(r);
    }
}

static void limits(void) {
    static const uint32_t depth[] = {FIRTHNAPKIN_MAX_DEPTH + 1, (uint32_t)1 << 31, UINT32_MAX};
    firthnapkin_limits limits = DEFAULT;
    check(limits.depth == 200 && limits.tokens == UINT32_MAX, "the default limits");
    for (size_t i = 0; i < sizeof depth / sizeof *depth; i++) {
        limits.depth = depth[i];
        invalid_limits(limits);
    }
    for (size_t i = 0; i < sizeof limits.reserved / sizeof *limits.reserved; i++) {
        limits = DEFAULT;
        limits.reserved[i] = i % 2 ? UINT32_MAX : 1;
        invalid_limits(limits);
    }
    run r = parsed("{a}", 3, FIRTHNAPKIN_MAX_DEPTH, 9, 9);
    check(r.status == FIRTHNAPKIN_OK && r.nodes_length == 2, "the largest depth");
    give_back(r);
}

/* A parse within the same limit is refused at the same token, or is what it is without a limit. */
static void parse_of_few(const char *source, uint32_t tokens, uint32_t max_tokens, const uint32_t *starts) {
    firthnapkin_limits limits = DEFAULT;
    limits.tokens = max_tokens;
    run r = parsed_within(source, strlen(source), limits, 99, 99), any = parsed(source, strlen(source), DEPTH, 99, 99);
    if (max_tokens >= tokens)
        check(r.status == any.status && r.nodes_length == any.nodes_length && same_nodes(r.nodes, any.nodes, r.nodes_length)
                  && !memcmp(&r.error, &any.error, sizeof r.error),
              "a parse of %u tokens of %s", max_tokens, source);
    else
        check(r.status == FIRTHNAPKIN_TOO_MANY_TOKENS && is_kept(r) && !r.nodes_length && !r.texts_length
                  && r.error.kind == FIRTHNAPKIN_ERROR_TOO_MANY_TOKENS && r.error.start.byte == starts[max_tokens],
              "a parse of more than %u tokens of %s: %u at %u", max_tokens, source, r.status, r.error.start.byte);
    give_back(r);
    give_back(any);
}

/* Every limit from 0 to above the number of tokens: if the limit is below it, the error is the first token too many. */
static void every_count(const char *source, uint32_t tokens, const uint32_t *starts, const uint32_t *ends) {
    for (uint32_t max_tokens = 0; max_tokens < tokens + 3; max_tokens++) {
        firthnapkin_error error;
        parse_of_few(source, tokens, max_tokens, starts);
        memset(&error, CANARY, sizeof error);
        uint32_t status = firthnapkin_count((const uint8_t *)source, strlen(source), max_tokens, &error);
        if (max_tokens >= tokens) {
            check(status == FIRTHNAPKIN_OK && are_canaries(&error, sizeof error), "%u tokens in %s", max_tokens, source);
            continue;
        }
        check(status == FIRTHNAPKIN_TOO_MANY_TOKENS && error.kind == FIRTHNAPKIN_ERROR_TOO_MANY_TOKENS && !error.detail
                  && !error.character && error.start.byte == starts[max_tokens] && error.end.byte == ends[max_tokens],
              "more than %u tokens in %s: %u, at %u to %u", max_tokens, source, status, error.start.byte, error.end.byte);
    }
}

static void counts(void) {
    every_count("", 0, NULL, NULL);
    every_count("  , # {a}\n", 0, NULL, NULL);
    every_count("#\xc3\xa9\n{a(b:\"\xc3\xa9\",...)}", 9, (const uint32_t[]){4, 5, 6, 7, 8, 9, 14, 17, 18},
                (const uint32_t[]){5, 6, 7, 8, 9, 13, 17, 18, 19});
    /* The source is cut up to the first token too many, and there is none after a lexical error. */
    every_count("{a ? b c d", 2, (const uint32_t[]){0, 1}, (const uint32_t[]){1, 2});
    every_count("a b \"", 2, (const uint32_t[]){0, 2}, (const uint32_t[]){1, 3});
    firthnapkin_error error;
    memset(&error, CANARY, sizeof error);
    check(firthnapkin_count((const uint8_t *)"{\xff", 2, 0, &error) == FIRTHNAPKIN_NOT_UTF8, "a count of bytes that are not UTF-8");
    check(firthnapkin_count((const uint8_t *)"a b \xff", 5, 1, &error) == FIRTHNAPKIN_NOT_UTF8,
          "bytes that are not UTF-8 after the first token too many");
    check(firthnapkin_count(NULL, 0, 0, &error) == FIRTHNAPKIN_OK, "a count of nothing");
    check(firthnapkin_count((const uint8_t *)"{a}", 3, UINT32_MAX, &error) == FIRTHNAPKIN_OK, "the largest limit");
    check(are_canaries(&error, sizeof error), "an error is left");
    check(firthnapkin_count((const uint8_t *)"# \xf0\x9d\x84\x9e\n a", 9, 0, &error) == FIRTHNAPKIN_TOO_MANY_TOKENS
              && error.start.index == 5 && error.start.line == 1 && error.start.column == 1 && error.start.byte == 8 && error.end.index == 6,
          "a position beyond ASCII");
}

/* A text of nested parts: a head, a number of openings, a middle, as many closings, a tail; the head opens some, too. */
typedef struct {
    const char *head, *opening, *middle, *closing, *tail;
    uint32_t opened;
} nested;

static const nested NESTED[] = {
    {"", "{...", "{a}", "}", "", 1},           {"", "{a", "{a}", "}", "", 1},
    {"{a(x:", "[", "1", "]", ")}", 2},         {"{a(x:", "{k:", "1", "}", ")}", 2},
    {"query($a:", "[", "T", "]", "){a}", 1},   {"query($a:T=", "[", "1", "]", "){a}", 1},
};

static char *repeated(char *at, const char *part, uint32_t count) {
    size_t length = strlen(part);
    for (uint32_t i = 0; i < count; i++, at += length) memcpy(at, part, length);
    return at;
}

/* Calls on a stack of no more than the header says. */
typedef struct {
    const char *source;
    size_t length;
    uint32_t depth, parsed;
} deep_calls;

static void *call_deep(void *argument) {
    deep_calls *d = argument;
    run r = parsed(d->source, d->length, d->depth, d->length, d->length);
    d->parsed = r.status;
    give_back(r);
    return NULL;
}

static void stacks(void) {
    static const uint32_t depths[] = {2, 10, 200, FIRTHNAPKIN_MAX_DEPTH};
    static char text[8 * (FIRTHNAPKIN_MAX_DEPTH + 9)];
    for (size_t i = 0; i < sizeof NESTED / sizeof *NESTED; i++) {
        for (size_t k = 0; k < sizeof depths / sizeof *depths; k++) {
            nested n = NESTED[i];
            for (uint32_t beyond = 0; beyond < 2; beyond++) {
                uint32_t count = depths[k] - n.opened + beyond;
                char *end = repeated(repeated(repeated(text, n.head, 1), n.opening, count), n.middle, 1);
                end = repeated(repeated(end, n.closing, count), n.tail, 1);
                deep_calls d = {text, (size_t)(end - text), depths[k], 99};
                on_stack(d.depth, call_deep, &d);
                uint32_t wanted = beyond ? FIRTHNAPKIN_TOO_DEEP : FIRTHNAPKIN_OK;
                check(d.parsed == wanted, "%u of %s, with the depth %u: %u", count, n.opening, depths[k], d.parsed);
            }
        }
    }
}

/* Strings' meanings and a type's text, values and names, each in one function. */
static void fields(void) {
    const char *s = SOURCES[1];
    run r = parsed(s, strlen(s), DEPTH, 99, 99);
    check(r.nodes_length == 25 && r.texts_length == 8 && !memcmp(r.texts, "[T!]!\xc3\xa9" "b", 8), "the texts of %s", s);
    for (size_t i = 0; i < r.nodes_length; i++) {
        firthnapkin_node n = r.nodes[i];
        size_t name = n.name_end - n.name_start;
        const char *at = s + n.name_start;
        check(n.descendants < r.nodes_length - i, "descendants of node %zu", i);
        if (n.kind == FIRTHNAPKIN_VARIABLE_DEFINITION)
            check(name == 1 && *at == 'v' && n.start.byte + 1 == n.name_start, "a variable definition");
        if (n.kind == FIRTHNAPKIN_TYPE) check(n.value == 0 && n.value_length == 5 && name == 6, "a type");
        if (n.kind == FIRTHNAPKIN_STRING) check(n.value == 5 && n.value_length == 3 && name == 9, "a string");
        if (n.kind == FIRTHNAPKIN_INT) check(n.value == 1 && n.value_length == 0 && name == 1, "an Int");
        if (n.kind == FIRTHNAPKIN_LARGE_INT) check(!n.value && !n.value_length && !strncmp(at, "99999999999", name), "a large Int");
        if (n.kind == FIRTHNAPKIN_FLOAT) check(!n.value && !n.value_length && !strncmp(at, "1.5", name), "a Float");
        if (n.kind == FIRTHNAPKIN_BOOLEAN) check(n.value == 1 && !n.value_length && name == 4, "a Boolean");
        if (n.kind == FIRTHNAPKIN_NULL) check(!n.value && !n.value_length && name == 4, "null");
        if (n.kind == FIRTHNAPKIN_ENUM) check(name == 1 && *at == 'E', "an enum");
        if (n.kind == FIRTHNAPKIN_VARIABLE) check(name == 1 && *at == 'v' && n.start.byte + 1 == n.name_start, "a variable");
        if (n.kind == FIRTHNAPKIN_LIST || n.kind == FIRTHNAPKIN_OBJECT) check(name == 0 && n.name_start == n.start.byte, "no name");
    }
    give_back(r);
    s = SOURCES[2];
    r = parsed(s, strlen(s), DEPTH, 99, 99);
    int fragments = 0;
    for (size_t i = 0; i < r.nodes_length; i++) {
        if (r.nodes[i].kind != FIRTHNAPKIN_FRAGMENT_DEFINITION) continue;
        fragments++;
        check(s[r.nodes[i].name_start] == 'F' && s[r.nodes[i].value] == 'T' && r.nodes[i].value_length == 1, "a fragment");
    }
    check(fragments == 1, "one fragment");
    give_back(r);
}

/* The values of Ints of either sign, at their bounds and beyond, and of both Booleans. */
static void numbers(void) {
    static const struct {
        const char *text;
        uint32_t kind;
        int64_t value;
    } wanted[] = {
        {"-7", FIRTHNAPKIN_INT, -7},
        {"-0", FIRTHNAPKIN_INT, 0},
        {"-2147483648", FIRTHNAPKIN_INT, -2147483647 - 1},
        {"2147483647", FIRTHNAPKIN_INT, 2147483647},
        {"-2147483649", FIRTHNAPKIN_LARGE_INT, 0},
        {"2147483648", FIRTHNAPKIN_LARGE_INT, 0},
        {"-1.5", FIRTHNAPKIN_FLOAT, 0},
        {"true", FIRTHNAPKIN_BOOLEAN, 1},
        {"false", FIRTHNAPKIN_BOOLEAN, 0},
    };
    for (size_t i = 0; i < sizeof wanted / sizeof *wanted; i++) {
        char source[64];
        size_t length = (size_t)snprintf(source, sizeof source, "{a(b:%s)}", wanted[i].text);
        run r = parsed(source, length, DEPTH, 9, 9);
        firthnapkin_node n = r.nodes[4];
        check(r.status == FIRTHNAPKIN_OK && r.nodes_length == 5 && n.kind == wanted[i].kind && n.value == wanted[i].value
                  && (wanted[i].value < 0) == (n.value < 0) && n.value_length == 0 && n.name_start == n.start.byte
                  && n.name_end == n.end.byte && n.name_end - n.name_start == strlen(wanted[i].text),
              "the value of %s", wanted[i].text);
        give_back(r);
    }
}

static void *many(void *failures) {
    for (int round = 0; round < 200; round++) {
        for (size_t i = 0; i < sizeof SOURCES / sizeof *SOURCES; i++) {
            size_t length = strlen(SOURCES[i]);
            run a = parsed(SOURCES[i], length, DEPTH, length, length), b = parsed(SOURCES[i], length, DEPTH, length, length);
            if (a.status != FIRTHNAPKIN_OK || !is_kept(a) || !same_nodes(a.nodes, b.nodes, a.nodes_length)
                || memcmp(a.texts, b.texts, a.texts_length))
                ++*(long *)failures;
            give_back(a);
            give_back(b);
        }
    }
    return NULL;
}

/* Ten million bytes, with and without characters beyond ASCII. */
static void large(const char *part, size_t nodes, size_t texts) {
    size_t step = strlen(part), count = 10000000 / step + 1, length = count * step + 2;
    char *source = malloc(length);
    if (source == NULL) abort();
    source[0] = '{';
    for (size_t i = 0; i < count; i++) memcpy(source + 1 + i * step, part, step);
    source[length - 1] = '}';
    run r = parsed(source, length, DEPTH, count * nodes + 1, length);
    check(r.status == FIRTHNAPKIN_OK && r.nodes_length == count * nodes + 1 && r.texts_length == count * texts && is_kept(r),
          "ten million bytes of %s", part);
    if (r.status == FIRTHNAPKIN_OK)
        check(r.nodes[0].descendants == count * nodes && r.nodes[0].end.byte == length
                  && r.nodes[r.nodes_length - 1].end.byte < length,
              "the positions in ten million bytes of %s", part);
    give_back(r);
    free(source);
}

int main(void) {
    for (size_t i = 0; i < sizeof SOURCES / sizeof *SOURCES; i++) every_capacity(SOURCES[i]);
    statuses();
    no_memory();
    too_long();
    limits();
    counts();
    stacks();
    fields();
    numbers();
    in_threads(many);
    large("user(id: 4, b: {c: [1, \"x\"]}) { id name } ", 12, 1);
    large("say(text: \"\xd0\xbc\xd0\xb8\xd1\x80\") # \xd0\xbc\xd0\xb8\xd1\x80\n", 4, 6);
    return counted();
}
