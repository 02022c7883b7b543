/* Which status comes first if several hold: a row for each two lines of the header's table that can hold at once in a call, and
 * some for three and four. */
#define _GNU_SOURCE
#include "../../include/firthnapkin.h"
#include "checks.h"
#include "memory.h"

enum { NO_ERROR = -1, MOST = 64 };

/* A call, the capacity of its arrays, what it returns, and the byte at which its error begins. */
typedef struct {
    const char *source;
    firthnapkin_limits limits;
    size_t capacity;
    uint32_t status;
    int byte;
} row;

#define WITHIN(most_depth, most_tokens)                                                                                        \
    { .depth = most_depth, .tokens = most_tokens }
#define UNKNOWN                                                                                                                \
    {                                                                                                                          \
        .depth = 200, .tokens = UINT32_MAX, .reserved = { 0, 0, 1 }                                                            \
    }
#define ANY WITHIN(200, UINT32_MAX)

static const row PARSES[] = {
    /* An invalid limit, and what isn't UTF-8. */
    {"{\xff", WITHIN(1001, 0), 0, FIRTHNAPKIN_INVALID_LIMIT, NO_ERROR},
    {"{ ? a", UNKNOWN, 0, FIRTHNAPKIN_INVALID_LIMIT, NO_ERROR},
    {"{a}", WITHIN(1001, UINT32_MAX), 0, FIRTHNAPKIN_INVALID_LIMIT, NO_ERROR},
    /* What isn't UTF-8, after a token too many, a lexical error, a token too deep, an error, or in a buffer that is too small. */
    {"a b \xff", WITHIN(200, 1), 0, FIRTHNAPKIN_NOT_UTF8, NO_ERROR},
    {"{ ? \xff", ANY, MOST, FIRTHNAPKIN_NOT_UTF8, NO_ERROR},
    {"{a{b}} \xff", WITHIN(1, 99), MOST, FIRTHNAPKIN_NOT_UTF8, NO_ERROR},
    {"} \xff", ANY, MOST, FIRTHNAPKIN_NOT_UTF8, NO_ERROR},
    {"{a}#\xff", ANY, 0, FIRTHNAPKIN_NOT_UTF8, NO_ERROR},
    {"{a{b}} ) ? \xff", WITHIN(1, 3), 0, FIRTHNAPKIN_NOT_UTF8, NO_ERROR},
    /* A token too many, before a lexical error and after one. */
    {"{ a b ?", WITHIN(200, 2), MOST, FIRTHNAPKIN_TOO_MANY_TOKENS, 4},
    {"{ ? a b", WITHIN(200, 2), MOST, FIRTHNAPKIN_SYNTAX_ERROR, 2},
    {"{ a ? b", WITHIN(200, 2), MOST, FIRTHNAPKIN_SYNTAX_ERROR, 4},
    {"{ ? a b", WITHIN(200, 0), MOST, FIRTHNAPKIN_TOO_MANY_TOKENS, 0},
    /* A token too many, after a token too deep, after an error, and in a buffer that is too small. */
    {"{a{b}}", WITHIN(1, 3), MOST, FIRTHNAPKIN_TOO_MANY_TOKENS, 3},
    {"{ } a b", WITHIN(200, 3), MOST, FIRTHNAPKIN_TOO_MANY_TOKENS, 6},
    {"{a b}", WITHIN(200, 3), 0, FIRTHNAPKIN_TOO_MANY_TOKENS, 4},
    {"{a{b}} ) ?", WITHIN(1, 6), 0, FIRTHNAPKIN_TOO_MANY_TOKENS, 7},
    /* A lexical error, after a token too deep and after an error. */
    {"{a{b}} ?", WITHIN(1, UINT32_MAX), MOST, FIRTHNAPKIN_SYNTAX_ERROR, 7},
    {"{a{b}} ) ?", WITHIN(1, 7), 0, FIRTHNAPKIN_SYNTAX_ERROR, 9},
    {"{ ) } \"", ANY, MOST, FIRTHNAPKIN_SYNTAX_ERROR, 7},
    /* A token too deep and an error, by which is first. */
    {"{a{b)}", WITHIN(1, UINT32_MAX), MOST, FIRTHNAPKIN_TOO_DEEP, 2},
    {"{a)a{b}}", WITHIN(1, UINT32_MAX), MOST, FIRTHNAPKIN_SYNTAX_ERROR, 2},
    {"{a{b", WITHIN(1, UINT32_MAX), MOST, FIRTHNAPKIN_TOO_DEEP, 2},
    /* A limit of 0 allows no bracket, and no token. */
    {"{a}", WITHIN(0, UINT32_MAX), MOST, FIRTHNAPKIN_TOO_DEEP, 0},
    {"a {a}", WITHIN(0, UINT32_MAX), MOST, FIRTHNAPKIN_SYNTAX_ERROR, 0},
    {"# {", WITHIN(0, 0), MOST, FIRTHNAPKIN_SYNTAX_ERROR, 3},
    /* Both, in a buffer that is too small. */
    {"{a{b}}", WITHIN(1, UINT32_MAX), 0, FIRTHNAPKIN_TOO_DEEP, 2},
    {"{ ) }", ANY, 0, FIRTHNAPKIN_SYNTAX_ERROR, 2},
    {"{a b}", ANY, 2, FIRTHNAPKIN_BUFFER_TOO_SMALL, NO_ERROR},
    {"{a b}", WITHIN(1, 4), 3, FIRTHNAPKIN_OK, NO_ERROR},
};

static const row VALUES[] = {
    /* The same for sources that are a value. */
    {"[\xff", WITHIN(1001, 0), 0, FIRTHNAPKIN_INVALID_LIMIT, NO_ERROR},
    {"[ ? 1", UNKNOWN, 0, FIRTHNAPKIN_INVALID_LIMIT, NO_ERROR},
    {"1", WITHIN(1001, UINT32_MAX), 0, FIRTHNAPKIN_INVALID_LIMIT, NO_ERROR},
    {"1 2 \xff", WITHIN(200, 1), 0, FIRTHNAPKIN_NOT_UTF8, NO_ERROR},
    {"[ ? \xff", ANY, MOST, FIRTHNAPKIN_NOT_UTF8, NO_ERROR},
    {"[[1]] \xff", WITHIN(1, 99), MOST, FIRTHNAPKIN_NOT_UTF8, NO_ERROR},
    {"] \xff", ANY, MOST, FIRTHNAPKIN_NOT_UTF8, NO_ERROR},
    {"1#\xff", ANY, 0, FIRTHNAPKIN_NOT_UTF8, NO_ERROR},
    {"[[1]] ) ? \xff", WITHIN(1, 3), 0, FIRTHNAPKIN_NOT_UTF8, NO_ERROR},
    {"[ 1 2 ?", WITHIN(200, 2), MOST, FIRTHNAPKIN_TOO_MANY_TOKENS, 4},
    {"[ ? 1 2", WITHIN(200, 2), MOST, FIRTHNAPKIN_SYNTAX_ERROR, 2},
    {"[ ? 1 2", WITHIN(200, 0), MOST, FIRTHNAPKIN_TOO_MANY_TOKENS, 0},
    {"[[1]]", WITHIN(1, 2), MOST, FIRTHNAPKIN_TOO_MANY_TOKENS, 2},
    {"] 1 2 3", WITHIN(200, 3), MOST, FIRTHNAPKIN_TOO_MANY_TOKENS, 6},
    {"[1 2]", WITHIN(200, 3), 0, FIRTHNAPKIN_TOO_MANY_TOKENS, 4},
    {"1 2", WITHIN(200, 1), 0, FIRTHNAPKIN_TOO_MANY_TOKENS, 2},
    {"[[1]] ) ?", WITHIN(1, 5), 0, FIRTHNAPKIN_TOO_MANY_TOKENS, 6},
    {"[[1]] ?", WITHIN(1, UINT32_MAX), MOST, FIRTHNAPKIN_SYNTAX_ERROR, 6},
    {"[[1]] ) ?", WITHIN(1, 6), 0, FIRTHNAPKIN_SYNTAX_ERROR, 8},
    {"1 2 ?", ANY, MOST, FIRTHNAPKIN_SYNTAX_ERROR, 4},
    {"[[)]", WITHIN(1, UINT32_MAX), MOST, FIRTHNAPKIN_TOO_DEEP, 1},
    {"[)[[1]]", WITHIN(1, UINT32_MAX), MOST, FIRTHNAPKIN_SYNTAX_ERROR, 1},
    {"[[1", WITHIN(1, UINT32_MAX), MOST, FIRTHNAPKIN_TOO_DEEP, 1},
    {"[1]", WITHIN(0, UINT32_MAX), MOST, FIRTHNAPKIN_TOO_DEEP, 0},
    {"1 [1]", WITHIN(0, UINT32_MAX), MOST, FIRTHNAPKIN_SYNTAX_ERROR, 2},
    {"# [", WITHIN(0, 0), MOST, FIRTHNAPKIN_SYNTAX_ERROR, 3},
    {"[[1]]", WITHIN(1, UINT32_MAX), 0, FIRTHNAPKIN_TOO_DEEP, 1},
    {"[ ) ]", ANY, 0, FIRTHNAPKIN_SYNTAX_ERROR, 2},
    {"[1 2]", ANY, 2, FIRTHNAPKIN_BUFFER_TOO_SMALL, NO_ERROR},
    {"\"a b\"", ANY, 2, FIRTHNAPKIN_BUFFER_TOO_SMALL, NO_ERROR},
    {"[1 2]", WITHIN(1, 4), 3, FIRTHNAPKIN_OK, NO_ERROR},
    {"$a", ANY, 1, FIRTHNAPKIN_OK, NO_ERROR},
};

/* A variable in a constant is an error where it begins. */
static const row CONSTANTS[] = {
    {"$a \xff", ANY, MOST, FIRTHNAPKIN_NOT_UTF8, NO_ERROR},
    {"$a b", WITHIN(200, 1), MOST, FIRTHNAPKIN_TOO_MANY_TOKENS, 1},
    {"$a ?", ANY, MOST, FIRTHNAPKIN_SYNTAX_ERROR, 3},
    {"[$a [1]]", WITHIN(1, UINT32_MAX), MOST, FIRTHNAPKIN_SYNTAX_ERROR, 1},
    {"[[$a]]", WITHIN(1, UINT32_MAX), MOST, FIRTHNAPKIN_TOO_DEEP, 1},
    {"$a", ANY, 0, FIRTHNAPKIN_SYNTAX_ERROR, 0},
    {"[1 2]", ANY, 2, FIRTHNAPKIN_BUFFER_TOO_SMALL, NO_ERROR},
    {"[1 2]", ANY, 3, FIRTHNAPKIN_OK, NO_ERROR},
};

static const row TYPES[] = {
    {"[\xff", WITHIN(1001, 0), 0, FIRTHNAPKIN_INVALID_LIMIT, NO_ERROR},
    {"T", UNKNOWN, 0, FIRTHNAPKIN_INVALID_LIMIT, NO_ERROR},
    {"T T \xff", WITHIN(200, 1), 0, FIRTHNAPKIN_NOT_UTF8, NO_ERROR},
    {"[ ? \xff", ANY, MOST, FIRTHNAPKIN_NOT_UTF8, NO_ERROR},
    {"[[T]] \xff", WITHIN(1, 99), MOST, FIRTHNAPKIN_NOT_UTF8, NO_ERROR},
    {"T#\xff", ANY, 0, FIRTHNAPKIN_NOT_UTF8, NO_ERROR},
    {"[ T ] ?", WITHIN(200, 2), MOST, FIRTHNAPKIN_TOO_MANY_TOKENS, 4},
    {"[ ? T ]", WITHIN(200, 2), MOST, FIRTHNAPKIN_SYNTAX_ERROR, 2},
    {"[[T]]", WITHIN(1, 2), MOST, FIRTHNAPKIN_TOO_MANY_TOKENS, 2},
    {"! T T", WITHIN(200, 2), MOST, FIRTHNAPKIN_TOO_MANY_TOKENS, 4},
    {"[T]", WITHIN(200, 2), 0, FIRTHNAPKIN_TOO_MANY_TOKENS, 2},
    {"T!!", WITHIN(200, 2), 0, FIRTHNAPKIN_TOO_MANY_TOKENS, 2},
    {"[[T]] ?", WITHIN(1, UINT32_MAX), MOST, FIRTHNAPKIN_SYNTAX_ERROR, 6},
    {"T T ?", ANY, MOST, FIRTHNAPKIN_SYNTAX_ERROR, 4},
    {"[[!", WITHIN(1, UINT32_MAX), MOST, FIRTHNAPKIN_TOO_DEEP, 1},
    {"[![[T]]", WITHIN(1, UINT32_MAX), MOST, FIRTHNAPKIN_SYNTAX_ERROR, 1},
    {"T [T]", WITHIN(0, UINT32_MAX), MOST, FIRTHNAPKIN_SYNTAX_ERROR, 2},
    {"# T", WITHIN(0, 0), MOST, FIRTHNAPKIN_SYNTAX_ERROR, 3},
    {"[T", ANY, 0, FIRTHNAPKIN_SYNTAX_ERROR, 2},
    {"T", ANY, 0, FIRTHNAPKIN_BUFFER_TOO_SMALL, NO_ERROR},
    {"[ID!]", ANY, 4, FIRTHNAPKIN_BUFFER_TOO_SMALL, NO_ERROR},
    {"[ ID ! ]", WITHIN(1, 4), 5, FIRTHNAPKIN_OK, NO_ERROR},
};

/* A spread that can't be expanded, in what isn't UTF-8, isn't a document or is within no limit, and in an array that is too small. */
static const row SPREADS[] = {
    {"{...A} \xff", ANY, MOST, FIRTHNAPKIN_NOT_UTF8, NO_ERROR},
    {"{...A}", UNKNOWN, MOST, FIRTHNAPKIN_INVALID_LIMIT, NO_ERROR},
    {"{...A}", WITHIN(200, 3), MOST, FIRTHNAPKIN_TOO_MANY_TOKENS, 5},
    {"{...A} ?", ANY, MOST, FIRTHNAPKIN_SYNTAX_ERROR, 7},
    {"{...A} )", ANY, MOST, FIRTHNAPKIN_SYNTAX_ERROR, 7},
    {"{...A b{c}}", WITHIN(1, UINT32_MAX), MOST, FIRTHNAPKIN_TOO_DEEP, 7},
    {"{...A}", ANY, 0, FIRTHNAPKIN_UNKNOWN_FRAGMENT, 1},
    {"{...A} fragment A on T{...A}", ANY, 0, FIRTHNAPKIN_FRAGMENT_CYCLE, 23},
    {"{...A ...A} fragment A on T{...B ...A}", ANY, MOST, FIRTHNAPKIN_UNKNOWN_FRAGMENT, 28},
    {"{...A ...B} fragment A on T{...A ...B}", ANY, MOST, FIRTHNAPKIN_FRAGMENT_CYCLE, 28},
    {"{...A} fragment A on T{a} fragment B on T{...B}", ANY, 2, FIRTHNAPKIN_BUFFER_TOO_SMALL, NO_ERROR},
};

/* Of the limits the number of tokens alone is taken. */
static const row COUNTS[] = {
    {"a b \xff", WITHIN(0, 1), 0, FIRTHNAPKIN_NOT_UTF8, NO_ERROR},
    {"a ? \xff", WITHIN(0, 9), 0, FIRTHNAPKIN_NOT_UTF8, NO_ERROR},
    {"a b ?", WITHIN(0, 1), 0, FIRTHNAPKIN_TOO_MANY_TOKENS, 2},
    {"a ? b", WITHIN(0, 1), 0, FIRTHNAPKIN_OK, NO_ERROR},
};

static const row CUTS[] = {
    {"a b \xff", WITHIN(0, 1), MOST, FIRTHNAPKIN_NOT_UTF8, NO_ERROR},
    {"a ? \xff", WITHIN(0, 9), MOST, FIRTHNAPKIN_NOT_UTF8, NO_ERROR},
    {"a #\xff", WITHIN(0, 9), 0, FIRTHNAPKIN_NOT_UTF8, NO_ERROR},
    {"a b ?", WITHIN(0, 1), MOST, FIRTHNAPKIN_TOO_MANY_TOKENS, 2},
    {"a ? b", WITHIN(0, 1), MOST, FIRTHNAPKIN_SYNTAX_ERROR, 2},
    {"a b", WITHIN(0, 1), 0, FIRTHNAPKIN_TOO_MANY_TOKENS, 2},
    {"a ?", WITHIN(0, 9), 0, FIRTHNAPKIN_SYNTAX_ERROR, 2},
    {"a b", WITHIN(0, 2), 2, FIRTHNAPKIN_BUFFER_TOO_SMALL, NO_ERROR},
    {"a b", WITHIN(0, 2), 3, FIRTHNAPKIN_OK, NO_ERROR},
};

static const row CANONICALS[] = {
    {"{ ? \xff", ANY, MOST, FIRTHNAPKIN_NOT_UTF8, NO_ERROR},
    {"a #\xff", ANY, 0, FIRTHNAPKIN_NOT_UTF8, NO_ERROR},
    {"a b ?", ANY, 0, FIRTHNAPKIN_SYNTAX_ERROR, 4},
    {"a b", ANY, 2, FIRTHNAPKIN_BUFFER_TOO_SMALL, NO_ERROR},
    {"a b", ANY, 3, FIRTHNAPKIN_OK, NO_ERROR},
};

static firthnapkin_node nodes[MOST];
static firthnapkin_token tokens[MOST];
static uint8_t texts[MOST];
static firthnapkin_complexity complexities[MOST];
static size_t nodes_length, texts_length, complexities_length;

typedef uint32_t some_call(const uint8_t *, size_t, const row *, firthnapkin_error *);

static uint32_t parse(const uint8_t *source, size_t length, const row *r, firthnapkin_error *error) {
    return firthnapkin_parse(source, length, &r->limits, nodes, r->capacity, &nodes_length, texts, r->capacity, &texts_length,
                             error);
}

static uint32_t parse_complexities(const uint8_t *source, size_t length, const row *r, firthnapkin_error *error) {
    return firthnapkin_parse_complexities(source, length, &r->limits, nodes, r->capacity, &nodes_length, texts, r->capacity,
                                          &texts_length, complexities, r->capacity, &complexities_length, error);
}

static uint32_t parse_value(const uint8_t *source, size_t length, const row *r, firthnapkin_error *error) {
    return firthnapkin_parse_value(source, length, 0, &r->limits, nodes, r->capacity, &nodes_length, texts, r->capacity,
                                   &texts_length, error);
}

static uint32_t parse_constant(const uint8_t *source, size_t length, const row *r, firthnapkin_error *error) {
    return firthnapkin_parse_value(source, length, 1, &r->limits, nodes, r->capacity, &nodes_length, texts, r->capacity,
                                   &texts_length, error);
}

static uint32_t parse_type(const uint8_t *source, size_t length, const row *r, firthnapkin_error *error) {
    return firthnapkin_parse_type(source, length, &r->limits, nodes, r->capacity, &nodes_length, texts, r->capacity,
                                  &texts_length, error);
}

static uint32_t count(const uint8_t *source, size_t length, const row *r, firthnapkin_error *error) {
    return firthnapkin_count(source, length, r->limits.tokens, error);
}

static uint32_t cut(const uint8_t *source, size_t length, const row *r, firthnapkin_error *error) {
    return firthnapkin_tokens(source, length, r->limits.tokens, tokens, r->capacity, &nodes_length, error);
}

static uint32_t canonical(const uint8_t *source, size_t length, const row *r, firthnapkin_error *error) {
    return firthnapkin_canonical(source, length, texts, r->capacity, &texts_length, error);
}

static void each(const char *name, some_call *call, const row *rows, size_t count) {
    for (size_t i = 0; i < count; i++) {
        const row *r = &rows[i];
        firthnapkin_error error;
        memset(&error, CANARY, sizeof error);
        uint32_t status = call((const uint8_t *)r->source, strlen(r->source), r, &error);
        check(status == r->status, "%s of %s, %u deep with %u tokens: %s", name, r->source, r->limits.depth, r->limits.tokens,
              firthnapkin_status_name(status));
        if (r->byte == NO_ERROR)
            check(are_canaries(&error, sizeof error), "%s of %s writes an error", name, r->source);
        else
            check(error.start.byte == (uint32_t)r->byte, "%s of %s: an error at %u", name, r->source, error.start.byte);
    }
}

/* Every bit of a reserved word is looked at, and of a depth; any number of tokens is taken. */
static void limits(void) {
    firthnapkin_error error;
    for (uint32_t bit = 1; bit != 0; bit <<= 1) {
        for (size_t i = 0; i < sizeof((row *)0)->limits.reserved / sizeof(uint32_t); i++) {
            row r = {"", ANY, MOST, 0, 0};
            r.limits.reserved[i] = bit;
            nodes_length = texts_length = 1;
            check(parse((const uint8_t *)"{a}", 3, &r, &error) == FIRTHNAPKIN_INVALID_LIMIT && nodes_length + texts_length == 0,
                  "%u in reserved word %zu", bit, i);
            check(parse_complexities((const uint8_t *)"{a}", 3, &r, &error) == FIRTHNAPKIN_INVALID_LIMIT,
                  "%u in reserved word %zu, with complexities", bit, i);
        }
        row r = {"", WITHIN(bit > 512 ? bit : 1000 + bit, UINT32_MAX), MOST, 0, 0};
        check(parse((const uint8_t *)"{a}", 3, &r, &error) == FIRTHNAPKIN_INVALID_LIMIT, "a depth of %u", r.limits.depth);
        check(parse_complexities((const uint8_t *)"{a}", 3, &r, &error) == FIRTHNAPKIN_INVALID_LIMIT,
              "a depth of %u, with complexities", r.limits.depth);
        r.limits = (firthnapkin_limits)WITHIN(bit > 512 ? 1000 : bit, bit);
        check(parse((const uint8_t *)"{a}", 3, &r, &error) == (bit < 3 ? FIRTHNAPKIN_TOO_MANY_TOKENS : FIRTHNAPKIN_OK),
              "%u deep with %u tokens", r.limits.depth, bit);
    }
}

/* A source that is too long comes before limits and errors that are invalid. */
static void too_long(void) {
    void *source = too_long_source();
    firthnapkin_error error, invalid = {.kind = 99};
    if (source == NULL) return;
    for (uint32_t depth = 1000; depth < 1002; depth++) {
        row r = {"", WITHIN(depth, 0), MOST, 0, 0};
        check(parse(source, FOUR_GIB, &r, &error) == FIRTHNAPKIN_SOURCE_TOO_LONG, "a parse of 4 GiB, %u deep", depth);
        check(parse_complexities(source, FOUR_GIB, &r, &error) == FIRTHNAPKIN_SOURCE_TOO_LONG, "complexities of 4 GiB, %u deep",
              depth);
        check(cut(source, FOUR_GIB, &r, &error) == FIRTHNAPKIN_SOURCE_TOO_LONG, "tokens of 4 GiB");
        check(count(source, FOUR_GIB, &r, &error) == FIRTHNAPKIN_SOURCE_TOO_LONG, "a count of 4 GiB");
        check(canonical(source, FOUR_GIB, &r, &error) == FIRTHNAPKIN_SOURCE_TOO_LONG, "the canonical text of 4 GiB");
    }
    /* One byte less is not too long, and nothing of it is read if a limit is invalid. */
    row invalid_limit = {"", WITHIN(1001, 0), MOST, 0, 0};
    check(parse(source, FOUR_GIB - 1, &invalid_limit, &error) == FIRTHNAPKIN_INVALID_LIMIT,
          "a parse of a byte less, 1001 deep");
    check(firthnapkin_message(source, FOUR_GIB, &invalid, texts, MOST, &texts_length) == FIRTHNAPKIN_SOURCE_TOO_LONG, "words");
    invalid.start.byte = UINT32_MAX;
    check(firthnapkin_excerpt(source, FOUR_GIB, &invalid, texts, MOST, &texts_length) == FIRTHNAPKIN_SOURCE_TOO_LONG, "lines");
    munmap(source, FOUR_GIB);
}

/* What isn't UTF-8 comes before an error that is invalid, and that before a buffer that is too small. */
static void words(void) {
    firthnapkin_error invalid = {.kind = 99, .start.byte = 99}, valid = {.kind = FIRTHNAPKIN_ERROR_TOO_DEEP};
    const uint8_t *text = (const uint8_t *)"a", *none = (const uint8_t *)"\xff";
    check(firthnapkin_message(none, 1, &invalid, texts, 0, &texts_length) == FIRTHNAPKIN_NOT_UTF8,
          "words of bytes that are not UTF-8");
    check(firthnapkin_excerpt(none, 1, &invalid, texts, 0, &texts_length) == FIRTHNAPKIN_NOT_UTF8,
          "lines of bytes that are not UTF-8");
    check(firthnapkin_message(text, 1, &invalid, texts, 0, &texts_length) == FIRTHNAPKIN_INVALID_ERROR, "words of no error");
    check(firthnapkin_excerpt(text, 1, &invalid, texts, 0, &texts_length) == FIRTHNAPKIN_INVALID_ERROR, "lines of no error");
    check(firthnapkin_message(text, 1, &valid, texts, 16, &texts_length) == FIRTHNAPKIN_BUFFER_TOO_SMALL, "words in 16 bytes");
    check(firthnapkin_message(text, 1, &valid, texts, 17, &texts_length) == FIRTHNAPKIN_OK, "words in 17 bytes");
    check(firthnapkin_excerpt(text, 1, &valid, texts, 10, &texts_length) == FIRTHNAPKIN_BUFFER_TOO_SMALL, "lines in 10 bytes");
    check(firthnapkin_excerpt(text, 1, &valid, texts, 11, &texts_length) == FIRTHNAPKIN_OK, "lines in 11 bytes");
}

int main(void) {
    each("a parse", parse, PARSES, sizeof PARSES / sizeof *PARSES);
    each("a parse with complexities", parse_complexities, PARSES, sizeof PARSES / sizeof *PARSES);
    each("a parse with complexities", parse_complexities, SPREADS, sizeof SPREADS / sizeof *SPREADS);
    each("a value", parse_value, VALUES, sizeof VALUES / sizeof *VALUES);
    each("a constant", parse_constant, CONSTANTS, sizeof CONSTANTS / sizeof *CONSTANTS);
    each("a type", parse_type, TYPES, sizeof TYPES / sizeof *TYPES);
    each("a count", count, COUNTS, sizeof COUNTS / sizeof *COUNTS);
    each("a cut", cut, CUTS, sizeof CUTS / sizeof *CUTS);
    each("a canonical text", canonical, CANONICALS, sizeof CANONICALS / sizeof *CANONICALS);
    limits();
    too_long();
    words();
    return counted();
}
