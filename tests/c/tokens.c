/* What a source is cut into, and its canonical text: buffers of every size, every limit, errors, no source, threads, large
 * texts, a small stack. */
#define _GNU_SOURCE
#include "../../include/firthnapkin.h"
#include "checks.h"
#include "memory.h"

/* A token, as it is written; of an error after the tokens which it is and the byte where it is. */
typedef struct {
    uint32_t kind, quotes;
    const char *written;
} spelled;

typedef struct {
    const char *source;
    uint32_t detail, character, at;
    spelled tokens[40];
} cut_source;

enum { ANY_TOKENS = 40 };

#define END {FIRTHNAPKIN_TOKEN_END_OF_FILE, 0, NULL}

static const cut_source CUT[] = {
    {"", 0, 0, 0, {END}},
    {"  , # {a}\n", 0, 0, 0, {END}},
    {"\xef\xbb\xbf{a}", 0, 0, 0,
     {{FIRTHNAPKIN_TOKEN_CURLY_OPEN, 0, "{"}, {FIRTHNAPKIN_TOKEN_NAME, 0, "a"}, {FIRTHNAPKIN_TOKEN_CURLY_CLOSE, 0, "}"}, END}},
    {"#\xc3\xa9\n{a(b:\"\xc3\xa9\",...)} ", 0, 0, 0,
     {{FIRTHNAPKIN_TOKEN_CURLY_OPEN, 0, "{"}, {FIRTHNAPKIN_TOKEN_NAME, 0, "a"}, {FIRTHNAPKIN_TOKEN_PAREN_OPEN, 0, "("},
      {FIRTHNAPKIN_TOKEN_NAME, 0, "b"}, {FIRTHNAPKIN_TOKEN_COLON, 0, ":"}, {FIRTHNAPKIN_TOKEN_STRING, 1, "\"\xc3\xa9\""},
      {FIRTHNAPKIN_TOKEN_ELLIPSIS, 0, "..."}, {FIRTHNAPKIN_TOKEN_PAREN_CLOSE, 0, ")"},
      {FIRTHNAPKIN_TOKEN_CURLY_CLOSE, 0, "}"}, END}},
    {"!$()[]{}...:=@|_a9 0 -12 1.5 -0e+7 \"\" \"\\\"\\u00e9\" \"\"\"\"\"\" \"\"\"\n \xf0\x9d\x84\x9e\\\"\"\"\n\"\"\"1a", 0, 0, 0,
     {{FIRTHNAPKIN_TOKEN_EXCLAMATION_MARK, 0, "!"}, {FIRTHNAPKIN_TOKEN_DOLLAR, 0, "$"}, {FIRTHNAPKIN_TOKEN_PAREN_OPEN, 0, "("},
      {FIRTHNAPKIN_TOKEN_PAREN_CLOSE, 0, ")"}, {FIRTHNAPKIN_TOKEN_BRACKET_OPEN, 0, "["}, {FIRTHNAPKIN_TOKEN_BRACKET_CLOSE, 0, "]"},
      {FIRTHNAPKIN_TOKEN_CURLY_OPEN, 0, "{"}, {FIRTHNAPKIN_TOKEN_CURLY_CLOSE, 0, "}"}, {FIRTHNAPKIN_TOKEN_ELLIPSIS, 0, "..."},
      {FIRTHNAPKIN_TOKEN_COLON, 0, ":"}, {FIRTHNAPKIN_TOKEN_EQUALS, 0, "="}, {FIRTHNAPKIN_TOKEN_AT, 0, "@"},
      {FIRTHNAPKIN_TOKEN_PIPE, 0, "|"}, {FIRTHNAPKIN_TOKEN_NAME, 0, "_a9"}, {FIRTHNAPKIN_TOKEN_INT, 0, "0"},
      {FIRTHNAPKIN_TOKEN_INT, 0, "-12"}, {FIRTHNAPKIN_TOKEN_FLOAT, 0, "1.5"}, {FIRTHNAPKIN_TOKEN_FLOAT, 0, "-0e+7"},
      {FIRTHNAPKIN_TOKEN_STRING, 1, "\"\""}, {FIRTHNAPKIN_TOKEN_STRING, 1, "\"\\\"\\u00e9\""},
      {FIRTHNAPKIN_TOKEN_BLOCK_STRING, 3, "\"\"\"\"\"\""},
      {FIRTHNAPKIN_TOKEN_BLOCK_STRING, 3, "\"\"\"\n \xf0\x9d\x84\x9e\\\"\"\"\n\"\"\""}, {FIRTHNAPKIN_TOKEN_INT, 0, "1"},
      {FIRTHNAPKIN_TOKEN_NAME, 0, "a"}, END}},
    /* A text that is no document can be cut, too. */
    {") } { query", 0, 0, 0,
     {{FIRTHNAPKIN_TOKEN_PAREN_CLOSE, 0, ")"}, {FIRTHNAPKIN_TOKEN_CURLY_CLOSE, 0, "}"}, {FIRTHNAPKIN_TOKEN_CURLY_OPEN, 0, "{"},
      {FIRTHNAPKIN_TOKEN_NAME, 0, "query"}, END}},
    {"?", FIRTHNAPKIN_DETAIL_UNKNOWN_CHARACTER, '?', 0, {{0}}},
    {"{a \xc3\xa9? b", FIRTHNAPKIN_DETAIL_UNKNOWN_CHARACTER, 0xE9, 3,
     {{FIRTHNAPKIN_TOKEN_CURLY_OPEN, 0, "{"}, {FIRTHNAPKIN_TOKEN_NAME, 0, "a"}}},
    {"a 01", FIRTHNAPKIN_DETAIL_UNEXPECTED_CHARACTER, '1', 3, {{FIRTHNAPKIN_TOKEN_NAME, 0, "a"}}},
    {"# \xc3\xa9\n\"b\" \"", FIRTHNAPKIN_DETAIL_UNTERMINATED_STRING, 0, 10, {{FIRTHNAPKIN_TOKEN_STRING, 1, "\"b\""}}},
    {"a \"\x01", FIRTHNAPKIN_DETAIL_UNKNOWN_CHARACTER_IN_STRING, 1, 3, {{FIRTHNAPKIN_TOKEN_NAME, 0, "a"}}},
    {"[\"\\q\" 7 ]", FIRTHNAPKIN_DETAIL_UNKNOWN_ESCAPE, 0, 3, {{FIRTHNAPKIN_TOKEN_BRACKET_OPEN, 0, "["}}},
    {"1 -", FIRTHNAPKIN_DETAIL_UNEXPECTED_END_IN_TOKEN, 0, 3, {{FIRTHNAPKIN_TOKEN_INT, 0, "1"}}},
};

/* The position after this many bytes of a source. */
static firthnapkin_position position_of(const char *source, size_t byte) {
    firthnapkin_position position = {0, 0, 0, (uint32_t)byte};
    for (size_t i = 0; i < byte; i++) {
        if (((unsigned char)source[i] & 0xC0) == 0x80) continue;
        position.index++;
        position.column++;
        if (source[i] == '\n') {
            position.line++;
            position.column = 0;
        }
    }
    return position;
}

/* The tokens of a source, at positions found by what is written; how many there are. */
static size_t wanted_of(const cut_source *cut, firthnapkin_token *wanted) {
    size_t count = 0;
    const char *at = cut->source;
    for (const spelled *s = cut->tokens; s->written != NULL; s++) {
        at = strstr(at, s->written);
        if (at == NULL) abort();
        size_t start = (size_t)(at - cut->source), end = start + strlen(s->written);
        wanted[count++] = (firthnapkin_token){s->kind, s->quotes, position_of(cut->source, start), position_of(cut->source, end)};
        at = cut->source + end;
    }
    if (cut->detail == 0) {
        firthnapkin_position end = position_of(cut->source, strlen(cut->source));
        wanted[count++] = (firthnapkin_token){FIRTHNAPKIN_TOKEN_END_OF_FILE, 0, end, end};
    }
    return count;
}

static int same_position(firthnapkin_position a, firthnapkin_position b) {
    return memcmp(&a, &b, sizeof a) == 0;
}

/* A call with an array of this size. */
typedef struct {
    uint32_t status;
    size_t capacity, needed;
    firthnapkin_token *tokens;
    firthnapkin_error error;
} run;

static run cut(const char *source, size_t length, uint32_t max_tokens, size_t capacity) {
    run r = {.capacity = capacity, .needed = 99};
    r.tokens = (firthnapkin_token *)canaries(capacity * sizeof *r.tokens + BEYOND);
    memset(&r.error, CANARY, sizeof r.error);
    r.status = firthnapkin_tokens((const uint8_t *)source, length, max_tokens, r.tokens, capacity, &r.needed, &r.error);
    return r;
}

/* The array begins with the first of these, as many as fit, and nothing else is written. */
static int holds(run r, const firthnapkin_token *wanted, size_t count) {
    size_t some = count < r.capacity ? count : r.capacity;
    return (some == 0 || !memcmp(r.tokens, wanted, some * sizeof *wanted))
        && are_canaries(r.tokens + some, (r.capacity - some) * sizeof *r.tokens + BEYOND);
}

static int is_error_kept(run r) {
    return are_canaries(&r.error, sizeof r.error);
}

/* What a call with an array of this size returns for a source of so many tokens, if these are within the limit. */
static uint32_t status_of(const cut_source *c, size_t count, size_t capacity) {
    if (c->detail != 0) return FIRTHNAPKIN_SYNTAX_ERROR;
    return capacity < count ? FIRTHNAPKIN_BUFFER_TOO_SMALL : FIRTHNAPKIN_OK;
}

static void every_capacity(const cut_source *c) {
    firthnapkin_token wanted[ANY_TOKENS];
    size_t length = strlen(c->source), count = wanted_of(c, wanted);
    check(count <= length + 1, "one call suffices for %s", c->source);
    for (size_t capacity = 0; capacity <= count + 1 || capacity <= length + 1; capacity++) {
        run r = cut(c->source, length, UINT32_MAX, capacity);
        check(r.status == status_of(c, count, capacity) && r.needed == count && holds(r, wanted, count),
              "capacity for %zu tokens of %s: %u, %zu", capacity, c->source, r.status, r.needed);
        firthnapkin_position at = position_of(c->source, c->at);
        if (c->detail == 0)
            check(is_error_kept(r), "no error of %s", c->source);
        else
            check(r.error.kind == FIRTHNAPKIN_ERROR_LEXICAL && r.error.detail == c->detail && r.error.character == c->character
                      && same_position(r.error.start, at) && same_position(r.error.end, at),
                  "the error of %s: %u %u %u at byte %u", c->source, r.error.kind, r.error.detail, r.error.character,
                  r.error.start.byte);
        free(r.tokens);
    }
}

/* Every limit from 0 to above the number of tokens: a limit below it reports the first token too many, whatever the array. */
static void every_limit(const cut_source *c) {
    firthnapkin_token wanted[ANY_TOKENS];
    size_t length = strlen(c->source), count = wanted_of(c, wanted), others = count - (c->detail == 0);
    for (size_t max_tokens = 0; max_tokens <= others + 2; max_tokens++) {
        for (size_t capacity = 0; capacity <= count + 1; capacity++) {
            run r = cut(c->source, length, (uint32_t)max_tokens, capacity);
            if (max_tokens >= others) {
                check(r.status == status_of(c, count, capacity) && r.needed == count && holds(r, wanted, count),
                      "no more than %zu tokens in %s: %u", max_tokens, c->source, r.status);
            } else {
                check(r.status == FIRTHNAPKIN_TOO_MANY_TOKENS && r.needed == max_tokens && holds(r, wanted, max_tokens)
                          && r.error.kind == FIRTHNAPKIN_ERROR_TOO_MANY_TOKENS && !r.error.detail && !r.error.character
                          && same_position(r.error.start, wanted[max_tokens].start)
                          && same_position(r.error.end, wanted[max_tokens].end),
                      "more than %zu tokens in %s: %u, byte %u", max_tokens, c->source, r.status, r.error.start.byte);
            }
            free(r.tokens);
        }
    }
}

/* What the token's text is, by its quotes. */
static void texts(void) {
    static const char *const wanted[] = {"", "\\\"\\u00e9", "", "\n \xf0\x9d\x84\x9e\\\"\"\"\n"};
    const cut_source *c = &CUT[4];
    run r = cut(c->source, strlen(c->source), UINT32_MAX, 99);
    for (size_t i = 0; i < 4; i++) {
        firthnapkin_token t = r.tokens[18 + i];
        size_t from = t.start.byte + t.quotes, to = t.end.byte - t.quotes;
        check(to - from == strlen(wanted[i]) && !strncmp(c->source + from, wanted[i], to - from), "the text of token %zu", 18 + i);
    }
    free(r.tokens);
}

/* ---- canonical texts */

static void every_text_capacity(const char *source, const char *wanted) {
    size_t length = strlen(source), count = strlen(wanted);
    check(count <= 2 * length, "twice as many bytes suffice for %s", source);
    for (size_t capacity = 0; capacity <= count + 1 || capacity <= 2 * length; capacity++) {
        size_t needed = 99;
        firthnapkin_error error;
        memset(&error, CANARY, sizeof error);
        uint8_t *text = canaries(capacity + BEYOND);
        uint32_t status = firthnapkin_canonical((const uint8_t *)source, length, text, capacity, &needed, &error);
        int fits = capacity >= count;
        check(status == (fits ? FIRTHNAPKIN_OK : FIRTHNAPKIN_BUFFER_TOO_SMALL) && needed == count
                  && (!fits || !memcmp(text, wanted, count))
                  && are_canaries(text + (fits ? count : 0), capacity - (fits ? count : 0) + BEYOND)
                  && are_canaries(&error, sizeof error),
              "a buffer of %zu bytes for the canonical text of %s: %u, %zu", capacity, source, status, needed);
        free(text);
    }
}

static void no_canonical_text(const char *source, size_t length, uint32_t status, uint32_t detail, uint32_t character, uint32_t at) {
    size_t needed = 99;
    firthnapkin_error error;
    memset(&error, CANARY, sizeof error);
    uint8_t *text = canaries(99 + BEYOND);
    uint32_t found = firthnapkin_canonical((const uint8_t *)source, length, text, 99, &needed, &error);
    check(found == status && needed == 0 && are_canaries(text, 99 + BEYOND), "no canonical text of %s: %u", source, found);
    firthnapkin_position position = position_of(source, at);
    if (status != FIRTHNAPKIN_SYNTAX_ERROR)
        check(are_canaries(&error, sizeof error), "the error is left, of %s", source);
    else
        check(error.kind == FIRTHNAPKIN_ERROR_LEXICAL && error.detail == detail && error.character == character
                  && same_position(error.start, position) && same_position(error.end, position),
              "the error of %s: %u %u %u at byte %u", source, error.kind, error.detail, error.character, error.start.byte);
    free(text);
}

static void canonical_texts(void) {
    every_text_capacity("", "");
    every_text_capacity(" , # all\n", "");
    every_text_capacity("{ a, b(c: \"d\") } # all", "{a b(c:\"d\")}");
    every_text_capacity("\xef\xbb\xbfquery Q ($v : [ T ! ] = 1) { a ... on T { b } ...F }", "query Q($v:[T!]=1){a ...on T{b}...F}");
    every_text_capacity("{a(b:\"\xc3\xa9 ,\"\"\"\"\n # \xf0\x9d\x84\x9e\n\"\"\")}", "{a(b:\"\xc3\xa9 ,\" \"\"\"\n # \xf0\x9d\x84\x9e\n\"\"\")}");
    /* As many spaces as there are seams. */
    every_text_capacity("1a\"\"2b\"\"...", "1 a \"\" 2 b \"\" ...");
    for (size_t i = 0; i < sizeof CUT / sizeof *CUT; i++)
        if (CUT[i].detail != 0)
            no_canonical_text(CUT[i].source, strlen(CUT[i].source), FIRTHNAPKIN_SYNTAX_ERROR, CUT[i].detail, CUT[i].character,
                              CUT[i].at);
    no_canonical_text("{\xff", 2, FIRTHNAPKIN_NOT_UTF8, 0, 0, 0);
    no_canonical_text("{a\0}", 4, FIRTHNAPKIN_SYNTAX_ERROR, FIRTHNAPKIN_DETAIL_UNKNOWN_CHARACTER, 0, 2);
}

/* ---- both */

/* If a count is 0 no memory is needed. */
static void no_memory(void) {
    size_t needed = 99;
    firthnapkin_error error;
    memset(&error, CANARY, sizeof error);
    check(firthnapkin_tokens(NULL, 0, 0, NULL, 0, &needed, &error) == FIRTHNAPKIN_BUFFER_TOO_SMALL && needed == 1,
          "no source and no capacity for its end");
    check(firthnapkin_tokens((const uint8_t *)"{a}", 3, 9, NULL, 0, &needed, &error) == FIRTHNAPKIN_BUFFER_TOO_SMALL
              && needed == 4,
          "no capacity for tokens");
    check(firthnapkin_canonical(NULL, 0, NULL, 0, &needed, &error) == FIRTHNAPKIN_OK && needed == 0,
          "the canonical text of nothing");
    check(firthnapkin_canonical((const uint8_t *)"{a}", 3, NULL, 0, &needed, &error) == FIRTHNAPKIN_BUFFER_TOO_SMALL
              && needed == 3,
          "no capacity for a text");
    check(are_canaries(&error, sizeof error), "an error is left");
    firthnapkin_token end;
    check(firthnapkin_tokens(NULL, 0, 0, &end, 1, &needed, &error) == FIRTHNAPKIN_OK && needed == 1
              && end.kind == FIRTHNAPKIN_TOKEN_END_OF_FILE && end.end.byte == 0,
          "the end of nothing");
}

static void not_looked_at(void) {
    run r = cut("{\xff", 2, UINT32_MAX, 9);
    check(r.status == FIRTHNAPKIN_NOT_UTF8 && r.needed == 0 && holds(r, NULL, 0) && is_error_kept(r), "bytes that are not UTF-8");
    free(r.tokens);
    r = cut("a b \xff", 5, 1, 9);
    check(r.status == FIRTHNAPKIN_NOT_UTF8 && r.needed == 0 && holds(r, NULL, 0) && is_error_kept(r),
          "bytes that are not UTF-8 after the first token too many");
    free(r.tokens);
    r = cut("{a\0}", 4, UINT32_MAX, 9);
    check(r.status == FIRTHNAPKIN_SYNTAX_ERROR && r.needed == 2 && r.error.detail == FIRTHNAPKIN_DETAIL_UNKNOWN_CHARACTER
              && r.error.start.byte == 2,
          "a byte 0");
    free(r.tokens);
    size_t needed = 99;
    void *source = too_long_source();
    if (source == NULL) return;
    r = cut(source, FOUR_GIB, 1, 9);
    check(r.status == FIRTHNAPKIN_SOURCE_TOO_LONG && r.needed == 0 && holds(r, NULL, 0) && is_error_kept(r), "4 GiB");
    uint8_t text = CANARY;
    check(firthnapkin_canonical(source, FOUR_GIB, &text, 1, &needed, &r.error) == FIRTHNAPKIN_SOURCE_TOO_LONG && needed == 0
              && text == CANARY && is_error_kept(r),
          "4 GiB, as a canonical text");
    free(r.tokens);
    munmap(source, FOUR_GIB);
}

/* A source of ten million bytes, and calls on no more stack than the header says. */
typedef struct {
    const char *source;
    size_t length, tokens, text, tokens_length, text_needed;
    uint32_t cut, canonical, counted;
} calls;

static void *call_all(void *argument) {
    calls *c = argument;
    firthnapkin_error error;
    /* Memory that nothing is written to costs nothing. */
    firthnapkin_token *tokens = malloc((c->length + 1) * sizeof *tokens);
    uint8_t *text = malloc(2 * c->length);
    if (tokens == NULL || text == NULL) abort();
    c->cut = firthnapkin_tokens((const uint8_t *)c->source, c->length, UINT32_MAX, tokens, c->length + 1, &c->tokens_length,
                                &error);
    c->canonical = firthnapkin_canonical((const uint8_t *)c->source, c->length, text, 2 * c->length, &c->text_needed, &error);
    c->counted = firthnapkin_count((const uint8_t *)c->source, c->length, UINT32_MAX, &error);
    check(tokens[c->tokens_length - 1].end.byte == c->length && tokens[c->tokens_length - 2].start.byte >= c->length - 70,
          "the last positions of ten million bytes");
    free(tokens);
    free(text);
    return NULL;
}

static void large(const char *part, size_t tokens, size_t text) {
    size_t step = strlen(part), count = 10000000 / step + 1;
    char *source = malloc(count * step + 1);
    if (source == NULL) abort();
    for (size_t i = 0; i < count; i++) memcpy(source + i * step, part, step + 1);
    calls c = {.source = source, .length = count * step};
    on_stack(0, call_all, &c);
    check(c.cut == FIRTHNAPKIN_OK && c.canonical == FIRTHNAPKIN_OK && c.counted == FIRTHNAPKIN_OK
              && c.tokens_length == count * tokens + 1 && c.text_needed == count * text,
          "ten million bytes of %s: %zu tokens, %zu bytes", part, c.tokens_length, c.text_needed);
    free(source);
}

static void *many(void *failures) {
    for (int round = 0; round < 300; round++) {
        for (size_t i = 0; i < sizeof CUT / sizeof *CUT; i++) {
            firthnapkin_token wanted[ANY_TOKENS];
            size_t count = wanted_of(&CUT[i], wanted);
            run r = cut(CUT[i].source, strlen(CUT[i].source), UINT32_MAX, count + 1);
            if (r.needed != count || !holds(r, wanted, count)) ++*(long *)failures;
            free(r.tokens);
        }
    }
    return NULL;
}

int main(void) {
    for (size_t i = 0; i < sizeof CUT / sizeof *CUT; i++) {
        every_capacity(&CUT[i]);
        every_limit(&CUT[i]);
    }
    texts();
    canonical_texts();
    no_memory();
    not_looked_at();
    in_threads(many);
    large("{a(b:[1,\"x\\n\"])...F}", 13, 20);
    large("{...a,b #c\n} ", 5, 8);
    large("\"\xd0\xbc\xd0\xb8\xd1\x80\"\"\"\"\n\"\"\" # \xd0\xbc\xd0\xb8\xd1\x80\n}", 3, 17);
    return counted();
}
