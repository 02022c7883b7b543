/* An error's words and its lines: for each error that calls give, for each error that could be handed in, and for buffers of every
 * size. The source lies between pages that can't be read. */
#define _GNU_SOURCE
#include "../../include/firthnapkin.h"
#include "checks.h"
#include "memory.h"

typedef uint32_t words_call(const uint8_t *, size_t, const firthnapkin_error *, uint8_t *, size_t, size_t *);

/* ---- sources between pages that can't be read */

/* A page that can't be read, pages for the source, and one more that can't be read. */
static uint8_t *pages;

/* The source, directly before a page that can't be read, or directly after one. */
static const uint8_t *guarded(const char *source, size_t length, int is_first) {
    uint8_t *at = pages + page_size() + (is_first ? 0 : 2 * page_size() - length);
    memcpy(at, source, length);
    return at;
}

static void make_pages(void) {
    size_t page = page_size();
    pages = mmap(NULL, 4 * page, PROT_READ | PROT_WRITE, MAP_PRIVATE | MAP_ANONYMOUS, -1, 0);
    if (pages == MAP_FAILED || mprotect(pages, page, PROT_NONE) || mprotect(pages + 3 * page, page, PROT_NONE)) abort();
}

/* ---- what calls give */

static firthnapkin_error error_of(const char *source, uint32_t depth, uint32_t tokens) {
    firthnapkin_limits limits = {.depth = depth, .tokens = tokens};
    firthnapkin_node nodes[64];
    uint8_t texts[64];
    size_t nodes_length, texts_length;
    firthnapkin_error error;
    memset(&error, CANARY, sizeof error);
    firthnapkin_parse((const uint8_t *)source, strlen(source), &limits, nodes, 64, &nodes_length, texts, 64, &texts_length, &error);
    return error;
}

/* The words, in buffers of every size up to one byte more than they need. */
static void writes(const char *name, words_call *call, const char *source, const firthnapkin_error *error, const char *wanted) {
    size_t length = strlen(source), size = strlen(wanted), needed = 0;
    for (size_t capacity = 0; capacity <= size + 1; capacity++) {
        uint8_t *words = canaries(capacity + BEYOND);
        uint32_t status = call(guarded(source, length, capacity % 2), length, error, words, capacity, &needed);
        size_t written = capacity >= size ? size : 0;
        check(status == (capacity >= size ? FIRTHNAPKIN_OK : FIRTHNAPKIN_BUFFER_TOO_SMALL) && needed == size
                  && !memcmp(words, wanted, written) && are_canaries(words + written, capacity - written + BEYOND),
              "%s in %zu bytes for %s: %u, %.*s", name, capacity, source, status, (int)needed, words);
        free(words);
    }
}

/* Each kind of error, with the bytes that its words show. */
static void messages(void) {
    static const struct {
        const char *source;
        uint32_t depth, tokens, text_start, text_end;
        const char *message;
    } rows[] = {
        {"{ a ) }", 200, UINT32_MAX, 4, 5, "Unexpected \")\""},
        {"{ a )", 200, UINT32_MAX, 4, 5, "Unexpected \")\""},
        {"{ \xc3\xa9: a }", 200, UINT32_MAX, 2, 2, "Unknown character \"\xc3\xa9\""},
        {"{ \xf0\x9f\x99\x82 }", 200, UINT32_MAX, 2, 2, "Unknown character \"\xf0\x9f\x99\x82\""},
        {"#\xc3\xa9\n{ a 1.5 }", 200, UINT32_MAX, 8, 11, "Unexpected \"1.5\""},
        {"{ a ... ... b }", 200, UINT32_MAX, 8, 11, "Unexpected \"...\""},
        {"{ \"\" }", 200, UINT32_MAX, 2, 4, "Unexpected \"\"\"\""},
        {"{ \"b\\\"\\\\\xc3\xa9\" }", 200, UINT32_MAX, 2, 11, "Unexpected \"\"b\\\\\\\"\\\\\\\\\xc3\xa9\"\""},
        {"{ \"\"\"b \"c\" \\\"\"\" \"\"\" }", 200, UINT32_MAX, 2, 19, "Unexpected \"\"\"\"b \"c\" \\\"\"\" \"\"\"\""},
        {"#\xc3\xa9\n{ a", 200, UINT32_MAX, 7, 7, "Unexpected end of input"},
        {"{ .a }", 200, UINT32_MAX, 2, 2, "Unexpected character \".\""},
        {"{a(b:\"c", 200, UINT32_MAX, 7, 7, "Unterminated string literal"},
        {"{a(b:\"\x01\")}", 200, UINT32_MAX, 6, 6, "Unknown character \"\x01\" in string literal"},
        {"{a(b:\"\\q\")}", 200, UINT32_MAX, 6, 8, "Unknown escape sequence \"\\q\" in string"},
        {"{a(b:\"\\q", 200, UINT32_MAX, 6, 8, "Unknown escape sequence \"\\q\" in string"},
        {"{a(b:\"\\\xf0\x9f\x99\x82\")}", 200, UINT32_MAX, 6, 11, "Unknown escape sequence \"\\\xf0\x9f\x99\x82\" in string"},
        {"{a(b:\"\\u12g4\")}", 200, UINT32_MAX, 6, 12, "Unknown escape sequence \"\\u12g4\" in string"},
        {"{a(b:\"\\ud800\")}", 200, UINT32_MAX, 6, 12, "Unknown escape sequence \"\\ud800\" in string"},
        {"{a(b:\"\\u\xc3\xa9\")}", 200, UINT32_MAX, 6, 10, "Unknown escape sequence \"\\u\xc3\xa9\" in string"},
        {"{a(b: 1.", 200, UINT32_MAX, 8, 8, "Unexpected end of input"},
        {"{a{b}}", 1, UINT32_MAX, 2, 2, "Too deeply nested"},
        {"{ a b }", 200, 2, 4, 4, "Too many tokens"},
    };
    for (size_t i = 0; i < sizeof rows / sizeof *rows; i++) {
        firthnapkin_error error = error_of(rows[i].source, rows[i].depth, rows[i].tokens);
        check(error.text_start == rows[i].text_start && error.text_end == rows[i].text_end, "the bytes that are shown of %s: %u to %u",
              rows[i].source, error.text_start, error.text_end);
        writes("the words", firthnapkin_message, rows[i].source, &error, rows[i].message);
    }
}

/* The errors of tokens and of a canonical text have words, too. */
static void messages_of_tokens(void) {
    const char *source = "} \"\\x\"";
    firthnapkin_token tokens[8];
    uint8_t text[8];
    size_t length;
    firthnapkin_error error;
    uint32_t status = firthnapkin_tokens((const uint8_t *)source, strlen(source), UINT32_MAX, tokens, 8, &length, &error);
    check(status == FIRTHNAPKIN_SYNTAX_ERROR, "the tokens of %s", source);
    writes("the words", firthnapkin_message, source, &error, "Unknown escape sequence \"\\x\" in string");
    memset(&error, 0, sizeof error);
    status = firthnapkin_canonical((const uint8_t *)source, strlen(source), text, 8, &length, &error);
    check(status == FIRTHNAPKIN_SYNTAX_ERROR, "the canonical text of %s", source);
    writes("the words", firthnapkin_message, source, &error, "Unknown escape sequence \"\\x\" in string");
}

/* ---- lines */

static void excerpts(void) {
    static const struct {
        const char *source;
        uint32_t byte;
        const char *lines;
    } rows[] = {
        {"", 0, "1 |\n  | ^"},
        {"{ a ) }", 4, "1 | { a ) }\n  |     ^"},
        {"{ a", 3, "1 | { a\n  |    ^"},
        {"query {\n  a )\n}", 12, "1 | query {\n2 |   a )\n  |     ^\n3 | }"},
        {"\n\n", 1, "1 |\n2 |\n  | ^\n3 |"},
        {"\n\n", 2, "2 |\n3 |\n  | ^"},
        /* A line feed belongs to the line that it ends. */
        {"a\nb", 1, "1 | a\n  |  ^\n2 | b"},
        /* One line before and one after, of several. */
        {"a\nb\nc\n)\nd\ne\nf", 6, "3 | c\n4 | )\n  | ^\n5 | d"},
        /* As wide as the largest number that is shown. */
        {"1\n2\n3\n4\n5\n6\n7\n8\n9\n10", 16, " 8 | 8\n 9 | 9\n   | ^\n10 | 10"},
        {"1\n2\n3\n4\n5\n6\n7\n8\n9", 16, "8 | 8\n9 | 9\n  | ^"},
        /* Columns are characters. */
        {"\xc3\xa9\xf0\x9f\x99\x82)", 6, "1 | \xc3\xa9\xf0\x9f\x99\x82)\n  |   ^"},
        /* Carriage returns end no line. One before a line feed is not shown, others are spaces. */
        {"a\rb\r\n)\r\nc\r", 5, "1 | a b\n2 | )\n  | ^\n3 | c "},
        {"a\r\r\n", 1, "1 | a \n  |  ^\n2 |"},
        {"a\r\n", 2, "1 | a\n  |   ^\n2 |"},
        {"a\r\nb\r\n)\r\nc\r\nd", 6, "2 | b\n3 | )\n  | ^\n4 | c"},
    };
    for (size_t i = 0; i < sizeof rows / sizeof *rows; i++) {
        firthnapkin_error error = {.start.byte = rows[i].byte};
        writes("the lines", firthnapkin_excerpt, rows[i].source, &error, rows[i].lines);
    }
}

/* So many times the letters of the alphabet's first ten, from the first on. */
static char *letters(char *at, size_t count) {
    for (size_t i = 0; i < count; i++) *at++ = "abcdefghij"[i % 10];
    *at = '\0';
    return at;
}

/* A line of 120 characters is shown as it is, one of 121 by 80 about the column, and so are the lines beside it. */
static void long_lines(void) {
    static char source[600], wanted[600];
    firthnapkin_error error = {.start.byte = 100};
    letters(source, 120);
    char *end = letters(wanted + sprintf(wanted, "1 | "), 120);
    sprintf(end, "\n  | %101s", "^");
    writes("the lines", firthnapkin_excerpt, source, &error, wanted);

    letters(source, 121);
    end = letters(wanted + sprintf(wanted, "1 | "), 61);
    sprintf(end, "\n  | %41s", "^");
    writes("the lines", firthnapkin_excerpt, source, &error, wanted);

    letters(source, 300);
    end = letters(wanted + sprintf(wanted, "1 | "), 80);
    sprintf(end, "\n  | %41s", "^");
    writes("the lines", firthnapkin_excerpt, source, &error, wanted);
    error.start.byte = 30;
    sprintf(end, "\n  | %31s", "^");
    writes("the lines", firthnapkin_excerpt, source, &error, wanted);
    error.start.byte = 300;
    end = letters(wanted + sprintf(wanted, "1 | "), 40);
    sprintf(end, "\n  | %41s", "^");
    writes("the lines", firthnapkin_excerpt, source, &error, wanted);

    end = letters(source, 121);
    letters(end + sprintf(end, "\n)\n"), 130);
    error.start.byte = 122;
    end = letters(wanted + sprintf(wanted, "1 | "), 80);
    end += sprintf(end, "\n2 | )\n  | ^\n3 | ");
    letters(end, 80);
    writes("the lines", firthnapkin_excerpt, source, &error, wanted);

    /* A row ends at its bar if its line ends before what is shown. */
    end = letters(source, 121);
    letters(end + sprintf(end, "\n"), 300);
    error.start.byte = 122 + 200;
    end = letters(wanted + sprintf(wanted, "1 |\n2 | "), 80);
    sprintf(end, "\n  | %41s", "^");
    writes("the lines", firthnapkin_excerpt, source, &error, wanted);
}

/* So many characters of two bytes. */
static char *wide(char *at, size_t count) {
    for (size_t i = 0; i < count; i++) at = stpcpy(at, "\xc3\xa9");
    return at;
}

/* Lines are as long as they have characters. */
static void wide_lines(void) {
    static char source[600], wanted[600];
    firthnapkin_error error = {.start.byte = 120};
    wide(stpcpy(wide(source, 60), ")"), 59);
    char *end = wide(stpcpy(wide(stpcpy(wanted, "1 | "), 60), ")"), 59);
    sprintf(end, "\n  | %61s", "^");
    writes("the lines", firthnapkin_excerpt, source, &error, wanted);

    error.start.byte = 200;
    wide(stpcpy(wide(source, 100), ")"), 100);
    end = wide(stpcpy(wide(stpcpy(wanted, "1 | "), 40), ")"), 39);
    sprintf(end, "\n  | %41s", "^");
    writes("the lines", firthnapkin_excerpt, source, &error, wanted);
}

/* ---- errors that no call gave */

/* Either call returns one of its statuses, and keeps the buffer if it returns no words. */
static void survives(const char *source, size_t length, const firthnapkin_error *error) {
    words_call *calls[] = {firthnapkin_message, firthnapkin_excerpt};
    for (size_t i = 0; i < 2; i++) {
        for (int is_first = 0; is_first < 2; is_first++) {
            size_t needed = 99;
            uint8_t *words = canaries(1024 + BEYOND);
            uint32_t status = calls[i](guarded(source, length, is_first), length, error, words, 1024, &needed);
            size_t written = status == FIRTHNAPKIN_OK ? needed : 0;
            check((status == FIRTHNAPKIN_OK || (status == FIRTHNAPKIN_INVALID_ERROR && needed == 0)) && written <= 1024
                      && are_canaries(words + written, 1024 - written + BEYOND),
                  "call %zu for %.*s with an error of %u: %u, %zu bytes", i, (int)length, source, error->kind, status, needed);
            free(words);
        }
    }
}

/* Any error may be handed in: zeroed, with each field at values of every kind, alone and two together. */
static void handed_in(void) {
    static const char *const sources[] = {"", "{ a ) }", "{ \"\xc3\xa9\" \xf0\x9f\x99\x82 }\n\n", "\"", "\"\"\"", "\"\xc3"};
    static const uint32_t values[] = {0, 1, 2, 3, 4, 5, 6, 7, 8, 9, 0xD800, 0x10FFFF, 0x110000, 0x7FFFFFFF, UINT32_MAX};
    enum { FIELDS = sizeof(firthnapkin_error) / sizeof(uint32_t), VALUES = sizeof values / sizeof *values };
    for (size_t i = 0; i + 1 < sizeof sources / sizeof *sources; i++) {
        for (size_t first = 0; first < FIELDS * VALUES; first++) {
            for (size_t second = 0; second < FIELDS * VALUES; second += VALUES + 1) {
                uint32_t fields[FIELDS] = {0};
                fields[second / VALUES] = values[second % VALUES];
                fields[first / VALUES] = values[first % VALUES];
                firthnapkin_error error;
                memcpy(&error, fields, sizeof error);
                survives(sources[i], strlen(sources[i]), &error);
            }
        }
    }
    firthnapkin_error error;
    memset(&error, 0xFF, sizeof error);
    for (size_t i = 0; i + 1 < sizeof sources / sizeof *sources; i++) survives(sources[i], strlen(sources[i]), &error);
}

/* What is refused, and what an error of another source may still give. */
static void refused(void) {
    const char *source = "{ \xc3\xa9 }";
    uint8_t words[64];
    size_t needed = 1;
    firthnapkin_error none = {.kind = 99}, within = {.start.byte = 3}, after = {.start.byte = 7}, other = error_of("{ a ) }", 200, 99);
    check(firthnapkin_message((const uint8_t *)source, 6, &none, words, 64, &needed) == FIRTHNAPKIN_INVALID_ERROR && !needed, "no kind");
    none.kind = FIRTHNAPKIN_ERROR_INVALID_SCALAR;
    check(firthnapkin_message((const uint8_t *)source, 6, &none, words, 64, &needed) == FIRTHNAPKIN_INVALID_ERROR, "a kind never given");
    none = (firthnapkin_error){.kind = FIRTHNAPKIN_ERROR_LEXICAL};
    check(firthnapkin_message((const uint8_t *)source, 6, &none, words, 64, &needed) == FIRTHNAPKIN_INVALID_ERROR, "no detail");
    for (uint32_t bit = 8; bit != 0; bit <<= 1) {
        none.detail = bit + FIRTHNAPKIN_DETAIL_UNTERMINATED_STRING;
        check(firthnapkin_message((const uint8_t *)source, 6, &none, words, 64, &needed) == FIRTHNAPKIN_INVALID_ERROR, "detail %u", none.detail);
        none = (firthnapkin_error){.kind = bit + FIRTHNAPKIN_ERROR_LEXICAL, .detail = FIRTHNAPKIN_DETAIL_UNTERMINATED_STRING};
        check(firthnapkin_message((const uint8_t *)source, 6, &none, words, 64, &needed) == FIRTHNAPKIN_INVALID_ERROR, "kind %u", none.kind);
        none = (firthnapkin_error){.kind = FIRTHNAPKIN_ERROR_LEXICAL};
    }
    none = (firthnapkin_error){.kind = FIRTHNAPKIN_ERROR_INVALID_SCALAR, .detail = FIRTHNAPKIN_DETAIL_UNTERMINATED_STRING};
    check(firthnapkin_message((const uint8_t *)source, 6, &none, words, 64, &needed) == FIRTHNAPKIN_INVALID_ERROR, "a kind with a detail");
    none = (firthnapkin_error){.kind = 2, .detail = FIRTHNAPKIN_DETAIL_UNKNOWN_CHARACTER, .character = 0xDFFF};
    check(firthnapkin_message((const uint8_t *)source, 6, &none, words, 64, &needed) == FIRTHNAPKIN_INVALID_ERROR, "no character");
    none = (firthnapkin_error){.kind = 0, .text_start = 2, .text_end = 3};
    check(firthnapkin_message((const uint8_t *)source, 6, &none, words, 64, &needed) == FIRTHNAPKIN_INVALID_ERROR, "half a character");
    none = (firthnapkin_error){.kind = 0, .text_start = 2, .text_end = 1};
    check(firthnapkin_message((const uint8_t *)source, 6, &none, words, 64, &needed) == FIRTHNAPKIN_INVALID_ERROR, "an end before the start");
    none = (firthnapkin_error){.kind = 0, .text_start = 0, .text_end = 7};
    check(firthnapkin_message((const uint8_t *)source, 6, &none, words, 64, &needed) == FIRTHNAPKIN_INVALID_ERROR, "an end after the source's");
    check(firthnapkin_excerpt((const uint8_t *)source, 6, &within, words, 64, &needed) == FIRTHNAPKIN_INVALID_ERROR && !needed,
          "a byte within a character");
    check(firthnapkin_excerpt((const uint8_t *)source, 6, &after, words, 64, &needed) == FIRTHNAPKIN_INVALID_ERROR, "a byte after the end");
    check(firthnapkin_message((const uint8_t *)source, 6, &other, words, 64, &needed) == FIRTHNAPKIN_OK
              && !memcmp(words, "Unexpected \" \"", needed),
          "an error of another source");
}

/* What isn't UTF-8, what is too long, and nothing. */
static void sources(void) {
    firthnapkin_error error = {.kind = FIRTHNAPKIN_ERROR_TOO_DEEP};
    words_call *calls[] = {firthnapkin_message, firthnapkin_excerpt};
    void *source = too_long_source();
    for (size_t i = 0; i < 2; i++) {
        size_t needed = 1;
        check(calls[i]((const uint8_t *)"{\xff", 2, &error, NULL, 0, &needed) == FIRTHNAPKIN_NOT_UTF8 && needed == 0, "bytes that are not UTF-8");
        check(calls[i](NULL, 0, &error, NULL, 0, &needed) == FIRTHNAPKIN_BUFFER_TOO_SMALL && needed == (i ? 9 : 17), "no source: %zu", needed);
        if (source == NULL) continue;
        check(calls[i](source, FOUR_GIB, &error, NULL, 0, &needed) == FIRTHNAPKIN_SOURCE_TOO_LONG && needed == 0, "4 GiB");
    }
    if (source != NULL) munmap(source, FOUR_GIB);
}

/* The names of the first and the last number of each enumeration, and of those beyond. */
static void names(void) {
    static const struct {
        const char *(*call)(uint32_t);
        uint32_t number;
        const char *name;
    } rows[] = {
        {firthnapkin_status_name, FIRTHNAPKIN_OK, "ok"},
        {firthnapkin_status_name, FIRTHNAPKIN_INVALID_ERROR, "invalid_error"},
        {firthnapkin_status_name, FIRTHNAPKIN_FRAGMENT_CYCLE, "fragment_cycle"},
        {firthnapkin_status_name, FIRTHNAPKIN_FRAGMENT_CYCLE + 1, "unknown"},
        {firthnapkin_status_name, UINT32_MAX, "unknown"},
        {firthnapkin_kind_name, FIRTHNAPKIN_QUERY, "query"},
        {firthnapkin_kind_name, FIRTHNAPKIN_FRAGMENT_SPREAD, "fragment_spread"},
        {firthnapkin_kind_name, FIRTHNAPKIN_BOOLEAN, "boolean"},
        {firthnapkin_kind_name, FIRTHNAPKIN_BOOLEAN + 1, "unknown"},
        {firthnapkin_kind_name, UINT32_MAX, "unknown"},
        {firthnapkin_token_kind_name, FIRTHNAPKIN_TOKEN_END_OF_FILE, "end_of_file"},
        {firthnapkin_token_kind_name, FIRTHNAPKIN_TOKEN_PIPE, "pipe"},
        {firthnapkin_token_kind_name, FIRTHNAPKIN_TOKEN_PIPE + 1, "unknown"},
        {firthnapkin_token_kind_name, UINT32_MAX, "unknown"},
        {firthnapkin_error_kind_name, FIRTHNAPKIN_ERROR_UNEXPECTED_TOKEN, "unexpected_token"},
        {firthnapkin_error_kind_name, FIRTHNAPKIN_ERROR_TOO_DEEP, "too_deep"},
        {firthnapkin_error_kind_name, FIRTHNAPKIN_ERROR_INVALID_SCALAR, "invalid_scalar"},
        {firthnapkin_error_kind_name, FIRTHNAPKIN_ERROR_FRAGMENT_CYCLE, "fragment_cycle"},
        {firthnapkin_error_kind_name, FIRTHNAPKIN_ERROR_FRAGMENT_CYCLE + 1, "unknown"},
        {firthnapkin_error_kind_name, UINT32_MAX, "unknown"},
        {firthnapkin_error_detail_name, FIRTHNAPKIN_DETAIL_NONE, "none"},
        {firthnapkin_error_detail_name, FIRTHNAPKIN_DETAIL_UNKNOWN_ESCAPE, "unknown_escape"},
        {firthnapkin_error_detail_name, FIRTHNAPKIN_DETAIL_INVALID_NUMBER, "invalid_number"},
        {firthnapkin_error_detail_name, FIRTHNAPKIN_DETAIL_INVALID_NUMBER + 1, "unknown"},
        {firthnapkin_error_detail_name, UINT32_MAX, "unknown"},
    };
    for (size_t i = 0; i < sizeof rows / sizeof *rows; i++) {
        const char *name = rows[i].call(rows[i].number);
        check(name != NULL && !strcmp(name, rows[i].name), "the name of %u, %s", rows[i].number, rows[i].name);
    }
}

int main(void) {
    make_pages();
    messages();
    messages_of_tokens();
    excerpts();
    long_lines();
    wide_lines();
    handed_in();
    refused();
    sources();
    names();
    return counted();
}
