/* Limits on a source, in graphql-core's place: where graphql-core finds the first token too many, and which errors it reports
 * before it. */
#ifndef FIRTHNAPKIN_GRAPHQL_LIMITS_H
#define FIRTHNAPKIN_GRAPHQL_LIMITS_H

#include "_graphql_nodes.h"
#include "_limits.h"
#include "whole.h"

/* ---- tokens and comments */

/* The tokens of a source and its end, or those before its first lexical error or before the first token past the limit. They have
 * to be freed, whatever the status. */
static whole tokens_found(const uint8_t *source, size_t length, uint32_t most) {
    whole w = {.status = FIRTHNAPKIN_OUT_OF_MEMORY};
    size_t capacity, needed = at_first(length) + 16;
    /* No more are found than these and the end. */
    if (most < needed) needed = (size_t)most + 1;
    do {
        give_back(&w);
        capacity = needed;
        w.tokens = malloc(capacity * sizeof *w.tokens);
        w.status = FIRTHNAPKIN_OUT_OF_MEMORY;
        w.tokens_count = 0;
        if (w.tokens != NULL) w.status = tokens_on_stack(source, length, most, w.tokens, capacity, &w.tokens_count, &w.error);
        needed = w.tokens_count;
    } while (needed > capacity);
    return w;
}

static bool may_have_comment(const uint8_t *source, size_t length) {
    return length > 0 && memchr(source, '#', length) != NULL;
}

/* The number of comments between two tokens, or before the first one. Each ends with its line. */
static size_t comments_between(const uint8_t *source, uint32_t from, uint32_t to) {
    size_t count = 0;
    bool is_comment = false;
    for (uint32_t i = from; i < to; i++) {
        bool begins = !is_comment && source[i] == '#';
        count += begins;
        is_comment = begins || (is_comment && source[i] != '\n' && source[i] != '\r');
    }
    return count;
}

/* The number of tokens of a source, and of its comments if these count. If memory runs out that is the status. */
static uint32_t count_all(const uint8_t *source, size_t length, bool with_comments, size_t *count) {
    firthnapkin_error error;
    uint32_t last = 0, status;
    if (!with_comments || !may_have_comment(source, length)) {
        status = tokens_on_stack(source, length, UINT32_MAX, NULL, 0, count, &error);
        /* The end is no token. */
        if (status == FIRTHNAPKIN_BUFFER_TOO_SMALL) (*count)--;
        return status;
    }
    whole cut = tokens_found(source, length, UINT32_MAX);
    status = cut.status;
    *count = cut.tokens_count - (status == FIRTHNAPKIN_OK);
    for (size_t i = 0; i < cut.tokens_count; i++) {
        *count += comments_between(source, last, cut.tokens[i].start.byte);
        last = cut.tokens[i].end.byte;
    }
    give_back(&cut);
    return status;
}

/* What a document of this source has as its token_count, and 0 if documents have none. The status is FIRTHNAPKIN_OK, or
 * says that memory ran out. */
static uint32_t count_for(const counting_rules *rules, const uint8_t *source, size_t length, size_t *count) {
    *count = 0;
    if (rules->token_count == NO_COUNT) return FIRTHNAPKIN_OK;
    uint32_t status = count_all(source, length, rules->token_count == COUNT_OF_TOKENS_AND_COMMENTS, count);
    return status == FIRTHNAPKIN_OUT_OF_MEMORY ? FIRTHNAPKIN_OUT_OF_MEMORY : FIRTHNAPKIN_OK;
}

/* ---- when graphql-core's own parser has to be called */

/* Whether graphql-core refuses one of these tokens, of which it looks at the first so many. All but the last one begin a
 * document. It refuses a number that goes on, and a variable that is nested deeper than those that an operation defines. */
static bool has_refused_token(const whole *cut, size_t looked_at, const uint8_t *source, size_t length) {
    size_t depth = 0;
    bool is_constant = false;
    for (size_t i = 0; i < cut->tokens_count; i++) {
        const firthnapkin_token *t = &cut->tokens[i];
        char next = t->end.byte < length ? (char)source[t->end.byte] : ' ';
        switch (t->kind) {
        case FIRTHNAPKIN_TOKEN_INT:
        case FIRTHNAPKIN_TOKEN_FLOAT:
            if (begins_name(next) || next == '.') return true;
            break;
        case FIRTHNAPKIN_TOKEN_DOLLAR:
            /* It is refused when its name is looked at. */
            if (is_constant && depth > 1 && i + 1 < looked_at) return true;
            break;
        case FIRTHNAPKIN_TOKEN_PAREN_OPEN:
        case FIRTHNAPKIN_TOKEN_BRACKET_OPEN:
        case FIRTHNAPKIN_TOKEN_CURLY_OPEN:
            /* Outside of braces this opens an operation's variables, or the arguments of a directive after its name. */
            if (depth == 0)
                is_constant = t->kind == FIRTHNAPKIN_TOKEN_PAREN_OPEN && !(i >= 2 && t[-2].kind == FIRTHNAPKIN_TOKEN_AT);
            depth++;
            break;
        case FIRTHNAPKIN_TOKEN_PAREN_CLOSE:
        case FIRTHNAPKIN_TOKEN_BRACKET_CLOSE:
        case FIRTHNAPKIN_TOKEN_CURLY_CLOSE: depth--; break;
        default: break;
        }
    }
    return false;
}

/* Whether graphql-core reports an error before it reports the token beyond a limit, or the end, at which the error is. It
 * reads that one, too, before it looks at the limit. If memory runs out that is the status. */
static bool is_refused_before(const uint8_t *source, size_t length, const firthnapkin_error *error, uint32_t *status) {
    whole cut = tokens_found(source, error->end.byte, UINT32_MAX);
    size_t looked_at = 0;
    while (looked_at < cut.tokens_count && cut.tokens[looked_at].start.byte < error->start.byte) looked_at++;
    bool is_refused = has_refused_token(&cut, looked_at, source, length);
    if (cut.status == FIRTHNAPKIN_OUT_OF_MEMORY) *status = FIRTHNAPKIN_OUT_OF_MEMORY;
    give_back(&cut);
    return is_refused;
}

/* ---- limits */

/* Sets the error to the first of these tokens, or the end, up to which more is counted than the limit. False if there is
 * none. */
static bool find_too_many(const counting_rules *rules, whole *cut, const uint8_t *source, int64_t most) {
    int64_t count = 0;
    uint32_t last = 0;
    for (size_t i = 0; i < cut->tokens_count; i++) {
        const firthnapkin_token *t = &cut->tokens[i];
        bool is_end = t->kind == FIRTHNAPKIN_TOKEN_END_OF_FILE;
        count += !is_end;
        if (rules->limits_comments) count += (int64_t)comments_between(source, last, t->start.byte);
        if (count > most && (!is_end || rules->limits_end)) {
            cut->error.start = t->start;
            cut->error.end = t->end;
            return true;
        }
        last = t->end.byte;
    }
    return cut->status == FIRTHNAPKIN_TOO_MANY_TOKENS;
}

/* How many comments a source has at most: each begins with a number sign, which a string may have, too. */
static size_t most_comments(const uint8_t *source, size_t length) {
    size_t count = 0;
    const uint8_t *at = source, *end = source + length;
    while (at < end && (at = memchr(at, '#', (size_t)(end - at))) != NULL) {
        at++;
        count++;
    }
    return count;
}

/* The same limits, with another one on tokens. */
static firthnapkin_limits with_tokens(const firthnapkin_limits *limits, uint32_t tokens) {
    firthnapkin_limits others = *limits;
    others.tokens = tokens;
    return others;
}

static whole parse_within(parsed_as as, const uint8_t *source, size_t length, const package_limits *limits, uint32_t tokens) {
    firthnapkin_limits others = with_tokens(&limits->call, tokens);
    if (as != AS_DOCUMENT) return whole_as(as, source, length, &others);
    return document_whole(source, length, &others, &limits->sizes);
}

/* The nodes of a source whose tokens, and the comments and the end if they are looked at, are counted one by one. Otherwise as
 * with_few_tokens. */
static whole counted_first(const counting_rules *rules, parsed_as as, const uint8_t *source, size_t length,
                           const package_limits *limits, int64_t most) {
    whole cut = tokens_found(source, length, most < 0 ? 0 : (uint32_t)most);
    if (find_too_many(rules, &cut, source, most))
        cut.status = FIRTHNAPKIN_TOO_MANY_TOKENS;
    else if (cut.status != FIRTHNAPKIN_OUT_OF_MEMORY) {
        give_back(&cut);
        return parse_within(as, source, length, limits, UINT32_MAX);
    }
    return cut;
}

/* The nodes of a source that keeps a limit on its tokens. Otherwise the status is FIRTHNAPKIN_TOO_MANY_TOKENS, and the error is
 * at the first token too many, or at the end. A limit of UINT32_MAX is none. A source whose tokens keep what the comments leave
 * of the limit is read once. */
static whole with_few_tokens(const counting_rules *rules, parsed_as as, const uint8_t *source, size_t length,
                             const package_limits *limits, int64_t most) {
    size_t comments = rules->limits_comments && most < UINT32_MAX ? most_comments(source, length) : 0;
    bool is_counted = comments > 0 || (most < 0 && rules->limits_end);
    if (!is_counted) return parse_within(as, source, length, limits, most < 0 ? 0 : (uint32_t)most);
    if (most < 0 || comments > (uint64_t)most) return counted_first(rules, as, source, length, limits, most);
    whole w = parse_within(as, source, length, limits, (uint32_t)(most - (int64_t)comments));
    if (w.status != FIRTHNAPKIN_TOO_MANY_TOKENS) return w;
    give_back(&w);
    return counted_first(rules, as, source, length, limits, most);
}

/* What the tokens before the first token past the limit are: FIRTHNAPKIN_TOO_MANY_TOKENS if what is wanted begins with them, and
 * otherwise the status that is returned for them, with its error. No buffers are passed, so nothing is built from them. */
static uint32_t begun(parsed_as as, const uint8_t *source, const firthnapkin_limits *limits, firthnapkin_error *error) {
    size_t nodes, texts;
    firthnapkin_error found;
    firthnapkin_limits others = with_tokens(limits, UINT32_MAX);
    uint32_t status = parse_as_on_stack(as, source, error->start.byte, &others, NULL, 0, &nodes, NULL, 0, &texts, &found);
    bool is_whole = status == FIRTHNAPKIN_BUFFER_TOO_SMALL || status == FIRTHNAPKIN_OK;
    bool is_at_end = status == FIRTHNAPKIN_SYNTAX_ERROR && found.kind == FIRTHNAPKIN_ERROR_UNEXPECTED_END;
    if (is_whole || is_at_end) return FIRTHNAPKIN_TOO_MANY_TOKENS;
    if (status == FIRTHNAPKIN_TOO_DEEP) *error = found;
    return status;
}

/* The status of a source that doesn't keep a limit, if graphql-core reports a token before the first one beyond it. */
enum { EARLIER_ERROR = 102 };

/* The nodes of a source that keeps all limits. If it doesn't, the status says which one, and the error is at the first
 * token beyond it, or says which operation is; or the status is EARLIER_ERROR. */
static whole within(const counting_rules *rules, parsed_as as, const uint8_t *source, size_t length,
                    const package_limits *limits, int64_t most) {
    whole w = with_few_tokens(rules, as, source, length, limits, most);
    if (w.status != FIRTHNAPKIN_TOO_MANY_TOKENS && w.status != FIRTHNAPKIN_TOO_DEEP) return w;
    if (w.status == FIRTHNAPKIN_TOO_MANY_TOKENS) w.status = begun(as, source, &limits->call, &w.error);
    bool is_earlier = w.status == FIRTHNAPKIN_SYNTAX_ERROR || is_refused_before(source, length, &w.error, &w.status);
    if (is_earlier) w.status = EARLIER_ERROR;
    return w;
}

#endif
