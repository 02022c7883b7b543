/* What graphql-core's own parser needs of a source to find the error at a token. */
#ifndef FIRTHNAPKIN_GRAPHQL_ERRORS_H
#define FIRTHNAPKIN_GRAPHQL_ERRORS_H

#include "_graphql_limits.h"

/* The status of a source that both parsers read alike up to a token that no document has there. The texts are what is open before
 * that token. */
enum { FOUND_OPEN = 103 };

/* A bracket that is open: where its first item is among the tokens that are kept, and whether its items are selections. */
typedef struct {
    size_t start;
    bool has_selections;
} open_bracket;

static bool is_on(const uint8_t *source, const firthnapkin_token *t) {
    return t->kind == FIRTHNAPKIN_TOKEN_NAME && t->end.byte - t->start.byte == 2
           && memcmp(source + t->start.byte, "on", 2) == 0;
}

/* Whether a token begins a definition, or a selection after the first one, where those before it are kept. */
static bool begins_item(const uint8_t *source, const firthnapkin_token *kept, size_t count, const firthnapkin_token *t,
                        size_t depth) {
    uint32_t last = count > 0 ? kept[count - 1].kind : FIRTHNAPKIN_TOKEN_END_OF_FILE;
    if (depth == 0) return last == FIRTHNAPKIN_TOKEN_CURLY_CLOSE;
    bool is_condition = count > 1 && is_on(source, &kept[count - 1]) && kept[count - 2].kind == FIRTHNAPKIN_TOKEN_ELLIPSIS;
    bool is_within = last == FIRTHNAPKIN_TOKEN_COLON || last == FIRTHNAPKIN_TOKEN_AT || last == FIRTHNAPKIN_TOKEN_ELLIPSIS;
    return t->kind == FIRTHNAPKIN_TOKEN_ELLIPSIS || (t->kind == FIRTHNAPKIN_TOKEN_NAME && !is_within && !is_condition);
}

/* Keeps of these tokens, with which a document begins, those that say what may come next: neither definitions nor selections
 * before the last one, in each selection set that is open. Returns how many that are. */
static size_t keep_open(const uint8_t *source, firthnapkin_token *tokens, size_t count) {
    /* The source itself is the first one. */
    open_bracket open[FIRTHNAPKIN_MAX_DEPTH + 1] = {{.start = 0, .has_selections = true}};
    size_t depth = 0, kept = 0;
    for (size_t i = 0; i < count; i++) {
        firthnapkin_token t = tokens[i];
        bool is_parted = open[depth].has_selections;
        if (is_parted && begins_item(source, tokens, kept, &t, depth)) kept = open[depth].start;
        tokens[kept++] = t;
        switch (t.kind) {
        case FIRTHNAPKIN_TOKEN_PAREN_OPEN:
        case FIRTHNAPKIN_TOKEN_BRACKET_OPEN:
        case FIRTHNAPKIN_TOKEN_CURLY_OPEN:
            open[++depth] = (open_bracket){kept, is_parted && t.kind == FIRTHNAPKIN_TOKEN_CURLY_OPEN};
            break;
        case FIRTHNAPKIN_TOKEN_PAREN_CLOSE:
        case FIRTHNAPKIN_TOKEN_BRACKET_CLOSE:
        case FIRTHNAPKIN_TOKEN_CURLY_CLOSE: depth--; break;
        default: break;
        }
    }
    return kept;
}

/* Makes the texts these tokens, with a space after each. If memory runs out that is the status. */
static void put_tokens(whole *w, const uint8_t *source, const firthnapkin_token *tokens, size_t count) {
    size_t size = 0;
    for (size_t i = 0; i < count; i++) size += tokens[i].end.byte - tokens[i].start.byte + 1;
    uint8_t *texts = malloc(size + 1);
    w->status = texts == NULL ? FIRTHNAPKIN_OUT_OF_MEMORY : FOUND_OPEN;
    if (texts == NULL) return;
    free(w->texts);
    w->texts = texts;
    w->texts_count = size;
    for (size_t i = 0; i < count; i++) {
        size_t length = tokens[i].end.byte - tokens[i].start.byte;
        memcpy(texts, source + tokens[i].start.byte, length);
        texts[length] = ' ';
        texts += length + 1;
    }
}

/* Whether the words of graphql-core's error depend on what is before its token alone. Those at a variable have its name. */
static bool is_found_alone(const whole *w, const uint8_t *source) {
    bool is_lexical = w->error.kind == FIRTHNAPKIN_ERROR_LEXICAL;
    bool is_variable = w->error.kind == FIRTHNAPKIN_ERROR_UNEXPECTED_TOKEN && source[w->error.start.byte] == '$';
    return w->status == FIRTHNAPKIN_SYNTAX_ERROR && !is_lexical && !is_variable;
}

/* Makes the status FOUND_OPEN if the error is that no document has its token there, or ends there, and graphql-core reports no
 * earlier token. */
static void find_open(whole *w, const uint8_t *source, size_t length) {
    if (!is_found_alone(w, source) || is_refused_before(source, length, &w->error, &w->status)) return;
    whole cut = tokens_found(source, w->error.start.byte, UINT32_MAX);
    if (cut.status == FIRTHNAPKIN_OK) /* The last one is the end. */
        put_tokens(w, source, cut.tokens, keep_open(source, cut.tokens, cut.tokens_count - 1));
    else if (cut.status == FIRTHNAPKIN_OUT_OF_MEMORY)
        w->status = FIRTHNAPKIN_OUT_OF_MEMORY;
    give_back(&cut);
}

#endif
