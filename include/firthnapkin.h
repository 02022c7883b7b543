/* A proved parser of GraphQL's executable documents (October 2021), for C and for programs that call C.
 *
 * Nothing is kept between two calls, and nothing has to be freed: everything that a call returns is written to the caller's
 * own memory. Calls may run in any number of threads at once.
 *
 * The caller has to keep these conditions, since no proof does:
 * - A pointer refers to memory for as many bytes, nodes or others as its length or its capacity says. If that is 0 the
 *   pointer may be NULL. The pointers to limits, lengths and errors are never NULL.
 * - The source, limits, buffers, lengths and error of one call don't overlap, and nothing else writes to them meanwhile.
 * - The stack is large enough for the call: FIRTHNAPKIN_STACK_SIZE(depth) bytes suffice, whatever the source, and
 *   FIRTHNAPKIN_STACK_SIZE(0) for a call that takes no limits.
 * - malloc, realloc and free are of one allocator, and a block is aligned to each power of two up to 16 that divides its
 *   size. No call is made from a signal handler, or in the forked child of a process with threads.
 */
#ifndef FIRTHNAPKIN_H
#define FIRTHNAPKIN_H

#include <stddef.h>
#include <stdint.h>

#ifdef __cplusplus
extern "C" {
#endif

/* The version as a number: the first part times 10,000, the second times 100, and the third. So 0.1.0 is 100. */
#define FIRTHNAPKIN_VERSION 100
#define FIRTHNAPKIN_VERSION_STRING "0.1.0"

/* The largest depth that a call accepts. */
#define FIRTHNAPKIN_MAX_DEPTH 1000

/* The limits of a call. A later version may give a reserved word a meaning, in which 0 is no limit. */
typedef struct {
    /* tables.toml: limits as fields */
    uint32_t depth;  /* how deep brackets may be nested: 0 to FIRTHNAPKIN_MAX_DEPTH */
    uint32_t tokens; /* how many tokens a source may have, its end not counted; UINT32_MAX is no limit */
    /* tables.toml: end */
    uint32_t reserved[6]; /* 0 */
} firthnapkin_limits;

/* Brackets nested 200 deep, and any number of tokens. */
#define FIRTHNAPKIN_LIMITS_DEFAULT {200, UINT32_MAX, {0}}

/* The bytes of stack that suffice for a call with this depth: twice what was measured, where a level takes at most 512. */
#define FIRTHNAPKIN_STACK_SIZE(depth) ((size_t)32768 + (size_t)1024 * (depth))

/* What a call returns. Each call says which of these it returns, and what FIRTHNAPKIN_OK and FIRTHNAPKIN_SYNTAX_ERROR mean
 * there. If several hold, the first line of this table that holds is returned:
 *
 *   1. FIRTHNAPKIN_SOURCE_TOO_LONG     the source isn't read
 *   2. FIRTHNAPKIN_INVALID_LIMIT       the source isn't read
 *   3. FIRTHNAPKIN_NOT_UTF8            all of the source is checked, also what is after an error or after the last token wanted
 *   4. FIRTHNAPKIN_INVALID_ERROR
 *   5. FIRTHNAPKIN_TOO_MANY_TOKENS     the first token too many is before the first lexical error
 *   6. FIRTHNAPKIN_SYNTAX_ERROR        a lexical error, wherever it is: also after a token that is nested too deep
 *   7. FIRTHNAPKIN_TOO_DEEP or FIRTHNAPKIN_SYNTAX_ERROR, by which token is first: nested too deep, or with an error before it
 *   8. FIRTHNAPKIN_UNKNOWN_FRAGMENT or FIRTHNAPKIN_FRAGMENT_CYCLE, by which spread is reached first
 *   9. FIRTHNAPKIN_BUFFER_TOO_SMALL
 *  10. FIRTHNAPKIN_OK
 *
 * FIRTHNAPKIN_OUT_OF_MEMORY may be returned in place of lines 5 to 10. */
enum firthnapkin_status {
    /* tables.toml: statuses */
    FIRTHNAPKIN_OK = 0,                /* success */
    FIRTHNAPKIN_SYNTAX_ERROR = 1,      /* the source is UTF-8, and has a syntax error */
    FIRTHNAPKIN_NOT_UTF8 = 2,          /* the source is not UTF-8 */
    FIRTHNAPKIN_OUT_OF_MEMORY = 3,     /* memory ran out */
    FIRTHNAPKIN_TOO_DEEP = 4,          /* a token is nested too deep */
    FIRTHNAPKIN_TOO_MANY_TOKENS = 5,   /* the source has more tokens than the limit, before its first lexical error */
    FIRTHNAPKIN_BUFFER_TOO_SMALL = 6,  /* a buffer or an array is too small */
    FIRTHNAPKIN_SOURCE_TOO_LONG = 7,   /* the source has 4 GiB or more */
    FIRTHNAPKIN_INVALID_LIMIT = 8,     /* the depth is above FIRTHNAPKIN_MAX_DEPTH, or a reserved word isn't 0 */
    FIRTHNAPKIN_INVALID_ERROR = 9,     /* the error that was given has no words, or no lines, in this source */
    FIRTHNAPKIN_UNKNOWN_FRAGMENT = 10, /* the source is a document, and a spread names no fragment of it */
    FIRTHNAPKIN_FRAGMENT_CYCLE = 11    /* the source is a document, and a spread is within the fragment that it names */
    /* tables.toml: end */
};

/* The kind of a node. The kinds of literals are last. */
enum firthnapkin_kind {
    /* tables.toml: kinds */
    FIRTHNAPKIN_QUERY = 0,                /* an operation that only reads */
    FIRTHNAPKIN_MUTATION = 1,             /* an operation that writes */
    FIRTHNAPKIN_SUBSCRIPTION = 2,         /* a long-lived operation */
    FIRTHNAPKIN_FRAGMENT_DEFINITION = 3,  /* the definition of a fragment */
    FIRTHNAPKIN_VARIABLE_DEFINITIONS = 4, /* the variable definitions of an operation */
    FIRTHNAPKIN_VARIABLE_DEFINITION = 5,  /* a variable definition, by its name */
    FIRTHNAPKIN_TYPE = 6,                 /* the type of a variable */
    FIRTHNAPKIN_FIELD = 7,                /* a field that is selected */
    FIRTHNAPKIN_ALIAS = 8,                /* the alias of a field */
    FIRTHNAPKIN_FRAGMENT_SPREAD = 9,      /* the use of a fragment by its name */
    FIRTHNAPKIN_INLINE_FRAGMENT = 10,     /* a fragment without a name; its name is its type condition */
    FIRTHNAPKIN_DIRECTIVE = 11,           /* the use of a directive */
    FIRTHNAPKIN_ARGUMENTS = 12,           /* the arguments of a field or a directive */
    FIRTHNAPKIN_ARGUMENT = 13,            /* an argument, by its name */
    FIRTHNAPKIN_NULL = 14,                /* the value null */
    FIRTHNAPKIN_ENUM = 15,                /* a value of an enum */
    FIRTHNAPKIN_VARIABLE = 16,            /* a variable used as a value */
    FIRTHNAPKIN_LIST = 17,                /* a list of values */
    FIRTHNAPKIN_OBJECT = 18,              /* an object, with its fields */
    FIRTHNAPKIN_OBJECT_FIELD = 19,        /* a field of an object, by its name */
    FIRTHNAPKIN_INT = 20,                 /* an Int that 32 bits hold */
    FIRTHNAPKIN_LARGE_INT = 21,           /* an Int that 32 bits don't hold */
    FIRTHNAPKIN_FLOAT = 22,               /* a number with a fraction or an exponent */
    FIRTHNAPKIN_STRING = 23,              /* a String between quotes */
    FIRTHNAPKIN_BLOCK_STRING = 24,        /* a String between three quotes on each side */
    FIRTHNAPKIN_BOOLEAN = 25              /* true or false */
    /* tables.toml: end */
};

/* A position: the number of characters of the source, of line feeds, of characters of the line, and of bytes before it. */
typedef struct {
    uint32_t index, line, column, byte;
} firthnapkin_position;

/* A part of a document. After it come the nodes of the parts in it, in the order of the source: the node after node i that
 * is in no part of it is node i + 1 + descendants. A variable definition, an argument and a field of an object are known by
 * their names alone, and their positions are their name's. A node takes 64 bytes; the four bytes after its last field have no
 * meaning. */
typedef struct {
    uint32_t kind; /* a firthnapkin_kind */
    uint32_t descendants;
    firthnapkin_position start, end;
    /* The bytes of the source that are its name, without `$` and `@`. For a scalar, for null and for a type they are all of
     * it. Without a name both are the byte where the node starts. */
    uint32_t name_start, name_end;
    /* For an Int its number, for a Boolean 0 or 1. For a string and a block string the byte of the texts where its meaning
     * begins, for a type where the type without spaces begins; value_length is the number of its bytes. For a fragment the
     * byte of the source where its type condition begins; value_length is the number of its bytes. Otherwise 0. */
    int64_t value;
    uint32_t value_length;
} firthnapkin_node;

/* The kind of a token. */
enum firthnapkin_token_kind {
    /* tables.toml: tokens */
    FIRTHNAPKIN_TOKEN_END_OF_FILE = 0,      /* the end of the source, which has no characters */
    FIRTHNAPKIN_TOKEN_NAME = 1,             /* a name or a word of the language */
    FIRTHNAPKIN_TOKEN_STRING = 2,           /* a text between quotes */
    FIRTHNAPKIN_TOKEN_BLOCK_STRING = 3,     /* a text between three quotes on each side */
    FIRTHNAPKIN_TOKEN_FLOAT = 4,            /* a number with a fraction or an exponent */
    FIRTHNAPKIN_TOKEN_INT = 5,              /* a number without either */
    FIRTHNAPKIN_TOKEN_EXCLAMATION_MARK = 6, /* `!` */
    FIRTHNAPKIN_TOKEN_DOLLAR = 7,           /* `$` */
    FIRTHNAPKIN_TOKEN_PAREN_OPEN = 8,       /* `(` */
    FIRTHNAPKIN_TOKEN_PAREN_CLOSE = 9,      /* `)` */
    FIRTHNAPKIN_TOKEN_BRACKET_OPEN = 10,    /* `[` */
    FIRTHNAPKIN_TOKEN_BRACKET_CLOSE = 11,   /* `]` */
    FIRTHNAPKIN_TOKEN_CURLY_OPEN = 12,      /* `{` */
    FIRTHNAPKIN_TOKEN_CURLY_CLOSE = 13,     /* `}` */
    FIRTHNAPKIN_TOKEN_ELLIPSIS = 14,        /* `...` */
    FIRTHNAPKIN_TOKEN_COLON = 15,           /* `:` */
    FIRTHNAPKIN_TOKEN_EQUALS = 16,          /* `=` */
    FIRTHNAPKIN_TOKEN_AT = 17,              /* `@` */
    FIRTHNAPKIN_TOKEN_PIPE = 18             /* `|` */
    /* tables.toml: end */
};

/* A token. Its text is the bytes of the source from start.byte + quotes to end.byte - quotes, as they are written: escapes
 * are not replaced, and lines of a block string stay as they are. A token takes 40 bytes. */
typedef struct {
    uint32_t kind;   /* a firthnapkin_token_kind */
    uint32_t quotes; /* the number of quotes on each side of its text: of a string 1, of a block string 3, otherwise 0 */
    firthnapkin_position start, end;
} firthnapkin_token;

/* How large an operation is with every fragment expanded. A number above UINT32_MAX is UINT32_MAX. They are those of the text
 * alone: no schema gives a field a weight, equal fields aren't merged, and @skip and @include leave nothing out. */
typedef struct {
    uint32_t definition;  /* the index of the operation's node */
    /* tables.toml: complexity as fields */
    uint32_t fields;      /* the fields, at every depth */
    uint32_t aliases;     /* the fields with an alias */
    uint32_t directives;  /* the directives of the operation and of all in it, and of a fragment each time that it is spread */
    uint32_t root_fields; /* the fields that are in no other field */
    uint32_t depth;       /* how many fields are nested in one another at most: 1 if no field is in another */
    /* tables.toml: end */
} firthnapkin_complexity;

/* The kind of an error. */
enum firthnapkin_error_kind {
    /* tables.toml: errors */
    FIRTHNAPKIN_ERROR_UNEXPECTED_TOKEN = 0, /* no document could have the token there */
    FIRTHNAPKIN_ERROR_UNEXPECTED_END = 1,   /* the source ends within a document */
    FIRTHNAPKIN_ERROR_LEXICAL = 2,          /* there is no token here: the detail says why */
    FIRTHNAPKIN_ERROR_TOO_DEEP = 3,         /* the token is nested too deep */
    FIRTHNAPKIN_ERROR_TOO_MANY_TOKENS = 4,  /* the token is the first past the limit */
    FIRTHNAPKIN_ERROR_INVALID_SCALAR = 5,   /* never reported, since every token of a literal is read */
    FIRTHNAPKIN_ERROR_UNKNOWN_FRAGMENT = 6, /* the spread names no fragment of the document */
    FIRTHNAPKIN_ERROR_FRAGMENT_CYCLE = 7    /* the spread is within the fragment that it names, itself or through others */
    /* tables.toml: end */
};

/* Why there is no token. */
enum firthnapkin_error_detail {
    /* tables.toml: details */
    FIRTHNAPKIN_DETAIL_NONE = 0,                        /* the error isn't lexical */
    FIRTHNAPKIN_DETAIL_UNKNOWN_CHARACTER = 1,           /* no token begins with the character */
    FIRTHNAPKIN_DETAIL_UNEXPECTED_CHARACTER = 2,        /* a token has begun, and the character can't follow */
    FIRTHNAPKIN_DETAIL_UNTERMINATED_STRING = 3,         /* the source or the line ends within a string */
    FIRTHNAPKIN_DETAIL_UNKNOWN_CHARACTER_IN_STRING = 4, /* the character is not allowed in a string */
    FIRTHNAPKIN_DETAIL_UNKNOWN_ESCAPE = 5,              /* what follows a backslash in a string is no escape */
    FIRTHNAPKIN_DETAIL_UNEXPECTED_END_IN_TOKEN = 6,     /* the source ends within a token */
    FIRTHNAPKIN_DETAIL_INVALID_NUMBER = 7               /* never reported */
    /* tables.toml: end */
};

/* An error: what it is, and where. The positions are those of a token or of a spread, or of zero width. */
typedef struct {
    uint32_t kind;      /* a firthnapkin_error_kind */
    uint32_t detail;    /* a firthnapkin_error_detail; FIRTHNAPKIN_DETAIL_NONE if the error isn't lexical */
    uint32_t character; /* the character of the detail, otherwise 0 */
    firthnapkin_position start, end;
    /* The bytes of the source that the error's words show: those of an unexpected token, and of an escape that is unknown.
     * For any other error both are start.byte. */
    uint32_t text_start, text_end;
} firthnapkin_error;

/* The names of numbers, as "fragment_spread" of FIRTHNAPKIN_FRAGMENT_SPREAD, and "unknown" of any number that this header
 * doesn't have. */
/* tables.toml: statuses, kinds, tokens, errors, details as names */
static inline const char *firthnapkin_status_name(uint32_t status) {
    static const char *const names[] = {
        "ok", "syntax_error", "not_utf8", "out_of_memory", "too_deep", "too_many_tokens", "buffer_too_small",
        "source_too_long", "invalid_limit", "invalid_error", "unknown_fragment", "fragment_cycle",
    };
    return status < sizeof names / sizeof *names ? names[status] : "unknown";
}

static inline const char *firthnapkin_kind_name(uint32_t kind) {
    static const char *const names[] = {
        "query", "mutation", "subscription", "fragment_definition", "variable_definitions", "variable_definition",
        "type", "field", "alias", "fragment_spread", "inline_fragment", "directive", "arguments", "argument", "null",
        "enum", "variable", "list", "object", "object_field", "int", "large_int", "float", "string", "block_string",
        "boolean",
    };
    return kind < sizeof names / sizeof *names ? names[kind] : "unknown";
}

static inline const char *firthnapkin_token_kind_name(uint32_t kind) {
    static const char *const names[] = {
        "end_of_file", "name", "string", "block_string", "float", "int", "exclamation_mark", "dollar", "paren_open",
        "paren_close", "bracket_open", "bracket_close", "curly_open", "curly_close", "ellipsis", "colon", "equals",
        "at", "pipe",
    };
    return kind < sizeof names / sizeof *names ? names[kind] : "unknown";
}

static inline const char *firthnapkin_error_kind_name(uint32_t kind) {
    static const char *const names[] = {
        "unexpected_token", "unexpected_end", "lexical", "too_deep", "too_many_tokens", "invalid_scalar",
        "unknown_fragment", "fragment_cycle",
    };
    return kind < sizeof names / sizeof *names ? names[kind] : "unknown";
}

static inline const char *firthnapkin_error_detail_name(uint32_t detail) {
    static const char *const names[] = {
        "none", "unknown_character", "unexpected_character", "unterminated_string", "unknown_character_in_string",
        "unknown_escape", "unexpected_end_in_token", "invalid_number",
    };
    return detail < sizeof names / sizeof *names ? names[detail] : "unknown";
}

/* tables.toml: end */

/* Parses a source within limits.
 *
 * FIRTHNAPKIN_OK: the source is a document. Its nodes are at the beginning of `nodes`, and their texts, one after the other,
 * at the beginning of `texts`; the rest of both is as it was. FIRTHNAPKIN_BUFFER_TOO_SMALL: it is a document, and one of the
 * two is too small; both begin with what fits. Both statuses set the lengths to the number of nodes and of bytes of texts. All
 * others set both lengths to 0. FIRTHNAPKIN_NOT_UTF8, FIRTHNAPKIN_SOURCE_TOO_LONG and FIRTHNAPKIN_INVALID_LIMIT leave both
 * buffers as they were. After any other status they hold unspecified values, since nodes are written while the source is
 * parsed. Buffers of `length` nodes and `length` bytes always suffice.
 *
 * FIRTHNAPKIN_SYNTAX_ERROR: the source is UTF-8, and isn't a document. The error is its first lexical error, wherever that is;
 * without one it is at the first token that no document could have there. FIRTHNAPKIN_TOO_DEEP: the source has no lexical
 * error, not even after the token that is nested too deep. That token is the error, and those up to it begin a document.
 * FIRTHNAPKIN_TOO_MANY_TOKENS: the source has more tokens than limits->tokens, before its end or its first lexical error. The
 * first token past the limit is the error, whether those before it begin a document or not. These three statuses write the
 * error. The others leave it as it was.
 *
 * It also returns FIRTHNAPKIN_NOT_UTF8, FIRTHNAPKIN_OUT_OF_MEMORY, FIRTHNAPKIN_SOURCE_TOO_LONG and FIRTHNAPKIN_INVALID_LIMIT.
 * It holds no list of tokens, no tree and no text.
 *
 * With both capacities 0 the call checks a source, and writes nothing except the lengths and an error. A document has a node, so
 * FIRTHNAPKIN_BUFFER_TOO_SMALL then says that the source is a document within the limits, and FIRTHNAPKIN_OK isn't returned. */
uint32_t firthnapkin_parse(const uint8_t *source, size_t length, const firthnapkin_limits *limits, firthnapkin_node *nodes,
                           size_t nodes_capacity, size_t *nodes_length, uint8_t *texts, size_t texts_capacity,
                           size_t *texts_length, firthnapkin_error *error);

/* Parses a source within limits as firthnapkin_parse does, and finds how large each of its operations is. No fragment is
 * expanded twice: time and memory grow with the source, and not with the numbers. Of two fragments of one name the first is
 * expanded.
 *
 * FIRTHNAPKIN_OK: as there, and the operations' numbers are at the beginning of `complexities`, in the order of the source;
 * the rest of it is as it was. FIRTHNAPKIN_BUFFER_TOO_SMALL: as there, and it may be this array that is too small. Both set
 * `complexities_length` to the number of operations. All others set it to 0, and leave the array as it was. An array of
 * `length` complexities always suffices.
 *
 * FIRTHNAPKIN_UNKNOWN_FRAGMENT and FIRTHNAPKIN_FRAGMENT_CYCLE: the source is a document, and an operation can't be expanded.
 * The error is at the first spread that can't be, from its dots to its end, for a reader who begins with the first operation
 * and goes through each spread's fragment before what is after the spread. What no operation reaches isn't looked at. The nodes
 * and texts are in the buffers as far as they fit, and their lengths are set to the number of all.
 *
 * It also returns the other statuses of firthnapkin_parse. After these the nodes, the texts, their lengths and the error are
 * as after that call.
 *
 * With capacities of 0 for nodes and texts the call checks a source: FIRTHNAPKIN_BUFFER_TOO_SMALL then says that the source is a
 * document within the limits and that each operation can be expanded. If `complexities_length` is at most the capacity, the array
 * has the numbers of all operations, to be compared with limits of the caller's. Otherwise it has those of the first operations,
 * and a call with room for `complexities_length` has all. */
uint32_t firthnapkin_parse_complexities(const uint8_t *source, size_t length, const firthnapkin_limits *limits,
                                        firthnapkin_node *nodes, size_t nodes_capacity, size_t *nodes_length, uint8_t *texts,
                                        size_t texts_capacity, size_t *texts_length, firthnapkin_complexity *complexities,
                                        size_t complexities_capacity, size_t *complexities_length, firthnapkin_error *error);

/* Parses a source that is one value, and no more, within limits (GraphQL specification, October 2021, section 2.9). If
 * `constant` isn't 0, the value is constant: it has no variables.
 *
 * Its statuses are those of firthnapkin_parse. FIRTHNAPKIN_OK: the source is a value. Its nodes are at the beginning of
 * `nodes`, the first of them its own, and their texts at the beginning of `texts`; the rest of both is as it was.
 * FIRTHNAPKIN_BUFFER_TOO_SMALL: it is a value, and one of the two is too small; both begin with what fits. Both statuses set
 * the lengths to the number of nodes and of bytes of texts. Buffers of `length` nodes and `length` bytes always suffice.
 *
 * FIRTHNAPKIN_SYNTAX_ERROR, FIRTHNAPKIN_TOO_DEEP and FIRTHNAPKIN_TOO_MANY_TOKENS mean what they do there, with 'value' for
 * 'document', and so does the error. After all statuses but the first two the buffers, the lengths and the error are as after
 * that call. */
uint32_t firthnapkin_parse_value(const uint8_t *source, size_t length, uint32_t constant, const firthnapkin_limits *limits,
                                 firthnapkin_node *nodes, size_t nodes_capacity, size_t *nodes_length, uint8_t *texts,
                                 size_t texts_capacity, size_t *texts_length, firthnapkin_error *error);

/* Parses a source that is one type, as `[ID!]!`, and no more, within limits (section 2.11).
 *
 * Its statuses are those of firthnapkin_parse. FIRTHNAPKIN_OK: the source is a type. Its one node, of the kind
 * FIRTHNAPKIN_TYPE, is at the beginning of `nodes`, and the type without spaces at the beginning of `texts`; the rest of both
 * is as it was. FIRTHNAPKIN_BUFFER_TOO_SMALL: it is a type, and one of the two is too small; both begin with what fits. Both
 * statuses set the lengths to the number of nodes and of bytes of texts. Buffers of `length` nodes and `length` bytes always
 * suffice.
 *
 * FIRTHNAPKIN_SYNTAX_ERROR, FIRTHNAPKIN_TOO_DEEP and FIRTHNAPKIN_TOO_MANY_TOKENS mean what they do there, with 'type' for
 * 'document', and so does the error. After all statuses but the first two the buffers, the lengths and the error are as after
 * that call. */
uint32_t firthnapkin_parse_type(const uint8_t *source, size_t length, const firthnapkin_limits *limits, firthnapkin_node *nodes,
                                size_t nodes_capacity, size_t *nodes_length, uint8_t *texts, size_t texts_capacity,
                                size_t *texts_length, firthnapkin_error *error);

/* Writes an error in words, as `Unexpected "}"`, in UTF-8, with no byte 0 at its end. The source is the one that another call
 * found the error in. It isn't parsed again. Neither the position nor the line is in the words: an excerpt shows these.
 *
 * FIRTHNAPKIN_OK: the words are at the beginning of `buffer`, the rest of which is as it was, and `buffer_length` is the
 * number of their bytes. FIRTHNAPKIN_BUFFER_TOO_SMALL: they have `buffer_length` bytes, more than `buffer_capacity`.
 * FIRTHNAPKIN_INVALID_ERROR: there are no words for this error in this source. Any other error has some, even if it is of
 * another source. It also returns FIRTHNAPKIN_NOT_UTF8, FIRTHNAPKIN_OUT_OF_MEMORY and FIRTHNAPKIN_SOURCE_TOO_LONG. All
 * statuses but FIRTHNAPKIN_OK leave `buffer` as it was. All but FIRTHNAPKIN_OK and FIRTHNAPKIN_BUFFER_TOO_SMALL set
 * `buffer_length` to 0. */
uint32_t firthnapkin_message(const uint8_t *source, size_t length, const firthnapkin_error *error, uint8_t *buffer,
                             size_t buffer_capacity, size_t *buffer_length);

/* Writes the lines around the beginning of an error, and a caret below its character, in UTF-8, with no byte 0 at its end:
 *
 *     1 | query {
 *     2 |   a )
 *       |     ^
 *     3 | }
 *
 * They are the line before, if there is one, the line, the caret, and the line after, if there is one, with a line feed between
 * two of them. Lines are numbered from 1 and end at line feeds. A carriage return before a line feed isn't shown, and any other
 * is shown as a space. Of a line of more than 120 characters the 80 from 40 before the error's column are shown. A row ends at
 * its bar if nothing of its line is shown. Only error->start.byte is read of the error: the line and the column are those of
 * that byte of the source.
 *
 * Its statuses are those of firthnapkin_message. After each of them `buffer` and `buffer_length` are as after that call, with
 * the lines in place of the words. FIRTHNAPKIN_INVALID_ERROR: that byte is within a character of the source, or after its end. */
uint32_t firthnapkin_excerpt(const uint8_t *source, size_t length, const firthnapkin_error *error, uint8_t *buffer,
                             size_t buffer_capacity, size_t *buffer_length);

/* Says whether a source has more tokens than `max_tokens`, its end not counted. The whole source is checked as UTF-8. It is
 * tokenized up to the first token past the limit. Memory is taken for the positions of the error alone, if the source isn't
 * ASCII. The limit is that of firthnapkin_parse; this call is for programs that parse elsewhere.
 *
 * FIRTHNAPKIN_OK: there are no more before the end, or before the first lexical error. FIRTHNAPKIN_TOO_MANY_TOKENS: there are
 * more before either, and the error is at the first token past the limit; what is after it is UTF-8, and may have lexical
 * errors. FIRTHNAPKIN_OUT_OF_MEMORY: there are more, and there was no memory for the error's positions. It also returns
 * FIRTHNAPKIN_NOT_UTF8 and FIRTHNAPKIN_SOURCE_TOO_LONG. All statuses but FIRTHNAPKIN_TOO_MANY_TOKENS leave the error as it
 * was. */
uint32_t firthnapkin_count(const uint8_t *source, size_t length, uint32_t max_tokens, firthnapkin_error *error);

/* Tokenizes a source. Its last token is its end. It may have no more than `max_tokens` tokens, its end not counted. UINT32_MAX
 * is no limit. The source may be a document or not.
 *
 * `tokens_length` is the number of tokens that are found, and `tokens` begins with those of them that fit; the rest of it is
 * as it was. FIRTHNAPKIN_OK: they are all tokens of the source, its end among them. FIRTHNAPKIN_BUFFER_TOO_SMALL: the same,
 * and `tokens` is too short for all. FIRTHNAPKIN_SYNTAX_ERROR: they are those before the first lexical error, which is the
 * error, of the kind FIRTHNAPKIN_ERROR_LEXICAL. FIRTHNAPKIN_TOO_MANY_TOKENS: they are the first `max_tokens`, and the error is
 * at the one after these; what is after it is UTF-8, and may have lexical errors.
 *
 * It also returns FIRTHNAPKIN_NOT_UTF8, FIRTHNAPKIN_SOURCE_TOO_LONG and FIRTHNAPKIN_OUT_OF_MEMORY. These three set
 * `tokens_length` to 0. FIRTHNAPKIN_NOT_UTF8 and FIRTHNAPKIN_SOURCE_TOO_LONG leave `tokens` as it was. After
 * FIRTHNAPKIN_OUT_OF_MEMORY it may begin with some of the source's first tokens. All statuses but FIRTHNAPKIN_SYNTAX_ERROR and
 * FIRTHNAPKIN_TOO_MANY_TOKENS leave the error as it was. An array of length + 1 tokens always suffices. */
uint32_t firthnapkin_tokens(const uint8_t *source, size_t length, uint32_t max_tokens, firthnapkin_token *tokens,
                            size_t tokens_capacity, size_t *tokens_length, firthnapkin_error *error);

/* Writes the canonical text of a source, which is the same whatever white space and comments are around its tokens. It has
 * the tokens as they are written, with one space between two neighbours of which neither is a punctuator, and before `...`
 * after a token that is no punctuator. It is UTF-8, with no line feed and no byte 0 at its end. Whether the source is a
 * document is not checked.
 *
 * FIRTHNAPKIN_OK: the text is at the beginning of `buffer`, the rest of which is as it was, and `buffer_length` is the number
 * of its bytes. FIRTHNAPKIN_BUFFER_TOO_SMALL: it has `buffer_length` bytes, more than `buffer_capacity`. With any other status
 * there is none, and `buffer_length` is 0. FIRTHNAPKIN_SYNTAX_ERROR: the source can't be tokenized, and the error is its first
 * lexical error, of the kind FIRTHNAPKIN_ERROR_LEXICAL. It also returns FIRTHNAPKIN_NOT_UTF8, FIRTHNAPKIN_OUT_OF_MEMORY and
 * FIRTHNAPKIN_SOURCE_TOO_LONG. All statuses but FIRTHNAPKIN_OK leave `buffer` as it was. All but FIRTHNAPKIN_SYNTAX_ERROR
 * leave the error as it was. A buffer of 2 * length bytes always suffices. */
uint32_t firthnapkin_canonical(const uint8_t *source, size_t length, uint8_t *buffer, size_t buffer_capacity,
                               size_t *buffer_length, firthnapkin_error *error);

/* FIRTHNAPKIN_VERSION of the header that the library was built with. */
uint32_t firthnapkin_version(void);

#ifdef __cplusplus
}
#endif

#endif
