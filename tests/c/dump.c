/* Writes what the library says of each text of a corpus, as JSON, a line for each: what each package has to expose of it.
 *
 *     dump [--utf-16] CORPUS
 *
 * tests/corpus.py makes a corpus, and has its form. tests/check_dumps compares these lines with those of the packages, byte for
 * byte. A line has these keys, and an error these, in this order:
 *
 *     tokens      [kind, start, end, line, column, text, text without quotes] of each token, or an error
 *     canonical   the canonical text, or an error
 *     error       null, or an error: kind, detail, character, message, start, end, line, column, excerpt
 *     within      the same of a parse within a depth of 3 and 20 tokens
 *     value       an error, or what the text is as a value: a part, with nodes, value
 *     constant    an error of the text as a value without variables, within that depth and tokens; otherwise null
 *     type        an error, or what the text is as a type: a part, with nodes, type
 *     document    null if there is an error, otherwise nodes, definitions, operations, fragments
 *
 * A position is [index, line, column, byte]. With --utf-16 index and column count UTF-16 units, as Node's package does. Of a source
 * of more than LONG bytes the excerpts of parts are null, and only the LAST tokens and nodes are written. */
#define _GNU_SOURCE
#include "dumped.h"

typedef struct {
    const uint8_t *source;
    size_t length;
    firthnapkin_node *nodes;
    uint8_t *texts;
    firthnapkin_complexity *complexities;
    size_t count, operations;
    uint32_t status;
    firthnapkin_error error;
} parsed;

/* ---- nodes */

static int is(const firthnapkin_node *node, uint32_t first, uint32_t last) {
    return node->kind >= first && node->kind <= last;
}

/* Whether what names the node is all of it, and no name. */
static int is_unnamed(const firthnapkin_node *node) {
    return node->kind == FIRTHNAPKIN_TYPE || node->kind == FIRTHNAPKIN_NULL || is(node, FIRTHNAPKIN_INT, FIRTHNAPKIN_BOOLEAN);
}

static void name_of(const parsed *d, const firthnapkin_node *node) {
    if (is_unnamed(node) || node->name_start == node->name_end)
        printf("null");
    else
        between(d->source, node->name_start, node->name_end);
}

/* What a node says of itself: an Int, a Boolean, a string's meaning, a type, a type condition. */
static void meaning_of(const parsed *d, const firthnapkin_node *node) {
    if (node->kind == FIRTHNAPKIN_INT)
        printf("%lld", (long long)node->value);
    else if (node->kind == FIRTHNAPKIN_BOOLEAN)
        printf(node->value ? "true" : "false");
    else if (node->kind == FIRTHNAPKIN_FRAGMENT_DEFINITION)
        between(d->source, (size_t)node->value, (size_t)node->value + node->value_length);
    else if (node->kind == FIRTHNAPKIN_TYPE || is(node, FIRTHNAPKIN_STRING, FIRTHNAPKIN_BLOCK_STRING))
        between(d->texts, (size_t)node->value, (size_t)node->value + node->value_length);
    else
        printf("null");
}

/* Goes over the nodes directly in one, or over the definitions: the next one from `i` on, or `end`. */
static size_t next(const parsed *d, size_t i) {
    return i + 1 + d->nodes[i].descendants;
}

static void indexes(const parsed *d, size_t i, size_t end) {
    putchar('[');
    for (const char *before = ""; i < end; i = next(d, i), before = ",") printf("%s%zu", before, i);
    putchar(']');
}

static void node_of(const parsed *d, size_t i) {
    const firthnapkin_node *node = &d->nodes[i];
    putchar('[');
    word(firthnapkin_kind_name(node->kind));
    printf(",%u,", node->descendants);
    position(node->start);
    putchar(',');
    position(node->end);
    putchar(',');
    between(d->source, node->start.byte, node->end.byte);
    putchar(',');
    name_of(d, node);
    putchar(',');
    meaning_of(d, node);
    putchar(',');
    indexes(d, i + 1, next(d, i));
    putchar(']');
}

/* ---- parts */

static void value_of(const parsed *d, size_t i);

static int by_name(const void *a, const void *b, void *given) {
    const parsed *d = given;
    const firthnapkin_node *x = &d->nodes[*(const size_t *)a], *y = &d->nodes[*(const size_t *)b];
    size_t xs = x->name_end - x->name_start, ys = y->name_end - y->name_start;
    int order = memcmp(d->source + x->name_start, d->source + y->name_start, xs < ys ? xs : ys);
    if (order == 0) order = (xs > ys) - (xs < ys);
    return order != 0 ? order : (*(const size_t *)a > *(const size_t *)b) - (*(const size_t *)a < *(const size_t *)b);
}

/* The fields of an object by their names: of a key that is there twice the last value. */
static void object_of(const parsed *d, size_t object) {
    size_t *fields = room(d->nodes[object].descendants, sizeof *fields), count = 0;
    for (size_t i = object + 1; i < next(d, object); i = next(d, i)) fields[count++] = i;
    qsort_r(fields, count, sizeof *fields, by_name, (void *)d);
    printf("{\"object\":[");
    const char *before = "";
    for (size_t k = 0; k < count; k++) {
        const firthnapkin_node *x = &d->nodes[fields[k]], *y = k + 1 < count ? &d->nodes[fields[k + 1]] : NULL;
        size_t length = x->name_end - x->name_start;
        if (y != NULL && y->name_end - y->name_start == length
            && memcmp(d->source + x->name_start, d->source + y->name_start, length) == 0)
            continue;
        printf("%s[", before);
        name_of(d, x);
        putchar(',');
        value_of(d, fields[k] + 1);
        putchar(']');
        before = ",";
    }
    printf("]}");
    free(fields);
}

/* The bits of the nearest number to a Float. */
static void float_of(const parsed *d, const firthnapkin_node *node) {
    size_t length = node->end.byte - node->start.byte;
    char *text = room(length, 1);
    memcpy(text, d->source + node->start.byte, length);
    double number = strtod(text, NULL);
    uint64_t bits;
    memcpy(&bits, &number, sizeof bits);
    printf("{\"float\":\"%016llx\"}", (unsigned long long)bits);
    free(text);
}

static void value_of(const parsed *d, size_t i) {
    const firthnapkin_node *node = &d->nodes[i];
    const char *before = "";
    switch (node->kind) {
    case FIRTHNAPKIN_LIST:
        putchar('[');
        for (size_t k = i + 1; k < next(d, i); k = next(d, k), before = ",") {
            printf("%s", before);
            value_of(d, k);
        }
        putchar(']');
        return;
    case FIRTHNAPKIN_OBJECT: object_of(d, i); return;
    case FIRTHNAPKIN_FLOAT: float_of(d, node); return;
    case FIRTHNAPKIN_INT: printf("{\"int\":\"%lld\"}", (long long)node->value); return;
    case FIRTHNAPKIN_LARGE_INT:
        printf("{\"int\":");
        between(d->source, node->start.byte, node->end.byte);
        putchar('}');
        return;
    case FIRTHNAPKIN_ENUM:
    case FIRTHNAPKIN_VARIABLE:
        printf(node->kind == FIRTHNAPKIN_ENUM ? "{\"enum\":" : "{\"variable\":");
        name_of(d, node);
        putchar('}');
        return;
    default: meaning_of(d, node);
    }
}

/* Where a part ends: a variable definition and an argument have the node of their name. */
static size_t end_of(const parsed *d, size_t i) {
    uint32_t kind = d->nodes[i].kind;
    if (kind != FIRTHNAPKIN_VARIABLE_DEFINITION && kind != FIRTHNAPKIN_ARGUMENT) return d->nodes[i].end.byte;
    size_t last = i + 1;
    while (next(d, last) < next(d, i)) last = next(d, last);
    return d->nodes[last].end.byte;
}

/* What all parts have: node, line, column, text, excerpt. */
static void part(const parsed *d, size_t i) {
    firthnapkin_position start = d->nodes[i].start;
    printf("{\"node\":%zu,\"line\":%u,\"column\":%u,\"text\":", i, start.line + 1, column_of(start) + 1);
    between(d->source, start.byte, end_of(d, i));
    printf(",\"excerpt\":");
    if (d->length > LONG)
        printf("null");
    else
        excerpt(d->source, d->length, start);
}

static void named(const parsed *d, size_t i) {
    part(d, i);
    printf(",\"name\":");
    name_of(d, &d->nodes[i]);
}

typedef void writer(const parsed *, size_t);

/* The parts directly in a node that are of these kinds. */
static void each(const parsed *d, const char *key, size_t around, uint32_t first, uint32_t last, writer *write) {
    printf(",\"%s\":[", key);
    const char *before = "";
    for (size_t i = around + 1; around < d->count && i < next(d, around); i = next(d, i))
        if (is(&d->nodes[i], first, last)) {
            printf("%s", before);
            write(d, i);
            before = ",";
        }
    putchar(']');
}

/* The node of a list directly in another; the number of nodes if there is none. */
static size_t list_in(const parsed *d, size_t around, uint32_t kind) {
    for (size_t i = around + 1; i < next(d, around); i = next(d, i))
        if (d->nodes[i].kind == kind) return i;
    return d->count;
}

static void argument(const parsed *d, size_t i) {
    named(d, i);
    printf(",\"value\":");
    value_of(d, i + 1);
    putchar('}');
}

static void arguments(const parsed *d, size_t i) {
    each(d, "arguments", list_in(d, i, FIRTHNAPKIN_ARGUMENTS), FIRTHNAPKIN_ARGUMENT, FIRTHNAPKIN_ARGUMENT, argument);
}

static void directive(const parsed *d, size_t i) {
    named(d, i);
    arguments(d, i);
    putchar('}');
}

static void directives(const parsed *d, size_t i) {
    each(d, "directives", i, FIRTHNAPKIN_DIRECTIVE, FIRTHNAPKIN_DIRECTIVE, directive);
}

static void selection(const parsed *d, size_t i);

static void selections(const parsed *d, size_t i) {
    printf(",\"selections\":[");
    const char *before = "";
    for (size_t k = i + 1; k < next(d, i); k = next(d, k))
        if (d->nodes[k].kind == FIRTHNAPKIN_FIELD
            || is(&d->nodes[k], FIRTHNAPKIN_FRAGMENT_SPREAD, FIRTHNAPKIN_INLINE_FRAGMENT)) {
            printf("%s", before);
            selection(d, k);
            before = ",";
        }
    putchar(']');
}

static void selection(const parsed *d, size_t i) {
    uint32_t kind = d->nodes[i].kind;
    named(d, i);
    printf(",\"kind\":");
    word(firthnapkin_kind_name(kind));
    if (kind == FIRTHNAPKIN_FIELD) {
        size_t alias = list_in(d, i, FIRTHNAPKIN_ALIAS);
        printf(",\"alias\":");
        if (alias == d->count)
            printf("null");
        else
            name_of(d, &d->nodes[alias]);
        printf(",\"key\":");
        name_of(d, &d->nodes[alias == d->count ? i : alias]);
        arguments(d, i);
    }
    directives(d, i);
    if (kind != FIRTHNAPKIN_FRAGMENT_SPREAD) selections(d, i);
    putchar('}');
}

static void variable(const parsed *d, size_t i) {
    named(d, i);
    printf(",\"type\":");
    meaning_of(d, &d->nodes[i + 1]);
    printf(",\"default\":[");
    size_t value = next(d, i + 1);
    if (value < next(d, i) && d->nodes[value].kind != FIRTHNAPKIN_DIRECTIVE) value_of(d, value);
    putchar(']');
    directives(d, i);
    putchar('}');
}

static int by_definition(const void *a, const void *b) {
    uint32_t x = ((const firthnapkin_complexity *)a)->definition, y = ((const firthnapkin_complexity *)b)->definition;
    return (x > y) - (x < y);
}

static void complexity(const parsed *d, size_t i) {
    if (d->status != FIRTHNAPKIN_OK) {
        error_of(d->source, d->length, &d->error);
        return;
    }
    const firthnapkin_complexity wanted = {.definition = (uint32_t)i},
                                 *it = bsearch(&wanted, d->complexities, d->operations, sizeof wanted, by_definition);
    printf("[%u,%u,%u,%u,%u]", it->fields, it->aliases, it->directives, it->root_fields, it->depth);
}

static void operation(const parsed *d, size_t i) {
    named(d, i);
    printf(",\"kind\":");
    word(firthnapkin_kind_name(d->nodes[i].kind));
    printf(",\"complexity\":");
    complexity(d, i);
    each(d, "variables", list_in(d, i, FIRTHNAPKIN_VARIABLE_DEFINITIONS), FIRTHNAPKIN_VARIABLE_DEFINITION,
         FIRTHNAPKIN_VARIABLE_DEFINITION, variable);
    directives(d, i);
    selections(d, i);
    putchar('}');
}

static void fragment(const parsed *d, size_t i) {
    named(d, i);
    printf(",\"type\":");
    meaning_of(d, &d->nodes[i]);
    directives(d, i);
    selections(d, i);
    putchar('}');
}

/* The definitions that are fragments, or that aren't. */
static void definitions(const parsed *d, const char *key, int are_fragments, writer *write) {
    printf(",\"%s\":[", key);
    const char *before = "";
    for (size_t i = 0; i < d->count; i = next(d, i))
        if ((d->nodes[i].kind == FIRTHNAPKIN_FRAGMENT_DEFINITION) == are_fragments) {
            printf("%s", before);
            write(d, i);
            before = ",";
        }
    putchar(']');
}

static void nodes(const parsed *d) {
    printf("\"nodes\":[");
    size_t first = first_written(d->length, d->count);
    for (size_t i = first; i < d->count; i++) {
        if (i > first) putchar(',');
        node_of(d, i);
    }
    putchar(']');
}

static void document(const parsed *d) {
    putchar('{');
    nodes(d);
    printf(",\"definitions\":");
    indexes(d, 0, d->count);
    definitions(d, "operations", 0, operation);
    definitions(d, "fragments", 1, fragment);
    putchar('}');
}

/* ---- a text */

/* The error of a parse within limits, or null. */
static uint32_t refused(const uint8_t *source, size_t length, const firthnapkin_limits *limits) {
    size_t nodes, texts;
    firthnapkin_error error;
    uint32_t status = firthnapkin_parse(source, length, limits, NULL, 0, &nodes, NULL, 0, &texts, &error);
    if (status == FIRTHNAPKIN_BUFFER_TOO_SMALL)
        printf("null");
    else
        error_of(source, length, &error);
    return status;
}

/* The text as a value or as a type. */
static void literal(const uint8_t *source, size_t length, int is_type) {
    const firthnapkin_limits limits = FIRTHNAPKIN_LIMITS_DEFAULT;
    parsed d = {.source = source, .length = length};
    size_t texts;
    d.nodes = room(length, sizeof *d.nodes);
    d.texts = room(length, 1);
    d.status =
        is_type
            ? firthnapkin_parse_type(source, length, &limits, d.nodes, length, &d.count, d.texts, length, &texts, &d.error)
            : firthnapkin_parse_value(source, length, 0, &limits, d.nodes, length, &d.count, d.texts, length, &texts, &d.error);
    if (d.status != FIRTHNAPKIN_OK) {
        error_of(source, length, &d.error);
    } else {
        part(&d, 0);
        putchar(',');
        nodes(&d);
        printf(is_type ? ",\"type\":" : ",\"value\":");
        if (is_type)
            meaning_of(&d, d.nodes);
        else
            value_of(&d, 0);
        putchar('}');
    }
    free(d.nodes);
    free(d.texts);
}

/* The error of a constant within limits, or null. */
static void refused_constant(const uint8_t *source, size_t length, const firthnapkin_limits *limits) {
    size_t nodes, texts;
    firthnapkin_error error;
    if (firthnapkin_parse_value(source, length, 1, limits, NULL, 0, &nodes, NULL, 0, &texts, &error)
        == FIRTHNAPKIN_BUFFER_TOO_SMALL)
        printf("null");
    else
        error_of(source, length, &error);
}

static void line_of(const uint8_t *source, size_t length) {
    const firthnapkin_limits limits = FIRTHNAPKIN_LIMITS_DEFAULT, few = {.depth = 3, .tokens = 20};
    printf("{\"tokens\":");
    tokens(source, length);
    printf(",\"canonical\":");
    canonical(source, length);
    printf(",\"error\":");
    uint32_t status = refused(source, length, &limits);
    printf(",\"within\":");
    refused(source, length, &few);
    printf(",\"value\":");
    literal(source, length, 0);
    printf(",\"constant\":");
    refused_constant(source, length, &few);
    printf(",\"type\":");
    literal(source, length, 1);
    printf(",\"document\":");
    if (status == FIRTHNAPKIN_BUFFER_TOO_SMALL) {
        parsed d = {.source = source, .length = length};
        size_t texts;
        d.nodes = room(length, sizeof *d.nodes);
        d.texts = room(length, 1);
        d.complexities = room(length, sizeof *d.complexities);
        d.status = firthnapkin_parse_complexities(source, length, &limits, d.nodes, length, &d.count, d.texts, length, &texts,
                                                  d.complexities, length, &d.operations, &d.error);
        document(&d);
        free(d.nodes);
        free(d.texts);
        free(d.complexities);
    } else {
        printf("null");
    }
    printf("}\n");
}

int main(int count, char **given) {
    is_utf_16 = count == 3 && strcmp(given[1], "--utf-16") == 0;
    FILE *file = fopen(given[count - 1], "rb");
    size_t length;
    if (file == NULL) return 2;
    while (fscanf(file, "%zu", &length) == 1 && getc(file) == '\n') {
        /* A block of its own size, so that a sanitizer sees what is read after it. */
        uint8_t *source = malloc(length + 1);
        if (source == NULL || fread(source, 1, length, file) != length || getc(file) != '\n') return 2;
        look_at(source, length);
        line_of(source, length);
        look_away();
        free(source);
    }
    fclose(file);
    return fflush(stdout) != 0;
}
