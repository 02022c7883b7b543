/* graphql-core's nodes of a source. They are made from the last to the first, each after the parts in it, so that nesting
 * takes no more stack. Places of graphql-core are indexes of a str. */
#ifndef FIRTHNAPKIN_GRAPHQL_NODES_H
#define FIRTHNAPKIN_GRAPHQL_NODES_H

#define PY_SSIZE_T_CLEAN
#include <Python.h>

#include "firthnapkin.h"

#include <stdbool.h>

/* The classes, in the order in which setup gets them. */
enum {
    NAME,
    DOCUMENT,
    OPERATION,
    VARIABLE_DEFINITION,
    SELECTION_SET,
    FIELD,
    ARGUMENT,
    SPREAD,
    INLINE,
    FRAGMENT,
    VARIABLE,
    INT,
    FLOAT,
    STRING,
    BOOLEAN,
    NULL_VALUE,
    ENUM,
    LIST,
    OBJECT,
    OBJECT_FIELD,
    DIRECTIVE,
    NAMED_TYPE,
    LIST_TYPE,
    NON_NULL_TYPE,
    LOCATION,
    DOCUMENT_LOCATION,
    CLASSES
};

enum { MOST_ATTRIBUTES = 12, OPERATIONS = 3 };

/* An attribute, and how it is set: at its offset in the object, if it is a slot; otherwise by its descriptor, if that sets it, or
 * by its name. */
typedef struct {
    PyObject *name, *descriptor;
    descrsetfunc set;
    size_t offset;
} attribute;

typedef struct {
    PyTypeObject *type;
    /* The number of attributes, and of those that are given. The others, of newer releases, are None. */
    Py_ssize_t count, given;
    attribute attributes[MOST_ATTRIBUTES];
} node_class;

/* What counts in a release of graphql-core. */
typedef struct {
    /* Whether comments count against a limit on tokens, and whether the limit is looked at when the end is read, too. */
    bool limits_comments, limits_end;
    /* What the attribute token_count of a document counts. */
    int token_count;
} counting_rules;

enum { NO_COUNT, COUNT_OF_TOKENS, COUNT_OF_TOKENS_AND_COMMENTS };

typedef struct {
    node_class classes[CLASSES];
    PyObject *operations[OPERATIONS], *nothing, *token_count;
    counting_rules rules;
    /* The functions of module gc. */
    PyObject *is_enabled, *disable, *enable;
    bool is_set;
} module_state;

/* ---- nodes of Python */

typedef struct {
    module_state *state;
    const firthnapkin_node *nodes;
    size_t count;
    const char *source, *texts;
    size_t length;
    /* Each character is a byte. */
    bool is_ascii;
    /* It is no value and no type. */
    bool is_document;
    /* What graphql-core counts in the source, if documents have that number. */
    size_t counted;
    /* The Source, or None if no locations are made. */
    PyObject *origin;
    /* The object that was made of each node, until a node around it takes it. */
    PyObject **made;
} builder;

/* Characters of the str: the index of the first, and the index after the last. */
typedef struct {
    uint32_t start, end;
} span;

/* A place, in characters and bytes. */
typedef struct {
    uint32_t index, byte;
} spot;

static PyObject *none(void) {
    Py_INCREF(Py_None);
    return Py_None;
}

static int put(const attribute *a, PyObject *object, PyObject *value) {
    return a->set != NULL ? a->set(a->descriptor, object, value) : PyObject_GenericSetAttr(object, a->name, value);
}

/* Sets an attribute of a new object, in which it has no value yet, and takes the reference to the value. A slot is written to
 * itself: a third of the time of a document was spent in setting them by their descriptors. */
static int put_new(const attribute *a, PyObject *object, PyObject *value) {
    if (a->offset != 0) {
        *(PyObject **)((char *)object + a->offset) = value;
        return 0;
    }
    int result = put(a, object, value);
    Py_DECREF(value);
    return result;
}

/* An object with these attributes, as many as are given for its class. Their references are taken, whether the object is made
 * or not. An attribute that could not be made is missing. */
static PyObject *object_of(const builder *b, int class, PyObject **values) {
    const node_class *c = &b->state->classes[class];
    bool is_whole = true;
    for (Py_ssize_t i = 0; i < c->given; i++) is_whole = is_whole && values[i] != NULL;
    PyObject *object = is_whole ? PyType_GenericNew(c->type, b->state->nothing, NULL) : NULL;
    for (Py_ssize_t i = 0; i < c->given; i++) {
        if (object == NULL)
            Py_XDECREF(values[i]);
        else if (put_new(&c->attributes[i], object, values[i]) != 0)
            Py_CLEAR(object);
    }
    for (Py_ssize_t i = c->given; i < c->count; i++)
        if (object != NULL && put_new(&c->attributes[i], object, none()) != 0) Py_CLEAR(object);
    return object;
}

static PyObject *location_of(const builder *b, int class, span at) {
    if (b->origin == Py_None) return none();
    Py_INCREF(b->origin);
    PyObject *values[] = {PyLong_FromUnsignedLong(at.start), PyLong_FromUnsignedLong(at.end), b->origin};
    return object_of(b, class, values);
}

#define NODE(b, class, at, ...) object_of(b, class, (PyObject *[]){location_of(b, LOCATION, at), __VA_ARGS__})

/* ---- places */

static spot spot_of(firthnapkin_position position) {
    return (spot){position.index, position.byte};
}

static span span_of(const firthnapkin_node *n) {
    return (span){n->start.index, n->end.index};
}

/* The place of a byte that comes after another. */
static spot spot_at(const builder *b, spot from, uint32_t byte) {
    if (b->is_ascii) return (spot){byte, byte};
    for (; from.byte < byte; from.byte++) from.index += ((unsigned char)b->source[from.byte] & 0xC0) != 0x80;
    return from;
}

static bool begins_name(char c) {
    return ('a' <= c && c <= 'z') || ('A' <= c && c <= 'Z') || c == '_';
}

/* Where the next token of the source begins, or the source ends. */
static spot token_after(const builder *b, spot from) {
    uint32_t at = from.byte;
    bool is_comment = false;
    for (; at < b->length; at++) {
        char c = b->source[at];
        if (is_comment)
            is_comment = c != '\n' && c != '\r';
        else if (c == '#')
            is_comment = true;
        /* No token begins beyond ASCII: this is the byte order mark. */
        else if (c > ' ' && c != ',')
            break;
    }
    return spot_at(b, from, at);
}

static size_t node_after(const builder *b, size_t i) {
    return i + 1 + b->nodes[i].descendants;
}

/* ---- parts of nodes */

/* The nodes of the parts in a node that are left, and the end of the one that was taken last. */
typedef struct {
    size_t next, end;
    spot last;
} parts;

static bool has(const builder *b, const parts *p, uint32_t kind) {
    return p->next < p->end && b->nodes[p->next].kind == kind;
}

/* The object that was made of the next one. */
static PyObject *take(const builder *b, parts *p) {
    PyObject *made = b->made[p->next];
    b->made[p->next] = NULL;
    p->last = spot_of(b->nodes[p->next].end);
    p->next = node_after(b, p->next);
    return made;
}

/* The next one if it is of this kind, otherwise None or an empty tuple. */
static PyObject *take_if(const builder *b, parts *p, uint32_t kind, PyObject *otherwise) {
    if (has(b, p, kind)) return take(b, p);
    Py_INCREF(otherwise);
    return otherwise;
}

/* A tuple of the next ones: all that are left, or only the directives. */
static PyObject *take_all(const builder *b, parts *p, bool directives) {
    Py_ssize_t count = 0;
    size_t i = p->next;
    for (; i < p->end && (!directives || b->nodes[i].kind == FIRTHNAPKIN_DIRECTIVE); i = node_after(b, i)) count++;
    PyObject *tuple = PyTuple_New(count);
    for (Py_ssize_t k = 0; tuple != NULL && k < count; k++)
        if (PyTuple_SetItem(tuple, k, take(b, p)) != 0) Py_CLEAR(tuple);
    return tuple;
}

static PyObject *text_of(const char *from, uint32_t start, uint32_t end) {
    return PyUnicode_FromStringAndSize(from + start, (Py_ssize_t)end - start);
}

/* A name, which is ASCII. */
static PyObject *name_of(const builder *b, spot *last, uint32_t start, uint32_t end) {
    spot at = spot_at(b, *last, start);
    span name = {at.index, at.index + end - start};
    *last = (spot){name.end, end};
    return NODE(b, NAME, name, text_of(b->source, start, end));
}

static PyObject *own_name(const builder *b, spot *last, const firthnapkin_node *n) {
    return name_of(b, last, n->name_start, n->name_end);
}

static PyObject *named_type(const builder *b, spot *last, uint32_t start, uint32_t end) {
    PyObject *name = name_of(b, last, start, end);
    return NODE(b, NAMED_TYPE, ((span){last->index - (end - start), last->index}), name);
}

/* The parts that are left, as a selection set. It ends where the node around it does. */
static PyObject *selections(const builder *b, parts *p, const firthnapkin_node *n) {
    span at = {token_after(b, p->last).index, n->end.index};
    return NODE(b, SELECTION_SET, at, take_all(b, p, false));
}

/* A type, by its source: the brackets and exclamation marks around a name. */
static PyObject *type_of(const builder *b, const firthnapkin_node *n) {
    uint32_t opened[FIRTHNAPKIN_MAX_DEPTH], count = 0;
    spot at = spot_of(n->start);
    for (; b->source[at.byte] == '['; at = token_after(b, (spot){at.index + 1, at.byte + 1})) opened[count++] = at.index;
    uint32_t end = at.byte, start = at.index;
    while (begins_name(b->source[end]) || ('0' <= b->source[end] && b->source[end] <= '9')) end++;
    PyObject *type = named_type(b, &at, at.byte, end);
    for (at = token_after(b, at); at.byte < n->end.byte; at = token_after(b, (spot){at.index + 1, at.byte + 1})) {
        bool is_list = b->source[at.byte] == ']';
        if (is_list) start = opened[--count];
        type = NODE(b, is_list ? LIST_TYPE : NON_NULL_TYPE, ((span){start, at.index + 1}), type);
    }
    return type;
}

/* ---- nodes */

static PyObject *operation(const builder *b, const firthnapkin_node *n, parts *p) {
    bool has_name = n->name_start < n->name_end;
    static const uint32_t words[] = {5, 8, 12};
    uint32_t word = b->source[n->start.byte] == '{' ? 0 : words[n->kind];
    p->last = (spot){n->start.index + word, n->start.byte + word};
    PyObject *kind = b->state->operations[n->kind];
    Py_INCREF(kind);
    PyObject *name = has_name ? own_name(b, &p->last, n) : none();
    PyObject *variables = take_if(b, p, FIRTHNAPKIN_VARIABLE_DEFINITIONS, b->state->nothing);
    PyObject *directives = take_all(b, p, true);
    return NODE(b, OPERATION, span_of(n), kind, name, variables, directives, selections(b, p, n));
}

static PyObject *fragment(const builder *b, const firthnapkin_node *n, parts *p) {
    PyObject *name = own_name(b, &p->last, n);
    PyObject *condition = named_type(b, &p->last, (uint32_t)n->value, (uint32_t)n->value + n->value_length);
    PyObject *directives = take_all(b, p, true);
    return NODE(b, FRAGMENT, span_of(n), name, none(), condition, directives, selections(b, p, n));
}

static PyObject *field(const builder *b, const firthnapkin_node *n, parts *p) {
    PyObject *alias = take_if(b, p, FIRTHNAPKIN_ALIAS, Py_None);
    PyObject *name = own_name(b, &p->last, n);
    PyObject *arguments = take_if(b, p, FIRTHNAPKIN_ARGUMENTS, b->state->nothing);
    PyObject *directives = take_all(b, p, true);
    PyObject *set = p->next < p->end ? selections(b, p, n) : none();
    return NODE(b, FIELD, span_of(n), alias, name, arguments, directives, set);
}

static PyObject *inline_fragment(const builder *b, const firthnapkin_node *n, parts *p) {
    enum { DOTS = 3 };
    bool has_type = n->name_start < n->name_end;
    p->last = (spot){n->start.index + DOTS, n->start.byte + DOTS};
    PyObject *condition = has_type ? named_type(b, &p->last, n->name_start, n->name_end) : none();
    PyObject *directives = take_all(b, p, true);
    return NODE(b, INLINE, span_of(n), condition, directives, selections(b, p, n));
}

static PyObject *variable(const builder *b, const firthnapkin_node *n) {
    spot last = spot_of(n->start);
    return NODE(b, VARIABLE, span_of(n), own_name(b, &last, n));
}

static PyObject *variable_definition(const builder *b, const firthnapkin_node *n, parts *p) {
    PyObject *self = variable(b, n);
    PyObject *type = take(b, p);
    PyObject *value = p->next < p->end && !has(b, p, FIRTHNAPKIN_DIRECTIVE) ? take(b, p) : none();
    PyObject *directives = take_all(b, p, true);
    return NODE(b, VARIABLE_DEFINITION, ((span){n->start.index, p->last.index}), self, type, value, directives);
}

/* An argument, or a field of an object. */
static PyObject *pair(const builder *b, int class, const firthnapkin_node *n, parts *p) {
    PyObject *name = own_name(b, &p->last, n);
    PyObject *value = take(b, p);
    return NODE(b, class, ((span){n->start.index, p->last.index}), name, value);
}

static PyObject *string(const builder *b, const firthnapkin_node *n) {
    PyObject *value = text_of(b->texts, (uint32_t)n->value, (uint32_t)n->value + n->value_length);
    return NODE(b, STRING, span_of(n), value, PyBool_FromLong(n->kind == FIRTHNAPKIN_BLOCK_STRING));
}

/* The text as it is written, as the value of a number or an enum. */
static PyObject *written(const builder *b, int class, const firthnapkin_node *n) {
    return NODE(b, class, span_of(n), text_of(b->source, n->start.byte, n->end.byte));
}

static PyObject *directive(const builder *b, const firthnapkin_node *n, parts *p) {
    PyObject *name = own_name(b, &p->last, n);
    return NODE(b, DIRECTIVE, span_of(n), name, take_if(b, p, FIRTHNAPKIN_ARGUMENTS, b->state->nothing));
}

static PyObject *made_of(const builder *b, size_t i) {
    const firthnapkin_node *n = &b->nodes[i];
    parts p = {i + 1, node_after(b, i), spot_of(n->start)};
    switch (n->kind) {
    case FIRTHNAPKIN_QUERY:
    case FIRTHNAPKIN_MUTATION:
    case FIRTHNAPKIN_SUBSCRIPTION: return operation(b, n, &p);
    case FIRTHNAPKIN_FRAGMENT_DEFINITION: return fragment(b, n, &p);
    case FIRTHNAPKIN_VARIABLE_DEFINITIONS:
    case FIRTHNAPKIN_ARGUMENTS: return take_all(b, &p, false);
    case FIRTHNAPKIN_VARIABLE_DEFINITION: return variable_definition(b, n, &p);
    case FIRTHNAPKIN_TYPE: return type_of(b, n);
    case FIRTHNAPKIN_FIELD: return field(b, n, &p);
    case FIRTHNAPKIN_ALIAS: return own_name(b, &p.last, n);
    case FIRTHNAPKIN_FRAGMENT_SPREAD: {
        PyObject *name = own_name(b, &p.last, n);
        return NODE(b, SPREAD, span_of(n), name, take_all(b, &p, true));
    }
    case FIRTHNAPKIN_INLINE_FRAGMENT: return inline_fragment(b, n, &p);
    case FIRTHNAPKIN_DIRECTIVE: return directive(b, n, &p);
    case FIRTHNAPKIN_ARGUMENT: return pair(b, ARGUMENT, n, &p);
    case FIRTHNAPKIN_NULL: return NODE(b, NULL_VALUE, span_of(n), NULL);
    case FIRTHNAPKIN_ENUM: return written(b, ENUM, n);
    case FIRTHNAPKIN_VARIABLE: return variable(b, n);
    case FIRTHNAPKIN_LIST: return NODE(b, LIST, span_of(n), take_all(b, &p, false));
    case FIRTHNAPKIN_OBJECT: return NODE(b, OBJECT, span_of(n), take_all(b, &p, false));
    case FIRTHNAPKIN_OBJECT_FIELD: return pair(b, OBJECT_FIELD, n, &p);
    case FIRTHNAPKIN_INT:
    case FIRTHNAPKIN_LARGE_INT: return written(b, INT, n);
    case FIRTHNAPKIN_FLOAT: return written(b, FLOAT, n);
    case FIRTHNAPKIN_BOOLEAN: return NODE(b, BOOLEAN, span_of(n), PyBool_FromLong(n->value == 1));
    default: return string(b, n);
    }
}

/* Sets what was counted as an attribute of the document. The document is freed if that fails. */
static PyObject *with_count(const builder *b, PyObject *document) {
    PyObject *number = document == NULL ? NULL : PyLong_FromSize_t(b->counted);
    if (document != NULL && (number == NULL || PyObject_GenericSetAttr(document, b->state->token_count, number) != 0))
        Py_CLEAR(document);
    Py_XDECREF(number);
    return document;
}

/* The document, which spans the whole of the str, and has all parts that were made. */
static PyObject *whole_document(const builder *b, Py_ssize_t characters) {
    parts p = {0, b->count, {0, 0}};
    PyObject *location = location_of(b, DOCUMENT_LOCATION, (span){0, (uint32_t)characters});
    PyObject *result = object_of(b, DOCUMENT, (PyObject *[]){location, take_all(b, &p, false)});
    return b->state->rules.token_count != NO_COUNT ? with_count(b, result) : result;
}

/* The document, or the value or the type that the source is. */
static PyObject *document(builder *b, Py_ssize_t characters) {
    PyObject *result = NULL;
    size_t i = b->count;
    while (i > 0 && (b->made[i - 1] = made_of(b, i - 1)) != NULL) i--;
    if (i == 0) result = b->is_document ? whole_document(b, characters) : take(b, &(parts){0, b->count, {0, 0}});
    for (; i < b->count; i++) Py_XDECREF(b->made[i]);
    return result;
}

#endif
