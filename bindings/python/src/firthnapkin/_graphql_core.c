/* graphql-core's nodes of a source that both parsers read alike, for graphql_core.py. */
#include "_graphql_errors.h"
#include "_slots.h"

/* ---- the document */

static bool is_called(PyObject *function) {
    PyObject *result = PyObject_CallObject(function, NULL);
    Py_XDECREF(result);
    return result != NULL;
}

/* Enables it, and keeps the Python error that is set. */
static void enable_after_error(const module_state *state) {
    PyObject *type, *value, *trace;
    PyErr_Fetch(&type, &value, &trace);
    is_called(state->enable);
    PyErr_Restore(type, value, trace);
}

/* The same, without garbage collection of reference cycles meanwhile: no cycle can be left, and a search among nodes that are
 * all new takes as long as making them. No other thread runs while they are made. */
static PyObject *document_at_once(builder *b, Py_ssize_t characters) {
    PyObject *result = NULL, *is_enabled = PyObject_CallObject(b->state->is_enabled, NULL);
    bool is_collecting = is_enabled == Py_True;
    Py_XDECREF(is_enabled);
    if (is_enabled == NULL || (is_collecting && !is_called(b->state->disable))) return NULL;
    b->made = calloc(b->count, sizeof *b->made);
    result = b->made == NULL ? PyErr_NoMemory() : document(b, characters);
    free(b->made);
    if (is_collecting && result != NULL && !is_called(b->state->enable)) Py_CLEAR(result);
    if (is_collecting && result == NULL) enable_after_error(b->state);
    return result;
}

/* ---- when graphql-core's own parser has to be called */

/* Whether graphql-core may read the source otherwise: if a character that begins a name follows a number, or a
 * variable is in a constant part. No document has a number that is followed by a dot. */
static bool is_read_otherwise(const builder *b) {
    size_t constant = 0;
    for (size_t i = 0; i < b->count; i++) {
        const firthnapkin_node *n = &b->nodes[i];
        bool is_number = n->kind == FIRTHNAPKIN_INT || n->kind == FIRTHNAPKIN_LARGE_INT || n->kind == FIRTHNAPKIN_FLOAT;
        char next = is_number && n->end.byte < b->length ? b->source[n->end.byte] : ' ';
        if (n->kind == FIRTHNAPKIN_VARIABLE_DEFINITIONS) constant = node_after(b, i);
        if (begins_name(next) || (n->kind == FIRTHNAPKIN_VARIABLE && i < constant)) return true;
    }
    return false;
}

/* ---- the module */

PyDoc_STRVAR(document_doc,
             "document(source, characters, limits, origin, tokens, /)\n--\n\n"
             "Returns the DocumentNode of a str of that many characters, which source has as UTF-8.\n\n"
             "The limits are the bytes of a firthnapkin_limits, whose number of tokens isn't read, and of limits on sizes. The\n"
             "origin is the Source of its locations, or None if it has no locations. A limit of MAX_TOKENS tokens is none, and one\n"
             "below 0 is -1. Returns None if graphql-core's own parser has to be called. If a limit is exceeded, returns the index\n"
             "of the first token beyond it, and whether that token is nested too deep; or the index of an operation beyond it,\n"
             "or of a spread that can't be expanded, and the words of that error. If no document has a token where it is,\n"
             "returns its index, what is open before it, as UTF-8, and the index of its end. Raises ValueError if the limits\n"
             "have another size, and MemoryError if memory runs out.");

/* Whether the status of a document says that an operation can't be expanded, or is beyond a limit. */
static bool is_large(uint32_t status) {
    return status == OPERATION_TOO_LARGE || status == FIRTHNAPKIN_UNKNOWN_FRAGMENT || status == FIRTHNAPKIN_FRAGMENT_CYCLE;
}

/* What document returns for a document that has such a status. Its nodes are made once more, since its words took their place. */
static PyObject *answer_of_large(builder *b, const whole *w) {
    static const firthnapkin_limits loosest = {.depth = FIRTHNAPKIN_MAX_DEPTH, .tokens = UINT32_MAX};
    whole again = parse_whole((const uint8_t *)b->source, b->length, &loosest);
    b->nodes = again.nodes;
    b->count = again.nodes_count;
    PyObject *result;
    if (again.status == FIRTHNAPKIN_OUT_OF_MEMORY)
        result = PyErr_NoMemory();
    else if (again.status != FIRTHNAPKIN_OK || is_read_otherwise(b))
        result = none();
    else
        result = Py_BuildValue("ks#", (unsigned long)w->error.start.index, (const char *)w->texts, (Py_ssize_t)w->texts_count);
    give_back(&again);
    return result;
}

/* What document returns for a source that was parsed so. */
static PyObject *answer(builder *b, const whole *w, Py_ssize_t characters) {
    bool is_deep = w->status == FIRTHNAPKIN_TOO_DEEP;
    if (w->status == FIRTHNAPKIN_OUT_OF_MEMORY) return PyErr_NoMemory();
    if (is_deep || w->status == FIRTHNAPKIN_TOO_MANY_TOKENS)
        return Py_BuildValue("kO", (unsigned long)w->error.start.index, is_deep ? Py_True : Py_False);
    if (w->status == FOUND_OPEN)
        return Py_BuildValue("ky#k", (unsigned long)w->error.start.index, (const char *)w->texts, (Py_ssize_t)w->texts_count,
                             (unsigned long)w->error.end.index);
    if (is_large(w->status)) return answer_of_large(b, w);
    return w->status != FIRTHNAPKIN_OK || is_read_otherwise(b) ? none() : document_at_once(b, characters);
}

/* What a call is given. */
typedef struct {
    PyObject *source, *given, *origin;
    Py_ssize_t characters;
    long long tokens;
} arguments_of_call;

static PyObject *parsed_in(PyObject *module, parsed_as as, const arguments_of_call *a) {
    module_state *state = PyModule_GetState(module);
    package_limits limits;
    Py_ssize_t length;
    long long tokens = a->tokens;
    char *bytes;
    if (PyBytes_AsStringAndSize(a->source, &bytes, &length) != 0 || !are_limits(a->given, &limits)) return NULL;
    if (!state->is_set) return PyErr_Format(PyExc_SystemError, "setup is to be called first");
    int64_t most = tokens < -1 ? -1 : tokens < UINT32_MAX ? tokens : UINT32_MAX;
    size_t counted = 0;
    PyThreadState *thread = PyEval_SaveThread();
    whole w = within(&state->rules, as, (const uint8_t *)bytes, (size_t)length, &limits, most);
    if (as == AS_DOCUMENT) find_open(&w, (const uint8_t *)bytes, (size_t)length);
    if (w.status == FIRTHNAPKIN_OK && as == AS_DOCUMENT) w.status = count_for(&state->rules, (const uint8_t *)bytes, (size_t)length, &counted);
    PyEval_RestoreThread(thread);
    builder b = {.state = state, .nodes = w.nodes, .count = w.nodes_count, .source = bytes, .texts = (const char *)w.texts,
                 .length = (size_t)length, .is_ascii = a->characters == length, .is_document = as == AS_DOCUMENT,
                 .counted = counted, .origin = a->origin};
    PyObject *result = answer(&b, &w, a->characters);
    give_back(&w);
    return result;
}

static PyObject *document_in(PyObject *module, PyObject *arguments) {
    arguments_of_call a;
    if (!PyArg_ParseTuple(arguments, "SnSOL:document", &a.source, &a.characters, &a.given, &a.origin, &a.tokens)) return NULL;
    return parsed_in(module, AS_DOCUMENT, &a);
}

PyDoc_STRVAR(literal_doc, "literal(source, characters, limits, origin, tokens, what, /)\n--\n\n"
                          "Returns the ValueNode or the TypeNode that a source is, parsed as AS_VALUE, AS_CONSTANT or AS_TYPE.\n\n"
                          "The other arguments are those of document, and so are the results, without those on operations and on\n"
                          "what is open: graphql-core's own parser has to be called if the source isn't one value or one type.");

static PyObject *literal(PyObject *module, PyObject *arguments) {
    arguments_of_call a;
    int what;
    if (!PyArg_ParseTuple(arguments, "SnSOLi:literal", &a.source, &a.characters, &a.given, &a.origin, &a.tokens, &what))
        return NULL;
    if (what != AS_VALUE && what != AS_CONSTANT && what != AS_TYPE) return PyErr_Format(PyExc_ValueError, "%d is no literal", what);
    return parsed_in(module, (parsed_as)what, &a);
}

static void forget(node_class *c) {
    Py_CLEAR(c->type);
    for (; c->count > 0; c->count--) {
        Py_CLEAR(c->attributes[c->count - 1].name);
        Py_CLEAR(c->attributes[c->count - 1].descriptor);
    }
}

static int clear(PyObject *module) {
    module_state *state = PyModule_GetState(module);
    for (int i = 0; i < CLASSES; i++) forget(&state->classes[i]);
    for (int i = 0; i < OPERATIONS; i++) Py_CLEAR(state->operations[i]);
    Py_CLEAR(state->nothing);
    Py_CLEAR(state->token_count);
    Py_CLEAR(state->is_enabled);
    Py_CLEAR(state->disable);
    Py_CLEAR(state->enable);
    state->is_set = false;
    return 0;
}

/* Finds the attributes of a class, the first so many of which are given. */
static int find_attributes(node_class *c, PyObject *class, PyObject *names, Py_ssize_t given) {
    Py_ssize_t count = PyTuple_Size(names);
    if (given < 0 || given > count || count > MOST_ATTRIBUTES || !PyType_Check(class)) return -1;
    Py_INCREF(class);
    c->type = (PyTypeObject *)class;
    c->given = given;
    for (; c->count < count; c->count++) {
        attribute *a = &c->attributes[c->count];
        PyObject *name = PyTuple_GetItem(names, c->count);
        a->descriptor = name == NULL ? NULL : PyObject_GetAttr(class, name);
        if (a->descriptor == NULL) return -1;
        Py_INCREF(name);
        a->name = name;
        a->set = (descrsetfunc)PyType_GetSlot(Py_TYPE(a->descriptor), Py_tp_descr_set);
        /* Python 3.9 returns no slot of a type that is not on the heap. */
        PyErr_Clear();
    }
    return 0;
}

/* Where an object has a reference to another one: the offset, if it is there once; otherwise 0. */
static size_t offset_of(PyObject *object, PyObject *wanted, size_t size) {
    size_t found = 0, count = 0;
    for (size_t at = sizeof(PyObject); at + sizeof wanted <= size; at += sizeof wanted) {
        if (*(PyObject **)((char *)object + at) != wanted) continue;
        found = at;
        count++;
    }
    return count == 1 ? found : 0;
}

/* Finds the offsets of a class's slots, by an object of it in which each slot in turn refers to a mark. Other attributes have
 * none. */
static int find_offsets(const module_state *state, node_class *c, PyObject *slot_type) {
    PyObject *size = PyObject_GetAttrString((PyObject *)c->type, "__basicsize__");
    size_t bytes = size == NULL ? 0 : PyLong_AsSize_t(size);
    Py_XDECREF(size);
    PyObject *object = PyErr_Occurred() ? NULL : PyType_GenericNew(c->type, state->nothing, NULL);
    bool is_right = object != NULL;
    for (Py_ssize_t i = 0; is_right && i < c->count; i++) {
        attribute *a = &c->attributes[i];
        if ((PyObject *)Py_TYPE(a->descriptor) != slot_type) continue;
        PyObject *mark = PyList_New(0);
        is_right = mark != NULL && put(a, object, mark) == 0;
        if (is_right) a->offset = offset_of(object, mark, bytes);
        Py_XDECREF(mark);
    }
    Py_XDECREF(object);
    return is_right ? 0 : -1;
}

/* The same of all classes. */
static int find_all_offsets(module_state *state) {
    PyObject *types = PyImport_ImportModule("types");
    PyObject *slot_type = types == NULL ? NULL : PyObject_GetAttrString(types, "MemberDescriptorType");
    int result = slot_type == NULL ? -1 : 0;
    for (int i = 0; result == 0 && i < CLASSES; i++) result = find_offsets(state, &state->classes[i], slot_type);
    Py_XDECREF(slot_type);
    Py_XDECREF(types);
    return result;
}

/* Keeps the classes of nodes and locations. */
static int find_classes(module_state *state, PyObject *classes) {
    for (int i = 0; i < CLASSES; i++) {
        PyObject *class, *names, *row = PyTuple_GetItem(classes, i);
        Py_ssize_t given;
        if (row == NULL) return -1;
        bool is_row = PyTuple_Check(row);
        if (is_row && !PyArg_ParseTuple(row, "OO!n", &class, &PyTuple_Type, &names, &given)) return -1;
        if (!is_row || find_attributes(&state->classes[i], class, names, given) != 0) {
            if (!PyErr_Occurred()) PyErr_Format(PyExc_TypeError, "row %d is no class with its attributes", i);
            return -1;
        }
    }
    return 0;
}

/* Keeps what is used for each document. */
static int find_tools(module_state *state) {
    PyObject *gc = PyImport_ImportModule("gc");
    if (gc == NULL) return -1;
    state->is_enabled = PyObject_GetAttrString(gc, "isenabled");
    state->disable = PyObject_GetAttrString(gc, "disable");
    state->enable = PyObject_GetAttrString(gc, "enable");
    Py_DECREF(gc);
    state->nothing = PyTuple_New(0);
    state->token_count = PyUnicode_InternFromString("token_count");
    bool is_whole = state->is_enabled != NULL && state->disable != NULL && state->enable != NULL && state->nothing != NULL
        && state->token_count != NULL;
    return is_whole ? 0 : -1;
}

PyDoc_STRVAR(setup_doc, "setup(classes, operations, rules, /)\n--\n\n"
                        "Keeps graphql-core's classes, operation types and rules for document, and returns None.\n\n"
                        "The classes are a tuple of triples: a class, a tuple of the names of its attributes, and how many of these\n"
                        "are given; the others are None in each object. The rules are whether comments count against a limit on\n"
                        "tokens, whether the limit is looked at when the end is read, and what a document's token_count counts: 0\n"
                        "if there is none, 1 for tokens, 2 for tokens and comments. Raises AttributeError if a class lacks an\n"
                        "attribute.");

static PyObject *setup(PyObject *module, PyObject *arguments) {
    module_state *state = PyModule_GetState(module);
    PyObject *classes, *operations[OPERATIONS];
    int limits_comments, limits_end, token_count;
    if (state->is_set) return none();
    if (!PyArg_ParseTuple(arguments, "O!(OOO)(ppi):setup", &PyTuple_Type, &classes, &operations[0], &operations[1],
                          &operations[2], &limits_comments, &limits_end, &token_count))
        return NULL;
    state->rules = (counting_rules){limits_comments, limits_end, token_count};
    for (int i = 0; i < OPERATIONS; i++) {
        Py_INCREF(operations[i]);
        state->operations[i] = operations[i];
    }
    state->is_set = find_classes(state, classes) == 0 && find_tools(state) == 0 && find_all_offsets(state) == 0;
    if (state->is_set) return none();
    clear(module);
    return NULL;
}

static PyMethodDef methods[] = {{"document", document_in, METH_VARARGS, document_doc},
                                {"literal", literal, METH_VARARGS, literal_doc},
                                {"setup", setup, METH_VARARGS, setup_doc},
                                {NULL, NULL, 0, NULL}};

static void end(void *module) {
    clear(module);
}

static PyModuleDef_Slot slots[] = {{MULTIPLE_INTERPRETERS, OWN_LOCKS}, {0, NULL}};

static struct PyModuleDef definition = {PyModuleDef_HEAD_INIT,
                                        .m_name = "firthnapkin._graphql_core",
                                        .m_size = sizeof(module_state),
                                        .m_methods = methods,
                                        .m_slots = slots,
                                        .m_clear = clear,
                                        .m_free = end};

PyMODINIT_FUNC PyInit__graphql_core(void) {
    return initialised(&definition, slots);
}
