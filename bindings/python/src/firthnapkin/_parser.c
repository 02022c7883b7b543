/* The library's calls for the package. The package checks the types of arguments: here they are bytes and numbers. */
#define PY_SSIZE_T_CLEAN
#include <Python.h>

#include "_limits.h"
#include "_slots.h"
#include "whole.h"

/* A call's status and its bytes objects: `first`, the texts, and the complexities if `count` is 3. */
static PyObject *results(const whole *w, const void *first, size_t first_length, int count) {
    const char *texts = w->texts_count != 0 ? (const char *)w->texts : "";
    size_t operations = w->status == FIRTHNAPKIN_OK && w->complexities != NULL ? w->complexities_count : 0;
    return Py_BuildValue(count == 3 ? "Iy#y#y#" : "Iy#y#", (unsigned)w->status, first_length != 0 ? (const char *)first : "",
                         (Py_ssize_t)first_length, texts, (Py_ssize_t)w->texts_count,
                         operations != 0 ? (const char *)w->complexities : "",
                         (Py_ssize_t)(operations * sizeof *w->complexities));
}

/* The result of a call: its status, and so many bytes objects. The first one is `first`, or the error. The memory of the call is
 * freed. */
static PyObject *result_of(whole *w, const void *first, size_t first_length, int count) {
    PyObject *result;
    if (w->status == FIRTHNAPKIN_OUT_OF_MEMORY)
        result = PyErr_NoMemory();
    else if (has_error(w->status) || w->status == OPERATION_TOO_LARGE)
        result = results(w, &w->error, sizeof w->error, count);
    else
        result = results(w, first, first_length, count);
    give_back(w);
    return result;
}

/* A number of tokens or of a byte. For a larger one it is the largest number of 32 bits, which is no limit, and after the end of
 * each source. */
static uint32_t limit_of(unsigned long number) {
    return number < UINT32_MAX ? (uint32_t)number : UINT32_MAX;
}

PyDoc_STRVAR(parse_doc, "parse(source, limits, /)\n--\n\n"
                        "Returns the status, and the bytes of the nodes, of the texts, and of the operations' complexities.\n\n"
                        "The limits are the bytes of a firthnapkin_limits and of limits on sizes. Without any on sizes there are\n"
                        "no complexities. For an error the bytes are those of a firthnapkin_error and of its message. Raises\n"
                        "ValueError if the limits have another size, and MemoryError if memory runs out.");

/* Reads a source and limits. False, with an exception, where they aren't bytes, or the limits have another size. */
static int read_source(PyObject *arguments, const char *format, char **bytes, Py_ssize_t *length, package_limits *limits) {
    PyObject *source, *given;
    return PyArg_ParseTuple(arguments, format, &source, &given) && PyBytes_AsStringAndSize(source, bytes, length) == 0
           && are_limits(given, limits);
}

static PyObject *parse(PyObject *module, PyObject *arguments) {
    package_limits limits;
    char *bytes;
    Py_ssize_t length;
    (void)module;
    if (!read_source(arguments, "SS:parse", &bytes, &length, &limits)) return NULL;
    PyThreadState *state = PyEval_SaveThread();
    whole w = document_whole((const uint8_t *)bytes, (size_t)length, &limits.call, &limits.sizes);
    PyEval_RestoreThread(state);
    return result_of(&w, w.nodes, w.nodes_count * sizeof *w.nodes, 3);
}

PyDoc_STRVAR(parse_as_doc, "parse_as(source, limits, what, /)\n--\n\n"
                           "Returns the status, and the bytes of the nodes and of the texts of a source that is no document.\n\n"
                           "It is parsed as AS_VALUE, AS_CONSTANT or AS_TYPE. The limits are those of parse; those on sizes aren't\n"
                           "read. For an error the bytes are those of a firthnapkin_error and of its message. Raises ValueError if\n"
                           "the limits have another size, and MemoryError if memory runs out.");

static PyObject *parse_as(PyObject *module, PyObject *arguments) {
    PyObject *source, *given;
    package_limits limits;
    int what;
    char *bytes;
    Py_ssize_t length;
    (void)module;
    if (!PyArg_ParseTuple(arguments, "SSi:parse_as", &source, &given, &what) || !are_limits(given, &limits)) return NULL;
    if (PyBytes_AsStringAndSize(source, &bytes, &length) != 0) return NULL;
    PyThreadState *state = PyEval_SaveThread();
    whole w = whole_as((parsed_as)what, (const uint8_t *)bytes, (size_t)length, &limits.call);
    PyEval_RestoreThread(state);
    return result_of(&w, w.nodes, w.nodes_count * sizeof *w.nodes, 2);
}

PyDoc_STRVAR(check_doc, "check(source, limits, /)\n--\n\n"
                        "Returns None if a source is a document, and otherwise the status, and the bytes of a firthnapkin_error\n"
                        "and of its message.\n\n"
                        "The limits are those of parse. No document is built. Raises ValueError if the limits have another size,\n"
                        "and MemoryError if memory runs out.");

static PyObject *check(PyObject *module, PyObject *arguments) {
    package_limits limits;
    char *bytes;
    Py_ssize_t length;
    (void)module;
    if (!read_source(arguments, "SS:check", &bytes, &length, &limits)) return NULL;
    PyThreadState *state = PyEval_SaveThread();
    whole w = check_whole((const uint8_t *)bytes, (size_t)length, &limits.call, &limits.sizes);
    PyEval_RestoreThread(state);
    if (w.status != FIRTHNAPKIN_OK) return result_of(&w, NULL, 0, 2);
    Py_RETURN_NONE;
}

PyDoc_STRVAR(complexities_doc, "complexities(source, /)\n--\n\n"
                               "Returns the status, the bytes of the complexities of a document's operations, and no bytes.\n\n"
                               "For an error the bytes are those of a firthnapkin_error and of its message. Raises MemoryError\n"
                               "if memory runs out.");

static PyObject *complexities(PyObject *module, PyObject *source) {
    char *bytes;
    Py_ssize_t length;
    (void)module;
    if (PyBytes_AsStringAndSize(source, &bytes, &length) != 0) return NULL;
    PyThreadState *state = PyEval_SaveThread();
    whole w = complexities_whole((const uint8_t *)bytes, (size_t)length);
    PyEval_RestoreThread(state);
    return result_of(&w, w.complexities, w.complexities_count * sizeof *w.complexities, 2);
}

PyDoc_STRVAR(tokens_doc, "tokens(source, tokens, /)\n--\n\n"
                         "Returns the status, the bytes of the tokens, and no bytes.\n\n"
                         "For an error the bytes are those of a firthnapkin_error and of its message. Raises MemoryError if\n"
                         "memory runs out.");

static PyObject *tokens(PyObject *module, PyObject *arguments) {
    PyObject *source;
    unsigned long most;
    char *bytes;
    Py_ssize_t length;
    (void)module;
    if (!PyArg_ParseTuple(arguments, "Sk:tokens", &source, &most)) return NULL;
    if (PyBytes_AsStringAndSize(source, &bytes, &length) != 0) return NULL;
    PyThreadState *state = PyEval_SaveThread();
    whole w = cut_whole((const uint8_t *)bytes, (size_t)length, limit_of(most));
    PyEval_RestoreThread(state);
    return result_of(&w, w.tokens, w.tokens_count * sizeof *w.tokens, 2);
}

PyDoc_STRVAR(canonical_doc, "canonical(source, /)\n--\n\n"
                            "Returns the status, no bytes, and the bytes of the canonical text.\n\n"
                            "For an error the bytes are those of a firthnapkin_error and of its message. Raises MemoryError\n"
                            "if memory runs out.");

static PyObject *canonical(PyObject *module, PyObject *source) {
    char *bytes;
    Py_ssize_t length;
    (void)module;
    if (PyBytes_AsStringAndSize(source, &bytes, &length) != 0) return NULL;
    PyThreadState *state = PyEval_SaveThread();
    whole w = canonical_whole((const uint8_t *)bytes, (size_t)length);
    PyEval_RestoreThread(state);
    return result_of(&w, NULL, 0, 2);
}

PyDoc_STRVAR(excerpt_doc, "excerpt(source, byte, /)\n--\n\n"
                          "Returns the status, no bytes, and the bytes of the lines around a byte of the source.\n\n"
                          "Raises MemoryError if memory runs out.");

static PyObject *excerpt(PyObject *module, PyObject *arguments) {
    PyObject *source;
    unsigned long byte;
    char *bytes;
    Py_ssize_t length;
    (void)module;
    if (!PyArg_ParseTuple(arguments, "Sk:excerpt", &source, &byte)) return NULL;
    if (PyBytes_AsStringAndSize(source, &bytes, &length) != 0) return NULL;
    PyThreadState *state = PyEval_SaveThread();
    whole w = excerpt_whole((const uint8_t *)bytes, (size_t)length, limit_of(byte));
    PyEval_RestoreThread(state);
    return result_of(&w, NULL, 0, 2);
}

/* ---- limits */

/* What is known of a limit: its word, and the largest number. */
typedef struct {
    uint32_t place, most;
} limit_row;

enum { WORDS = sizeof(package_limits) / sizeof(uint32_t) };

/* Reads a limit into its word; false where it is neither the default nor an int of its range. */
static int is_usual(PyObject *value, PyObject *usual, const limit_row *row, uint32_t *words) {
    if (value == usual) return 1;
    if (value == NULL || !PyLong_CheckExact(value) || row->place >= WORDS) return 0;
    unsigned long number = PyLong_AsUnsignedLong(value);
    if (number > row->most) {
        PyErr_Clear();
        return 0;
    }
    words[row->place] = (uint32_t)number;
    return 1;
}

/* The value of a limit: in a dict it has its name, and in a tuple its index. NULL, without an exception, where there is none. */
static PyObject *value_in(PyObject *given, PyObject *names, Py_ssize_t i) {
    if (PyDict_Check(given)) return PyDict_GetItem(given, PyTuple_GetItem(names, i));
    return i < PyTuple_Size(given) ? PyTuple_GetItem(given, i) : NULL;
}

PyDoc_STRVAR(packed_doc, "packed(given, usual, names, defaults, rows, /)\n--\n\n"
                         "Returns the bytes of limits that are given by name, or in the order of the names, over those of the\n"
                         "usual ones.\n\n"
                         "Each limit has a name, a default, and a row: the bytes of the index of its word, and of the largest\n"
                         "number. Returns None where one is neither its default nor an int up to that number. Raises ValueError\n"
                         "if the usual limits have another size.");

static PyObject *packed(PyObject *module, PyObject *arguments) {
    PyObject *given, *usual, *names, *defaults, *table;
    package_limits limits;
    limit_row row;
    (void)module;
    if (!PyArg_ParseTuple(arguments, "OSO!O!S:packed", &given, &usual, &PyTuple_Type, &names, &PyTuple_Type, &defaults, &table)
        || !are_limits(usual, &limits))
        return NULL;
    if (!PyDict_Check(given) && !PyTuple_Check(given)) return PyErr_Format(PyExc_TypeError, "limits must be a dict or a tuple");
    Py_ssize_t count = PyTuple_Size(names);
    if (PyTuple_Size(defaults) != count || PyBytes_Size(table) != count * (Py_ssize_t)sizeof row)
        return PyErr_Format(PyExc_ValueError, "each limit must have a name, a default and a row");
    const char *rows = PyBytes_AsString(table);
    uint32_t words[WORDS];
    memcpy(words, &limits, sizeof words);
    for (Py_ssize_t i = 0; i < count; i++) {
        memcpy(&row, rows + i * (Py_ssize_t)sizeof row, sizeof row);
        PyObject *value = value_in(given, names, i);
        if (!is_usual(value, PyTuple_GetItem(defaults, i), &row, words)) Py_RETURN_NONE;
    }
    return PyBytes_FromStringAndSize((const char *)words, sizeof words);
}

static PyMethodDef methods[] = {{"parse", parse, METH_VARARGS, parse_doc},
                                {"parse_as", parse_as, METH_VARARGS, parse_as_doc},
                                {"check", check, METH_VARARGS, check_doc},
                                {"complexities", complexities, METH_O, complexities_doc},
                                {"tokens", tokens, METH_VARARGS, tokens_doc},
                                {"canonical", canonical, METH_O, canonical_doc},
                                {"excerpt", excerpt, METH_VARARGS, excerpt_doc},
                                {"packed", packed, METH_VARARGS, packed_doc},
                                {NULL, NULL, 0, NULL}};

static int begin(PyObject *module) {
    return PyModule_AddIntConstant(module, "LIMITS_SIZE", sizeof(firthnapkin_limits)) != 0
            || PyModule_AddIntConstant(module, "SIZES", SIZES) != 0
            || PyModule_AddIntConstant(module, "AS_VALUE", AS_VALUE) != 0
            || PyModule_AddIntConstant(module, "AS_CONSTANT", AS_CONSTANT) != 0
            || PyModule_AddIntConstant(module, "AS_TYPE", AS_TYPE) != 0
            || PyModule_AddIntConstant(module, "MAX_DEPTH", FIRTHNAPKIN_MAX_DEPTH) != 0
            || PyModule_AddObject(module, "MAX_TOKENS", PyLong_FromUnsignedLong(UINT32_MAX)) != 0
            || PyModule_AddStringConstant(module, "VERSION", FIRTHNAPKIN_VERSION_STRING) != 0
        ? -1
        : 0;
}

static PyModuleDef_Slot slots[] = {{MULTIPLE_INTERPRETERS, OWN_LOCKS}, {Py_mod_exec, begin}, {0, NULL}};

static struct PyModuleDef definition = {
    PyModuleDef_HEAD_INIT, .m_name = "firthnapkin._parser", .m_methods = methods, .m_slots = slots};

PyMODINIT_FUNC PyInit__parser(void) {
    return initialised(&definition, slots);
}
