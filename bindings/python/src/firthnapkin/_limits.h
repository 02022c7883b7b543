/* The limits of a call, as the package passes them to its extensions: the bytes of a firthnapkin_limits, and of limits on the sizes
 * of operations. */
#ifndef FIRTHNAPKIN_PYTHON_LIMITS_H
#define FIRTHNAPKIN_PYTHON_LIMITS_H

#include <Python.h>
#include <string.h>

#include "firthnapkin.h"
#include "sizes.h"

typedef struct {
    firthnapkin_limits call;
    size_limits sizes;
} package_limits;

/* False, with a ValueError, where a bytes object has another size. */
static inline int are_limits(PyObject *bytes, package_limits *limits) {
    if (PyBytes_Size(bytes) != (Py_ssize_t)sizeof *limits) {
        PyErr_Format(PyExc_ValueError, "limits must have %d bytes", (int)sizeof *limits);
        return 0;
    }
    memcpy(limits, PyBytes_AsString(bytes), sizeof *limits);
    return 1;
}

#endif
