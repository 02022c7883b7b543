/* The slot by which a module can be loaded in interpreters that have locks of their own. Python 3.12 and later know it, and older
 * ones reject a module that has it. The headers of the stable ABI that this package is built for don't name it. */
#ifndef FIRTHNAPKIN_PYTHON_SLOTS_H
#define FIRTHNAPKIN_PYTHON_SLOTS_H

#include <Python.h>

/* Py_mod_multiple_interpreters, and its value Py_MOD_PER_INTERPRETER_GIL_SUPPORTED. */
#define MULTIPLE_INTERPRETERS 3
#define OWN_LOCKS ((void *)2)

/* Whether this Python knows the slot. */
static inline int knows_own_locks(void) {
    PyObject *version = PySys_GetObject("hexversion");
    return version != NULL && PyLong_AsUnsignedLong(version) >= 0x030C0000;
}

/* Returns the initialisation of a module whose slots begin with this one: without it if this Python doesn't know it. Only
 * such a Python, which has one lock for all interpreters, changes the definition. */
static inline PyObject *initialised(struct PyModuleDef *definition, PyModuleDef_Slot *slots) {
    if (!knows_own_locks()) definition->m_slots = slots + 1;
    return PyModuleDef_Init(definition);
}

#endif
