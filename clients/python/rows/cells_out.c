/* Presence and words to a list of Python. */
#include "cells.h"

bool cells_of(PyObject *presence, PyObject *words, Py_ssize_t size, cells *found) {
    if (size == 4 || size == 8) {
        *found = (cells){span_of(presence), span_of(words), (size_t)size, 0};
        found->rows = found->words.size / found->size;
        if (found->words.size % found->size == 0 && found->presence.size == presence_size(found->rows)) return true;
    }
    PyErr_SetString(PyExc_ValueError, "presence and words of different numbers of rows, or words of no type");
    return false;
}

bool cells_in(PyObject *arguments, cells *found) {
    PyObject *presence, *words;
    Py_ssize_t size;
    return PyArg_ParseTuple(arguments, "SSn", &presence, &words, &size) && cells_of(presence, words, size, found);
}

PyObject *list_out(PyObject *module, PyObject *arguments) {
    (void)module;
    cells of;
    if (!cells_in(arguments, &of)) return NULL;
    PyObject *made = PyList_New((Py_ssize_t)of.rows);
    for (size_t row = 0; made && row < of.rows; row++) {
        PyObject *cell = cell_of(&of, row);
        if (!cell || PyList_SetItem(made, (Py_ssize_t)row, cell) < 0) drop(&made);
    }
    return made;
}
