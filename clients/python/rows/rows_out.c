/* The rows of columns as an iterator over tuples, each of which is made when it is asked for. */
#include "cells.h"

/* An iterator. `columns` keeps the bytes that `of` points to. */
typedef struct {
    PyObject_HEAD
    PyObject *columns;
    cells *of;
    size_t width, row, rows;
} iterator;

/* Whether each of the tuple's items is a tuple of the cells of a column, all with equally many rows; then `found` has
 * them. Else raises ValueError, or TypeError. */
static bool columns_of(PyObject *columns, size_t width, cells *found) {
    for (size_t place = 0; place < width; place++) {
        PyObject *presence, *words, *column = PyTuple_GetItem(columns, (Py_ssize_t)place);
        Py_ssize_t size;
        if (!PyTuple_Check(column)) {
            PyErr_SetString(PyExc_TypeError, "a column is to be a tuple");
            return false;
        }
        if (!PyArg_ParseTuple(column, "SSn", &presence, &words, &size)) return false;
        if (!cells_of(presence, words, size, found + place)) return false;
        if (found[place].rows != found[0].rows) {
            PyErr_SetString(PyExc_ValueError, "columns of different lengths");
            return false;
        }
    }
    return true;
}

static PyObject *iterator_new(PyTypeObject *type, PyObject *columns, PyObject *names) {
    size_t width = (size_t)PyTuple_Size(columns);
    if (names || !width) {
        PyErr_SetString(PyExc_TypeError, "columns are to be given, and without names");
        return NULL;
    }
    iterator *made = (iterator *)PyType_GenericAlloc(type, 0);
    if (!made) return NULL;
    Py_IncRef(columns);
    made->columns = columns;
    made->of = PyMem_Calloc(width, sizeof(cells));
    made->width = width;
    if (!made->of) PyErr_NoMemory();
    if (!made->of || !columns_of(columns, width, made->of)) {
        Py_DecRef((PyObject *)made);
        return NULL;
    }
    made->rows = made->of[0].rows;
    return (PyObject *)made;
}

static void iterator_free(PyObject *self) {
    iterator *of = (iterator *)self;
    PyTypeObject *type = Py_TYPE(self);
    Py_DecRef(of->columns);
    PyMem_Free(of->of);
    PyObject_Free(self);
    Py_DecRef((PyObject *)type);
}

/* The tuple of the next row. The garbage collector needn't visit what has only numbers, so it isn't told of it: else it
 * would look at each of millions of tuples, to find that out. */
static PyObject *iterator_next(PyObject *self) {
    iterator *of = (iterator *)self;
    if (of->row == of->rows) return NULL;
    size_t row = of->row++;
    PyObject *made = PyTuple_New((Py_ssize_t)of->width);
    for (size_t place = 0; made && place < of->width; place++) {
        PyObject *cell = cell_of(of->of + place, row);
        if (!cell || PyTuple_SetItem(made, (Py_ssize_t)place, cell) < 0) drop(&made);
    }
    if (made) PyObject_GC_UnTrack(made);
    return made;
}

static PyObject *iterator_left(PyObject *self, PyObject *nothing) {
    (void)nothing;
    iterator *of = (iterator *)self;
    return PyLong_FromSize_t(of->rows - of->row);
}

static PyMethodDef methods[] = {
    {"__length_hint__", iterator_left, METH_NOARGS, "How many rows are left."},
    {NULL, NULL, 0, NULL},
};

static PyType_Slot slots[] = {
    {Py_tp_doc, "Rows(*columns): iterates over the rows of columns, each (presence, words, size), as tuples."},
    {Py_tp_new, iterator_new},
    {Py_tp_dealloc, iterator_free},
    {Py_tp_iter, PyObject_SelfIter},
    {Py_tp_iternext, iterator_next},
    {Py_tp_methods, methods},
    {0, NULL},
};

static PyType_Spec spec = {
    .name = "bitcol._rows.Rows",
    .basicsize = sizeof(iterator),
    .flags = Py_TPFLAGS_DEFAULT,
    .slots = slots,
};

int add_rows_type(PyObject *module) {
    PyObject *type = PyType_FromModuleAndSpec(module, &spec, NULL);
    if (!type) return -1;
    int added = PyModule_AddObjectRef(module, "Rows", type);
    Py_DecRef(type);
    return added;
}
