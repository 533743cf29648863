/* The module bitcol._rows: columns and rows of Python objects from and to bits and words, in flat loops.
 *
 * It is optional, and decides nothing: what it doesn't know it leaves to the Python of the package, which does the same
 * work, and words each refusal. It uses the stable ABI of Python 3.10, so that one binary works with it and all later
 * ones. It is not proved.
 *
 * Inputs of bytes are objects of type bytes, whose content no one changes. Numbers are little-endian. Each function
 * checks the lengths of its inputs, and raises ValueError if they don't fit together: no caller of the package makes it
 * do so. Each function holds the interpreter's lock, so it is given some thousand rows at a time; only codes_told, which
 * makes no objects, has a whole column. */
#ifndef BITCOL_ROWS_H
#define BITCOL_ROWS_H

#define PY_SSIZE_T_CLEAN
#define Py_LIMITED_API 0x030A0000
#include <Python.h>

#include <stdbool.h>
#include <stddef.h>
#include <stdint.h>

/* The most columns of a table, and the most planes of a column. */
#define MOST_COLUMNS 64
#define MOST_PLANES 64

/* The bytes of an object that is kept while they are read. */
typedef struct {
    const uint8_t *at;
    size_t size;
} span;

static inline span span_of(PyObject *bytes) {
    return (span){(const uint8_t *)PyBytes_AsString(bytes), (size_t)PyBytes_Size(bytes)};
}

/* A new reference to None. References are counted by calls, not by the macros of 3.10: from 3.12 on some objects, such
 * as None and the empty bytes, aren't counted, and only the interpreter that runs knows which. */
static inline PyObject *none(void) {
    Py_IncRef(Py_None);
    return Py_None;
}

/* Gives a reference up, if there is one, and forgets it. */
static inline void drop(PyObject **of) {
    PyObject *held = *of;
    *of = NULL;
    Py_DecRef(held);
}

/* The number of bytes of the presence bits of so many rows. */
static inline size_t presence_size(size_t rows) { return rows / 8 + (rows % 8 != 0); }

/* Whether row `row` isn't NULL. */
static inline bool is_known(const uint8_t *presence, size_t row) { return presence[row / 8] >> row % 8 & 1; }

/* Cells: presence, words of `size` bytes, 4 or 8, and how many rows they are. */
typedef struct {
    span presence, words;
    size_t size, rows;
} cells;

/* Whether these bytes are cells; then `found` has them. Else raises ValueError. */
bool cells_of(PyObject *presence, PyObject *words, Py_ssize_t size, cells *found);

/* The same for a function's arguments, which have to be presence, words and size. Raises TypeError if they aren't. */
bool cells_in(PyObject *arguments, cells *found);

/* The functions of the module; module.c has what each takes and returns. */
PyObject *codes_told(PyObject *module, PyObject *arguments);
PyObject *ends_of(PyObject *module, PyObject *arguments);
PyObject *block_words(PyObject *module, PyObject *arguments);
PyObject *block_planes(PyObject *module, PyObject *arguments);
PyObject *column_in(PyObject *module, PyObject *arguments);
PyObject *rows_in(PyObject *module, PyObject *arguments);
PyObject *narrowed(PyObject *module, PyObject *arguments);
PyObject *list_out(PyObject *module, PyObject *arguments);
PyObject *rows_in_lines(PyObject *module, PyObject *arguments);

/* Adds the type Rows to the module. Returns -1 with an exception if it can't. */
int add_rows_type(PyObject *module);

#endif
