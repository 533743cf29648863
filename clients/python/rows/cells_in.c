/* Lists, tuples and rows of Python to presence and words.
 *
 * What is taken: a list or tuple of ints and None, or of lists and tuples of these, each of exactly this type, and each
 * int of at most 64 bits. No Python code runs while they are read, so nothing changes or goes meanwhile. */
#include <string.h>

#include "bits.h"
#include "rows.h"

#define WORD_BYTES 8

/* Borrows an item of a list or of a tuple. */
typedef PyObject *(*borrowing)(PyObject *sequence, Py_ssize_t place);

/* A list or tuple, how its items are reached, and how many there are. */
typedef struct {
    PyObject *object;
    borrowing item;
    Py_ssize_t size;
} sequence;

/* Whether the object is a list or a tuple, and of no subclass, whose items may be others. */
static inline bool is_sequence(PyObject *object, sequence *found) {
    if (PyTuple_CheckExact(object)) *found = (sequence){object, PyTuple_GetItem, PyTuple_Size(object)};
    else if (PyList_CheckExact(object)) *found = (sequence){object, PyList_GetItem, PyList_Size(object)};
    else return false;
    return true;
}

/* A column that is being read, in the bytes that will be returned. */
typedef struct {
    PyObject *presence, *words;
    uint8_t *bits, *numbers;
} column;

static void release(column *of, size_t count) {
    for (size_t place = 0; place < count; place++) {
        drop(&of[place].presence);
        drop(&of[place].words);
    }
}

/* Makes columns of so many rows. Raises MemoryError, and then makes none. */
static bool make(column *to, size_t count, Py_ssize_t rows) {
    for (size_t place = 0; place < count; place++) {
        Py_ssize_t size = (Py_ssize_t)presence_size((size_t)rows);
        to[place].presence = PyBytes_FromStringAndSize(NULL, size);
        to[place].words = PyBytes_FromStringAndSize(NULL, rows * WORD_BYTES);
        if (!to[place].presence || !to[place].words) {
            release(to, place + 1);
            return false;
        }
        to[place].bits = (uint8_t *)PyBytes_AsString(to[place].presence);
        to[place].numbers = (uint8_t *)PyBytes_AsString(to[place].words);
        memset(to[place].bits, 0, (size_t)size);
    }
    return true;
}

/* Writes a cell, if it is one that is taken here. */
static inline bool put(column *to, size_t row, PyObject *cell) {
    long long number = 0;
    if (cell != Py_None) {
        int is_beyond;
        if (!PyLong_CheckExact(cell)) return false;
        number = PyLong_AsLongLongAndOverflow(cell, &is_beyond);
        if (is_beyond) return false;
        to->bits[row / 8] |= (uint8_t)(1u << row % 8);
    }
    store_8(to->numbers + row * WORD_BYTES, (uint64_t)number);
    return true;
}

/* Gives the column's bytes away as a pair. Returns NULL with an exception if there is no memory for it. */
static PyObject *pair_of(column *of) {
    PyObject *pair = PyTuple_Pack(2, of->presence, of->words);
    release(of, 1);
    return pair;
}

/* Whether `start` to `end` are rows of an object, which is then a sequence: it may have changed since the last call. */
static bool has_rows(PyObject *object, Py_ssize_t start, Py_ssize_t end, sequence *found) {
    return is_sequence(object, found) && 0 <= start && start <= end && end <= found->size
        && end - start <= PTRDIFF_MAX / WORD_BYTES;
}

PyObject *column_in(PyObject *module, PyObject *arguments) {
    (void)module;
    PyObject *object;
    Py_ssize_t start, end;
    sequence from;
    column to;
    if (!PyArg_ParseTuple(arguments, "Onn", &object, &start, &end)) return NULL;
    if (!has_rows(object, start, end, &from)) return none();
    if (!make(&to, 1, end - start)) return NULL;
    for (Py_ssize_t row = start; row < end; row++)
        if (!put(&to, (size_t)(row - start), from.item(object, row))) {
            release(&to, 1);
            return none();
        }
    return pair_of(&to);
}

/* Writes the cells of a row, if it is one that is taken here. */
static inline bool put_row(column *to, size_t width, size_t row, PyObject *object) {
    sequence from;
    if (!is_sequence(object, &from) || (size_t)from.size != width) return false;
    for (size_t place = 0; place < width; place++)
        if (!put(to + place, row, from.item(object, (Py_ssize_t)place))) return false;
    return true;
}

/* Gives the bytes of all columns away as a list of pairs. */
static PyObject *pairs_of(column *of, size_t width) {
    PyObject *made = PyList_New((Py_ssize_t)width);
    for (size_t place = 0; made && place < width; place++) {
        PyObject *pair = pair_of(of + place);
        if (!pair || PyList_SetItem(made, (Py_ssize_t)place, pair) < 0) drop(&made);
    }
    release(of, width);
    return made;
}

PyObject *rows_in(PyObject *module, PyObject *arguments) {
    (void)module;
    PyObject *object;
    Py_ssize_t start, end, width;
    sequence from;
    column to[MOST_COLUMNS];
    if (!PyArg_ParseTuple(arguments, "Onnn", &object, &start, &end, &width)) return NULL;
    if (width < 1 || width > MOST_COLUMNS || !has_rows(object, start, end, &from)) return none();
    if (!make(to, (size_t)width, end - start)) return NULL;
    for (Py_ssize_t row = start; row < end; row++)
        if (!put_row(to, (size_t)width, (size_t)(row - start), from.item(object, row))) {
            release(to, (size_t)width);
            return none();
        }
    return pairs_of(to, (size_t)width);
}

PyObject *narrowed(PyObject *module, PyObject *words) {
    (void)module;
    if (!PyBytes_Check(words) || PyBytes_Size(words) % WORD_BYTES) {
        PyErr_SetString(PyExc_ValueError, "no words of 64 bits");
        return NULL;
    }
    span from = span_of(words);
    PyObject *made = PyBytes_FromStringAndSize(NULL, (Py_ssize_t)(from.size / 2));
    if (!made) return NULL;
    uint8_t *to = (uint8_t *)PyBytes_AsString(made);
    /* Counted from the least number of 32 bits, a number of at most 32 bits has no higher ones. */
    uint64_t higher = 0;
    for (size_t at = 0; at < from.size; at += WORD_BYTES) {
        uint64_t word = loaded_8(from.at + at);
        higher |= (word + 0x80000000u) >> 32;
        store_4(to + at / 2, (uint32_t)word);
    }
    if (!higher) return made;
    Py_DecRef(made);
    return none();
}
