/* The rows of a reply as tuples: each is a line of fields, which are integers and NULL. */
#include <string.h>

#include "rows.h"

/* The most digits that are read: any number of so many has at most 64 bits without a sign. */
#define MOST_DIGITS 19

/* What a field says. */
typedef struct {
    bool is_known;
    int64_t number;
} field;

/* Reads an integer. Returns where it ends, or NULL if there is none, it has more than 64 bits, or an idle zero. */
static const uint8_t *integer_at(const uint8_t *at, const uint8_t *end, int64_t *number) {
    bool is_negative = at < end && *at == '-';
    const uint8_t *first = at + is_negative, *last = first;
    uint64_t size = 0;
    for (; last < end && last - first < MOST_DIGITS && *last >= '0' && *last <= '9'; last++)
        size = 10 * size + (uint64_t)(*last - '0');
    if (last == first || (*first == '0' && last - first > 1) || size > (uint64_t)INT64_MAX + is_negative) return NULL;
    *number = is_negative && size ? -(int64_t)(size - 1) - 1 : (int64_t)size;
    return last;
}

/* Reads a field of at least one byte. Returns where it ends, or NULL if it is no such integer and not NULL. */
static const uint8_t *field_at(const uint8_t *at, const uint8_t *end, field *found) {
    found->is_known = end - at < 4 || memcmp(at, "NULL", 4) != 0;
    return found->is_known ? integer_at(at, end, &found->number) : at + 4;
}

/* What became of a line. */
typedef enum { MADE, OTHER, RAISED } outcome;

/* Fills the tuple of a line that begins at `*at`, and moves to the next one. OTHER is a line of other fields. */
static outcome fill(PyObject *row, Py_ssize_t width, const uint8_t **at, const uint8_t *end) {
    for (Py_ssize_t place = 0; place < width; place++) {
        field found;
        const uint8_t *last = field_at(*at, end, &found);
        if (!last || last == end || *last != (place + 1 < width ? ',' : '\n')) return OTHER;
        *at = last + 1;
        PyObject *cell = found.is_known ? PyLong_FromLongLong(found.number) : none();
        if (!cell || PyTuple_SetItem(row, place, cell) < 0) return RAISED;
    }
    /* As in rows_out.c. */
    PyObject_GC_UnTrack(row);
    return MADE;
}

static outcome fill_all(PyObject *rows, Py_ssize_t count, Py_ssize_t width, span text) {
    const uint8_t *at = text.at, *end = text.at + text.size;
    for (Py_ssize_t place = 0; place < count; place++) {
        PyObject *row = PyTuple_New(width);
        outcome of = row ? fill(row, width, &at, end) : RAISED;
        if (of != MADE) {
            Py_DecRef(row);
            return of;
        }
        if (PyList_SetItem(rows, place, row) < 0) return RAISED;
    }
    return at == end ? MADE : OTHER;
}

PyObject *rows_in_lines(PyObject *module, PyObject *arguments) {
    (void)module;
    PyObject *lines;
    Py_ssize_t width, count = 0;
    if (!PyArg_ParseTuple(arguments, "Sn", &lines, &width)) return NULL;
    if (width < 1) return none();
    span text = span_of(lines);
    for (size_t at = 0; at < text.size; at++) count += text.at[at] == '\n';
    PyObject *made = PyList_New(count);
    outcome of = made ? fill_all(made, count, width, text) : RAISED;
    if (of == MADE) return made;
    Py_DecRef(made);
    return of == OTHER ? none() : NULL;
}
