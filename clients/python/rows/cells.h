/* Cells as Python's objects. */
#ifndef BITCOL_CELLS_H
#define BITCOL_CELLS_H

#include "bits.h"
#include "rows.h"

/* A new reference to the int of a row, or to None. Returns NULL with an exception if there is no memory for it. */
static inline PyObject *cell_of(const cells *of, size_t row) {
    if (is_known(of->presence.at, row))
        return PyLong_FromLongLong(loaded_signed(of->words.at + row * of->size, of->size));
    return none();
}

#endif
