/* The module and its functions. */
#include "rows.h"

static PyMethodDef functions[] = {
    {"codes_told", codes_told, METH_VARARGS,
     "codes_told(presence, planes) -> (has_bit_at_null, has_zero, greatest)\n\n"
     "What planes, a tuple of bytes, highest first, say about the codes; greatest is None if all rows are NULL."},
    {"ends_of", ends_of, METH_VARARGS,
     "ends_of(presence, words, size) -> (least, greatest) or None\n\n"
     "The least and the greatest value of words of `size` bytes, 4 or 8; None if all rows are NULL."},
    {"block_words", block_words, METH_VARARGS,
     "block_words(presence, base, planes, size) -> bytes\n\n"
     "A word of `size` bytes for each bit of the presence, 0 if it is 0, from a tuple of planes, lowest first."},
    {"block_planes", block_planes, METH_VARARGS,
     "block_planes(presence, words, base, width, size) -> list of bytes\n\n"
     "The planes, lowest first, of as many words as the presence has bits."},
    {"column_in", column_in, METH_VARARGS,
     "column_in(column, start, end) -> (presence, words) or None\n\n"
     "Presence and 64-bit words of these rows of a list or tuple; None if it has anything but ints of at most 64 bits\n"
     "and None, or hasn't these rows."},
    {"rows_in", rows_in, METH_VARARGS,
     "rows_in(rows, start, end, width) -> list of (presence, words), or None\n\n"
     "The same of each column of a list or tuple of rows; None also if a row is no list or tuple of `width` cells."},
    {"narrowed", narrowed, METH_O,
     "narrowed(words) -> bytes or None\n\n32-bit words of 64-bit ones; None if one is of more than 32 bits."},
    {"list_out", list_out, METH_VARARGS,
     "list_out(presence, words, size) -> list\n\nAn int for each word of `size` bytes, or None where a row is NULL."},
    {"rows_in_lines", rows_in_lines, METH_VARARGS,
     "rows_in_lines(lines, width) -> list of tuples, or None\n\n"
     "The rows of a reply; None if a line isn't `width` fields, each NULL or an integer of at most 64 bits."},
    {NULL, NULL, 0, NULL},
};

static PyModuleDef_Slot slots[] = {{Py_mod_exec, add_rows_type}, {0, NULL}};

static PyModuleDef definition = {
    .m_base = PyModuleDef_HEAD_INIT,
    .m_name = "bitcol._rows",
    .m_doc = "Columns and rows of Python objects from and to bits and words. See clients/python/rows/rows.h.",
    .m_methods = functions,
    .m_slots = slots,
};

PyMODINIT_FUNC PyInit__rows(void) { return PyModuleDef_Init(&definition); }
