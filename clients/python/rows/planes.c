/* Columns as bit planes: see clients/python/bitcol/planes.py. */
#include <string.h>

#include "bits.h"
#include "rows.h"

/* Planes of equal length. */
typedef struct {
    size_t count, size;
    const uint8_t *at[MOST_PLANES];
} planes;

/* Whether the tuple has planes of `size` bytes each; then `found` has them. Else raises ValueError. */
static bool planes_of(PyObject *tuple, size_t size, planes *found) {
    Py_ssize_t count = PyTuple_Size(tuple);
    if (count < 0 || count > MOST_PLANES) {
        PyErr_SetString(PyExc_ValueError, "too many planes");
        return false;
    }
    found->count = (size_t)count;
    found->size = size;
    for (Py_ssize_t place = 0; place < count; place++) {
        PyObject *plane = PyTuple_GetItem(tuple, place);
        if (!PyBytes_Check(plane) || (size_t)PyBytes_Size(plane) != size) {
            PyErr_SetString(PyExc_ValueError, "a plane that hasn't as many bytes as the presence");
            return false;
        }
        found->at[place] = span_of(plane).at;
    }
    return true;
}

/* The greatest code of the rows that are present. The planes are highest first; `candidates` is room for the rows that
 * share the highest bits found so far. */
static uint64_t greatest_code(const uint8_t *presence, const planes *of, uint8_t *candidates) {
    uint64_t greatest = 0;
    if (of->size) memcpy(candidates, presence, of->size);
    for (size_t place = 0; place < of->count; place++) {
        const uint8_t *plane = of->at[place];
        uint8_t found = 0;
        for (size_t at = 0; at < of->size; at++) found |= candidates[at] & plane[at];
        if (found)
            for (size_t at = 0; at < of->size; at++) candidates[at] &= plane[at];
        greatest = greatest << 1 | (found != 0);
    }
    return greatest;
}

/* What the planes say: `any_bit` becomes the rows with a bit in some plane. */
static PyObject *told(const uint8_t *presence, const planes *of, uint8_t *any_bit, uint8_t *candidates) {
    uint8_t present = 0, at_null = 0, zero = 0;
    memset(any_bit, 0, of->size);
    for (size_t place = 0; place < of->count; place++)
        for (size_t at = 0; at < of->size; at++) any_bit[at] |= of->at[place][at];
    for (size_t at = 0; at < of->size; at++) {
        present |= presence[at];
        at_null |= (uint8_t)(any_bit[at] & ~presence[at]);
        zero |= (uint8_t)(presence[at] & ~any_bit[at]);
    }
    PyObject *has_bit = at_null ? Py_True : Py_False, *has_zero = zero ? Py_True : Py_False;
    if (!present) return Py_BuildValue("OOO", has_bit, has_zero, Py_None);
    return Py_BuildValue("OOK", has_bit, has_zero, (unsigned long long)greatest_code(presence, of, candidates));
}

PyObject *codes_told(PyObject *module, PyObject *arguments) {
    (void)module;
    PyObject *presence, *tuple;
    planes of;
    if (!PyArg_ParseTuple(arguments, "SO!", &presence, &PyTuple_Type, &tuple)) return NULL;
    span bits = span_of(presence);
    if (!planes_of(tuple, bits.size, &of)) return NULL;
    uint8_t *room = PyMem_Calloc(2, bits.size);
    if (!room) return PyErr_NoMemory();
    PyObject *found = told(bits.at, &of, room, room + bits.size);
    PyMem_Free(room);
    return found;
}

PyObject *ends_of(PyObject *module, PyObject *arguments) {
    (void)module;
    cells of;
    if (!cells_in(arguments, &of)) return NULL;
    int64_t least = INT64_MAX, greatest = INT64_MIN;
    for (size_t row = 0; row < of.rows; row++) {
        if (!is_known(of.presence.at, row)) continue;
        int64_t number = loaded_signed(of.words.at + row * of.size, of.size);
        if (number < least) least = number;
        if (number > greatest) greatest = number;
    }
    if (least > greatest) return none();
    return Py_BuildValue("LL", (long long)least, (long long)greatest);
}

/* Reads up to 32 planes from plane `first` on, at 32 rows from byte `at` on, as a word for each of these rows. */
static inline void read_codes(const planes *of, size_t first, size_t at, uint32_t codes[32]) {
    for (size_t bit = 0; bit < 32; bit++) codes[bit] = first + bit < of->count ? loaded_4(of->at[first + bit] + at) : 0;
    transpose(codes);
}

/* Writes the words of 32 rows, whose bytes of presence and planes begin at `at`. The planes are lowest first. */
static void words_of_32(const planes *of, const uint8_t *presence, size_t at, uint64_t base, uint8_t *to, size_t size) {
    uint32_t low[32], high[32] = {0}, present = loaded_4(presence + at);
    read_codes(of, 0, at, low);
    if (of->count > 32) read_codes(of, 32, at, high);
    if (size == 4)
        for (size_t row = 0; row < 32; row++)
            store_4(to + row * 4, ((uint32_t)base + low[row]) & -(present >> row & 1));
    else
        for (size_t row = 0; row < 32; row++)
            store_8(to + row * 8, (base + ((uint64_t)high[row] << 32 | low[row])) & -(uint64_t)(present >> row & 1));
}

/* Writes the words of the last rows, fewer than 32, whose bytes begin at `at`: as 32 rows of a copy with more zeros. */
static void last_words(const planes *of, const uint8_t *presence, size_t at, uint64_t base, uint8_t *to, size_t size) {
    uint8_t bits[MOST_PLANES][4] = {{0}}, present[4] = {0}, words[32 * 8];
    planes last = {of->count, 4, {0}};
    for (size_t place = 0; place < of->count; place++) {
        memcpy(bits[place], of->at[place] + at, of->size - at);
        last.at[place] = bits[place];
    }
    memcpy(present, presence + at, of->size - at);
    words_of_32(&last, present, 0, base, words, size);
    memcpy(to, words, (of->size - at) * 8 * size);
}

PyObject *block_words(PyObject *module, PyObject *arguments) {
    (void)module;
    PyObject *presence, *tuple;
    long long base;
    Py_ssize_t size;
    planes of;
    if (!PyArg_ParseTuple(arguments, "SLO!n", &presence, &base, &PyTuple_Type, &tuple, &size)) return NULL;
    span bits = span_of(presence);
    if ((size != 4 && size != 8) || bits.size > PTRDIFF_MAX / 64) {
        PyErr_SetString(PyExc_ValueError, "a size of words other than 4 and 8, or too many rows");
        return NULL;
    }
    if (!planes_of(tuple, bits.size, &of)) return NULL;
    PyObject *words = PyBytes_FromStringAndSize(NULL, (Py_ssize_t)bits.size * 8 * size);
    if (!words) return NULL;
    uint8_t *to = (uint8_t *)PyBytes_AsString(words);
    size_t at = 0, word = (size_t)size;
    for (; bits.size - at >= 4; at += 4) words_of_32(&of, bits.at, at, (uint64_t)base, to + at * 8 * word, word);
    if (at < bits.size) last_words(&of, bits.at, at, (uint64_t)base, to + at * 8 * word, word);
    return words;
}

/* Writes bytes from `at` on, `bytes` of them, of up to 32 planes from plane `first` on, from the words of 32 rows. */
static void write_codes(uint32_t codes[32], uint8_t *const *to, size_t first, size_t width, size_t at, size_t bytes) {
    transpose(codes);
    for (size_t bit = 0; bit < 32 && first + bit < width; bit++) {
        uint8_t four[4];
        store_4(four, codes[bit]);
        memcpy(to[first + bit] + at, four, bytes);
    }
}

/* Writes the planes, lowest first, from byte `at` on, at the rows of `bytes` bytes, 4 or fewer. */
static void planes_of_32(const cells *of, uint64_t base, uint8_t *const *to, size_t width, size_t at, size_t bytes) {
    uint32_t low[32] = {0}, high[32] = {0};
    for (size_t row = 0; row < 8 * bytes; row++) {
        if (!is_known(of->presence.at, 8 * at + row)) continue;
        uint64_t code = (uint64_t)loaded_signed(of->words.at + (8 * at + row) * of->size, of->size) - base;
        low[row] = (uint32_t)code;
        high[row] = (uint32_t)(code >> 32);
    }
    write_codes(low, to, 0, width, at, bytes);
    if (width > 32) write_codes(high, to, 32, width, at, bytes);
}

/* A list of `width` objects of so many bytes, whose content `to` points to. */
static PyObject *new_planes(size_t width, size_t size, uint8_t **to) {
    PyObject *made = PyList_New((Py_ssize_t)width);
    for (size_t place = 0; made && place < width; place++) {
        PyObject *plane = PyBytes_FromStringAndSize(NULL, (Py_ssize_t)size);
        if (!plane || PyList_SetItem(made, (Py_ssize_t)place, plane) < 0) {
            Py_DecRef(made);
            return NULL;
        }
        to[place] = (uint8_t *)PyBytes_AsString(plane);
    }
    return made;
}

PyObject *block_planes(PyObject *module, PyObject *arguments) {
    (void)module;
    PyObject *presence, *words;
    long long base;
    Py_ssize_t width, size;
    cells of;
    uint8_t *to[MOST_PLANES];
    if (!PyArg_ParseTuple(arguments, "SSLnn", &presence, &words, &base, &width, &size)) return NULL;
    if (!cells_of(presence, words, size, &of)) return NULL;
    if (of.rows % 8 || width < 1 || width > 8 * size) {
        PyErr_SetString(PyExc_ValueError, "no word for some bit of the presence, or a width of no code");
        return NULL;
    }
    PyObject *made = new_planes((size_t)width, of.presence.size, to);
    if (!made) return NULL;
    for (size_t at = 0; at < of.presence.size; at += 4) {
        size_t left = of.presence.size - at;
        planes_of_32(&of, (uint64_t)base, to, (size_t)width, at, left < 4 ? left : 4);
    }
    return made;
}
