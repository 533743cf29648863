"""The cells of a column: a bit and a word for each row, and how they are made from Python objects."""

from __future__ import annotations

import array
import sys
from collections.abc import Iterable, Sequence
from dataclasses import dataclass
from functools import cached_property
from itertools import chain, compress, repeat
from operator import is_not
from typing import Any

from .column_type import ColumnType
from .door import Bytes
from .errors import DataError, ProgrammingError
from .optional import imported, is_numpy_array, is_pandas_series, numpy_module
from .rows_by_c import Numbers, list_of, numbers_of, numbers_of_rows
from .script import UNLISTED, integer

_TYPECODES = {
    ColumnType.INTEGER: next(code for code in "il" if array.array(code).itemsize == 4),
    ColumnType.BIGINT: "q",
}
_EIGHT_BITS = [bytes(byte >> bit & 1 for bit in range(8)) for byte in range(256)]
_INVERTED = bytes.maketrans(b"\0\1", b"\1\0")
_AS_DIGITS = bytes.maketrans(b"\0\1", b"01")


@dataclass(frozen=True)
class Cells:
    """The cells of a column. Bit i mod 8 of byte i // 8 of `presence` is 1 if row i isn't NULL, and 0 after the last
    row. `words` has as many bits for each row as the type has, in little-endian order: the value in two's complement,
    or 0 if the row is NULL."""

    rows: int
    presence: Bytes
    words: Bytes
    column_type: ColumnType = ColumnType.INTEGER

    def presence_bytes(self) -> bytes:
        """Returns a byte for each row: 1 if it isn't NULL, else 0."""
        return b"".join(map(_EIGHT_BITS.__getitem__, bytes(self.presence)))[: self.rows]

    def numbers(self) -> array.array[int]:
        """Returns the words as an array of integers with as many bits as the type has."""
        words = array.array(_TYPECODES[self.column_type])
        words.frombytes(self.words)
        return _with_lowest_first(words)

    def known_numbers(self) -> Sequence[int]:
        """Returns the values that aren't NULL, in the order of the rows."""
        numbers = self.numbers()
        return list(compress(numbers, self.presence_bytes())) if self.null_rows else numbers

    @cached_property
    def null_rows(self) -> list[int]:
        """Returns the numbers of the rows that are NULL, counted from 0, in order."""
        if self.presence == _all_present(self.rows):
            return []
        return list(compress(range(self.rows), self.presence_bytes().translate(_INVERTED)))

    def to_list(self) -> list[int | None]:
        """Returns an int for each row, or None where it is NULL."""
        made = list_of(self.presence, self.words, self.rows, self.column_type.bits // 8)
        if made is not None:
            return made
        cells: list[int | None] = self.numbers().tolist()  # type: ignore[assignment]
        for row in self.null_rows:
            cells[row] = None
        return cells

    def to_numpy(self) -> Any:
        """Returns a masked array of integers with as many bits as the type has, masked where a row is NULL."""
        numpy = numpy_module()
        values = numpy.frombuffer(self.words, self._numpy_type).astype(self._numpy_type[1:])
        return numpy.ma.array(values, mask=_numpy_mask(numpy, self))

    def fault(self) -> str | None:
        """Returns why no table file can have these cells, or None if one can."""
        if bytes(self.presence[-1:]) > _all_present(self.rows)[-1:]:
            return "a bit past the last row"
        numpy = imported("numpy")
        if numpy is not None:
            has_number = numpy.frombuffer(self.words, self._numpy_type)[_numpy_mask(numpy, self)].any()
        else:
            has_number = any(map(self.numbers().__getitem__, self.null_rows))
        return "a number at a NULL" if has_number else None

    @property
    def _numpy_type(self) -> str:
        return f"<i{self.column_type.bits // 8}"


def presence_size(rows: int) -> int:
    """Returns the number of bytes of the presence bits of `rows` rows."""
    return (rows + 7) // 8


def cells_of(column: Iterable[Any] | Numbers, column_type: ColumnType | None = None) -> Cells:
    """Makes cells from a column: a list, tuple, range or array of integers and None, another iterable of these, a numpy
    array, masked or not, a pandas series, or a column of columns_of_rows. If no type is given, it is INTEGER, or BIGINT
    if a value has more than 32 bits.

    Raises ProgrammingError if a cell is neither an integer nor None, and DataError if an integer is outside of the
    type.
    """
    types = tuple(ColumnType) if column_type is None else (ColumnType(column_type),)
    if isinstance(column, Numbers):
        return _cells_of_numbers(column, types)
    if is_pandas_series(column):
        column = _array_of_series(column)
    if is_numpy_array(column) and column.dtype.kind != "O":  # type: ignore[attr-defined]
        return _cells_of_numpy(column, types)
    if isinstance(column, (list, tuple, range, array.array)):
        return _cells_of_sequence(column, types)
    try:
        listed = list(column)
    except TypeError:
        raise ProgrammingError(f"a column has integers and None; this one is of type {type(column).__name__}") from None
    return _cells_of_sequence(listed, types)


def columns_of_rows(rows: Sequence[Sequence[Any]], width: int) -> Iterable[Iterable[Any] | Numbers]:
    """Returns the columns of rows of `width` values, each as cells_of takes it. Raises what check_widths raises."""
    numbers = numbers_of_rows(rows, width)
    if numbers is not None:
        return numbers
    check_widths(rows, width, 0)
    cells = list(chain.from_iterable(rows))
    return (cells[place::width] for place in range(width))


def check_widths(rows: Sequence[Sequence[Any]], width: int, before: int) -> None:
    """Raises ProgrammingError if a row isn't a list of `width` values. `before` rows came before these."""
    if not set(map(type, rows)) <= {list, tuple}:
        for row, values in enumerate(rows, before):
            if isinstance(values, UNLISTED) or not hasattr(values, "__len__"):
                kind = type(values).__name__
                raise ProgrammingError(f"row {row}: it is to be a list or a tuple of values, not a {kind}")
    widths = list(map(len, rows))
    if widths.count(width) < len(rows):
        row = next(row for row, found in enumerate(widths) if found != width)
        raise ProgrammingError(f"row {before + row}: {widths[row]} values, and {width} are wanted")


def _cells_of_sequence(column: Sequence[Any], types: Sequence[ColumnType]) -> Cells:
    """Makes cells from a sequence, of the first type that can hold them. The constructor of the array checks each
    value, and refuses a None."""
    numbers = numbers_of(column)
    if numbers is not None:
        return _cells_of_numbers(numbers, types)
    presence, found = _all_present(len(column)), _typed_array(column, types)
    if found is None:
        presence = _packed(bytes(map(is_not, column, repeat(None))))
        found = _typed_array([0 if cell is None else cell for cell in column], types)
    if found is None:
        raise _first_fault(column, types[-1])
    column_type, words = found
    return Cells(len(column), presence, memoryview(_with_lowest_first(words)).cast("B"), column_type)


def _cells_of_numbers(numbers: Numbers, types: Sequence[ColumnType]) -> Cells:
    """Makes cells of the first type that can hold the numbers."""
    for column_type in types:
        words = numbers.words(column_type.bits // 8)
        if words is not None:
            return Cells(numbers.rows, numbers.presence, words, column_type)
    whole = Cells(numbers.rows, numbers.presence, b"".join(numbers.blocks), ColumnType.BIGINT)
    raise _first_fault(whole.to_list(), types[-1])


def _typed_array(column: Sequence[Any], types: Sequence[ColumnType]) -> tuple[ColumnType, array.array[int]] | None:
    """Returns the first type that can hold all cells, with an array of them, or None if no type can."""
    for column_type in types:
        try:
            return column_type, array.array(_TYPECODES[column_type], column)
        except OverflowError:
            pass
        except TypeError:
            return None
    return None


def _first_fault(column: Sequence[Any], column_type: ColumnType) -> DataError | ProgrammingError:
    """Returns the exception for the first cell that a column of this type can't hold."""
    for row, cell in enumerate(column):
        if cell is not None:
            try:
                number = integer(cell)
            except ProgrammingError as fault:
                return ProgrammingError(f"row {row}: {fault}")
            if not column_type.least <= number <= column_type.greatest:
                return _outside(row, column_type)
    return ProgrammingError("a column that changes while it is read")


def _outside(row: int, column_type: ColumnType) -> DataError:
    return DataError(f"row {row}: a value outside {column_type.least} to {column_type.greatest}")


def _cells_of_numpy(column: Any, types: Sequence[ColumnType]) -> Cells:
    numpy = numpy_module()
    if column.ndim != 1:
        raise ProgrammingError(f"a column has one dimension, not {column.ndim}")
    if column.dtype.kind not in "iub":
        raise ProgrammingError(f"an array of {column.dtype}: a column has integers")
    mask = numpy.ma.getmaskarray(column)
    values = numpy.where(mask, 0, numpy.ma.getdata(column)) if mask.any() else numpy.ma.getdata(column)
    least, greatest = (int(values.min()), int(values.max())) if len(values) else (0, 0)
    for column_type in types:
        if column_type.least <= least and greatest <= column_type.greatest:
            presence = numpy.packbits(~mask, bitorder="little").tobytes()
            return Cells(len(column), presence, values.astype(f"<i{column_type.bits // 8}").tobytes(), column_type)
    raise _outside(_first_outside(values.tolist(), types[-1]), types[-1])


def _first_outside(values: Sequence[int], column_type: ColumnType) -> int:
    """Returns the first row with a value outside of the type. There is one."""
    return next(row for row, value in enumerate(values) if not column_type.least <= value <= column_type.greatest)


def _array_of_series(series: Any) -> Any:
    """Returns a masked array for a series of integers with NA, else an array of objects."""
    numpy = numpy_module()
    if series.dtype.kind in "iu":
        # A type of the same kind without NA, so that no value wraps around.
        widest = "int64" if series.dtype.kind == "i" else "uint64"
        return numpy.ma.array(series.to_numpy(dtype=widest, na_value=0), mask=series.isna().to_numpy())
    values = series.to_numpy()
    return numpy.where(series.isna(), None, values) if values.dtype.kind == "O" else values


def _numpy_mask(numpy: Any, cells: Cells) -> Any:
    """Returns an array that is true where a row is NULL."""
    bits = numpy.frombuffer(cells.presence, numpy.uint8)
    return numpy.unpackbits(bits, count=cells.rows, bitorder="little") == 0


def _packed(present: bytes) -> bytes:
    """Packs bytes of 0 and 1 into bits."""
    if not present:
        return b""
    # Parsing digits of base 2 takes linear time, and no interpreter step for each digit.
    return int(present[::-1].translate(_AS_DIGITS), 2).to_bytes(presence_size(len(present)), "little")


def _all_present(rows: int) -> bytes:
    """Returns the presence bits of `rows` rows without NULL."""
    last = bytes([(1 << rows % 8) - 1]) if rows % 8 else b""
    return b"\xff" * (rows // 8) + last


def _with_lowest_first(words: array.array[int]) -> array.array[int]:
    if sys.byteorder == "big":
        words.byteswap()
    return words
