"""Columns as bit planes: the cells of table files of version 2.

The code of a row is its value minus the column's least value. Plane b has bit b of each code: bit i mod 8 of byte
i // 8 is that of row i. Blocks of rows are converted to planes, and back, by the module in C if it is there, else by
Python's integers, or, if numpy has been imported, by its arrays, which are faster.
"""

from __future__ import annotations

import struct
from collections.abc import Iterator, Sequence
from typing import Protocol

from . import planes_by_integers
from .cells import Cells
from .column_type import ColumnType
from .door import Bytes
from .optional import imported, rows_module
from .planes_by_integers import CodesTold

FRAME = struct.Struct("<qB")  # the value with code 0, and the number of bits of a code
WIDEST = 64

# The presence bytes of the rows that are converted together: enough to make an interpreter step's cost negligible, few
# enough for a processor's cache.
_BLOCK_BYTES = 8_192


class _Turning(Protocol):
    """The functions that a module provides to convert between codes and planes."""

    def codes_told(self, presence: Bytes, planes: Sequence[Bytes]) -> CodesTold: ...

    def ends_of(self, cells: Cells) -> tuple[int, int] | None: ...

    def block_words(self, presence: Bytes, base: int, planes: Sequence[Bytes], size: int) -> bytes: ...

    def block_planes(self, presence: Bytes, words: Bytes, base: int, width: int, size: int) -> Iterator[bytes]: ...


def _turning() -> _Turning:
    """Returns the module that uses C if that is there, else the one that uses numpy if numpy has been imported, else
    the one that uses integers."""
    # Each of the first two imports what it uses, so it must not be imported if that isn't there.
    if rows_module() is not None:
        from . import planes_by_c

        return planes_by_c
    if imported("numpy") is None:
        return planes_by_integers
    from . import planes_by_numpy

    return planes_by_numpy


def frame_of(cells: Cells) -> tuple[int, int]:
    """Returns the value with code 0, and the number of bits of a code: 0 and 1 if all rows are NULL."""
    ends = _turning().ends_of(cells)
    if ends is None:
        return 0, 1
    least, greatest = ends
    return least, max(1, (greatest - least).bit_length())


def plane_pieces(cells: Cells) -> Iterator[Bytes]:
    """Yields the bytes of a column after its presence: base, width, and the planes, highest first."""
    base, width = frame_of(cells)
    yield FRAME.pack(base, width)
    turning = _turning()
    planes: list[list[bytes]] = [[] for _ in range(width)]
    for start in range(0, len(cells.presence), _BLOCK_BYTES):
        presence, words = _block_of(cells, start)
        size = cells.column_type.bits // 8
        for plane, bits in zip(planes, turning.block_planes(presence, words, base, width, size)):
            plane.append(bits)
    yield from map(b"".join, reversed(planes))


def cells_in_planes(presence: memoryview, base: int, planes: Sequence[memoryview], rows: int, of: ColumnType) -> Cells:
    """Makes the cells of a column of `rows` rows. The planes are given highest first, and have no fault (fault_in)."""
    size = of.bits // 8
    turning = _turning()
    words: list[bytes] = []
    for start in range(0, len(presence), _BLOCK_BYTES):
        block = [plane[start : start + _BLOCK_BYTES] for plane in reversed(planes)]
        found = turning.block_words(presence[start : start + _BLOCK_BYTES], base, block, size)
        words.append(found[: size * (rows - 8 * start)])
    return Cells(rows, presence, b"".join(words), of)


def fault_in(presence: memoryview, base: int, planes: Sequence[memoryview], rows: int, of: ColumnType) -> str | None:
    """Returns why no table file can have this column, or None if one can. The planes are given highest first."""
    if rows % 8 and presence[-1] >> rows % 8:
        return "a bit past the last row"
    told = _turning().codes_told(presence, planes)
    if told.has_bit_at_null:
        return "a bit at a NULL"
    if told.greatest is None:
        return None if (base, len(planes)) == (0, 1) else "a base or a width without a value"
    if not told.has_zero:
        return "a base that is not the least value"
    if len(planes) != max(1, told.greatest.bit_length()):
        return "a width that is not the one of the greatest code"
    return None if of.least <= base and base + told.greatest <= of.greatest else f"a value that is no {of.name}"


def _block_of(cells: Cells, start: int) -> tuple[bytes, bytes]:
    """Returns presence and words of the block of rows whose presence begins at this byte: a word for each bit."""
    presence = bytes(cells.presence[start : start + _BLOCK_BYTES])
    size = cells.column_type.bits // 8
    length = 8 * size * len(presence)
    return presence, bytes(cells.words[8 * size * start : 8 * size * start + length]).ljust(length, b"\0")
