"""Bit planes by the module in C: makes the same bytes as `planes_by_integers`, many times as fast."""

from __future__ import annotations

from collections.abc import Iterator, Sequence

from . import _rows
from .cells import Cells
from .door import Bytes
from .planes_by_integers import CodesTold


def codes_told(presence: Bytes, planes: Sequence[Bytes]) -> CodesTold:
    """Returns what the planes say about the codes. They are given highest first."""
    return CodesTold(*_rows.codes_told(bytes(presence), tuple(map(bytes, planes))))


def ends_of(cells: Cells) -> tuple[int, int] | None:
    """Returns the least and the greatest value, or None if all rows are NULL."""
    return _rows.ends_of(bytes(cells.presence), bytes(cells.words), cells.column_type.bits // 8)


def block_words(presence: Bytes, base: int, planes: Sequence[Bytes], size: int) -> bytes:
    """Makes the words of a block of rows, of `size` bytes each, 0 if a row is NULL, from its planes, lowest first."""
    return _rows.block_words(bytes(presence), base, tuple(map(bytes, planes)), size)


def block_planes(presence: Bytes, words: Bytes, base: int, width: int, size: int) -> Iterator[bytes]:
    """Yields the planes of a block of rows, lowest first. There are as many words as the presence has bits."""
    return iter(_rows.block_planes(bytes(presence), bytes(words), base, width, size))
