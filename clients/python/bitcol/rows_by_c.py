"""Columns and rows of Python objects by the module in C: the same results as by Python, several times as fast.

Nothing is refused here. What the module in C doesn't take, such as a bool, a number of more than 64 bits or a row of
another length, is left to Python (`cells`), which converts or refuses it.
"""

from __future__ import annotations

from collections.abc import Iterator, Sequence
from dataclasses import dataclass
from typing import Any

from .door import Bytes
from .optional import rows_module

# The rows that one call of the module takes or gives, so that a call is short: other threads and interrupts wait for
# its end. Presence bits of a block are whole bytes.
BLOCK_ROWS = 8_192
_WORD_BYTES = 8


@dataclass(frozen=True)
class Numbers:
    """A column that was read: presence bits as in Cells, and blocks of words of 64 bits, 0 where a row is NULL."""

    rows: int
    presence: bytes
    blocks: Sequence[bytes]

    def words(self, size: int) -> bytes | None:
        """Returns the words with `size` bytes each, 4 or 8, or None if one is too great for that."""
        if size == _WORD_BYTES:
            return b"".join(self.blocks)
        narrowed: list[bytes] = []
        for block in self.blocks:
            words = rows_module().narrowed(block)
            if words is None:
                return None
            narrowed.append(words)
        return b"".join(narrowed)


def numbers_of(column: Sequence[Any]) -> Numbers | None:
    """Returns the numbers of a list or tuple of ints and None, or None if it is anything else, or the module in C isn't
    there."""
    module = rows_module()
    if module is None or type(column) not in (list, tuple):
        return None
    taken = []
    for start, end in _blocks(len(column)):
        block = module.column_in(column, start, end)
        if block is None:
            return None
        taken.append(block)
    return _joined(len(column), taken)


def numbers_of_rows(rows: Sequence[Any], width: int) -> list[Numbers] | None:
    """Returns the numbers of each column of rows of `width` ints and None, or None if they are anything else, or the
    module in C isn't there."""
    module = rows_module()
    if module is None or type(rows) not in (list, tuple):
        return None
    taken = []
    for start, end in _blocks(len(rows)):
        block = module.rows_in(rows, start, end, width)
        if block is None:
            return None
        taken.append(block)
    return [_joined(len(rows), [block[place] for block in taken]) for place in range(width)]


def list_of(presence: Bytes, words: Bytes, rows: int, size: int) -> list[int | None] | None:
    """Returns the cells of a column, whose words have `size` bytes, as Cells.to_list does, or None if the module in C
    isn't there."""
    module = rows_module()
    if module is None:
        return None
    cells: list[int | None] = []
    for start, end in _blocks(rows):
        bits = bytes(presence[start // 8 : (end + 7) // 8])
        cells += module.list_out(bits, bytes(words[start * size : end * size]), size)
    return cells


def rows_of(columns: Sequence[tuple[Bytes, Bytes, int]]) -> Iterator[tuple[int | None, ...]] | None:
    """Returns an iterator over the rows of columns of equal length, each given by its presence, its words and their
    size in bytes, or None if there is no column, or the module in C isn't there."""
    module = rows_module()
    if module is None or not columns:
        return None
    rows: Iterator[tuple[int | None, ...]]
    rows = module.Rows(*((bytes(presence), bytes(words), size) for presence, words, size in columns))
    return rows


def _blocks(rows: int) -> Iterator[tuple[int, int]]:
    """Yields the first row of each block, and the row after its last."""
    return ((start, min(start + BLOCK_ROWS, rows)) for start in range(0, rows, BLOCK_ROWS))


def _joined(rows: int, blocks: Sequence[tuple[bytes, bytes]]) -> Numbers:
    return Numbers(rows, b"".join(presence for presence, _ in blocks), [words for _, words in blocks])
