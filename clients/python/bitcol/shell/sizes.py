"""Computes how many bytes a column's codes take, by the rule of docs/LAYOUTS.md: bits a row by layout and width."""

from __future__ import annotations

from dataclasses import dataclass

from ..session import Session
from ..table_file import Kind, Layout

# The bytes of an entry of a DICTIONARY.
ENTRY_BYTES = 8
# Wider codes take 64 bits in layout P.
NARROW_BITS = 32
WORD_BITS = 64


@dataclass(frozen=True)
class Values:
    """What the width of a column's codes depends on: the number of rows, the least and the greatest value, which are 0
    if there is none, and the number of distinct values."""

    rows: int
    least: int
    greatest: int
    distinct: int

    def width(self, kind: Kind) -> int:
        """Returns the bits of a code: as few as can hold the greatest code, and at least 1."""
        greatest = self.distinct - 1 if kind is Kind.DICTIONARY else self.greatest - self.least
        return max(greatest.bit_length() if greatest > 0 else 0, 1)

    def size(self, layout: Layout, kind: Kind) -> int:
        """Returns the bytes of all codes, plus those of the entries of a DICTIONARY."""
        entries = ENTRY_BYTES * self.distinct if kind is Kind.DICTIONARY else 0
        return codes_size(self.rows, layout, self.width(kind)) + entries


def codes_size(rows: int, layout: Layout, width: int) -> int:
    """Returns the bytes of `rows` codes of this width, rounded up."""
    if layout is Layout.H:
        return -(-rows * WORD_BITS // (8 * (WORD_BITS // (width + 1))))
    bits = {Layout.V: width, Layout.S: 8 * -(-width // 8), Layout.P: NARROW_BITS if width <= NARROW_BITS else WORD_BITS}
    return -(-rows * bits[layout] // 8)


def values_of(session: Session, table: str, column: str) -> Values:
    """Asks the store about a column's values."""
    statement = f"SELECT COUNT(*), COUNT({column}), MIN({column}), MAX({column}) FROM {table}"
    ((rows, known, least, greatest),) = session.execute(statement).rows()
    groups = len(session.execute(f"SELECT {column} FROM {table} GROUP BY {column}"))
    return Values(rows, least or 0, greatest or 0, groups - (known < rows))
