"""The types of columns: integers of 32 and of 64 bits, each with NULL."""

from __future__ import annotations

from collections.abc import Callable
from enum import IntEnum

from .errors import DataRefused, ErrorNumber
from .reply import Reply


class ColumnType(IntEnum):
    """Which integers a column holds. The value is the type's number in a file, the name its word in statements."""

    INTEGER = 0
    BIGINT = 1

    @property
    def bits(self) -> int:
        """The number of bits of its integers in two's complement."""
        return 64 if self is ColumnType.BIGINT else 32

    @property
    def least(self) -> int:
        """The least integer of the type."""
        return -(2 ** (self.bits - 1))

    @property
    def greatest(self) -> int:
        """The greatest integer of the type."""
        return 2 ** (self.bits - 1) - 1


def column_types(execute: Callable[[str], Reply], table: str) -> dict[str, ColumnType]:
    """Returns the type of each column of a table, by its name, in order. Raises Refused if there is no such table.

    No statement returns a type. But an UPDATE with a number that a column can't hold is refused even if it finds no
    row, and an UPDATE that finds no row changes nothing.
    """
    names = execute(f"SELECT * FROM {table} WHERE 1 = 0").headings
    return {name: _type_of(execute, table, name) for name in names}


def _type_of(execute: Callable[[str], Reply], table: str, column: str) -> ColumnType:
    try:
        execute(f"UPDATE {table} SET {column} = {ColumnType.INTEGER.greatest + 1} WHERE 1 = 0")
    except DataRefused as refusal:
        if refusal.number != ErrorNumber.VALUE_OUT_OF_RANGE:
            raise
        return ColumnType.INTEGER
    return ColumnType.BIGINT
