"""Parses the texts of values in files."""

from __future__ import annotations

import re

from ..column_type import ColumnType

LONGEST_SHOWN = 40
NUMBER = re.compile(r"[+-]?[0-9]+")


def value_of(field: str, column_type: ColumnType) -> int | None:
    """Parses a CSV field as LOAD does: an integer, or NULL. Raises ValueError, with the reason, if it isn't a value of
    this type."""
    if field == "" or field.upper() == "NULL":
        return None
    if not NUMBER.fullmatch(field):
        raise ValueError(f"{_shortened(field)!r} is no integer")
    # Python parses only a few thousand digits. So leading zeros are removed, and a longer number is too large.
    digits = field.lstrip("+-0") or "0"
    if len(digits) > len(str(column_type.greatest)):
        raise ValueError(_too_large(_shortened(field), column_type))
    return checked(-int(digits) if field.startswith("-") else int(digits), column_type)


def checked(number: int, column_type: ColumnType) -> int:
    """Returns the integer. Raises ValueError, with the reason, if it is outside of the type."""
    if not column_type.least <= number <= column_type.greatest:
        raise ValueError(_too_large(str(number), column_type))
    return number


def _too_large(shown: str, column_type: ColumnType) -> str:
    """Returns why an integer outside of the type isn't a value."""
    return f"{shown} has more than {column_type.bits} bits, and a column holds {column_type.least} to {column_type.greatest}"


def _shortened(text: str) -> str:
    return text if len(text) <= LONGEST_SHOWN else text[:LONGEST_SHOWN] + ".."
