"""Codes of values (docs/LAYOUTS.md): what a column of a kind makes of values, and of the constants of a condition.

No answer but that of STATS depends on any of this.
"""

from bisect import bisect_left, bisect_right
from collections.abc import Iterable
from dataclasses import dataclass

from model.tree import Coding, Value

Ends = tuple[int, ...]  # the codes that a scan compares with: none if it reads nothing, and two for a range


def width_of(code: int) -> int:
    """How many bits a code has, at least 1."""
    return max(1, code.bit_length())


@dataclass(frozen=True, slots=True)
class Offset:
    """Codes that are the values' distances from a base."""

    base: int = 0
    width: int = 1

    @property
    def top(self) -> int:
        """The greatest value that has a code."""
        return self.base + 2**self.width - 1

    def has_code(self, value: int) -> bool:
        """Whether the value has a code."""
        return self.base <= value <= self.top

    def code(self, value: int) -> int:
        """The code of a value that has one."""
        return value - self.base

    def ends(self, relation: str, constant: int) -> Ends:
        """What a comparison with a constant compares codes with."""
        return (constant - self.base,) if self.has_code(constant) else ()

    def range_ends(self, low: int, high: int) -> Ends:
        """What a range compares codes with: nothing if no value lies in it, or all do."""
        low, high = max(low, self.base), min(high, self.top)
        if low > high or (low, high) == (self.base, self.top):
            return ()
        return low - self.base, high - self.base


@dataclass(frozen=True, slots=True)
class Dictionary:
    """Codes that are indexes in the sorted list of distinct values."""

    entries: tuple[int, ...] = ()

    @property
    def width(self) -> int:
        """How many bits a code has."""
        return width_of(max(0, len(self.entries) - 1))

    def has_code(self, value: int) -> bool:
        """Whether the value has a code."""
        place = bisect_left(self.entries, value)
        return place < len(self.entries) and self.entries[place] == value

    def code(self, value: int) -> int:
        """The code of a value that has one."""
        return bisect_left(self.entries, value)

    def ends(self, relation: str, constant: int) -> Ends:
        """What a comparison with a constant compares codes with: nothing if no entry meets it, or all do."""
        below, upto = bisect_left(self.entries, constant), bisect_right(self.entries, constant)
        if relation in ("=", "<>"):
            return () if below == upto else (below,)
        end = below if relation in ("<", ">=") else upto
        return () if end in (0, len(self.entries)) else (end,)

    def range_ends(self, low: int, high: int) -> Ends:
        """What a range compares codes with: nothing if no entry lies in it, or all do."""
        below, upto = bisect_left(self.entries, low), bisect_right(self.entries, high)
        if upto <= below or (below, upto) == (0, len(self.entries)):
            return ()
        return below, upto - 1


Encoding = Offset | Dictionary


def encoding_of(coding: Coding, cells: Iterable[Value]) -> Encoding:
    """The encoding that fits these values."""
    values = {cell for cell in cells if cell is not None}
    if coding is Coding.DICTIONARY:
        return Dictionary(tuple(sorted(values)))
    return Offset(min(values), width_of(max(values) - min(values))) if values else Offset()
