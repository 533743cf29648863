"""Bit planes by Python's integers: a block of rows is one integer, so that each step works on thousands of rows."""

from __future__ import annotations

from collections.abc import Iterator, Sequence
from functools import lru_cache
from typing import NamedTuple

from .cells import Cells
from .door import Bytes

# Distance and mask of the bit exchanges that transpose an 8 by 8 bit matrix.
EXCHANGES = ((7, 0x00AA00AA00AA00AA), (14, 0x0000CCCC0000CCCC), (28, 0x00000000F0F0F0F0))


class CodesTold(NamedTuple):
    """What the planes of a column say about its codes."""

    has_bit_at_null: bool
    has_zero: bool  # whether a row that isn't NULL has code 0
    greatest: int | None  # the greatest code, or None if all rows are NULL


def codes_told(presence: Bytes, planes: Sequence[Bytes]) -> CodesTold:
    """Returns what the planes say about the codes. They are given highest first."""
    present = int.from_bytes(presence, "little")
    any_bit, greatest, candidates = 0, 0, present
    for plane in planes:
        bits = int.from_bytes(plane, "little")
        any_bit |= bits
        candidates = candidates & bits or candidates
        greatest = 2 * greatest + (candidates & bits != 0)
    return CodesTold(any_bit & ~present != 0, any_bit & present != present, greatest if present else None)


def ends_of(cells: Cells) -> tuple[int, int] | None:
    """Returns the least and the greatest value, or None if all rows are NULL."""
    values = cells.known_numbers()
    return (min(values), max(values)) if len(values) else None


def block_words(presence: Bytes, base: int, planes: Sequence[Bytes], size: int) -> bytes:
    """Makes the words of a block of rows, of `size` bytes each, 0 if a row is NULL, from its planes, lowest first."""
    octets = bytearray(8 * size * len(presence))
    for place in range(0, len(planes), 8):
        group = bytearray(8 * len(presence))
        for bit, plane in enumerate(planes[place : place + 8]):
            group[bit::8] = plane
        octets[place // 8 :: size] = _turned(group)
    present = _lanes(bytes(presence), size)
    greater = 1 << 8 * size - 1
    words = int.from_bytes(octets, "little") + present * (base + greater) ^ present * greater
    return words.to_bytes(len(octets), "little")


def block_planes(presence: Bytes, words: Bytes, base: int, width: int, size: int) -> Iterator[bytes]:
    """Yields the planes of a block of rows, lowest first. There are as many words as the presence has bits."""
    present = _lanes(bytes(presence), size)
    greater = 1 << 8 * size - 1
    # Counted from the least value of the type a value has no sign, so no lane borrows from the next.
    codes = (int.from_bytes(words, "little") ^ present * greater) - present * (base + greater)
    octets = codes.to_bytes(len(words), "little")
    for place in range(0, width, 8):
        turned = _turned(octets[place // 8 :: size])
        yield from (turned[bit::8] for bit in range(min(8, width - place)))


def _lanes(presence: bytes, size: int) -> int:
    """Returns a number with a lane of `size` bytes for each row: 1 if it isn't NULL, else 0."""
    bits = bytearray(8 * len(presence))
    bits[::8] = presence
    lanes = bytearray(8 * size * len(presence))
    lanes[::size] = _turned(bits)
    return int.from_bytes(lanes, "little")


def _turned(data: Bytes) -> bytes:
    """Transposes each eight bytes as an 8 by 8 bit matrix: bit i of byte k becomes bit k of byte i."""
    bits = int.from_bytes(data, "little")
    for (distance, _), mask in zip(EXCHANGES, _masks(len(data) // 8)):
        changed = (bits ^ bits >> distance) & mask
        bits ^= changed ^ changed << distance
    return bits.to_bytes(len(data), "little")


@lru_cache(maxsize=4)
def _masks(count: int) -> list[int]:
    """Returns the masks of the exchanges for `count` groups of eight bytes."""
    return [int.from_bytes(mask.to_bytes(8, "little") * count, "little") for _, mask in EXCHANGES]
