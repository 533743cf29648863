"""Bit planes by numpy: makes the same bytes as `planes_by_integers`, several times as fast."""

from __future__ import annotations

from collections.abc import Iterator, Sequence
from typing import Any

import numpy

from .cells import Cells
from .door import Bytes
from .planes_by_integers import EXCHANGES, CodesTold


def codes_told(presence: Bytes, planes: Sequence[Bytes]) -> CodesTold:
    """Returns what the planes say about the codes. They are given highest first."""
    present = numpy.frombuffer(presence, numpy.uint8)
    any_bit, candidates, greatest = numpy.zeros_like(present), present, 0
    for plane in planes:
        bits = numpy.frombuffer(plane, numpy.uint8)
        any_bit |= bits
        higher = candidates & bits
        is_set = bool(higher.any())
        candidates = higher if is_set else candidates
        greatest = 2 * greatest + is_set
    has_zero = bool((any_bit & present != present).any())
    return CodesTold(bool((any_bit & ~present).any()), has_zero, greatest if present.any() else None)


def ends_of(cells: Cells) -> tuple[int, int] | None:
    """Returns the least and the greatest value, or None if all rows are NULL."""
    size = cells.column_type.bits // 8
    values = numpy.frombuffer(cells.words, f"<i{size}")
    values = values[_bits(cells.presence)[: cells.rows] == 1]
    return (int(values.min()), int(values.max())) if len(values) else None


def block_words(presence: Bytes, base: int, planes: Sequence[Bytes], size: int) -> bytes:
    """Makes the words of a block of rows, of `size` bytes each, 0 if a row is NULL, from its planes, lowest first."""
    octets = numpy.zeros((len(presence), 8, size), numpy.uint8)
    for place in range(0, len(planes), 8):
        group = numpy.zeros((len(presence), 8), numpy.uint8)
        for bit, plane in enumerate(planes[place : place + 8]):
            group[:, bit] = numpy.frombuffer(plane, numpy.uint8)
        octets[:, :, place // 8] = _turned(group)
    codes = octets.reshape(-1).view(f"<u{size}")
    codes += codes.dtype.type(base % (1 << 8 * size))
    codes *= _bits(presence)
    return codes.tobytes()


def block_planes(presence: Bytes, words: Bytes, base: int, width: int, size: int) -> Iterator[bytes]:
    """Yields the planes of a block of rows, lowest first. There are as many words as the presence has bits."""
    codes = numpy.frombuffer(words, f"<u{size}").copy()
    codes -= codes.dtype.type(base % (1 << 8 * size))
    codes *= _bits(presence)
    octets = codes.view(numpy.uint8).reshape(-1, size)
    for place in range(0, width, 8):
        turned = _turned(octets[:, place // 8].reshape(-1, 8).copy())
        yield from (turned[:, bit].tobytes() for bit in range(min(8, width - place)))


def _bits(data: Bytes) -> Any:
    """Returns a byte for each bit, the lowest bit of a byte first."""
    return numpy.unpackbits(numpy.frombuffer(data, numpy.uint8), bitorder="little")


def _turned(group: Any) -> Any:
    """Transposes each eight bytes as an 8 by 8 bit matrix: bit i of byte k becomes bit k of byte i."""
    bits = group.view("<u8")
    for distance, mask in EXCHANGES:
        changed = (bits ^ bits >> numpy.uint64(distance)) & numpy.uint64(mask)
        bits ^= changed
        bits ^= changed << numpy.uint64(distance)
    return group
