"""An index of where lines begin in the bytes of an answer, which may have millions of lines."""

from __future__ import annotations

from bisect import bisect_left
from itertools import accumulate

# The size of a block, whose lines are counted together: small enough that its lines are scanned quickly.
BLOCK_BYTES = 2**14


class LineIndex:
    """The number of lines before each block of bytes. To find a line, at most one block is scanned."""

    def __init__(self, data: bytes) -> None:
        """Makes the index of lines that each end with a line feed."""
        self._data = data
        counts = (data.count(b"\n", start, start + BLOCK_BYTES) for start in range(0, len(data), BLOCK_BYTES))
        self._before = list(accumulate(counts, initial=0))

    def start_of(self, line: int) -> int:
        """Returns the offset at which this line, counted from 0, begins, or the end if there are fewer lines."""
        if line <= 0:
            return 0
        if line > self._before[-1]:
            return len(self._data)
        # The line begins after as many line feeds as there are lines before it, and the last of these is in this block.
        block = bisect_left(self._before, line) - 1
        offset = block * BLOCK_BYTES
        for _ in range(line - self._before[block]):
            offset = self._data.index(b"\n", offset) + 1
        return offset
