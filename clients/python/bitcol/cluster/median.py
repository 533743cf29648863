"""Finds the exact median over several parts, by rounds of counts.

The lower median of n values is the least value such that at least half of the values, rounded up, are less than or
equal to it (law medians_are_by_counts). So it can be found by counts alone, which add up over parts (counts_add_up) and
are queried by an additional condition (counts_are_asked). It lies between the least and the greatest of the parts' own
medians (medians_bound_the_median), and each round narrows that range. Each round checks that the range still contains
the median (ranks_are_narrowed). The laws are proved in the crate bw_merge.
"""

from __future__ import annotations

from collections.abc import Iterator, Sequence
from itertools import islice
from typing import Any

from ..errors import InternalError
from .select import Select

# How many values inside a range are tried in a round, besides its ends.
PROBES = 3
# If a range contains at most this many values, they are fetched.
FEW_VALUES = 100_000
# The most groups for which medians are searched.
GROUP_LIMIT = 256


class Search:
    """A search for a median: the value of some rank in a column, between `low` and `high`. Once these are equal, it is
    found. The cells of a group have the pair of ends at `place`, and get the median there."""

    def __init__(
        self, select: Select, column: str, terms: Sequence[str], count: int, cells: list[Any], place: int
    ) -> None:
        self._select, self._column, self._terms = select, column, terms
        self._cells, self._place = cells, place
        self._rank = (count + 1) // 2
        self._below = 0
        self._points: list[int] = []
        self.inside = count
        ends = cells[place]
        self.low, self.high = ends if ends is not None else (None, None)
        self._tell()

    @property
    def is_open(self) -> bool:
        """Whether the median isn't known yet."""
        return bool(self.low != self.high)

    def probes(self) -> list[str]:
        """Returns statements that count the values below the range, and those up to several points in it, the last of
        which is its end."""
        span, steps = self.high - self.low, PROBES + 1
        self._points = sorted({self.low + span * step // steps for step in range(1, steps + 1)})
        # The least value minus one may not be a valid literal, so the lower end is queried with `<`.
        terms = [f"{self._column} < {self.low}", *(f"{self._column} <= {point}" for point in self._points)]
        return [self._select.narrowed("COUNT(*)", *self._terms, term) for term in terms]

    def narrow(self, answers: Iterator[int]) -> None:
        """Narrows the range by the answers to its probes, each the sum over all parts."""
        counts = list(islice(answers, len(self._points) + 1))
        if not counts[0] < self._rank <= counts[-1]:
            raise InternalError("the ends of a median don't hold")
        at = next(at for at, count in enumerate(counts) if count >= self._rank)
        self._below, self.inside = counts[at - 1], counts[at] - counts[at - 1]
        self.low, self.high = self.low if at == 1 else self._points[at - 2] + 1, self._points[at - 1]
        self._tell()

    def fetch(self) -> str:
        """Returns the statement whose rows are the values in the range."""
        return self._select.narrowed(self._column, *self._terms, f"{self._column} BETWEEN {self.low} AND {self.high}")

    def pick(self, values: list[int]) -> None:
        """Takes all values in the range, and picks the median: the one whose rank among them is its rank minus the
        number of values below the range (laws ranks_are_narrowed and entries_have_ranks)."""
        if len(values) != self.inside:
            raise InternalError("the values of a median's range aren't as many as were counted")
        self.low = self.high = sorted(values)[self._rank - self._below - 1]
        self._tell()

    def _tell(self) -> None:
        self._cells[self._place] = self.low
