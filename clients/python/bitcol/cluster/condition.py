"""Finds the parts in which no row can meet a condition, by the least and the greatest value of each column.

For each condition it is determined which truth values it may have for a row of a part. If it can't be true, no row of
the part is found, and the part needn't be queried. What can't be parsed is assumed to have any truth value.
"""

from __future__ import annotations

import operator
from collections.abc import Callable, Mapping, Sequence
from functools import lru_cache
from itertools import product
from typing import Optional

from .manifest import Ends
from .select import Tokens

# Truth values are numbers, so that AND is the least of them, OR the greatest, and NOT the negative.
FALSE, UNKNOWN, TRUE = -1, 0, 1
Truths = frozenset[int]
_TRUTH_WORDS = {"TRUE": TRUE, "FALSE": FALSE, "UNKNOWN": UNKNOWN}
_COMPARISONS = ("=", "<>", "!=", "<", "<=", ">", ">=")
_MIRRORED = {"<": ">", "<=": ">=", ">": "<", ">=": "<="}

# An operand for a row: the least and the greatest value that it may have if it isn't NULL, or None if it is always
# NULL; and whether it may be NULL.
Operand = tuple[Optional[tuple[int, int]], bool]
NULL: Operand = (None, True)


class _Unread(Exception):
    """A condition that this reader can't parse."""


def may_be_met(condition: str | None, ends: Mapping[str, Ends]) -> bool:
    """Returns whether a row of a part with these ends may be found. Without a condition each row is found."""
    if condition is None:
        return True
    try:
        return TRUE in _Reader(_words(condition), ends).whole()
    except (_Unread, LookupError, ValueError, RecursionError):
        return True


@lru_cache(maxsize=64)
def _words(condition: str) -> Sequence[str]:
    return Tokens(condition).words


class _Reader:
    """Parses a condition by the language's grammar, and at the same time determines its possible truth values."""

    def __init__(self, words: Sequence[str], ends: Mapping[str, Ends]) -> None:
        self._words, self._ends, self._at = words, ends, 0

    def whole(self) -> Truths:
        """Returns the truth values of the whole condition."""
        truths = self._condition()
        if self._at < len(self._words):
            raise _Unread
        return truths

    def _next(self) -> str:
        return self._words[self._at] if self._at < len(self._words) else ""

    def _takes(self, *words: str) -> bool:
        found = tuple(self._words[self._at : self._at + len(words)]) == words
        self._at += len(words) if found else 0
        return found

    def _needs(self, *words: str) -> None:
        if not self._takes(*words):
            raise _Unread

    def _condition(self) -> Truths:
        truths = self._term()
        while self._takes("OR"):
            truths = _combined(max, truths, self._term())
        return truths

    def _term(self) -> Truths:
        truths = self._factor()
        while self._takes("AND"):
            truths = _combined(min, truths, self._factor())
        return truths

    def _factor(self) -> Truths:
        return _turned(self._test()) if self._takes("NOT") else self._test()

    def _test(self) -> Truths:
        truths = self._primary()
        if not self._takes("IS"):
            return truths
        turned, word = self._takes("NOT"), self._next()
        self._at += 1
        met = frozenset(TRUE if truth == _TRUTH_WORDS[word] else FALSE for truth in truths)
        return _turned(met) if turned else met

    def _primary(self) -> Truths:
        if self._takes("("):
            truths = self._condition()
            self._needs(")")
            return truths
        return self._predicate()

    def _predicate(self) -> Truths:
        operand = self._operand()
        if self._next() in _COMPARISONS:
            comparison = self._next()
            self._at += 1
            return _compared(comparison, operand, self._operand())
        if self._next() == "IS":
            return self._null_test(operand)
        turned = self._takes("NOT")
        if self._takes("BETWEEN"):
            low = self._operand()
            self._needs("AND")
            truths = _combined(min, _compared(">=", operand, low), _compared("<=", operand, self._operand()))
        else:
            self._needs("IN", "(")
            truths = _compared("=", operand, self._operand())
            while self._takes(","):
                truths = _combined(max, truths, _compared("=", operand, self._operand()))
            self._needs(")")
        return _turned(truths) if turned else truths

    def _null_test(self, operand: Operand) -> Truths:
        self._needs("IS")
        turned = self._takes("NOT")
        self._needs("NULL")
        span, may_be_null = operand
        truths = frozenset(([TRUE] if may_be_null else []) + ([] if span is None else [FALSE]))
        return _turned(truths) if turned else truths

    def _operand(self) -> Operand:
        word = self._next()
        self._at += 1
        if word in ("+", "-"):
            number = int(self._next()) * (-1 if word == "-" else 1)
            self._at += 1
            return (number, number), False
        if word == "NULL":
            return NULL
        if word.isdigit():
            return (int(word), int(word)), False
        ends = self._ends[word]
        if ends.least is None or ends.greatest is None:
            return NULL
        return (ends.least, ends.greatest), ends.nulls > 0


def _compared(comparison: str, left: Operand, right: Operand) -> Truths:
    """Returns the truth values of a comparison of two operands, which are assumed to be independent of each other."""
    (span, is_nullable), (other, other_is_nullable) = left, right
    unknown: Truths = frozenset({UNKNOWN} if is_nullable or other_is_nullable else ())
    if span is None or other is None:
        return unknown
    return unknown | _order_truths(comparison, span, other)


def _order_truths(comparison: str, span: tuple[int, int], other: tuple[int, int]) -> Truths:
    if comparison in ("<>", "!="):
        return _turned(_order_truths("=", span, other))
    if comparison in (">", ">="):
        return _order_truths(_MIRRORED[comparison], other, span)
    if comparison == "=":
        meets = span[0] <= other[1] and other[0] <= span[1]
        is_one = span[0] == span[1] == other[0] == other[1]
        return frozenset(([TRUE] if meets else []) + ([] if is_one else [FALSE]))
    order: Callable[[int, int], bool] = operator.lt if comparison == "<" else operator.le
    some = [TRUE] if order(span[0], other[1]) else []
    return frozenset(some + ([] if order(span[1], other[0]) else [FALSE]))


def _turned(truths: Truths) -> Truths:
    return frozenset(-truth for truth in truths)


def _combined(choose: Callable[..., int], one: Truths, other: Truths) -> Truths:
    """Returns the truth values of AND (the lesser) or OR (the greater) of two conditions."""
    return frozenset(choose(*pair) for pair in product(one, other))
