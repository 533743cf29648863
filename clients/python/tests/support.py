"""Shared by the tests: sessions that end with their test, random rows, and simple answers to compare with."""

from __future__ import annotations

import contextlib
import random
import unittest
from collections.abc import Iterable, Iterator
from typing import Any, Optional
from unittest import mock

import bitcol

LEAST, GREATEST = -(2**31), 2**31 - 1
LEAST_BIGINT, GREATEST_BIGINT = -(2**63), 2**63 - 1
Value = Optional[int]


class SessionTestCase(unittest.TestCase):
    """A test with a session of its own."""

    def setUp(self) -> None:
        self.session = self.new_session()

    def new_session(self, **arguments: Any) -> bitcol.Session:
        """Opens another session, which is closed when the test ends."""
        session = bitcol.Session(**arguments)
        self.addCleanup(session.close)
        return session

    def assert_refused(self, number: int, statement: str, values: Iterable[Any] = ()) -> bitcol.Refused:
        """Executes a statement, checks that it is refused with this number, and returns the refusal."""
        with self.assertRaises(bitcol.Refused) as caught:
            self.session.execute(statement, tuple(values))
        self.assertEqual(caught.exception.number, number)
        return caught.exception


@contextlib.contextmanager
def only_python() -> Iterator[None]:
    """Until it ends, the package works as where its module in C isn't there."""
    with contextlib.ExitStack() as patches:
        for user in ("planes", "reply", "rows_by_c"):
            patches.enter_context(mock.patch(f"bitcol.{user}.rows_module", lambda: None))
        yield


def random_column(generator: random.Random, rows: int, null_share: float, bits: int = 32) -> list[Value]:
    """Returns values of `bits` bits in two's complement, of which this share is None."""
    least, greatest = -(2 ** (bits - 1)), 2 ** (bits - 1) - 1
    return [None if generator.random() < null_share else generator.randint(least, greatest) for _ in range(rows)]


def lower_median(values: Iterable[Value]) -> Value:
    """Returns the value number n / 2, rounded up, of n values in ascending order, counted from 1: the language's
    MEDIAN."""
    ascending = sorted(value for value in values if value is not None)
    return ascending[(len(ascending) + 1) // 2 - 1] if ascending else None
