"""The shell's page: runs each of its examples, in order, in one folder.

Whatever the shell measures takes equally long here, so that what it advises depends on nothing but the example. With
the variable BITCOL_TAKE the page's outputs are first rewritten as they are now, with times that are measured. If other
load on the machine changed what was advised by these, the test fails, and they are to be taken again.
"""

from __future__ import annotations

import os
import unittest
from pathlib import Path

from tests.examples import MICROSECONDS, Room, runs_of, taken, without_times
from tests.terminal import ShellTestCase

PAGE = Path(__file__).resolve().parent.parent / "SHELL.md"


class Page(ShellTestCase):
    maxDiff = None

    def test_examples(self) -> None:
        if os.environ.get("BITCOL_TAKE"):
            self.take()
        examples = list(Room(self.folder).examples(PAGE.read_text(encoding="utf-8")))
        self.assertGreater(sum(len(list(runs_of(example.before))) for example in examples), 10)
        for example in examples:
            self.assertEqual(without_times(example.now), without_times(example.before))
        # The times are those of the even clock, on which nothing that is advised depends.
        times = [int(time) for example in examples for time in MICROSECONDS.findall(example.now)]
        self.assertTrue(times and all(time % 1_000 == 0 for time in times), times)

    def take(self) -> None:
        """Rewrites the page with its outputs as they are now."""
        folder = self.folder.parent / "taken" / "work"
        folder.mkdir(parents=True)
        text = PAGE.read_text(encoding="utf-8")
        PAGE.write_text(taken(text, Room(folder, measures=True).examples(text)), encoding="utf-8")


class Times(unittest.TestCase):
    FIRST = "a: 3 units, 120 microseconds\nA  MICROSECONDS  B\n-  ------------  -\nT            12  1\n0.012 s\n"
    SECOND = "a: 3 units, 7 microseconds\nA  MICROSECONDS  B\n-  ------------  -\nT             9  1\n1.000 s\n"

    def test_what_was_measured_is_left_out(self) -> None:
        self.assertEqual(without_times(self.FIRST), without_times(self.SECOND))

    def test_nothing_else_is_left_out(self) -> None:
        for before, after in (
            ("a: 3 units", "a: 4 units"),
            ("7 microseconds", "microseconds"),
            ("T  ", "U  "),
            ("  1\n", "  2\n"),
            ("  1\n", "  1  advised\n"),
            ("             9", "              "),
            ("             9", "            -9"),
            ("------------", "-----------"),
            ("1.000 s", "1.000"),
            ("1.000 s", "s"),
        ):
            changed = self.SECOND.replace(before, after)
            self.assertNotEqual(changed, self.SECOND)
            self.assertNotEqual(without_times(changed), without_times(self.FIRST), after)


if __name__ == "__main__":
    unittest.main()
