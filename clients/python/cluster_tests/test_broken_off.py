"""Changes that fail at each of their steps: the folder opens in the state before or after the change."""

from __future__ import annotations

import os
import shutil
import types
import unittest
from collections import Counter
from collections.abc import Callable
from pathlib import Path
from typing import Any
from unittest import mock

import bitcol
from bitcol import cluster
from bitcol.cluster import storage

from .support import PartsTestCase, say, write_csv

Change = Callable[[cluster.Table], object]
ALL = "SELECT * FROM t"
# The system calls by which a storage writes.
CALLS = ("fsync", "link", "replace", "open", "close")


class Faults:
    """Makes the step with this number fail, of all those by which files are put in place, and, if `is_end`, also all
    later ones: then the folder is left as by a process that was killed there."""

    def __init__(self, number: int, is_end: bool) -> None:
        self.number, self.is_end, self.made = number, is_end, 0

    def planted(self, call: Callable[..., Any]) -> Callable[..., Any]:
        """Returns a call whose step may fail."""

        def made(*arguments: Any, **rest: Any) -> Any:
            self.made += 1
            if self.made == self.number or (self.is_end and self.made > self.number):
                raise OSError(5, "planted")
            return call(*arguments, **rest)

        return made

    def broken_off(self, change: Callable[[], object]) -> bool:
        """Makes a change, and returns whether it reached the step that fails."""
        calls = types.SimpleNamespace(**vars(os))
        for name in CALLS:
            setattr(calls, name, self.planted(getattr(os, name)))
        with mock.patch.object(storage, "os", calls), mock.patch.object(Path, "unlink", self.planted(Path.unlink)), \
                mock.patch.object(storage, "open", self.planted(open), create=True):
            try:
                change()
            except bitcol.Error:
                pass
        return self.made >= self.number


class BrokenOff(PartsTestCase):
    def changes(self) -> dict[str, Change]:
        """Returns each call that changes a table."""
        more = [write_csv(self.folder / f"{name}.csv", [(number, 7)]) for number, name in enumerate("xy")]
        file = self.folder / "more.table"
        with bitcol.Session() as session:
            session.run(f"CREATE TABLE v (a INT, b INT); INSERT INTO v VALUES (5, 5); SAVE v TO '{file}'")
        return {
            "UPDATE": lambda table: table.sql("UPDATE t SET a = 9"),
            "DELETE": lambda table: table.sql("DELETE FROM t WHERE b = 2"),
            "INSERT": lambda table: table.sql("INSERT INTO t VALUES (8, NULL)"),
            "load": lambda table: table.load(more),
            "attach": lambda table: table.attach([file]),
            "compact": lambda table: table.compact(),
        }

    def test_faults_at_each_step_of_each_change(self) -> None:
        self.both("a INT, b INT", [[(1, 1), (2, 2)], [(3, None)], [(4, 2), (5, 3)]], "whole")
        seen: Counter[str] = Counter()
        for name, change in self.changes().items():
            change(self.copy(name))
            after = self.rows_of(name)
            for is_end in (False, True):
                number = 1
                while self.is_broken_off(name, change, Faults(number, is_end), after, seen):
                    number += 1
                self.assertGreater(number, 6, name)
        say(f"changes broken off at each of their steps, the folder then: {dict(seen)}")
        self.assertTrue(seen["as before"] and seen["as after"])

    def is_broken_off(self, name: str, change: Change, faults: Faults, after: bytes, seen: Counter[str]) -> bool:
        """Returns whether the change failed. Checks its folder."""
        before = self.rows_of("whole")
        copy = self.copy("copy")
        if not faults.broken_off(lambda: change(copy)):
            self.assertEqual(self.rows_of("copy"), after)
            return False
        there = cluster.open(self.client, self.folder / "copy")
        found = there.answer(ALL)
        self.assertIn(found, (before, after), (name, faults.number))
        self.assertEqual(there.version, 2 if found == before and before != after else there.version)
        self.assertEqual(self.rows_of("copy", 2), before)
        seen["as after" if there.version > 2 else "as before"] += 1
        # What the failed change left is removed, and the change can be made again.
        there.vacuum(0)
        self.assertEqual(self.rows_of("copy"), found)
        if there.version == 2:
            change(there)
            self.assertEqual(self.rows_of("copy"), after)
        return True

    def copy(self, name: str) -> cluster.Table:
        """Makes a copy of the table's folder, replacing an existing one."""
        shutil.rmtree(self.folder / name, ignore_errors=True)
        shutil.copytree(self.folder / "whole", self.folder / name)
        return cluster.open(self.client, self.folder / name)

    def rows_of(self, name: str, version: int | None = None) -> bytes:
        """Returns the rows of a folder's table."""
        return cluster.open(self.client, self.folder / name, version).answer(ALL)


if __name__ == "__main__":
    unittest.main()
