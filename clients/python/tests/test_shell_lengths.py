"""Answers that don't fit into memory, in the shell and below it."""

from __future__ import annotations

import io
import resource
import tempfile
from pathlib import Path
from unittest import mock

from bitcol.shell.console import Console
from bitcol.shell.exporting import export_table
from bitcol.shell.fault import Fault
from bitcol.shell.lengths import CELL_BYTES, cells_that_fit, check_length, selection_of
from bitcol.shell.render import Mode
from bitcol.shell.shell import Settings, Shell
from bitcol.shell.store import Store
from tests.support import SessionTestCase


class Lengths(SessionTestCase):
    def test_the_parts_of_a_select(self) -> None:
        parts = selection_of("select a -- FROM\n, b FROM t -- WHERE\nwhere a = 1")
        assert parts is not None
        found = (parts.items, parts.source, parts.condition)
        self.assertEqual(found, ("select a -- FROM\n, b ", "FROM t -- WHERE\n", "where a = 1"))
        self.assertEqual(parts.counting, "SELECT COUNT(*) FROM t -- WHERE\nwhere a = 1")
        self.assertEqual(parts.without_rows, "select a -- FROM\n, b FROM t -- WHERE\n\nWHERE 1 = 0")
        parts = selection_of("SELECT * FROM t")
        assert parts is not None
        self.assertEqual((parts.source, parts.condition), ("FROM t", ""))
        parts = selection_of("SELECT a -- ;\nFROM t WHERE a = 1; -- FROM u")
        assert parts is not None
        self.assertEqual(parts.counting, "SELECT COUNT(*) FROM t WHERE a = 1")
        parts = selection_of("SELECT a -- GROUP\nFROM t WHERE b = 1 -- ;\ngroup BY a; TABLES")
        assert parts is not None
        self.assertEqual(parts.by_group, "SELECT COUNT(*) FROM t WHERE b = 1 -- ;\ngroup BY a")
        self.assertEqual(parts.without_rows, "SELECT a -- GROUP\nFROM t \nWHERE 1 = 0 group BY a")
        parts = selection_of("SELECT a FROM t GROUP BY a")
        assert parts is not None
        self.assertEqual((parts.source, parts.condition, parts.grouping), ("FROM t ", "", "GROUP BY a"))
        for statement in (
            "TABLES",
            "DELETE FROM t",
            "SELECT a",
            "SELECT a WHERE b FROM t",
            "SELECT a FROM t GROUP BY a WHERE b = 1",
            "STATS SELECT a FROM t",
            "",
            "'SELECT a FROM t'",
        ):
            self.assertIsNone(selection_of(statement), statement)

    def test_answers_at_the_limit_and_past_it(self) -> None:
        self.session.write_table("t", {"a": range(10), "b": range(10)})
        self.session.write_table("u", {"a": range(99)})
        for statement in (
            "SELECT a, b FROM t -- all",
            "SELECT a FROM t WHERE b < 9",
            "SELECT a, a, a, a FROM t WHERE b < 5",
            "SELECT COUNT(*), SUM(a), SUM(a), SUM(a), SUM(a), SUM(a) FROM u",
            "SELECT nothing FROM u",
            "SELECT a, b FROM u WHERE nothing = 1",
            "INSERT INTO t VALUES (1, 2)",
        ):
            check_length(self.session, statement, 20)
        self.session.execute("INSERT INTO t VALUES (1, 2)")
        message = "the answer has 11 rows of 2 columns, which is 22 cells, and there is room for 20"
        with self.assertRaisesRegex(Fault, message):
            check_length(self.session, "SELECT * FROM t", 20)
        with self.assertRaisesRegex(Fault, "21 rows of 1 columns"):
            check_length(self.session, "SELECT a FROM u WHERE a > 77", 20)

    def test_groups(self) -> None:
        self.session.write_table("t", {"a": range(12), "b": [place // 2 for place in range(12)]})
        for statement in (
            "SELECT b, COUNT(*), SUM(a) FROM t GROUP BY b",
            "SELECT a, COUNT(*) FROM t WHERE b < 5 GROUP BY a",
            "SELECT nothing FROM t GROUP BY nothing",
            "SELECT * FROM t GROUP BY a",
        ):
            check_length(self.session, statement, 20)
        with self.assertRaisesRegex(Fault, "the answer has 12 rows of 2 columns, which is 24 cells"):
            check_length(self.session, "SELECT a, COUNT(*) FROM t GROUP BY a", 20)
        with self.assertRaisesRegex(Fault, "the answer has 6 rows of 4 columns, which is 24 cells"):
            check_length(self.session, "SELECT b, b, b, b FROM t GROUP BY b", 20)
        # There may be no room to count the groups.
        with self.assertRaisesRegex(Fault, "the answer may have 12 rows of 2 columns, which is 24 cells"):
            check_length(self.session, "SELECT b, COUNT(*) FROM t GROUP BY b", 11)

    def test_no_more_than_a_limit_on_processes(self) -> None:
        limits = (100 * CELL_BYTES, resource.RLIM_INFINITY)
        with mock.patch("resource.getrlimit", return_value=limits):
            self.assertEqual(cells_that_fit(), 100)
        self.assertGreater(cells_that_fit(), 1_000_000)


class ShellAnswers(SessionTestCase):
    """A shell with room for 20 cells."""

    def setUp(self) -> None:
        super().setUp()
        for module in ("shell", "exporting"):
            patch = mock.patch(f"bitcol.shell.{module}.cells_that_fit", return_value=20)
            patch.start()
            self.addCleanup(patch.stop)
        self.session.write_table("t", {"a": range(11), "b": range(11)})
        self.store = Store(lambda: self.session)
        self.out = io.StringIO()
        self.shell = Shell(self.store, Console(self.out, self.out), Settings(Mode.CSV))

    def test_a_long_answer_is_refused_and_the_shell_goes_on(self) -> None:
        self.shell.read_lines(["SELECT * FROM t;", "SELECT a FROM t WHERE a > 8;"])
        self.assertEqual(
            self.out.getvalue(),
            "line 1: error: the answer has 11 rows of 2 columns, which is 22 cells, and there is room for 20: "
            "choose fewer columns or rows, or SAVE the table\nA\n9\n10\n",
        )
        self.assertEqual(self.shell.failures, 1)

    def test_no_file_of_a_table_that_is_too_long(self) -> None:
        with tempfile.TemporaryDirectory() as folder:
            target = Path(folder, "t.csv")
            with self.assertRaisesRegex(Fault, "which is 22 cells, and there is room for 20"):
                export_table(self.store, "t", str(target))
            self.assertEqual(list(Path(folder).iterdir()), [])
            # A table file needs no answer.
            self.assertEqual(export_table(self.store, "t", str(target.with_suffix(".table"))), 11)
