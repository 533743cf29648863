"""Worked statements over the same rows in one store and in parts: the answers are the same bytes."""

from __future__ import annotations

import unittest
from typing import Any
from unittest import mock

import bitcol
from bitcol import cluster
from bitcol.cluster import direct, holding, questions
from bitcol.cluster.programs import opened
from bitcol.cluster.questions import Questions

from .support import ClusterTestCase, PartsTestCase, start_cluster

try:
    from distributed import wait
except ImportError:
    pass


class Answers(PartsTestCase):
    def test_medians(self) -> None:
        """Parts whose medians are far apart, all equal, or at the ends of a type, and parts with only NULLs."""
        least, greatest = -(2**63), 2**63 - 1
        parts = [
            [(least, 1), (least, 2), (greatest, None)],
            [(greatest, 5), (0, 5)],
            [(None, 5), (None, 5)],
            [(least, 7), (greatest, 9), (greatest, 11), (1, 13)],
        ]
        table, one = self.both("a BIGINT, b INT", parts)
        for few in (0, 2, 100):
            with mock.patch.object(questions, "FEW_VALUES", few):
                for rest in ("", " WHERE a > 0", " WHERE a IS NULL", " WHERE b < 6 OR b IS NULL", " WHERE b > 100"):
                    self.same(table, one, f"SELECT MEDIAN(a), MEDIAN(b), COUNT(*), SUM(a) FROM t{rest}")

    def test_long_and_deep_statements(self) -> None:
        table, one = self.both("a INT", [[(1,)], [(3,)], [(9,)]])
        deep = "(" * 64 + "a > 0" + ")" * 64
        self.same(table, one, f"SELECT COUNT(*) FROM t WHERE {deep}")
        self.same(table, one, f"SELECT a FROM t WHERE ({deep})")
        long = "SELECT MEDIAN(a) FROM t WHERE a > 0".ljust(65_536)
        self.same(table, one, long)
        self.same(table, one, long + " ")
        ask = f"SELECT MEDIAN(a) FROM t WHERE {deep}"
        self.refused("too deep", lambda: table.answer(ask), bitcol.NotSupportedError)
        terms = " OR ".join(["a = 1"] * 7_200)
        full = f"SELECT MEDIAN(a) FROM t WHERE a > 0 OR {terms}"
        full += f" OR a = {'1'.zfill(65_536 - len(full) - 8)}"
        self.assertEqual(len(full), 65_536)
        self.assertFalse(one.answers([full])[0].startswith(b"error"))
        self.refused("too long", lambda: table.answer(full), bitcol.NotSupportedError)

    def test_other_statements(self) -> None:
        table, _ = self.both("a INT", [[(1,)]])
        others = ("DROP TABLE t", "TABLES", "REBUILD t", "SAVE t TO 'x'", "CREATE TABLE u (a INT)")
        for statement in others:
            self.refused("of a table of parts", lambda: table.answer(statement), bitcol.NotSupportedError)
        for statement in ("", "SELECT a FROM t; SELECT a FROM t", "SELECT 'a FROM t"):
            self.refused("", lambda: table.answer(statement), bitcol.ProgrammingError)
        self.assertEqual(table.sql("SELECT a FROM t WHERE a = ?", [1]).rows(), [(1,)])
        self.assertEqual(table.sql("SELECT COUNT(*) FROM t").scalar(), 1)
        self.refused("no such column", lambda: table.sql("SELECT z FROM t"), bitcol.StatementRefused)

    def test_stats(self) -> None:
        """The number of a STATS is the sum over the parts that its SELECT is sent to, and it is refused like that
        SELECT."""
        rows = [(number, number % 7) for number in range(600)]
        table, one = self.both("a INT, b INT USING S", [rows[:300], rows[300:]], together=1)
        for condition, places in (("a <> 5", [0, 1]), ("b < 3", [0, 1]), ("a > 299 AND b = 1", [1]), ("a > 600", [0])):
            statement = f"STATS SELECT a FROM t WHERE {condition}"
            units = 0
            for place in places:
                with opened(table._place, table.manifest.parts[place]) as session:
                    units += session.execute(statement).count
            self.assertEqual(table.answer(statement), b"units %d\n" % units, statement)
            self.assertTrue(table.sql(statement).is_units)
        for statement in ("STATS SELECT z FROM t", "STATS SELECT a FROM u", "STATS TABLES", "STATS", "STATS SELECT",
                          "STATS SELECT a FROM t WHERE", "STATS SELECT a, COUNT(*) FROM t"):
            self.assertEqual([table.answer(statement)], one.answers([statement]), statement)

    def test_rows(self) -> None:
        parts = [[(number, number % 3 or None) for number in range(start, start + 50)] for start in (0, 50, 100)]
        table, one = self.both("a INT, b INT", parts, together=2)
        for statement in ("SELECT b, a FROM t WHERE a < 120", "SELECT * FROM t", "SELECT a FROM t WHERE a < 0"):
            for ahead in (1, 2, 9):
                self.assertEqual(list(table.rows(statement, ahead=ahead)), one.execute(statement).rows())
        self.refused("no such column", lambda: list(table.rows("SELECT z FROM t")), bitcol.StatementRefused)
        self.refused("one by one", lambda: list(table.rows("SELECT COUNT(*) FROM t")), bitcol.NotSupportedError)

    def test_parts_that_a_condition_cannot_meet(self) -> None:
        table, one = self.both("a INT, b INT", [[(day, 1), (day, None)] for day in range(5)], together=1)
        for condition, wanted in (("a = 3", 1), ("a > 2", 2), ("b IS NULL", 5), ("b > 1", 1), ("NOT (a < 4)", 1)):
            groups = table._questions._asked_groups(condition)
            self.assertEqual(sum(len(which) for _, which in groups), wanted, condition)
            self.same(table, one, f"SELECT * FROM t WHERE {condition}")
            self.same(table, one, f"SELECT COUNT(*), SUM(b), MEDIAN(a) FROM t WHERE {condition}")


class Groups(PartsTestCase):
    def test_groups_of_several_parts(self) -> None:
        """Groups that occur in several parts, including that of NULL, with medians far apart."""
        parts = [
            [(None, 1), (None, 2), (1, 5), (2, None)],
            [(None, 100), (None, 101), (1, 7), (None, 50)],
            [(1, -3), (None, None), (3, 9)],
        ]
        table, one = self.both("a INT, b BIGINT", parts)
        for few in (0, 100):
            with mock.patch.object(questions, "FEW_VALUES", few):
                for rest in ("", " WHERE b < 101 OR b IS NULL", " WHERE a IS NULL", " WHERE b > 1000"):
                    for items in ("a, MEDIAN(b)", "MEDIAN(b), COUNT(b), MEDIAN(a)", "COUNT(*)", "a", "SUM(b), a"):
                        self.same(table, one, f"SELECT {items} FROM t{rest} GROUP BY a")

    def test_too_many_medians(self) -> None:
        rows = [(number, number) for number in range(20)]
        table, one = self.both("a INT, b INT", [rows, [(a, -b - 1) for a, b in rows]])
        self.same(table, one, "SELECT a, MEDIAN(b) FROM t GROUP BY a")
        with mock.patch.object(questions, "GROUP_LIMIT", 19):
            self.refused("more than 19 groups", lambda: table.answer("SELECT a, MEDIAN(b) FROM t GROUP BY a"))


def forget() -> None:
    """On a worker: nothing is held here any more, as far as calls to workers can see."""
    holding._holdings.clear()


class AnswersOfWorkers(ClusterTestCase, Answers):
    """The same with two workers."""

    THREADS = 2

    def test_versions_share_open_parts(self) -> None:
        table, one = self.both("a INT", [[(number,)] for number in range(8)], together=2)
        first = cluster.open(self.client, self.folder / "table", together=2)
        self.same(first, one, "SELECT SUM(a) FROM t")
        self.assertEqual(table.sql("UPDATE t SET a = 70 WHERE a = 7").count, 1)
        self.assertEqual(table.sql("SELECT SUM(a) FROM t").scalar(), 28 + 63)
        self.assertEqual(first.sql("SELECT SUM(a) FROM t").scalar(), 28)

    def test_calls_and_tasks(self) -> None:
        """Queries are calls to the workers, and tasks if these don't hold a part any more or can't be reached."""
        statements = ("SELECT a FROM t WHERE a > 2", "SELECT COUNT(*), MEDIAN(a) FROM t", "STATS SELECT a FROM t")
        table, _ = self.both("a INT", [[(number,)] for number in range(8)], together=2)
        wait([group.holding for group in table._questions.groups])
        with mock.patch.object(Questions, "_tasks", side_effect=AssertionError):
            found = [table.answer(statement) for statement in statements]
        self.assertEqual(found[0], b"A\n3\n4\n5\n6\n7\nrows 5\n")
        self.client.run(forget)
        with mock.patch.object(Questions, "_tasks", autospec=True, side_effect=Questions._tasks) as tasks:
            self.assertEqual([table.answer(statement) for statement in statements], found)
            self.assertGreaterEqual(tasks.call_count, 3)
        again = cluster.open(self.client, self.folder / "table", together=1)
        wait([group.holding for group in again._questions.groups])
        self.addCleanup(direct._unreached.clear)
        workers, connect, refused = self.client.scheduler_info()["workers"], self.client.rpc.connect, []

        def connect_to_no_worker(address: str, *arguments: Any, **rest: Any) -> Any:
            if address in workers:
                refused.append(address)
                raise OSError("planted")
            return connect(address, *arguments, **rest)

        with mock.patch.object(self.client.rpc, "connect", connect_to_no_worker):
            self.assertEqual([again.answer(statement) for statement in statements], found)
        self.assertIn(len(refused), range(1, self.WORKERS + 1))

    def test_where_parts_lie_is_asked_once(self) -> None:
        """It is asked again where a worker holds them no more, or is gone."""
        workers, client = start_cluster(2)
        self.addCleanup(workers.close)
        self.addCleanup(client.close)
        self.both("a INT", [[(number,)] for number in range(8)])
        table = cluster.open(client, self.folder / "table", together=2)
        wait([group.holding for group in table._questions.groups])
        with mock.patch.object(client, "who_has", side_effect=client.who_has) as asked:
            for _ in range(3):
                self.assertEqual(table.sql("SELECT SUM(a) FROM t").scalar(), 28)
            self.assertEqual(asked.call_count, 1)
            client.retire_workers([min(client.scheduler_info()["workers"])])
            for _ in range(4):
                self.assertEqual(table.sql("SELECT SUM(a), MEDIAN(a) FROM t").rows(), [(28, 3)])
            self.assertEqual(set(table._questions._calls._addresses.values()), set(client.scheduler_info()["workers"]))

    # Tests that take many rounds, or need no worker, are run only in this process.
    test_long_and_deep_statements = test_other_statements = test_medians = None  # type: ignore[assignment]


if __name__ == "__main__":
    unittest.main()
