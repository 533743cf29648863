"""Parts that are open in one program: what one script queries, under which names, and the effects of faults."""

from __future__ import annotations

import os
import signal
import time
import unittest
from collections.abc import Iterator, Sequence
from contextlib import contextmanager
from pathlib import Path
from unittest import mock

import bitcol
from bitcol import cluster
from bitcol.cluster import programs
from bitcol.cluster.holding import Holding
from bitcol.cluster.manifest import Part
from bitcol.cluster.programs import PARTS, Program
from bitcol.script import RESERVED
from bitcol.session import Session

from .support import PartsTestCase, Row, write_csv

QUESTIONS = (
    "SELECT COUNT(*), SUM(a), MIN(a), MAX(b) FROM t WHERE b < 3",
    "SELECT MEDIAN(a), MEDIAN(b) FROM t WHERE a <> 17",
    "SELECT b, COUNT(*), SUM(a), MEDIAN(a) FROM t GROUP BY b",
    "SELECT a, b FROM t WHERE b IS NULL OR a > 100",
)


def small_parts(count: int) -> list[list[Row]]:
    """Returns parts with a few rows each."""
    return [[(number * 5 + row, (number + row) % 5 or None) for row in range(4)] for number in range(count)]


def programs_of(table: cluster.Table) -> list[Program]:
    """Returns the programs of a table that is queried in this process, each once."""
    holdings = [group.holding.result() for group in table._questions.groups]
    return list(dict.fromkeys(part.program for holding in holdings for part in holding._open))


def process_of(program: Program) -> int:
    """Returns the process of a program."""
    return program._session._door._child.pid  # type: ignore[union-attr, attr-defined, no-any-return]


@contextmanager
def counted() -> Iterator[list[int]]:
    """Yields a list with the number of statements of each script that is sent during the context."""
    sent: list[int] = []
    answers = Session.answers

    def counting(session: Session, statements: Sequence[str], seconds: float | None = None) -> list[bytes]:
        if statements:
            sent.append(len(statements))
        return answers(session, statements, seconds)

    with mock.patch.object(Session, "answers", counting):
        yield sent


class Names(unittest.TestCase):
    def test_names(self) -> None:
        """Each is as long as the table's name, and different from it; none is reserved."""
        for table in ("A", "Z", "T", "AA", "AS", "B_", "DAY", "V" * 128):
            names = programs._names_like(table)
            self.assertEqual((len(set(names)), {len(name) for name in names}), (PARTS, {len(table)}))
            self.assertTrue(RESERVED.isdisjoint(names))
            self.assertNotIn(table, names)
            self.assertEqual([bitcol.script.checked_name(name) for name in names], list(names))

    def test_renamed(self) -> None:
        names = ("A", "B")
        for statement, wanted in (
            ("select sum(a) from t where t = 1", "select sum(a) from B where t = 1"),
            ("STATS SELECT t FROM -- FROM t\n\tT GROUP BY t", "STATS SELECT t FROM -- FROM t\n\tB GROUP BY t"),
            ("SELECT a FROM a", "SELECT a FROM T"),
            ("SELECT a FROM b WHERE x = 1", "SELECT a FROM T WHERE x = 1"),
            ("SELECT a FROM u", "SELECT a FROM u"),
            ("SELECT a FROM 't'", "SELECT a FROM 't'"),
            ("SELECT a FROM FROM t", "SELECT a FROM FROM t"),
            ("SELECT a FROM", "SELECT a FROM"),
            ("TABLES", "TABLES"),
        ):
            self.assertEqual(programs._renamed(statement, "T", names)("B"), wanted)
        # In upper case this letter is S.
        self.assertEqual(programs._renamed("SELECT a FROM \u017f", "S", names)("B"), "SELECT a FROM \u017f")


class Programs(PartsTestCase):
    def test_one_script_asks_all_parts_of_a_program(self) -> None:
        """More parts than fit into a program: answers are those of one store, and a query is one script for each
        program."""
        count = 2 * PARTS + 3
        table, one = self.both("a INT, b INT", small_parts(count), together=count)
        for statement in QUESTIONS:
            self.same(table, one, statement)
        self.assertEqual(len(programs_of(table)), 3)
        for statement in (QUESTIONS[0], "SELECT a FROM t WHERE b > 1", "STATS SELECT a FROM t WHERE b > 1"):
            with counted() as sent:
                table.answer(statement)
            self.assertEqual(sent, [PARTS, PARTS, 3], statement)
        with counted() as sent:
            table.answer("SELECT COUNT(*) FROM t WHERE a BETWEEN 10 AND 29")
        self.assertEqual(sent, [4])

    def test_other_tables(self) -> None:
        """Neither the names of parts nor any others are those of tables; and lengths stay as they were written."""
        table, one = self.both("a INT, t INT", [[(1, 2)], [(3, 4)], [(5, None)]], together=3)
        for name in (*programs._names_like("T"), "u", "tt", "t_", "1t", "'t'", "\u0165", "FROM t", "t t", ""):
            for statement in (f"SELECT COUNT(*) FROM {name}", f"STATS SELECT a FROM {name} WHERE t = 1"):
                self.assertEqual([table.answer(statement)], one.answers([statement]), statement)
        for statement in ("SELECT t FROM T WHERE t > 1", "select t, max(A) from -- from u\n t group by t",
                          "SELECT a FROM t".ljust(65_536), "SELECT SUM(a) FROM t".ljust(65_536),
                          "SELECT a FROM t".ljust(65_537), "SELECT SUM(a) FROM t".ljust(65_537)):
            self.assertEqual([table.answer(statement)], one.answers([statement]), statement[:60])

    def test_a_table_of_a_long_name(self) -> None:
        name, files = "visits", [write_csv(self.folder / f"{part}.csv", [(part,)]) for part in range(3)]
        table = cluster.create(self.client, self.folder / name, name, "a INT", together=3).load(files)
        with bitcol.Session() as one:
            one.execute(f"CREATE TABLE {name} (a INT)")
            for file in files:
                one.load(name, file)
            others = [f"SELECT a FROM {other}" for other in programs._names_like("VISITS")]
            for front in ("SELECT a FROM Visits", "SELECT SUM(a), MEDIAN(a) FROM VISITS"):
                for statement in (front, front.ljust(65_536), front.ljust(65_537), *others):
                    self.assertEqual([table.answer(statement)], one.answers([statement]), statement[:60])

    def test_a_script_and_its_answers_are_longer_than_pipes(self) -> None:
        """Neither blocks the other, whether scripts are cut or not."""
        parts = [[(part * 20_000 + row, None) for row in range(20_000)] for part in range(6)]
        table, one = self.both("a INT, b INT", parts, together=6)
        statement = "SELECT a, b FROM t".ljust(65_000)
        for length in (1, 3 * 65_000, 2**20):
            with mock.patch.object(programs, "SCRIPT_LENGTH", length), counted() as sent:
                found = table.answer(statement)
            self.assertEqual([found], one.answers([statement]))
            self.assertEqual(max(sent), {1: 1, 195_000: 3, 2**20: 6}[length])

    def test_parts_that_are_wanted_no_more(self) -> None:
        """Their tables are dropped, and their names reused: a program has only the parts of the version."""
        table, one = self.both("a INT, b INT", small_parts(PARTS - 4), together=PARTS)
        (program,) = programs_of(table)
        table.answer(QUESTIONS[0])
        process = process_of(program)
        for number in range(3 * PARTS):
            change = f"UPDATE t SET b = {number} WHERE a = {number % (PARTS - 4) * 5}"
            self.assertEqual([table.answer(change)], one.answers([change]))
            self.same(table, one, QUESTIONS[number % 4])
        self.assertEqual(programs_of(table), [program])
        # Those that were released last are dropped by the next query.
        self.same(table, one, QUESTIONS[0])
        self.assertEqual(len(program._session.tables()), len(table.manifest.parts))  # type: ignore[union-attr]
        self.assertEqual(process_of(program), process)
        del table, program
        self.assertFalse(Path(f"/proc/{process}").exists())

    def test_versions_share_programs(self) -> None:
        table, one = self.both("a INT, b INT", small_parts(6), together=3)
        before = cluster.open(self.client, self.folder / "table", together=3)
        first = programs_of(table)
        self.assertEqual((len(first), programs_of(before)), (2, first))
        wanted = before.answer("SELECT * FROM t")
        self.assertEqual(table.sql("UPDATE t SET b = 9 WHERE a < 5").count, 4)
        self.assertEqual(programs_of(table), first)
        self.assertEqual(before.answer("SELECT * FROM t"), wanted)
        one.execute("UPDATE t SET b = 9 WHERE a < 5")
        self.same(table, one, "SELECT * FROM t")


class Faults(PartsTestCase):
    def slow(self, script: str) -> str:
        """Returns a program that runs this code before it is given its input: `data`."""
        path = self.folder / f"program-{len(list(self.folder.glob('program-*')))}.sh"
        path.write_text(
            "#!/usr/bin/env python3\nimport os, pathlib, re, subprocess, sys, time\n"
            f"child = subprocess.Popen([{os.path.realpath(bitcol.find_program())!r}], stdin=subprocess.PIPE)\n"
            f"mark = pathlib.Path({str(path)!r} + '.mark')\n"
            "while data := os.read(0, 65536):\n"
            f"    {script}\n"
            "    child.stdin.write(data); child.stdin.flush()\n"
        )
        path.chmod(0o755)
        return str(path)

    def test_a_program_that_was_killed(self) -> None:
        table, one = self.both("a INT, b INT", small_parts(6), together=6)
        for statement in QUESTIONS:
            self.same(table, one, statement)
            (program,) = programs_of(table)
            killed = process_of(program)
            os.kill(killed, signal.SIGKILL)
            self.same(table, one, statement)
            self.assertNotEqual(process_of(program), killed)

    def test_a_program_that_ends_in_the_middle_of_a_script(self) -> None:
        """It has answered for some of the parts. Queried again it answers for all; if it ends again, that is
        reported."""
        table, one = self.both("a INT, b INT", small_parts(6), together=6)
        statement = QUESTIONS[0]
        (wanted,) = one.answers([statement])
        del table
        # It gets only the first statements, and is killed.
        cut = "data = data[: [found.end() for found in re.finditer(b';', data)][2]]"
        ends = f"{cut}; child.stdin.write(data); child.stdin.flush(); time.sleep(0.2); child.kill(); os._exit(7)"
        for condition, is_answered in (("not mark.exists()", True), ("True", False)):
            slow = self.slow(f"if b'SELECT COUNT' in data and {condition}: mark.write_text(''); {ends}")
            with mock.patch.dict(os.environ, {"BITCOL": slow}):
                again = cluster.open(self.client, self.folder / "table", together=6)
                if is_answered:
                    self.assertEqual(again.answer(statement), wanted)
                else:
                    error = self.refused("status 7", lambda: again.answer(statement), bitcol.ProgramEnded)
                    self.assertNotIsInstance(error, bitcol.OutOfTime)
                del again

    def test_the_part_that_took_too_long_is_named(self) -> None:
        table, one = self.both("a INT, b INT", small_parts(4), together=4)
        parts = table.manifest.parts
        del table
        slow = self.slow("if b'SELECT SUM' in data and b'FROM C' in data: time.sleep(30)")
        with mock.patch.dict(os.environ, {"BITCOL": slow}):
            again = cluster.open(self.client, self.folder / "table", together=4)
            for ask in ("SELECT SUM(a) FROM t", "SELECT SUM(a), MEDIAN(a) FROM t"):
                # All parts are open.
                self.assertEqual(again.sql("SELECT COUNT(*) FROM t", seconds=60).scalar(), 16)
                start = time.monotonic()
                error = self.refused("longer than it may", lambda: again.sql(ask, seconds=2), bitcol.OutOfTime)
                self.assertIn(parts[2].file, str(error))
                self.assertLess(time.monotonic() - start, 15)
            self.assertEqual(again.sql("SELECT COUNT(*) FROM t", seconds=60).scalar(), 16)
            del again
        self.same(cluster.open(self.client, self.folder / "table"), one, "SELECT SUM(a) FROM t")

    def test_a_turn_that_does_not_come(self) -> None:
        """A query of another thread takes longer than this one's limit."""
        table, _ = self.both("a INT, b INT", small_parts(2), together=2)
        (program,) = programs_of(table)
        statement, told = "SELECT SUM(a) FROM t", "longer than it may"
        with program._turn(None):
            error = self.refused(told, lambda: table.sql(statement, seconds=0.2), bitcol.OutOfTime)
        self.assertIn(table.manifest.parts[0].file, str(error))
        self.assertEqual(table.sql("SELECT COUNT(*) FROM t", seconds=30).scalar(), 8)

    def test_no_memory(self) -> None:
        """If a program gets no memory for one of its parts, that part is named; the others are queried as before."""
        table, one = self.both("a INT, b INT", small_parts(4), together=4)
        answers = Session.answers

        def short(session: Session, statements: Sequence[str], seconds: float | None = None) -> list[bytes]:
            replies = answers(session, statements, seconds)
            return [b"error 90: out of memory\n" if "FROM C" in each else reply
                    for each, reply in zip(statements, replies)]

        with mock.patch.object(Session, "answers", short):
            for statement in QUESTIONS:
                error = self.refused("out of memory", lambda: table.answer(statement), bitcol.StoreRefused)
                self.assertIn(table.manifest.parts[2].file, str(error))
            self.assertEqual(table.sql("SELECT COUNT(*) FROM t WHERE a < 10").scalar(), 8)
        self.same(table, one, QUESTIONS[0])

    def test_no_memory_to_open_a_part(self) -> None:
        """The part is named. Those that are open in the same program stay open."""
        table, one = self.both("a INT, b INT", small_parts(4), together=4)
        self.same(table, one, "SELECT COUNT(*) FROM t WHERE a < 10")
        (program,) = programs_of(table)
        process, put = process_of(program), Session.put_table

        def short(session: Session, name: str, data: bytes) -> int:
            if name == "C":
                raise bitcol.StoreRefused(90, "out of memory")
            return put(session, name, data)

        with mock.patch.object(Session, "put_table", short):
            for statement in QUESTIONS:
                error = self.refused("out of memory", lambda: table.answer(statement), bitcol.StoreRefused)
                self.assertIn(table.manifest.parts[2].file, str(error))
            self.same(table, one, "SELECT COUNT(*) FROM t WHERE a < 10")
        self.same(table, one, QUESTIONS[0])
        self.assertEqual(process_of(program), process)

    def test_a_damaged_part_among_others(self) -> None:
        """It is named when it is opened; those that are open in the same program stay open."""
        table, one = self.both("a INT, b INT", small_parts(4), together=4)
        part = table.manifest.parts[2]
        path = self.folder / "table" / part.file
        whole = path.read_bytes()
        (program,) = programs_of(table)
        self.same(table, one, "SELECT COUNT(*) FROM t WHERE a < 10 OR a > 14")
        process = process_of(program)
        path.write_bytes(whole[:-1])
        for statement in QUESTIONS:
            self.refused(f"part {path} is damaged", lambda: table.answer(statement), bitcol.DataError)
        self.same(table, one, "SELECT COUNT(*), SUM(a) FROM t WHERE a < 10")
        path.write_bytes(whole)
        self.same(table, one, QUESTIONS[0])
        self.assertEqual(process_of(program), process)


class Objects(PartsTestCase):
    def test_one_part_twice(self) -> None:
        """Parts with the same bytes are one file, and are queried as often as they occur."""
        rows = small_parts(1)[0]
        table, one = self.both("a INT, b INT", [rows, rows, rows], together=3)
        self.assertEqual(len({part.digest for part in table.manifest.parts}), 1)
        for statement in QUESTIONS:
            self.same(table, one, statement)

    def test_parts_of_programs_that_follow_one_another_no_more(self) -> None:
        """An object with parts in several programs returns their replies in order."""
        table, _ = self.both("a INT, b INT", small_parts(8), together=2)
        parts: list[Part] = [*table.manifest.parts[::2], *table.manifest.parts[1::2]]
        holding = Holding(table._place, parts)
        self.assertEqual(len({id(part.program) for part in holding._open}), 4)
        found = holding.answers([7, 0, 1, 4, 3], ["SELECT MIN(a) FROM t", "SELECT MAX(a) FROM t"], None)
        wanted = [[b"MIN(A)\n%d\nrows 1\n" % (5 * number), b"MAX(A)\n%d\nrows 1\n" % (5 * number + 3)]
                  for number in (7, 0, 2, 1, 6)]
        self.assertEqual(found, wanted)


if __name__ == "__main__":
    unittest.main()
