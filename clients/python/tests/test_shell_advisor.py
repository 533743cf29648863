"""Advice on layouts: the SELECTs that it is based on, the sizes by rule, the choice, and the command in the shell."""

from __future__ import annotations

import json
import os
import signal
import time
import unittest
from pathlib import Path

from bitcol import ColumnType, Kind, Layout
from bitcol.shell.advice import Advice, Choice, Columns, Figures, Trial, best_of, choices_for
from bitcol.shell.sizes import Values, codes_size, values_of
from bitcol.shell.workload import MOST_REMEMBERED, History, history_of
from bitcol.table_file import ColumnHeader, headers_of
from tests.support import SessionTestCase
from tests.terminal import PROMPT, ShellTestCase, even_clock

INTERRUPT = "\x03"
STANDS = "V OFFSET"


class Workloads(unittest.TestCase):
    def test_selects_by_table_and_by_what_they_read(self) -> None:
        history = History()
        for statement in (
            "SELECT a FROM t -- all\n WHERE  b = 1",
            "select a from t where b = 1",
            "SELECT a FROM t WHERE b = 1",
            "SELECT SUM(c), COUNT(*), d FROM t GROUP BY d",
            "SELECT * FROM t",
            "SELECT COUNT(*) FROM t",
            "SELECT a FROM t WHERE 1 = 0",
            "SELECT a FROM u WHERE b = 1",
            "DELETE FROM t WHERE b = 1",
            "STATS SELECT a FROM t WHERE b = 1",
        ):
            history.add(statement)
        found = [(work.statement, work.times, sorted(work.words)) for work in history.of("T")]
        self.assertEqual(
            found,
            [
                ("SELECT a FROM t WHERE b = 1", 2, ["B"]),
                ("select a from t where b = 1", 1, ["B"]),
                ("SELECT SUM(c), COUNT(*), d FROM t GROUP BY d", 1, ["C", "D"]),
            ],
        )

    def test_selects_of_a_file(self) -> None:
        lines = [".timer on\n", "SELECT a FROM t\n", "WHERE a < 3; DROP TABLE t;\n", "SELECT b FROM t WHERE b = 1"]
        statements = [work.statement for work in history_of(lines).of("T")]
        self.assertEqual(statements, ["SELECT a FROM t WHERE a < 3", "SELECT b FROM t WHERE b = 1"])

    def test_the_first_are_forgotten(self) -> None:
        history = History()
        for number in range(MOST_REMEMBERED + 2):
            history.add(f"SELECT a FROM t WHERE a = {number}")
        found = history.of("T")
        self.assertEqual((len(found), found[0].statement), (MOST_REMEMBERED, "SELECT a FROM t WHERE a = 2"))


class Sizes(SessionTestCase):
    def test_the_published_rule(self) -> None:
        """Bits a row in docs/LAYOUTS.md: k, 64 / s with s = floor(64 / (k + 1)), 8m with m = ceil(k / 8), 32 or 64."""
        for layout, width, bits in (
            (Layout.V, 10, 10),
            (Layout.H, 10, 64 / 5),
            (Layout.H, 31, 32),
            (Layout.H, 32, 64),
            (Layout.S, 8, 8),
            (Layout.S, 9, 16),
            (Layout.P, 1, 32),
            (Layout.P, 32, 32),
            (Layout.P, 33, 64),
        ):
            self.assertEqual(codes_size(4000, layout, width), 4000 * bits / 8, (layout, width))
        self.assertEqual((codes_size(1, Layout.V, 1), codes_size(0, Layout.H, 1)), (1, 0))

    def test_widths(self) -> None:
        for column, found in (
            ([7, None, 12, 7], (4, 7, 12, 2, 3, 1)),
            ([None, None], (2, 0, 0, 0, 1, 1)),
            ([], (0, 0, 0, 0, 1, 1)),
            ([-5], (1, -5, -5, 1, 1, 1)),
            ([-(2**63), 2**63 - 1, 0], (3, -(2**63), 2**63 - 1, 3, 64, 2)),
            ([0, 1023], (2, 0, 1023, 2, 10, 1)),
            ([0, 1024, 5], (3, 0, 1024, 3, 11, 2)),
        ):
            self.session.write_table("t", {"a": column})
            values = values_of(self.session, "t", "a")
            widths = values.width(Kind.OFFSET), values.width(Kind.DICTIONARY)
            self.assertEqual((values.rows, values.least, values.greatest, values.distinct, *widths), found)
            self.session.execute("DROP TABLE t")
        self.assertEqual(Values(8, 0, 9, 3).size(Layout.V, Kind.DICTIONARY), 2 + 3 * 8)

    def test_widths_are_those_of_the_store(self) -> None:
        """A comparison that no segment leaves early reads a plane for each bit."""
        self.session.write_table("t", {"a": [0, 1000, 999, 70_000]})
        values = values_of(self.session, "t", "a")
        for kind, constant in ((Kind.OFFSET, 1000), (Kind.DICTIONARY, 1000)):
            self.session.execute(f"REBUILD t (a USING V {kind.name})")
            units = self.session.execute(f"STATS SELECT a FROM t WHERE a = {constant}").count
            self.assertEqual(units, values.width(kind))


class Choices(unittest.TestCase):
    def test_no_bigint_in_layout_h(self) -> None:
        header = ColumnHeader("A", Layout.V, Kind.OFFSET, ColumnType.BIGINT)
        self.assertEqual({choice.layout for choice in choices_for(header)}, {Layout.V, Layout.S, Layout.P})
        self.assertEqual(len(choices_for(ColumnHeader("A", Layout.V, Kind.OFFSET))), 8)

    def test_the_smallest_of_the_quick_ones(self) -> None:
        first, second, third = (Choice(layout, Kind.OFFSET) for layout in (Layout.V, Layout.S, Layout.P))

        def best(*figures: tuple[float, int], standing: Choice = first) -> Choice:
            choices = zip((first, second, third), figures)
            trials = [Trial("A", choice, Figures(1, seconds), 1, size) for choice, (seconds, size) in choices]
            return best_of(trials, standing)

        self.assertEqual(best((9.0, 10), (5.0, 20), (8.0, 5)), second)
        self.assertEqual(best((6.0, 10), (5.0, 20), (8.0, 5)), first)
        self.assertEqual(best((6.0, 10), (5.0, 10), (5.5, 10)), first)
        self.assertEqual(best((6.0, 10), (5.0, 10), (5.5, 10), standing=third), third)
        self.assertEqual(best((6.0, 10), (5.0, 10), (9.0, 10), standing=third), second)


    def test_a_rebuild_that_is_worth_while(self) -> None:
        first, second = Choice(Layout.V, Kind.OFFSET), Choice(Layout.S, Kind.OFFSET)
        for best, standing, rebuilt, is_worthwhile in (
            (first, Figures(20, 1.0), Figures(10, 1.1), True),
            (first, Figures(20, 1.0), Figures(20, 0.1), False),
            (second, Figures(20, 1.0), Figures(30, 1.2), True),
            (second, Figures(20, 1.0), Figures(10, 1.3), False),
        ):
            advice = Advice([Columns([], first, best)], standing, "REBUILD t", rebuilt)
            self.assertEqual(advice.is_worthwhile, is_worthwhile, advice)


class Advised(ShellTestCase):
    """What is measured takes equally long with each choice, so sizes and units decide what is advised."""

    def setUp(self) -> None:
        super().setUp()
        self.clock = even_clock(self.folder.parent)
        lines = [f"{place // 16},{37 * place % 1000},{(5, 7_000_000_000)[place % 2]}\n" for place in range(256)]
        self.table = self.write("t.csv", "hour,level,site\n" + "".join(lines))

    def advice(self, typed: str) -> tuple[list[dict[str, object]], list[str]]:
        """Returns the answer, which is JSON, and the lines on standard error."""
        ended = self.run_shell(self.table, "--mode", "json", typed=typed, **self.clock)
        self.assertEqual(ended.returncode, 0, ended.stderr)
        return json.loads(ended.stdout), ended.stderr.splitlines()

    def test_what_was_measured(self) -> None:
        self.write("work.sql", "SELECT hour FROM t WHERE site = 5; SELECT hour FROM t WHERE site = 5 AND hour < 3;")
        rows, lines = self.advice(".advise t work.sql\n.advise t apply\n.export t t.table\n")
        self.assertEqual({row["COLUMN"] for row in rows}, {"HOUR", "SITE"})
        self.assertEqual(len(rows), 8 + 6)
        by_choice = {(row["COLUMN"], f"{row['LAYOUT']} {row['KIND']}"): row for row in rows}
        offset, dictionary = by_choice["SITE", STANDS], by_choice["SITE", "V DICTIONARY"]
        self.assertEqual((offset["WIDTH"], dictionary["WIDTH"]), (33, 1))
        self.assertEqual((offset["BYTES"], dictionary["BYTES"]), (256 * 33 // 8, 256 // 8 + 2 * 8))
        self.assertEqual(by_choice["SITE", "P OFFSET"]["UNITS"], 256 + 256 + 4)
        self.assertIn("stands", str(offset["NOTE"]))
        # Two SELECTs read SITE, one reads HOUR.
        self.assertEqual({(row["COLUMN"], row["MICROSECONDS"]) for row in rows}, {("SITE", 2_000), ("HOUR", 1_000)})
        self.assertEqual(lines[0], "1 x SELECT hour FROM t WHERE site = 5")
        self.assertRegex(lines[2], r"\Aas it stands: \d+ units, \d+ microseconds\Z")
        self.assertEqual(lines[3], "layout H isn't tried for SITE: it holds no BIGINT")
        self.assertRegex(lines[4], r"\AREBUILD T.*: \d+ units, \d+ microseconds\Z")

    def test_apply_sends_what_is_advised(self) -> None:
        """A column whose DICTIONARY is much smaller and no slower."""
        self.write("t.csv", "a\n" + "5\n2000000000\n" * 4_000)
        typed = "SELECT COUNT(*) FROM t WHERE a = 5;\n" * 2 + ".mode csv\n.advise t\n.export t before.table\n"
        typed += ".advise t apply\n.export t after.table\n.advise t apply\n"
        ended = self.run_shell("t.csv", typed=typed, **self.clock)
        lines = ended.stderr.splitlines()
        self.assertEqual(lines[0], "2 x SELECT COUNT(*) FROM t WHERE a = 5")
        self.assertEqual(lines[-1], "line 8: error: nothing is advised for T: .advise T measures it", lines)
        (before,), (after,) = (headers_of((self.folder / f"{name}.table").read_bytes()) for name in ("before", "after"))
        self.assertEqual((before.layout, before.kind), (Layout.V, Kind.OFFSET))
        self.assertIn(f"REBUILD T (A USING {after.layout.name} {after.kind.name})", ended.stderr)
        self.assertEqual(after.kind, Kind.DICTIONARY)

    def test_units_as_the_table_stands(self) -> None:
        """A column that is wider than its values need, with rows that are dead, and no fault of its copy."""
        wide = "UPDATE t SET level = 1000000 WHERE level = 0; UPDATE t SET level = 0 WHERE level = 1000000;\n"
        self.write("work.sql", "SELECT * FROM t WHERE level = 990")
        rows, lines = self.advice(f"{wide}.advise t work.sql\n")
        self.assertRegex(lines[1], r"\Aas it stands: 20 units, ")
        (standing,) = (row for row in rows if "stands" in str(row["NOTE"]))
        self.assertEqual((standing["UNITS"], standing["WIDTH"]), (10, 10))

    def test_what_cannot_be_measured(self) -> None:
        nothing = "no SELECT of this session reads a column of T in a condition, a set function or a GROUP BY"
        for typed, message in (
            (".advise t", nothing),
            ("SELECT COUNT(*) FROM t WHERE 1 = 0;.advise t", nothing),
            (".advise t none.sql", "none.sql: No such file or directory"),
            (".advise t apply", "nothing is advised for T: .advise T measures it"),
            (".advise", "usage: .advise TABLE [FILE|apply]"),
            (".advise 'a b'", "not a name: 'a b'"),
        ):
            ended = self.run_shell(self.table, typed=typed.replace(";", ";\n"))
            self.assertIn(message, ended.stderr)
            self.assertEqual(ended.returncode, 1)

    def test_selects_that_are_refused_are_left_out(self) -> None:
        self.write("work.sql", "SELECT nothing FROM t WHERE level = 1; SELECT * FROM t WHERE level = 1")
        _, lines = self.advice(".advise t work.sql")
        self.assertEqual(lines[0], "left out: SELECT nothing FROM t WHERE level = 1: error 22: no such column")
        self.assertEqual(lines[1], "1 x SELECT * FROM t WHERE level = 1")

    def test_stats_is_an_answer(self) -> None:
        self.assert_answers((self.table, "-c", "STATS SELECT level FROM t WHERE hour = 3"), "UNITS\n4\n")


class Undisturbed(ShellTestCase):
    """The table and the session after an advice that ended differently. The number in the file is that of the program
    that was started last: the copy's, which begins once it isn't held any more."""

    def setUp(self) -> None:
        super().setUp()
        program, self.number = self.observed_program()
        self.held = self.folder.parent / "held"
        wait = f"while [ -e '{self.held}' ]; do sleep 0.05; done"
        program.write_text(program.read_text().replace("exec ", f"{wait}\nexec "))
        self.write("t.csv", "a\n" + "".join(f"{place}\n" for place in range(500)))
        self.shell = self.terminal("t.csv", BITCOL=str(program))
        self.shell.say("SELECT COUNT(*) FROM t WHERE a < 3;")
        self.first = self.number.read_text()

    def start_advice(self) -> int:
        """Asks for advice, and returns the process of the copy's program, which is held."""
        self.held.touch()
        self.shell.press(".advise t\n")
        limit = time.monotonic() + 30
        while self.number.read_text() in (self.first, ""):
            self.assertLess(time.monotonic(), limit)
            time.sleep(0.005)
        return int(self.number.read_text())

    def assert_as_before(self) -> None:
        self.assertIn("\n       3\n", self.shell.say("SELECT COUNT(*) FROM t WHERE a < 3;"))
        self.assertIn("T            1   500\n1 row\n", self.shell.say(".tables"))
        self.assertEqual(self.shell.say(".export t t.table"), "500 rows to t.table\n")
        (header,) = headers_of((self.folder / "t.table").read_bytes())
        self.assertEqual((header.layout, header.kind), (Layout.V, Kind.OFFSET))
        self.assertIn("nothing is advised for T", self.shell.say(".advise t apply"))

    def test_an_interrupt(self) -> None:
        copy = self.start_advice()
        self.shell.wait_for("trying layouts: ")
        self.shell.press(INTERRUPT)
        self.shell.wait_for("interrupted: ")
        self.shell.wait_for(PROMPT)
        self.held.unlink()
        self.assert_as_before()
        limit = time.monotonic() + 30
        while Path(f"/proc/{copy}").exists():
            self.assertLess(time.monotonic(), limit, "the copy's program goes on")
            time.sleep(0.05)

    def test_the_end_of_the_program(self) -> None:
        """It doesn't count as an end of the copy, and another program is started."""
        self.start_advice()
        os.kill(int(self.first), signal.SIGKILL)
        self.held.unlink()
        said = self.shell.wait_for(PROMPT)
        self.assertIn("error: the program was killed by SIGKILL; its tables are gone\n", said)
        self.assertIn("another program was started, and it has no tables\n", said)

    def test_the_end_of_the_copy(self) -> None:
        os.kill(self.start_advice(), signal.SIGKILL)
        self.held.unlink()
        said = self.shell.wait_for(PROMPT)
        self.assertIn("error: the copy of T: the program was killed by SIGKILL; its tables are gone; T itself is", said)
        self.assert_as_before()


if __name__ == "__main__":
    unittest.main()
