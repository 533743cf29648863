"""Parts of the shell by themselves: splitting lines into statements, rendering, completion, and charts."""

import io
import json
import os
import random
import tempfile
import unittest
from unittest import mock

import bitcol
from bitcol.reply import Reply, reply_of
from bitcol.script import statements_of
from bitcol.shell import console, terminal
from bitcol.shell.completion import WORDS, Catalog, completions
from bitcol.shell.plot import Canvas, bars, line, means
from bitcol.shell.render import Mode, rendered
from bitcol.shell.shell import Settings, Shell
from bitcol.shell.statements import Pending, Statement, StatementBuffer
from tests.support import SessionTestCase, random_column

CATALOG = Catalog({"VISITS": ("DAY", "SECONDS"), "SITES": ("SITE", "DAY")})


class Statements(unittest.TestCase):
    def test_lines_are_cut_as_the_client_cuts_scripts(self) -> None:
        generator = random.Random(5)
        pieces = ["a", ";", "'", "''", "--", "\n", " ", "-", "\t", "x;y", "'t;'", "-- c;\n"]
        for _ in range(20_000):
            script = "".join(generator.choices(pieces, k=generator.randint(1, 12)))
            try:
                expected = [statement[:-1] for statement in statements_of(script)]
            except bitcol.ProgrammingError:
                expected = None
            buffer = StatementBuffer()
            found = [statement for text in script.split("\n") for statement in buffer.add(text)]
            is_open = buffer.pending is Pending.TEXT
            found += [last] if (last := buffer.finish()) else []
            if expected is None:
                self.assertTrue(is_open, script)
            else:
                self.assertFalse(is_open, script)
                cut = [[statement_of.rstrip(b";").strip() for statement_of in statements_of(one.text)] for one in found]
                self.assertEqual([one for (one,) in cut], [_without_comments_before(one) for one in expected], script)

    def test_the_line_of_a_statement(self) -> None:
        buffer = StatementBuffer()
        self.assertEqual(buffer.add("-- first; and"), [])
        self.assertEqual(buffer.pending, Pending.NOTHING)
        buffer.skip()
        self.assertEqual(buffer.add("a"), [])
        self.assertEqual(buffer.add("; b; 'c"), [Statement("a\n", 3), Statement("b", 4)])
        self.assertEqual((buffer.pending, buffer.text, buffer.lines), (Pending.TEXT, "'c\n", 4))
        self.assertEqual(buffer.add("--'"), [])
        self.assertEqual(buffer.finish(), Statement("'c\n--'\n", 4))
        self.assertIsNone(buffer.finish())


def _without_comments_before(statement: bytes) -> bytes:
    """Returns a statement without the blanks and comments before it and the blanks after it."""
    rest = statement.strip()
    while rest.startswith(b"--"):
        rest = rest.partition(b"\n")[2].strip()
    return rest


class Rendering(SessionTestCase):
    def test_modes_of_many_rows_and_of_some(self) -> None:
        """What isn't limited is written in batches, and a batch is no line of the answer."""
        columns = {name: random_column(random.Random(name), 60_000, 0.2) for name in "AB"}
        self.session.write_table("t", columns)
        reply = self.session.execute("SELECT * FROM t")
        rows = list(zip(*columns.values()))
        self.assertGreater(len(list(reply.batches())), 2)
        for limit, shown in ((None, rows), (10, rows[:10])):
            as_csv = "".join(rendered(reply, Mode.CSV, limit)).splitlines()
            self.assertEqual(as_csv[0], "A,B")
            expected = [",".join("" if cell is None else str(cell) for cell in row) for row in shown]
            self.assertEqual(as_csv[1:], expected)
            table = "".join(rendered(reply, Mode.TABLE, limit)).splitlines()
            self.assertEqual(len(set(map(len, table))), 1)
            words = [["NULL" if cell is None else str(cell) for cell in row] for row in shown]
            self.assertEqual([line.split() for line in table[2:]], words)
            as_json = json.loads("".join(rendered(reply, Mode.JSON, limit)))
            self.assertEqual(as_json, [{"A": a, "B": b} for a, b in shown])
            markdown = "".join(rendered(reply, Mode.MARKDOWN, limit)).splitlines()
            self.assertEqual([line.strip("| ").split(" | ") for line in markdown[2:]], words)
            pairs = "".join(rendered(reply, Mode.LINE, limit)).split("\n\n")
            self.assertEqual([[line.partition(" = ")[2] for line in pair.splitlines()] for pair in pairs], words)

    def test_a_name_is_no_null(self) -> None:
        reply = reply_of(b"TABLE,COLUMNS,ROWS\nNULLS,1,0\nA,64,16777216\nrows 2\n")
        table = "".join(rendered(reply, Mode.TABLE, None, console.COLOURED))
        self.assertEqual(
            table,
            "\x1b[1mTABLE  COLUMNS      ROWS\x1b[0m\n-----  -------  --------\n"
            "NULLS        1         0\nA           64  16777216\n",
        )


class Progress(unittest.TestCase):
    def test_nothing_is_told_where_nobody_sees_it(self) -> None:
        stream = io.StringIO()
        with mock.patch.object(console, "QUIET_SECONDS", 0), console.Console(stream, stream).progress("t") as progress:
            progress.tell("50 %")
        self.assertEqual(stream.getvalue(), "")


class Faults(unittest.TestCase):
    def test_a_fault_of_the_shell_costs_nobody_the_tables(self) -> None:
        for is_typed in (True, False):
            stream = io.StringIO()
            shell = Shell(mock.Mock(), console.Console(stream, stream), Settings(), is_typed)
            if is_typed:
                shell.attempt(lambda: self.fail("a mistake"))
                self.assertEqual(stream.getvalue(), "error: a fault of the shell: AssertionError: a mistake\n")
            else:
                with self.assertRaisesRegex(AssertionError, "a mistake"):
                    shell.attempt(lambda: self.fail("a mistake"))
            with self.assertRaises(BrokenPipeError):
                shell.attempt(mock.Mock(side_effect=BrokenPipeError))

    def test_an_answer_that_is_too_long(self) -> None:
        stream = io.StringIO()
        shell = Shell(mock.Mock(), console.Console(stream, stream), Settings())
        shell.attempt(mock.Mock(side_effect=MemoryError))
        self.assertEqual(stream.getvalue(), "error: the answer is too long for the memory of this process\n")


class Interrupts(unittest.TestCase):
    def test_what_python_makes_of_two_at_once(self) -> None:
        stream = io.StringIO()
        shell = Shell(mock.Mock(), console.Console(stream, stream), Settings(), is_interactive=True)
        typed = mock.patch("builtins.input", side_effect=[SystemError, KeyboardInterrupt, "quit"])
        with typed, mock.patch.object(terminal, "_line_editing", return_value=None):
            terminal.interact(shell)
        self.assertEqual(stream.getvalue(), "Statements end with ; and .help lists the commands.\n\n\n")


class Completions(unittest.TestCase):
    def check(self, before: str, word: str, *expected: str) -> None:
        self.assertEqual(completions(before, word, CATALOG), list(expected))

    def test_words(self) -> None:
        self.check("", "SE", "SECONDS", "SELECT", "SET")
        self.check("", "sel", "select")
        self.check("DROP ", "TA", "TABLE", "TABLES")
        self.check("CREATE TABLE t (a ", "bi", "bigint")
        self.check("SELECT a FROM t ", "gr", "group")
        self.check("", "ST", "STATS")

    def test_tables_and_columns(self) -> None:
        self.check("SELECT * FROM ", "", "SITES", "VISITS")
        self.check("insert into ", "v", "visits")
        self.check("SELECT * FROM visits WHERE ", "si")
        self.check("SELECT * FROM sites WHERE ", "si", "site")
        self.check("SELECT 'FROM', -- FROM\n", "SI", "SITE")

    def test_commands(self) -> None:
        self.check("", ".t", ".tables", ".timer")
        self.check("", ".a", ".advise")
        self.check(".advise ", "VI", "VISITS")
        self.check(".advise visits ", "app", "apply")
        self.check(".mode ", "", "table", "csv", "json", "md", "line")
        self.check(".mo ", "j", "json")
        self.check(".export ", "V", "VISITS")
        self.check(".plot bars ", "s", "seconds", "site")
        self.check(".tables ", "V")
        self.check(".nonsense ", "V")
        self.check("SELECT\n", ".t")

    def test_files(self) -> None:
        self.addCleanup(os.chdir, os.getcwd())
        with tempfile.TemporaryDirectory() as folder:
            os.chdir(folder)
            for name in ("visits.csv", "visits.table", "[x].csv"):
                open(name, "w").close()
            os.mkdir("vault")
            self.check(".import ", "vi", "visits.csv", "visits.table")
            self.check(".export visits ", "va", "vault/")
            self.check("LOAD visits FROM '", "vi", "visits.csv", "visits.table")
            self.check(".read ", "[", "[x].csv")
            os.chdir("/")


class Charts(unittest.TestCase):
    def test_bars(self) -> None:
        text = "".join(bars(["1", "10", "NULL", "2"], [30, None, 60, 1], Canvas(24)))
        # 24 characters minus 4 for labels, 4 for values, and 3 beside the bars leave 13 for 60.
        self.assertEqual(text, "   1 ██████▌ 30\n  10 NULL\nNULL █████████████ 60\n   2 ▎ 1\n")

    def test_bars_of_nothing(self) -> None:
        self.assertEqual("".join(bars(["1", "2"], [0, None], Canvas(30))), "1 0\n2 NULL\n")
        self.assertEqual("".join(bars([], [], Canvas(30))), "")

    def test_bars_to_the_left(self) -> None:
        text = "".join(bars(["a", "b", "c"], [-10, 10, 0], Canvas(26)))
        # 26 minus 1, 3 and 3 leave 19: 10 left of 0 and 9 right of it.
        self.assertEqual(text, "a ██████████| -10\nb           |█████████ 10\nc           | 0\n")
        text = "".join(bars(["a"], [-10], Canvas(17)))
        self.assertEqual(text, "a ██████████| -10\n")

    def test_without_block_characters(self) -> None:
        text = "".join(bars(["1", "2"], [10, 5], Canvas(16, has_blocks=False)))
        self.assertEqual(text, "1 ########## 10\n2 ##### 5\n")

    def test_a_line(self) -> None:
        text = "".join(line([0, 63, None, 31], Canvas(40)))
        # A height of 8 blocks is 64 eighths: 0 is 1 of them, 63 is 64, and 31 is 32.
        self.assertEqual(text, "63  █\n" + "    █\n" * 3 + "    █ █\n" * 3 + " 0 ▁█ █\n   rows 1 to 4\n")

    def test_a_line_of_many_rows(self) -> None:
        text = "".join(line(list(range(1000)), Canvas(20))).splitlines()
        self.assertEqual(len(text), 9)
        self.assertEqual(text[-1], "    rows 1 to 1000, about 67 to a column, which is their mean")
        self.assertTrue(all(len(row) <= 20 for row in text[:-1]))

    def test_lines_of_one_value_and_of_none(self) -> None:
        self.assertEqual("".join(line([7, 7], Canvas(40))), "7\n" + "\n" * 3 + "  ██\n" * 3 + "7 ██\n  rows 1 to 2\n")
        self.assertEqual("".join(line([None], Canvas(40))), "1 row, and no value but NULL\n")

    def test_means(self) -> None:
        self.assertEqual(means([1, 2, None, None, 5, 7], 3), [1.5, None, 6.0])
        self.assertEqual(means([1, 2, 3], 2), [1.0, 2.5])


class Replies(unittest.TestCase):
    def test_first_rows_and_batches(self) -> None:
        data = b"A,B\n1,NULL\n-2,3\nrows 2\n"
        for is_read_before in (False, True):
            reply = reply_of(data)
            if is_read_before:
                reply.rows()
            self.assertEqual([reply.first_rows(limit) for limit in (0, 1, 5)], [[], [(1, None)], [(1, None), (-2, 3)]])
            self.assertEqual(list(reply.batches()), [[(1, None), (-2, 3)]])
            self.assertEqual(list(reply.lines("-")), ["1,-\n-2,3\n"])
            self.assertEqual(reply.rows(), [(1, None), (-2, 3)])

    def test_answers_without_rows(self) -> None:
        empty = reply_of(b"A\nrows 0\n")
        self.assertEqual((empty.first_rows(3), list(empty.batches())), ([], []))
        for call in (Reply(3).batches, lambda: Reply(3).lines("")):
            with self.assertRaises(bitcol.InterfaceError):
                list(call())
        names = reply_of(b"TABLE,COLUMNS,ROWS\nT,1,2\nrows 1\n")
        self.assertEqual((names.first_rows(1), list(names.batches())), ([("T", 1, 2)], [[("T", 1, 2)]]))
        self.assertEqual(list(names.lines("")), ["T,1,2\n"])
