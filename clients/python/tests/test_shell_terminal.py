"""The shell in a terminal: prompts, statements over lines, completion, history, interrupts, and the row limit."""

import importlib.util
import os
import signal
import time
import unittest
from pathlib import Path

from bitcol.shell.csv_import import PART_BYTES
from tests.terminal import IN_TEXT, MORE, PROMPT, ShellTestCase, Terminal

HAS_READLINE = importlib.util.find_spec("readline") is not None
INTERRUPT = "\x03"
ROWS = 400_000


class Lines(ShellTestCase):
    def test_statements_over_lines(self) -> None:
        terminal = self.terminal()
        self.assertEqual(terminal.say("CREATE TABLE t (a INT, -- ; and '"[:-1], MORE), "")
        self.assertEqual(terminal.say("b INT);"), "ok\n")
        insert = "INSERT INTO t VALUES (1, 2), (NULL, -3); INSERT INTO t (a) VALUES (7);"
        self.assertEqual(terminal.say(insert), "ok, 2 rows\nok, 1 row\n")
        self.assertEqual(terminal.say("SELECT *", MORE), "")
        expected = "   A     B\n----  ----\n   1     2\nNULL    -3\n   7  NULL\n3 rows\n"
        self.assertEqual(terminal.say("FROM t;"), expected)
        self.assertEqual(terminal.finish()[1], 0)

    def test_a_text_over_lines(self) -> None:
        terminal = self.terminal()
        self.assertEqual(terminal.say("LOAD t FROM 'a;", IN_TEXT), "")
        self.assertEqual(terminal.say(".quit;", IN_TEXT), "")
        self.assertEqual(terminal.say("';"), "error 20: no such table\n")

    def test_errors_and_help(self) -> None:
        terminal = self.terminal()
        self.assertEqual(terminal.say("SELECT a FROM t;"), "error 20: no such table\n")
        self.assertEqual(terminal.say("SELECT (;"), "error 10: syntax error\n")
        self.assertEqual(terminal.say(".import"), "error: usage: .import FILE [TABLE]\n")
        self.assertEqual(terminal.say(".mode xml"), "error: 'xml' is none of table, csv, json, md, line\n")
        self.assertEqual(terminal.say(".import 'a"), "error: .import 'a: no closing quotation\n")
        self.assertIn(".export TABLE FILE", terminal.say("help"))
        self.assertEqual(terminal.say(";;"), "")
        terminal.press_bytes(b"SELECT \xff FROM t;\n")
        self.assertIn("error: text that has no UTF-8: ", terminal.wait_for(PROMPT))
        self.assertEqual(terminal.finish("quit")[1], 0)

    def test_files(self) -> None:
        self.write("visits.csv", "day,seconds\n1,30\n1,\n2,45\n")
        terminal = self.terminal("visits.csv", "no.csv")
        self.assertEqual(terminal.say(".import no.csv"), "error: no.csv: No such file or directory\n")
        tables = "TABLE   COLUMNS  ROWS\n------  -------  ----\nVISITS        2     3\n1 row\n"
        self.assertEqual(terminal.say(".tables"), tables)
        self.assertEqual(terminal.say(".schema"), "CREATE TABLE VISITS (DAY INTEGER, SECONDS INTEGER);\n")
        self.assertEqual(terminal.say(".schema nowhere"), "error 20: no such table\n")
        self.assertEqual(terminal.say(".export visits v.table"), "3 rows to v.table\n")
        self.assertEqual(terminal.say(".import v.table kept"), "KEPT: 3 rows\n")
        self.assertEqual(terminal.say(".import v.table"), "V: 3 rows\n")
        self.assertEqual(terminal.say(".export kept no/v.csv"), "error: no/v.csv: No such file or directory\n")
        suffix = "error: v.txt: the suffix says what is written, .csv or .table\n"
        self.assertEqual(terminal.say(".export kept v.txt"), suffix)

    def test_what_is_set(self) -> None:
        terminal = self.terminal()
        self.assertEqual(terminal.say(".mode"), "table\n")
        self.assertEqual(terminal.say(".mode line"), "")
        self.assertEqual(terminal.say("TABLES;"), "")
        self.assertEqual(terminal.say(".timer"), "off\n")
        self.assertEqual(terminal.say(".timer on"), "")
        self.assertRegex(terminal.say("CREATE TABLE t (a INT);"), r"\Aok\n\d+\.\d{3} s\n\Z")
        self.assertEqual(terminal.say(".limit"), "40\n")
        self.assertEqual(terminal.say(".limit many"), "error: 'many' is no number of rows\n")

    def test_the_end_of_input(self) -> None:
        terminal = self.terminal()
        self.assertEqual(terminal.say("SELECT", MORE), "")
        said, status = terminal.finish("")
        self.assertIn("the last statement has no ; and was not carried out\n", said)
        self.assertEqual(status, 0)


class RowLimit(ShellTestCase):
    def test_the_limit_and_the_rest(self) -> None:
        self.write("t.csv", "a\n" + "".join(f"{number}\n" for number in range(1_000)))
        terminal = self.terminal("t.csv")
        shown = terminal.say("SELECT a FROM t;").splitlines()
        self.assertEqual(shown, [" A", "--", *(f"{number:2}" for number in range(40)), ".. 960 rows more"])
        terminal.say(".limit 3")
        self.assertEqual(terminal.say("SELECT a FROM t;"), "A\n-\n0\n1\n2\n.. 997 rows more\n")
        terminal.say(".mode json")
        self.assertEqual(terminal.say("SELECT a FROM t;"), '[{"A": 0},\n{"A": 1},\n{"A": 2}]\n.. 997 rows more\n')
        self.assertEqual(terminal.say("SELECT a FROM t WHERE a < 3;"), '[{"A": 0},\n{"A": 1},\n{"A": 2}]\n')
        terminal.say(".mode table")
        terminal.say(".limit 0")
        self.assertEqual(terminal.say("SELECT a FROM t;").splitlines()[-2:], ["999", "1000 rows"])

    def test_the_limit_holds_for_one_statement_too(self) -> None:
        self.write("t.csv", "a\n" + "1\n" * 100)
        terminal = self.start_terminal("t.csv", "-c", "SELECT a FROM t")
        self.assertEqual(terminal.rest(), "A\n" + "1\n" * 40 + ".. 60 rows more\n")
        self.assertEqual(terminal.status(), 0)


@unittest.skipUnless(HAS_READLINE, "Python's module readline is not installed")
class Pasting(ShellTestCase):
    def test_lines_that_are_pasted_at_once(self) -> None:
        terminal = self.terminal()
        pasted = "CREATE TABLE t (a INT); -- one;\n-- two;\nINSERT INTO t VALUES (1);\n.mode csv"
        terminal.press(f"\x1b[200~{pasted}\x1b[201~\n")
        terminal.wait_for("ok, 1 row\n")
        terminal.press("SELECT a FROM t;\n")
        terminal.wait_for("A\n1\n")


@unittest.skipUnless(HAS_READLINE, "Python's module readline is not installed")
class Completion(ShellTestCase):
    def setUp(self) -> None:
        super().setUp()
        self.write("visits.csv", "day,seconds\n1,30\n")
        self.shell = self.terminal("visits.csv")

    def complete(self, keys: str, expected: str) -> None:
        """Types keys and the tab key, and checks that the line becomes this. Then the line is dropped."""
        self.shell.press(keys + "\t")
        self.shell.wait_for(expected)
        self.shell.interrupt()

    def test_words_tables_and_columns(self) -> None:
        self.complete("SEL", "SELECT")
        self.complete("sel", "select")
        self.complete("SELECT * FROM V", "VISITS")
        self.complete("select seconds from vi", "visits")
        self.complete("SELECT SEC", "SECONDS")

    def test_commands_and_files(self) -> None:
        self.complete(".ti", ".timer")
        self.complete(".mode j", "json")
        self.complete(".import vis", "visits.csv")
        self.complete(".schema V", "VISITS")
        self.complete("LOAD visits FROM 'vis", "visits.csv")

    def test_a_table_that_was_made_later(self) -> None:
        self.shell.say("CREATE TABLE later (things INT);")
        self.complete("SELECT thi", "things")
        self.complete("DROP TABLE la", "later")

    def test_history_is_kept(self) -> None:
        self.shell.say("CREATE TABLE t (a INT);")
        path = Path(self.folder.parent / "state/bitcol/history")
        self.assertEqual(path.read_text(), "CREATE TABLE t (a INT);\n")
        self.assertEqual(path.stat().st_mode & 0o777, 0o600)
        self.assertEqual(self.shell.finish()[1], 0)
        again = self.terminal()
        again.press("\x10\x10")
        again.wait_for("CREATE TABLE t (a INT);")
        self.assertEqual(again.say(""), "ok\n")

    def test_history_that_cannot_be_kept(self) -> None:
        self.write("file", "")
        terminal = self.terminal(XDG_STATE_HOME=str(self.folder / "file"))
        self.assertIn("TABLE", terminal.say("TABLES;"))
        self.assertEqual(terminal.finish()[1], 0)


class WithoutReadline(ShellTestCase):
    def test_the_shell_says_so_and_works(self) -> None:
        self.write("readline.py", "raise ImportError\n")
        terminal = self.start_terminal()
        self.assertIn("readline is not installed: there is no history and no completion.\n", terminal.wait_for(PROMPT))
        terminal.press("CREATE TABLE t (a INT);\n")
        terminal.wait_for("ok\n" + PROMPT)
        terminal.interrupt()
        self.assertEqual(terminal.finish()[1], 0)


class Interrupts(ShellTestCase):
    def test_at_the_prompt_it_drops_what_was_typed(self) -> None:
        terminal = self.terminal()
        terminal.press("SELECT nonsense")
        terminal.interrupt()
        terminal.say("CREATE TABLE t (a", MORE)
        terminal.interrupt()
        terminal.say("LOAD t FROM '", IN_TEXT)
        terminal.interrupt()
        self.assertEqual(terminal.say("CREATE TABLE t (a INT);"), "ok\n")

    def test_while_a_statement_is_carried_out_it_loses_no_table(self) -> None:
        """The program is stopped while the shell waits for it."""
        program, number = self.observed_program()
        self.write("t.csv", "a\n1\n2\n")
        terminal = self.terminal("t.csv", BITCOL=str(program))
        held = int(number.read_text())
        for count in range(3):
            os.kill(held, signal.SIGSTOP)
            self.addCleanup(_let_go_on, held)
            terminal.press("INSERT INTO t VALUES (3);\n")
            terminal.wait_for("waiting: ")
            terminal.press(INTERRUPT)
            terminal.wait_for("interrupted: what was under way may yet be carried out\n")
            terminal.wait_for(PROMPT)
            os.kill(held, signal.SIGCONT)
            self.assertIn(f"       {3 + count}\n", terminal.say("SELECT COUNT(*) FROM t;"))

    def test_at_the_end_it_leaves_what_is_under_way(self) -> None:
        program, number = self.observed_program()
        terminal = self.terminal(BITCOL=str(program))
        terminal.say("TABLES;")
        held = int(number.read_text())
        os.kill(held, signal.SIGSTOP)
        self.addCleanup(_let_go_on, held)
        terminal.press("TABLES;\n")
        terminal.wait_for("waiting: ")
        terminal.interrupt()
        terminal.press(".quit\n")
        terminal.wait_for(".quit\n")
        terminal.wait_until_idle()
        terminal.press(INTERRUPT)
        terminal.rest()
        self.assertEqual(terminal.status(), 130)

    def test_in_the_middle_of_a_long_answer_it_loses_no_table(self) -> None:
        self.write("t.csv", "a\n" + "".join(f"{number}\n" for number in range(ROWS)))
        terminal = self.terminal("t.csv")
        for wait in (0.0, 0.01, 0.02, 0.04, 0.08):
            terminal.press("SELECT a, a, a, a FROM t;\n")
            terminal.wait_for("FROM t;\n")
            time.sleep(wait)
            terminal.press(INTERRUPT + "\nSELECT COUNT(*) FROM t;\n")
            terminal.wait_for(f"{ROWS}\n")

    def test_many_of_them(self) -> None:
        """No interrupt comes between two others and ends the shell."""
        self.write("t.csv", "a\n" + "1\n" * 1_000)
        terminal = self.terminal("t.csv")
        for _ in range(20):
            terminal.press("SELECT a FROM t;\n" + INTERRUPT * 3)
        for _ in range(300):
            for _ in range(5):
                terminal.press(INTERRUPT)
                time.sleep(0.0002)
            time.sleep(0.003)
        terminal.press("\nSELECT COUNT(*) FROM t;\n")
        terminal.wait_for("    1000\n")
        self.assertEqual(terminal.finish()[1], 0)

    def test_an_import_that_is_interrupted_leaves_no_table(self) -> None:
        program, number = self.observed_program()
        self.write("t.csv", "a\n1\n2\n")
        terminal = self.terminal("t.csv", BITCOL=str(program))
        terminal.say(".export t u.table")
        held = int(number.read_text())
        self.addCleanup(_let_go_on, held)
        for name in ("t.csv", "u.table"):
            os.kill(held, signal.SIGSTOP)
            terminal.press(f".import {name} v\n")
            terminal.wait_for(f"{name}: ")
            terminal.interrupt()
            os.kill(held, signal.SIGCONT)
            self.assertIn("1 row\n", terminal.say(".tables"))

    def test_an_import_that_is_interrupted_after_a_part(self) -> None:
        """The rest of the file doesn't arrive."""
        os.mkfifo(self.folder / "pipe")
        terminal = self.terminal()
        terminal.press(".import pipe\n")
        with open(self.folder / "pipe", "w") as pipe:
            pipe.write("a\n")
            pipe.flush()
            # Long enough for the progress line to be shown.
            time.sleep(0.6)
            pipe.write("1234567\n" * (PART_BYTES // 8 + 1000))
            pipe.flush()
            terminal.wait_for("pipe: 8 MB, ")
            terminal.interrupt()
            self.assertIn("0 rows\n", terminal.say(".tables"))


def _let_go_on(process: int) -> None:
    try:
        os.kill(process, signal.SIGCONT)
    except ProcessLookupError:
        pass


class Ends(ShellTestCase):
    def test_a_program_that_is_killed(self) -> None:
        program, number = self.observed_program()
        self.write("t.csv", "a\n1\n")
        terminal = self.terminal("t.csv", BITCOL=str(program))
        os.kill(int(number.read_text()), signal.SIGKILL)
        self.assertEqual(
            terminal.say("SELECT a FROM t;"),
            "error: the program was killed by SIGKILL; its tables are gone\n"
            "another program was started, and it has no tables\n",
        )
        self.assertEqual(terminal.say(".import t.csv"), "T: 1 row\n")
        self.assertEqual(terminal.say("SELECT a FROM t;"), "A\n-\n1\n1 row\n")

    def test_a_program_that_is_killed_and_gone(self) -> None:
        program, number = self.observed_program()
        terminal = self.terminal(BITCOL=str(program))
        terminal.say("TABLES;")
        program.unlink()
        os.kill(int(number.read_text()), signal.SIGKILL)
        said, status = terminal.finish("TABLES;")
        self.assertRegex(said, r"by SIGKILL; its tables are gone\nerror: the program can't be started: .*No such file")
        self.assertEqual(status, 2)


class Colours(ShellTestCase):
    def test_headings_and_errors_have_colours_only_where_they_are_known(self) -> None:
        self.write("t.csv", "a,b\n1,\n")
        words = ("t.csv", "--mode", "table", "-c")
        bold = self.written(*words, "SELECT * FROM t", TERM="xterm")
        self.assertEqual(bold, "\x1b[1mA     B\x1b[0m\n-  ----\n1  \x1b[2mNULL\x1b[0m\n1 row\n")
        self.assertEqual(self.written("-c", "SELEC", TERM="xterm"), "\x1b[31merror 10: syntax error\x1b[0m\n")
        self.assertEqual(self.written("-c", "SELEC", TERM="xterm", NO_COLOR="1"), "error 10: syntax error\n")
        self.assertEqual(self.written("-c", "SELEC", TERM="dumb"), "error 10: syntax error\n")

    def written(self, *words: str, **variables: str) -> str:
        """Returns all that a shell writes to a terminal, with its escapes."""
        terminal = self.start_terminal(*words, **variables)
        terminal.keeps_escapes = True
        return terminal.rest()


class ProgressLines(ShellTestCase):
    def test_a_long_load_tells_how_far_it_is(self) -> None:
        """The program is stopped, so that the load takes long. Progress is shown every tenth of a second, or more
        rarely, so that at least a second is between the first of these and the last."""
        program, number = self.observed_program()
        self.write("t.csv", "a\n1\n2\n")
        terminal = self.terminal(BITCOL=str(program))
        terminal.say("TABLES;")
        held = int(number.read_text())
        os.kill(held, signal.SIGSTOP)
        self.addCleanup(_let_go_on, held)
        terminal.press(".import t.csv\n")
        shown = []
        for _ in range(12):
            terminal.wait_for("t.csv: ")
            shown.append(int(terminal.wait_for(" s")))
        self.assertEqual(shown, sorted(shown))
        self.assertGreater(shown[-1], shown[0])
        os.kill(held, signal.SIGCONT)
        self.assertIn("T: 2 rows\n", terminal.wait_for(PROMPT))
