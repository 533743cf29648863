"""The shell with pipes: -c, every mode, standard input, and how it ends."""

import os
import resource
import shlex
import signal
import subprocess
import time
import unittest

from tests.terminal import SHELL, ShellTestCase, environment

VISITS = "day,seconds\n1,30\n1,\n2,-45\n"


class Commands(ShellTestCase):
    def setUp(self) -> None:
        super().setUp()
        self.write("visits.csv", VISITS)

    def test_one_statement_is_answered_as_csv(self) -> None:
        self.assert_answers(("visits.csv", "-c", "SELECT * FROM visits"), "DAY,SECONDS\n1,30\n1,\n2,-45\n")
        self.assert_answers(("-c", "SELECT COUNT(*) FROM visits;", "visits.csv"), "COUNT(*)\n3\n")

    def test_a_null_that_stands_alone(self) -> None:
        self.assert_answers(("visits.csv", "-c", "SELECT seconds FROM visits"), 'SECONDS\n30\n""\n-45\n')

    def test_a_statement_without_rows_writes_nothing(self) -> None:
        self.assert_answers(("visits.csv", "-c", "SAVE visits TO 'v.table'"), "")
        self.assert_answers(("v.table", "-c", "SELECT SUM(day) FROM v"), "SUM(DAY)\n4\n")

    def test_a_refusal(self) -> None:
        self.assert_fails(("visits.csv", "-c", "SELECT x FROM visits"), "error 22: no such column\n")
        self.assert_fails(("-c", "SELEC"), "error 10: syntax error\n")

    def test_statements_that_are_never_sent(self) -> None:
        self.assert_fails(("-c", "TABLES; TABLES"), "error: one statement is to be given, and there are 2\n")
        self.assert_fails(("-c", ""), "error: one statement is to be given, and there are 0\n")
        self.assert_fails(("-c", "LOAD t FROM 'a"), "error: a text that begins at byte 12 is not closed\n")
        said = "error: .export is no statement, and -c takes one: commands come by standard input\n"
        self.assert_fails(("visits.csv", "-c", " .export visits v.csv"), said)
        self.assertFalse((self.folder / "v.csv").exists())

    def test_a_file_that_is_not_there(self) -> None:
        """If some tables are missing, nothing is answered."""
        words = ("visits.csv", "no.csv", "-c", "SELECT day FROM visits")
        self.assert_fails(words, "error: no.csv: No such file or directory\n")
        self.assert_fails(("no.csv",), "error: no.csv: No such file or directory\n", typed="TABLES;")

    def test_names_of_tables(self) -> None:
        self.assert_answers(("visits.csv:v", "-c", "TABLES"), "TABLE,COLUMNS,ROWS\nV,2,3\n")
        self.write("a:b", "x\n1\n")
        self.assert_fails(
            ("a:b", "-c", "TABLES"), "a:b: table 'a:b' is called A_B\n", "TABLE,COLUMNS,ROWS\nA_B,1,1\n", status=0
        )
        self.assert_fails(
            ("visits.csv", "visits.csv", "-c", "TABLES"),
            "error: visits.csv: there is a table VISITS already: DROP it, or give this one another name\n",
        )

    def test_wrong_words(self) -> None:
        for words in (("--mode", "xml"), ("--no-such-word",), ("-c",)):
            ended = self.run_shell(*words)
            self.assertEqual((ended.returncode, ended.stdout), (2, ""))
            self.assertIn("usage: python3 -m bitcol", ended.stderr)

    def test_help(self) -> None:
        self.assertIn("as CSV without --mode", self.run_shell("--help").stdout)


class Modes(ShellTestCase):
    """Each mode, compared with a text that was written by hand."""

    def setUp(self) -> None:
        super().setUp()
        self.write("t.csv", "a,bcd\n1,30\n-2147483648,\n2,7\n")

    def check(self, mode: str, statement: str, expected: str) -> None:
        self.assert_answers(("t.csv", "--mode", mode, "-c", statement), expected)

    def test_table(self) -> None:
        expected = (
            "          A   BCD\n"
            "-----------  ----\n"
            "          1    30\n"
            "-2147483648  NULL\n"
            "          2     7\n"
        )
        self.check("table", "SELECT * FROM t", expected)
        self.check("table", "SELECT a FROM t WHERE a = 5", "A\n-\n")
        self.check("table", "SELECT SUM(a) FROM t", "     SUM(A)\n-----------\n-2147483645\n")
        self.check("table", "TABLES", "TABLE  COLUMNS  ROWS\n-----  -------  ----\nT            2     3\n")

    def test_csv(self) -> None:
        self.check("csv", "SELECT bcd, a FROM t", "BCD,A\n30,1\n,-2147483648\n7,2\n")
        self.check("csv", "SELECT a FROM t WHERE a = 5", "A\n")

    def test_json(self) -> None:
        expected = '[{"A": 1, "BCD": 30},\n{"A": -2147483648, "BCD": null},\n{"A": 2, "BCD": 7}]\n'
        self.check("json", "SELECT * FROM t", expected)
        self.check("json", "SELECT a, a, bcd FROM t WHERE a = 2", '[{"A": 2, "A_2": 2, "BCD": 7}]\n')
        self.check("json", "SELECT a FROM t WHERE a = 5", "[]\n")
        self.check("json", "TABLES", '[{"TABLE": "T", "COLUMNS": 2, "ROWS": 3}]\n')

    def test_markdown(self) -> None:
        expected = "| A | BCD |\n|---:|---:|\n| 1 | 30 |\n| -2147483648 | NULL |\n| 2 | 7 |\n"
        self.check("md", "SELECT * FROM t", expected)
        self.check("md", "SELECT a FROM t WHERE a = 5", "| A |\n|---:|\n")

    def test_line(self) -> None:
        expected = "  A = 1\nBCD = 30\n\n  A = -2147483648\nBCD = NULL\n\n  A = 2\nBCD = 7\n"
        self.check("line", "SELECT * FROM t", expected)
        self.check("line", "SELECT a FROM t WHERE a = 5", "")


class StandardInput(ShellTestCase):
    def test_a_script(self) -> None:
        script = (
            "-- a comment; with a semicolon\n"
            "CREATE TABLE t (a INT); INSERT INTO t\n"
            "  VALUES (1), (NULL); -- two rows\n"
            ".mode json\n"
            "SELECT *\n"
            "\n"
            "FROM t -- ;\n"
            ";\n"
            ".mode csv\n"
            "SELECT COUNT(a) FROM t"
        )
        self.assert_answers((), '[{"A": 1},\n{"A": null}]\nCOUNT(A)\n1\n', script)

    def test_a_text_over_lines(self) -> None:
        self.write("a\n.mode;b.csv", "5\n")
        self.assert_answers((), "A\n5\n", "CREATE TABLE t (a INT);\nLOAD t FROM 'a\n.mode;b.csv'; SELECT * FROM t;\n")

    def test_it_goes_on_after_an_error(self) -> None:
        script = "TABLES;\n\nSELECT *\nFROM nowhere;\n.nonsense\nCREATE TABLE t (a INT);\nTABLES;\nLOAD t FROM 'a"
        self.assert_fails(
            (),
            "line 3: error 20: no such table\nline 5: error: no command .nonsense: .help lists them\n"
            "line 8: error: a text that begins at byte 12 is not closed\n",
            "TABLE,COLUMNS,ROWS\nTABLE,COLUMNS,ROWS\nT,1,0\n",
            typed=script,
        )

    def test_quit(self) -> None:
        self.assert_answers((), "TABLE,COLUMNS,ROWS\n", "TABLES;\n.quit\nTABLES;\n")
        self.assert_answers((), "", "exit;\nTABLES;\n")
        self.assert_answers((), "")

    def test_read(self) -> None:
        lines = ["\ufeffCREATE TABLE t (a INT);", "INSERT INTO t VALUES (1);", ".read more.sql", "TABLES;"]
        self.write("make.sql", "\r\n".join(lines))
        self.write("more.sql", "INSERT INTO t VALUES (2)\n")
        self.assert_answers((), "TABLE,COLUMNS,ROWS\nT,1,2\nA\n1\n2\n", ".read make.sql\nSELECT * FROM t;")

    def test_read_that_fails(self) -> None:
        self.write("bad.sql", "TABLES;\nSELECT a FROM t;\n")
        self.write("self.sql", ".read self.sql\n")
        self.write("latin.sql", b"LOAD t FROM '\xe4';\n")
        read = ".read bad.sql\n.read self.sql\n.read no.sql\n.read .\n.read latin.sql\n"
        ended = self.run_shell(typed=read)
        self.assertEqual((ended.stdout, ended.returncode), ("TABLE,COLUMNS,ROWS\n", 1))
        errors = ended.stderr.splitlines()
        self.assertEqual(errors[0], "bad.sql, line 2: error 20: no such table")
        self.assertEqual(errors[1], "self.sql, line 1: error: self.sql: files read files that read files, 16 deep")
        self.assertEqual(errors[2], "line 3: error: no.sql: No such file or directory")
        self.assertEqual(errors[3], "line 4: error: .: Is a directory")
        self.assertTrue(errors[4].startswith("latin.sql, line 1: error: text that has no UTF-8: "), errors[4])

    def test_all_rows_go_to_a_pipe(self) -> None:
        lines = "".join(f"{number}\n" for number in range(5_000))
        self.write("t.csv", "a\n" + lines)
        for mode in ("csv", "table"):
            ended = self.run_shell("t.csv", "--mode", mode, "-c", "SELECT a FROM t")
            found = [int(line) for line in ended.stdout.splitlines() if line.strip().isdigit()]
            self.assertEqual(found, list(range(5_000)))
            self.assertEqual((ended.stderr, ended.returncode), ("", 0))

    def test_the_row_limit_is_for_terminals(self) -> None:
        self.write("t.csv", "a\n1\n2\n3\n")
        self.assert_answers(("t.csv",), "40\n1\nA\n1\n2\n3\n", ".limit\n.limit 1\n.limit\nSELECT a FROM t;")

    def test_commands_that_are_shortened(self) -> None:
        self.write("t.csv", "a\n1\n")
        self.assert_answers(("t.csv",), "CREATE TABLE T (A INTEGER);\noff\n", ".sch\n.ti\n.q\nTABLES;")
        self.write("t.csv", "a,b\n1,2147483648\n")
        self.assert_answers(("t.csv",), "CREATE TABLE T (A INTEGER, B BIGINT);\n", ".sch")
        self.assert_fails((), "line 1: error: no command .t: .help lists them\n", typed=".t")
        self.assert_fails((), "line 1: error: no command .: .help lists them\n", typed=".")

    def test_the_time_goes_to_standard_error(self) -> None:
        ended = self.run_shell(typed=".timer on\nTABLES;\n.timer\n")
        self.assertEqual(ended.stdout, "TABLE,COLUMNS,ROWS\non\n")
        self.assertRegex(ended.stderr, r"\A\d+\.\d{3} s\n\Z")


class Charts(ShellTestCase):
    def test_bars_and_lines(self) -> None:
        self.write("t.csv", "a,b\n" + "".join(f"{number},{number % 2}\n" for number in range(50)))
        script = "SELECT a, b, a FROM t WHERE a < 2;\n.plot\n.plot A\n.plot line b\n.limit 1\n.plot bars\n"
        ended = self.run_shell("t.csv", "--mode", "json", typed=script, COLUMNS="20")
        self.assertEqual((ended.stderr, ended.returncode), ("", 0))
        answer = '[{"A": 0, "B": 0, "A_2": 0},\n{"A": 1, "B": 1, "A_2": 1}]\n'
        bars = "B by A\n0 0\n1 ███████████████ 1\n" + "A\n1 0\n2 ███████████████ 1\n"
        line = "B\n1  █\n" + "   █\n" * 6 + "0 ▁█\n  rows 1 to 2\n"
        self.assertEqual(ended.stdout, answer + bars + line + "B by A\n0 0\n.. 1 row more\n")

    def test_many_rows_are_a_line(self) -> None:
        self.write("t.csv", "a\n" + "".join(f"{number}\n" for number in range(41)))
        ended = self.run_shell("t.csv", typed="SELECT a FROM t;\n.plot\n", COLUMNS="80")
        self.assertTrue(ended.stdout.endswith("   rows 1 to 41\n"), ended.stdout)
        script = "SELECT a FROM t WHERE a > 0;\n.plot\n"
        ended = self.run_shell("t.csv", typed=script, COLUMNS="80", PYTHONIOENCODING="ascii")
        self.assertTrue(ended.stdout.endswith(f"40 {'#' * 73} 40\n"), ended.stdout)

    def test_nothing_to_draw(self) -> None:
        for script, error in (
            (".plot", "line 1: error: there is no answer with rows to draw"),
            ("CREATE TABLE t (a INT);\n.plot", "line 2: error: there is no answer with rows to draw"),
            ("CREATE TABLE t (a INT); SELECT a FROM t;\n.plot", "line 2: error: there is no answer with rows to draw"),
            (".plot pie chart", "line 1: error: 'pie' is none of bars, line"),
        ):
            self.assertEqual(self.run_shell(typed=script).stderr, error + "\n")
        self.write("t.csv", "a\n1\n")
        for line, error in (
            (".plot c", "the last answer has no column 'c'; it has TABLE, COLUMNS, ROWS"),
            (".plot table", "TABLE has names, and numbers are drawn"),
        ):
            ended = self.run_shell("t.csv", typed=f"TABLES;\n{line}\n")
            self.assertEqual(ended.stderr, f"line 2: error: {error}\n")


class Ends(ShellTestCase):
    def test_no_program(self) -> None:
        ended = self.run_shell("-c", "TABLES", BITCOL="/no/such/program")
        self.assertEqual((ended.stdout, ended.returncode), ("", 2))
        self.assertEqual(
            ended.stderr,
            "error: the program can't be started: [Errno 2] No such file or directory: '/no/such/program'\n",
        )

    def test_no_program_anywhere(self) -> None:
        ended = self.run_shell("-c", "TABLES", BITCOL="", PATH="")
        self.assertEqual(ended.stderr, "error: no program: name it, set BITCOL, or put bitcol on PATH\n")
        self.assertEqual((ended.stdout, ended.returncode), ("", 2))

    def test_errors_that_nobody_reads(self) -> None:
        reader, writer = os.pipe()
        os.close(reader)
        with open(writer, "w") as errors:
            ended = subprocess.run(
                [*SHELL, "no.csv", "-c", "TABLES"],
                stdout=subprocess.PIPE,
                stderr=errors,
                cwd=self.folder,
                env=environment(self.folder.parent),
                check=False,
            )
        self.assertEqual((ended.stdout, ended.returncode), (b"", 1))

    def test_a_program_that_dies(self) -> None:
        program, _ = self.observed_program()
        program.write_text("#!/bin/sh\nread line\nkill -9 $$\n")
        ended = self.run_shell("-c", "TABLES -- \n", BITCOL=str(program))
        self.assertEqual(ended.stderr, "error: the program was killed by SIGKILL; its tables are gone\n")
        self.assertEqual((ended.stdout, ended.returncode), ("", 2))
        program.write_text("#!/bin/sh\nread line\necho out of everything >&2\nexit 2\n")
        ended = self.run_shell(typed="TABLES -- \n;TABLES;", BITCOL=str(program))
        self.assertEqual(
            ended.stderr, "line 1: error: the program ended with status 2: out of everything; its tables are gone\n"
        )
        self.assertEqual((ended.stdout, ended.returncode), ("", 2))

    def test_a_program_that_dies_is_told_once(self) -> None:
        """Also while a file of the command line or of .read, or a table of a file, is in progress."""
        program, _ = self.observed_program()
        program.write_text("#!/bin/sh\nexit 3\n")
        self.write("t.csv", "a\n1\n")
        self.write("more.sql", "\nTABLES;\n")
        ended = self.run_shell("t.csv", "-c", "TABLES", BITCOL=str(program))
        self.assertEqual(ended.stderr, "error: the program ended with status 3; its tables are gone\n")
        self.assertEqual((ended.stdout, ended.returncode), ("", 2))
        for typed, place in ((".read more.sql\nTABLES;\n", "more.sql, line 2"), (".import t.csv\nTABLES;\n", "line 1")):
            ended = self.run_shell(typed=typed, BITCOL=str(program))
            self.assertEqual(ended.stderr, f"{place}: error: the program ended with status 3; its tables are gone\n")
            self.assertEqual((ended.stdout, ended.returncode), ("", 2))

    def test_an_interrupt(self) -> None:
        """The program reads the statement and never answers."""
        marker = self.folder / "marker"
        program, _ = self.observed_program()
        program.write_text(f"#!/bin/sh\nread line\necho > '{marker}'\ncat > /dev/null\n")
        shell = subprocess.Popen(
            [*SHELL, "-c", "TABLES -- \n"],
            stdout=subprocess.PIPE,
            stderr=subprocess.PIPE,
            cwd=self.folder,
            env=environment(self.folder.parent, BITCOL=str(program)),
            # A shell that starts these tests in the background makes them ignore it.
            preexec_fn=lambda: signal.signal(signal.SIGINT, signal.default_int_handler),
        )
        while not marker.exists():
            time.sleep(0.01)
        shell.send_signal(signal.SIGINT)
        self.assertEqual((shell.communicate(), shell.returncode), ((b"", b""), 130))

    def test_a_pipe_that_nobody_reads(self) -> None:
        self.write("t.csv", "a\n" + "1\n" * 100_000)
        for unbuffered in ("", "1"):
            self.read_a_line(environment(self.folder.parent, PYTHONUNBUFFERED=unbuffered))

    def read_a_line(self, variables: dict[str, str]) -> None:
        """Reads only one line of a long answer."""
        shell = subprocess.Popen(
            [*SHELL, "t.csv", "-c", "SELECT a FROM t"],
            stdout=subprocess.PIPE,
            stderr=subprocess.PIPE,
            cwd=self.folder,
            env=variables,
        )
        assert shell.stdout and shell.stderr
        self.assertEqual(shell.stdout.readline(), b"A\n")
        shell.stdout.close()
        with shell.stderr as errors:
            self.assertEqual(errors.read(), b"")
        self.assertEqual(shell.wait(), 141)

    def test_output_that_can_be_written_in_part(self) -> None:
        """Files are limited to 20,000 bytes here, and the answer is longer."""
        self.write("t.csv", "a\n" + "1\n" * 5_000)
        for unbuffered in ("", "1"):
            with open(self.folder / "answer", "w") as answer:
                ended = subprocess.run(
                    [*SHELL, "t.csv", "-c", "SELECT a, a, a, a, a, a FROM t"],
                    stdout=answer,
                    stderr=subprocess.PIPE,
                    text=True,
                    cwd=self.folder,
                    env=environment(self.folder.parent, PYTHONUNBUFFERED=unbuffered),
                    preexec_fn=lambda: resource.setrlimit(resource.RLIMIT_FSIZE, (20_000, 20_000)),
                    check=False,
                )
            self.assertEqual((ended.stderr, ended.returncode), ("error: writing failed: File too large\n", 2))

    def test_streams_that_are_closed(self) -> None:
        command = " ".join(map(shlex.quote, [*SHELL, "-c", "TABLES"]))
        for closed, status in (("<&-", 0), (">&-", 2), ("2>&-", 2)):
            ended = subprocess.run(
                ["sh", "-c", f"{command} {closed}"],
                capture_output=True,
                text=True,
                cwd=self.folder,
                env=environment(self.folder.parent),
                check=False,
            )
            self.assertEqual((ended.returncode, ended.stderr), (status, ""), closed)

    @unittest.skipUnless(os.path.exists("/dev/full"), "there is no /dev/full")
    def test_output_that_cannot_be_written(self) -> None:
        with open("/dev/full", "w") as full:
            ended = subprocess.run(
                [*SHELL, "-c", "TABLES"],
                stdout=full,
                stderr=subprocess.PIPE,
                text=True,
                cwd=self.folder,
                env=environment(self.folder.parent),
                check=False,
            )
        self.assertEqual((ended.stderr, ended.returncode), ("error: writing failed: No space left on device\n", 2))
