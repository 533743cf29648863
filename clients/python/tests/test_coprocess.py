"""The program as a co-process: large answers, ends of the program, interrupts, threads, and misuse."""

import os
import signal
import stat
import subprocess
import sys
import tempfile
import threading
import time
import unittest
from pathlib import Path

import bitcol
from bitcol.coprocess import RESERVE_BYTES, SCRIPT_BYTES, Coprocess
from tests.support import SessionTestCase

ROWS = 200_000


def door_of(session: bitcol.Session) -> Coprocess:
    """Returns the door of a session, which is that of a program."""
    door = session._door
    assert isinstance(door, Coprocess)
    return door


class LargeAnswers(SessionTestCase):
    def setUp(self) -> None:
        super().setUp()
        self.session.write_table("t", {"a": range(ROWS)})

    def test_200_000_rows(self) -> None:
        self.assertEqual(self.session.execute("SELECT a FROM t").columns(), [list(range(ROWS))])

    def test_a_script_that_is_longer_than_a_pipe_and_so_are_its_answers(self) -> None:
        statement = "SELECT a FROM t WHERE a > 150000 -- " + "x" * 30_000 + "\n;"
        replies = self.session.run(statement * 20)
        self.assertGreater(len(statement) * 20, 4 * 65_536)
        expected = list(range(150_001, ROWS))
        self.assertEqual([reply.count for reply in replies], [len(expected)] * 20)
        self.assertTrue(all(reply.columns() == [expected] for reply in replies))

    def test_many_small_statements_in_one_script(self) -> None:
        replies = self.session.run("SELECT a FROM t WHERE a = 7;" * 5_000)
        self.assertEqual({tuple(reply.rows()) for reply in replies}, {((7,),)})
        self.assertEqual(len(replies), 5_000)


class Ends(SessionTestCase):
    def test_a_closed_session(self) -> None:
        self.session.close()
        self.session.close()
        for call in (self.session.tables, lambda: self.session.execute("TABLES"), lambda: self.session.run("TABLES")):
            with self.assertRaisesRegex(bitcol.InterfaceError, "the session is closed"):
                call()

    def test_a_program_that_is_killed(self) -> None:
        door_of(self.session)._child.kill()
        for _ in range(2):
            with self.assertRaisesRegex(bitcol.OperationalError, "the program was killed by SIGKILL; its tables are"):
                self.session.execute("TABLES")
        self.session.close()

    def test_a_program_that_ends_itself(self) -> None:
        with tempfile.TemporaryDirectory() as folder:
            program = Path(folder) / "program"
            program.write_text("#!/bin/sh\nread line\necho no memory to begin with >&2\nexit 2\n")
            program.chmod(stat.S_IRWXU)
            session = self.new_session(program=program)
            with self.assertRaisesRegex(bitcol.OperationalError, "ended with status 2: no memory to begin with"):
                session.execute("TABLES -- \n")

    def test_a_program_that_answers_in_pieces(self) -> None:
        with tempfile.TemporaryDirectory() as folder:
            program = Path(folder) / "program"
            pieces = ("A\\n1", "\\n", "2\\nrow", "s 2\\n")
            answer = "; ".join(f"sleep 0.05; printf '{piece}'" for piece in pieces)
            program.write_text(f"#!/bin/sh\nwhile read line; do {answer}; done\n")
            program.chmod(stat.S_IRWXU)
            session = self.new_session(program=program)
            for _ in range(2):
                self.assertEqual(session.execute("TABLES -- \n").rows(), [(1,), (2,)])

    def test_a_reply_that_comes_after_the_time_limit(self) -> None:
        door = door_of(self.session)
        send = door._send

        def send_and_sleep() -> None:
            send()
            time.sleep(0.2)

        door._send = send_and_sleep  # type: ignore[method-assign]
        with self.assertRaises(bitcol.OutOfTime):
            self.session.answers(["TABLES"], 0.1)

    def test_a_program_that_is_killed_by_a_signal_without_a_name(self) -> None:
        number = signal.SIGRTMIN + 6
        door_of(self.session)._child.send_signal(number)
        for _ in range(2):
            with self.assertRaisesRegex(bitcol.ProgramEnded, f"the program was killed by signal {number}; its tables"):
                self.session.execute("TABLES")

    def test_a_relative_path_of_the_program_is_not_looked_up_in_the_folder_of_files(self) -> None:
        program = os.path.abspath(bitcol.find_program())
        self.addCleanup(os.chdir, os.getcwd())
        with tempfile.TemporaryDirectory() as folder:
            (Path(folder) / "program").symlink_to(program)
            (Path(folder) / "files").mkdir()
            os.chdir(folder)
            session = self.new_session(program="./program", folder="files")
            session.write_table("t", {"a": [1]})
            session.save("t", "t.table")
            self.assertTrue((Path(folder) / "files/t.table").is_file())

    def test_a_program_that_is_not_there(self) -> None:
        for program in ("/no/such/program", os.devnull, "a\0b"):
            with self.assertRaisesRegex(bitcol.OperationalError, "can't be started"):
                bitcol.Session(program)
        with self.assertRaisesRegex(bitcol.OperationalError, "can't be started"):
            bitcol.Session(folder="/no/such/folder")

    def test_a_session_that_is_dropped_ends_its_program(self) -> None:
        session = bitcol.Session()
        child = door_of(session)._child
        del session
        self.assertEqual(child.returncode, 0)

    def test_the_limit_of_a_script(self) -> None:
        """Near the program's limit on scripts the client refuses a statement, but not a SAVE."""
        self.session.write_table("t", {"a": [1, 2]})
        door_of(self.session)._sent = SCRIPT_BYTES - RESERVE_BYTES
        for _ in range(2):
            with self.assertRaisesRegex(bitcol.OperationalError, "has sent 1072693248 bytes of .*: save its tables"):
                self.session.execute("TABLES")
        self.assertEqual(self.session.read_table("t").columns(), {"A": [1, 2]})

    def test_a_temporary_folder_that_is_not_there(self) -> None:
        self.addCleanup(setattr, tempfile, "tempdir", tempfile.tempdir)
        tempfile.tempdir = "/no/such/folder"
        with self.assertRaisesRegex(bitcol.OperationalError, "no temporary folder"):
            self.session.write_table("t", {"a": [1]})
        self.assertEqual(self.session.tables(), [])


class BadStatements(SessionTestCase):
    def test_nothing_is_sent_and_nothing_is_lost(self) -> None:
        self.session.write_table("t", {"a": [1]})
        for statement in ("LOAD t FROM 'a.csv", "SELECT a FROM t WHERE a = '", "TABLES; TABLES", "", "-- none"):
            with self.assertRaises(bitcol.ProgrammingError):
                self.session.execute(statement)
        for path in ("a\0b", "", "x" * 300):
            with self.assertRaises(bitcol.ProgrammingError):
                self.session.save("t", path)
        self.assertEqual(self.session.execute("SELECT a FROM t").rows(), [(1,)])

    def test_statements_that_are_no_text(self) -> None:
        for statement in (b"TABLES", None, 7, ["TABLES"]):
            for call in (self.session.execute, self.session.run, lambda text: self.session.executemany(text, [])):
                with self.assertRaisesRegex(bitcol.ProgrammingError, "a statement is to be a str"):
                    call(statement)  # type: ignore[operator]

    def test_a_semicolon_in_a_text(self) -> None:
        with tempfile.TemporaryDirectory() as folder:
            path = Path(folder) / "a;b.csv"
            path.write_text("5\n")
            replies = self.session.run(f"CREATE TABLE t (a INT); LOAD t FROM '{path}'; SELECT a FROM t;")
        self.assertEqual([replies[1].count, replies[2].rows()], [1, [(5,)]])


class Interrupts(SessionTestCase):
    def interrupted(self, call: object) -> None:
        """Makes a call into which a KeyboardInterrupt comes while it waits for the program."""
        door, ended = door_of(self.session), threading.Event()

        def interrupt() -> None:
            # One that comes in the moment before the wait isn't noticed in it, but the next one is.
            while not ended.wait(0.2):
                if door._waits:
                    os.kill(os.getpid(), signal.SIGINT)

        thread = threading.Thread(target=interrupt)
        thread.start()
        try:
            with self.assertRaises(KeyboardInterrupt):
                call()  # type: ignore[operator]
        finally:
            ended.set()
            thread.join()

    def test_a_wait_that_is_interrupted_loses_no_table(self) -> None:
        """The program is stopped while the client waits for it."""
        self.session.write_table("t", {"a": range(100)})
        child = door_of(self.session)._child
        self.addCleanup(child.send_signal, signal.SIGCONT)
        for count in range(3):
            child.send_signal(signal.SIGSTOP)
            script = "SELECT COUNT(*) FROM t; INSERT INTO t VALUES (100);" * (1 if count < 2 else 10_000)
            self.interrupted(lambda: self.session.run(script))
            child.send_signal(signal.SIGCONT)
            expected = 100 + count + 1 if count < 2 else 10_102
            self.assertEqual(self.session.execute("SELECT COUNT(*) FROM t").scalar(), expected)

    def test_an_interrupt_from_the_keyboard_spares_the_program(self) -> None:
        """A terminal sends it to the foreground process group, and the program isn't in that one."""
        self.assertNotEqual(os.getpgid(door_of(self.session)._child.pid), os.getpgid(0))

    def test_a_transfer_that_is_broken_off_ends_the_program(self) -> None:
        door = door_of(self.session)

        def interrupt() -> None:
            raise KeyboardInterrupt

        door._receive = interrupt  # type: ignore[method-assign]
        with self.assertRaises(KeyboardInterrupt):
            self.session.execute("TABLES")
        with self.assertRaisesRegex(bitcol.OperationalError, "KeyboardInterrupt came in the middle of a transfer"):
            self.session.execute("TABLES")


class Sharing(SessionTestCase):
    # How a script opens a session of this kind.
    OPENED = "bitcol.Session()"

    def test_threads_take_turns(self) -> None:
        self.session.write_table("t", {"a": range(1000)})
        wrong: list[object] = []

        def ask(first: int) -> None:
            for value in range(first, first + 200):
                found = self.session.execute("SELECT a FROM t WHERE a = ?", [value]).rows()
                if found != [(value,)]:
                    wrong.append((value, found))

        threads = [threading.Thread(target=ask, args=(first,)) for first in (0, 200, 400, 600)]
        for thread in threads:
            thread.start()
        for thread in threads:
            thread.join()
        self.assertEqual(wrong, [])

    def test_a_forked_process_is_refused(self) -> None:
        script = (
            "import bitcol, os, sys\n"
            f"session = {self.OPENED}\n"
            "if os.fork() == 0:\n"
            "    try:\n"
            "        session.tables()\n"
            "    except bitcol.InterfaceError as fault:\n"
            "        print(fault)\n"
            "    session.close()\n"
            "    sys.exit(0)\n"
            "os.wait()\n"
            "print(session.tables())\n"
        )
        environment = {**os.environ, "PYTHONPATH": os.pathsep.join(sys.path)}
        ended = subprocess.run([sys.executable, "-c", script], capture_output=True, text=True, env=environment)
        self.assertEqual(
            (ended.stdout, ended.stderr), ("the session belongs to the process that opened it\n[]\n", "")
        )


class Leftovers(unittest.TestCase):
    def test_no_temporary_folder_stays(self) -> None:
        with tempfile.TemporaryDirectory() as folder:
            self.addCleanup(setattr, tempfile, "tempdir", tempfile.tempdir)
            tempfile.tempdir = folder
            with bitcol.Session() as session:
                session.write_table("t", {"a": range(10)})
                session.read_table("t")
                session.executemany("INSERT INTO t VALUES (?)", [(row,) for row in range(50_000)])
                with self.assertRaises(bitcol.Refused):
                    session.write_table("t", {"a": range(10)})
            self.assertEqual(os.listdir(folder), [])

    def test_a_session_that_is_closed_ends_its_program_without_killing_it(self) -> None:
        session = bitcol.Session()
        session.write_table("t", {"a": range(1000)})
        child = door_of(session)._child
        session.close()
        self.assertEqual(child.returncode, 0)
