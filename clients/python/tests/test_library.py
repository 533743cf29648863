"""The library as a door: what holds for any store holds for this one, and what is specific to it."""

import ctypes
import os
import unittest
from typing import Any

import bitcol
from bitcol.library import ROOM_BYTES
from tests import test_coprocess, test_session, test_tables
from tests.support import SessionTestCase


def library_is_there() -> bool:
    """Returns whether there is a library to test."""
    try:
        bitcol.find_library()
    except bitcol.OperationalError:
        return False
    return True


@unittest.skipUnless(library_is_there(), "the library isn't there: BITCOL_LIBRARY names it")
class LibraryTestCase(SessionTestCase):
    """A test whose session uses the library."""

    def new_session(self, **arguments: Any) -> bitcol.Session:
        return super().new_session(door=bitcol.Library(), **arguments)


class Refusals(LibraryTestCase, test_session.Refusals):
    pass


class ManyRows(LibraryTestCase, test_session.ManyRows):
    pass


class Sharing(LibraryTestCase):
    OPENED = "bitcol.Session(door=bitcol.Library())"

    test_threads_take_turns = test_coprocess.Sharing.test_threads_take_turns
    test_a_forked_process_is_refused = test_coprocess.Sharing.test_a_forked_process_is_refused


class Statements(LibraryTestCase):
    """The tests of test_session that need no file of the host."""

    test_the_examples_of_the_language = test_session.Statements.test_the_examples_of_the_language
    test_set_functions_are_folds = test_session.Statements.test_set_functions_are_folds
    test_null_is_neither_less_nor_not_less = test_session.Statements.test_null_is_neither_less_nor_not_less
    test_a_long_statement = test_session.Statements.test_a_long_statement
    test_a_script = test_session.Statements.test_a_script
    test_what_is_no_bytes = test_session.Statements.test_what_is_no_bytes


class WholeTables(LibraryTestCase):
    test_in_and_out = test_tables.WholeTables.test_in_and_out
    test_a_table_goes_from_store_to_store = test_tables.WholeTables.test_a_table_goes_from_store_to_store
    test_what_statements_made_and_changed = test_tables.WholeTables.test_what_statements_made_and_changed
    test_an_empty_table = test_tables.WholeTables.test_an_empty_table
    test_a_table_that_is_there = test_tables.WholeTables.test_a_table_that_is_there
    test_a_table_that_is_not_there = test_tables.WholeTables.test_a_table_that_is_not_there


class OwnFiles(LibraryTestCase):
    def setUp(self) -> None:
        self.door = bitcol.Library()
        self.addCleanup(self.door.close)
        self.session = bitcol.Session(door=self.door)

    def test_files_go_in_and_out(self) -> None:
        for data in (b"1\n2\n", bytearray(b"3\n"), memoryview(b"x4\nx")[1:3]):
            self.door.put_file("it's; 1.csv", data)
            self.assertEqual(self.door.file("it's; 1.csv"), bytes(data))
        self.session.execute("CREATE TABLE t (a INT)")
        self.assertEqual(self.session.load("t", "it's; 1.csv"), 1)
        self.assertEqual(self.session.save("t", "ä"), 1)
        self.assertEqual(bitcol.Table.of_file(self.door.file("ä")).columns(), {"A": [4]})
        self.door.put_file("empty", b"")
        self.assertEqual((self.door.file("empty"), self.session.load("t", "empty")), (b"", 0))

    def test_files_of_the_host_are_out_of_reach(self) -> None:
        self.session.execute("CREATE TABLE t (a INT)")
        with self.assertRaises(bitcol.StoreRefused) as caught:
            self.session.load("t", os.path.abspath(__file__))
        self.assertEqual(caught.exception.number, bitcol.ErrorNumber.FILE_CANNOT_BE_READ)
        with self.assertRaisesRegex(bitcol.OperationalError, "the store has no file 'x'"):
            self.door.file("x")

    def test_scratch_files_are_taken_again(self) -> None:
        for _ in range(3):
            with self.door.scratch() as one, self.door.scratch() as other:
                one.write([b"1", b"2"])
                other.write([b"3"])
                self.assertEqual((one.read(), other.read()), (b"12", b"3"))
        self.assertEqual(self.door._files_made, 2)
        self.assertEqual(self.door.file("bitcol-scratch-1"), b"")


class Large(LibraryTestCase):
    def test_200_000_rows(self) -> None:
        self.session.write_table("t", {"a": range(200_000)})
        self.assertEqual(self.session.execute("SELECT a FROM t").columns(), [list(range(200_000))])

    def test_a_reply_as_long_as_the_room(self) -> None:
        """Lines of two bytes, between a heading and a last line of 13 together."""
        rows = (ROOM_BYTES - 13) // 2
        for count in (rows - 1, rows, rows + 1):
            session = self.new_session()
            session.write_table("t", {"a": [7] * count})
            self.assertEqual(session.execute("SELECT a FROM t").columns(), [[7] * count])

    def test_many_statements_in_one_script(self) -> None:
        self.session.write_table("t", {"a": range(100)})
        replies = self.session.run("SELECT a FROM t WHERE a = 7;" * 5_000)
        self.assertEqual({tuple(reply.rows()) for reply in replies}, {((7,),)})


class Memory(LibraryTestCase):
    def test_a_budget(self) -> None:
        """The archive's allocator has one, and a statement that exceeds it is refused."""
        calls = ctypes.CDLL(bitcol.find_library())
        calls.bitcol_used.restype = ctypes.c_size_t
        calls.bitcol_set_budget.argtypes = [ctypes.c_size_t]
        self.addCleanup(calls.bitcol_set_budget, 0)
        table = bitcol.Table.of({"a": range(200_000)})
        self.session.write_table("t", table)
        calls.bitcol_set_budget(calls.bitcol_used() + 100_000)
        with self.assertRaisesRegex(bitcol.OperationalError, "no memory for the file"):
            self.session.write_table("u", table)
        with self.assertRaises(bitcol.OperationalError):
            self.session.execute("SELECT a FROM t")
        calls.bitcol_set_budget(0)
        self.assertEqual(self.session.execute("SELECT COUNT(*) FROM t").scalar(), 200_000)


class BadUse(LibraryTestCase):
    def test_a_closed_session(self) -> None:
        door = bitcol.Library()
        session = bitcol.Session(door=door)
        session.close()
        session.close()
        for call in (session.tables, lambda: door.file("x"), lambda: door.put_file("x", b"")):
            with self.assertRaisesRegex(bitcol.InterfaceError, "the session is closed"):
                call()

    def test_files_that_are_none(self) -> None:
        door = bitcol.Library()
        self.addCleanup(door.close)
        for name, said in (("a\0b", "no zero byte"), ("", "1 to 255"), ("\udcff", "no UTF-8"), (7, "not a int")):
            for call in (lambda: door.file(name), lambda: door.put_file(name, b"1")):  # type: ignore[arg-type]
                with self.assertRaisesRegex(bitcol.ProgrammingError, said):
                    call()
        for data in ("1", 1, None):
            with self.assertRaisesRegex(bitcol.ProgrammingError, f"a piece is to be bytes, not a {type(data).__name__}"):
                door.put_file("x", data)  # type: ignore[arg-type]

    def test_a_library_that_is_none(self) -> None:
        for path in ("/no/such/library.so", os.path.abspath(__file__), "a\0b"):
            with self.assertRaisesRegex(bitcol.OperationalError, "can't be loaded"):
                bitcol.Library(path)

    def test_stores_are_their_own(self) -> None:
        other = self.new_session()
        self.session.execute("CREATE TABLE t (a INT)")
        self.assertEqual(other.tables(), [])


class Connections(LibraryTestCase):
    def test_dbapi(self) -> None:
        connection = bitcol.connect(door=bitcol.Library())
        cursor = connection.cursor()
        cursor.execute("CREATE TABLE t (a INT)").executemany("INSERT INTO t VALUES (?)", [(1,), (None,)])
        self.assertEqual(cursor.execute("SELECT a FROM t").fetchall(), [(1,), (None,)])
        connection.close()
