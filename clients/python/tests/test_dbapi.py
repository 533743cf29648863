"""DB-API 2.0: what PEP 249 requires."""

import contextlib
import datetime
import unittest

import bitcol


class Module(unittest.TestCase):
    def test_globals(self) -> None:
        self.assertEqual((bitcol.apilevel, bitcol.threadsafety, bitcol.paramstyle), ("2.0", 2, "qmark"))

    def test_exceptions(self) -> None:
        for name, base in (
            ("Warning", Exception),
            ("Error", Exception),
            ("InterfaceError", bitcol.Error),
            ("DatabaseError", bitcol.Error),
            ("DataError", bitcol.DatabaseError),
            ("OperationalError", bitcol.DatabaseError),
            ("IntegrityError", bitcol.DatabaseError),
            ("InternalError", bitcol.DatabaseError),
            ("ProgrammingError", bitcol.DatabaseError),
            ("NotSupportedError", bitcol.DatabaseError),
        ):
            self.assertTrue(issubclass(getattr(bitcol, name), base))
            self.assertIs(getattr(bitcol.Connection, name), getattr(bitcol, name))

    def test_constructors(self) -> None:
        self.assertEqual(bitcol.Date(2026, 11, 27), datetime.date(2026, 11, 27))
        self.assertEqual(bitcol.TimeFromTicks(0.0).tzinfo, None)
        self.assertEqual(bitcol.Binary(b"a"), b"a")


class Cursors(unittest.TestCase):
    def setUp(self) -> None:
        self.connection = bitcol.connect()
        self.addCleanup(self.connection.close)
        self.cursor = self.connection.cursor()
        self.cursor.execute("CREATE TABLE t (a INT, b INT)")

    def test_before_any_statement(self) -> None:
        cursor = self.connection.cursor()
        self.assertEqual((cursor.description, cursor.rowcount, cursor.arraysize), (None, -1, 1))
        self.assertIs(cursor.connection, self.connection)
        for fetch in (cursor.fetchone, cursor.fetchmany, cursor.fetchall):
            with self.assertRaises(bitcol.InterfaceError):
                fetch()

    def test_what_is_no_number_of_rows(self) -> None:
        self.cursor.execute("SELECT a FROM t")
        for size in (-1, 1.5, "2"):
            with self.assertRaisesRegex(bitcol.ProgrammingError, f"an integer from 0 on, not {size!r}"):
                self.cursor.fetchmany(size)  # type: ignore[arg-type]
        self.assertEqual(self.cursor.fetchmany(0), [])

    def test_rows(self) -> None:
        self.cursor.executemany("INSERT INTO t VALUES (?, ?)", [(row, -row) for row in range(100)])
        self.assertEqual((self.cursor.rowcount, self.cursor.description), (100, None))
        self.cursor.execute("SELECT a, b FROM t WHERE b BETWEEN ? AND ?", (-5, 0))
        self.assertEqual(self.cursor.rowcount, 6)
        assert self.cursor.description is not None
        described = [(column[0], column[1], len(column)) for column in self.cursor.description]
        self.assertEqual(described, [("A", bitcol.NUMBER, 7), ("B", bitcol.NUMBER, 7)])
        self.assertEqual(self.cursor.fetchone(), (0, 0))
        self.assertEqual(self.cursor.fetchmany(), [(1, -1)])
        self.assertEqual(self.cursor.fetchmany(2), [(2, -2), (3, -3)])
        self.assertEqual(next(iter(self.cursor)), (4, -4))
        self.assertEqual(self.cursor.fetchall(), [(5, -5)])
        self.assertEqual((self.cursor.fetchone(), self.cursor.fetchmany(3), self.cursor.fetchall()), (None, [], []))

    def test_counts(self) -> None:
        for statement, count in (
            ("INSERT INTO t VALUES (1, 2), (NULL, 3)", 2),
            ("UPDATE t SET b = 5 WHERE a = 1", 1),
            ("DELETE FROM t", 2),
            ("REBUILD t", -1),
        ):
            self.assertEqual(self.cursor.execute(statement).rowcount, count)
            with self.assertRaises(bitcol.InterfaceError):
                self.cursor.fetchone()

    def test_a_refused_statement(self) -> None:
        with self.assertRaises(self.connection.ProgrammingError):
            self.cursor.execute("SELECT c FROM t")
        self.assertEqual((self.cursor.rowcount, self.cursor.description), (-1, None))
        with self.assertRaises(self.connection.DataError):
            self.cursor.execute("INSERT INTO t VALUES (?, ?)", (1, 2**31))
        with self.assertRaises(self.connection.ProgrammingError):
            self.cursor.execute("CREATE TABLE u (a BIGINT USING H)")
        with self.assertRaises(self.connection.ProgrammingError):
            self.cursor.execute("INSERT INTO t VALUES (?, ?)", (1, bitcol.Date(2026, 1, 1)))

    def test_the_last_answer_is_forgotten(self) -> None:
        for statement in ("REBUILD t", "SELECT c FROM t"):
            self.assertEqual(self.cursor.execute("SELECT a FROM t").rowcount, 0)
            with contextlib.suppress(bitcol.ProgrammingError):
                self.cursor.execute(statement)
            self.assertEqual((self.cursor.rowcount, self.cursor.description), (-1, None))
            with self.assertRaises(bitcol.InterfaceError):
                self.cursor.fetchall()

    def test_a_list_of_tables(self) -> None:
        self.assertEqual(self.cursor.execute("TABLES").fetchall(), [("T", 2, 0)])
        assert self.cursor.description is not None
        types = [column[1] for column in self.cursor.description]
        self.assertEqual(types, [bitcol.STRING, bitcol.NUMBER, bitcol.NUMBER])

    def test_transactions(self) -> None:
        self.cursor.execute("INSERT INTO t VALUES (1, 1)")
        self.connection.commit()
        with self.assertRaises(bitcol.NotSupportedError):
            self.connection.rollback()
        self.assertEqual(self.connection.cursor().execute("SELECT a FROM t").fetchall(), [(1,)])

    def test_closed(self) -> None:
        self.cursor.execute("SELECT a FROM t")
        self.cursor.close()
        for call in (self.cursor.fetchall, lambda: self.cursor.execute("TABLES")):
            with self.assertRaisesRegex(bitcol.InterfaceError, "the cursor is closed"):
                call()
        with self.connection:
            cursor = self.connection.cursor()
        with self.assertRaisesRegex(bitcol.InterfaceError, "the session is closed"):
            cursor.execute("TABLES")

    def test_sizes_are_allowed(self) -> None:
        self.cursor.setinputsizes([1])
        self.cursor.setoutputsize(1, 2)

    def test_the_session_of_a_connection(self) -> None:
        self.connection.session.write_table("u", {"a": [1, 2]})
        self.assertEqual(self.cursor.execute("SELECT SUM(a) FROM u").fetchone(), (3,))
