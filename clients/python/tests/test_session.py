"""Sessions with the program: the answers of statements, as the language's description or a simple fold gives them."""

import array
import random
import tempfile
from pathlib import Path
from unittest import mock

import bitcol
from bitcol import TableSize
from tests.support import GREATEST, LEAST, SessionTestCase, lower_median, random_column


class Statements(SessionTestCase):
    def test_the_examples_of_the_language(self) -> None:
        execute = self.session.execute
        self.assertIsNone(execute("CREATE TABLE t (a INTEGER, b INTEGER);").count)
        self.assertEqual(execute("INSERT INTO t VALUES (1, 2), (NULL, -5);").count, 2)
        self.assertEqual(execute("INSERT INTO t (b) VALUES (+7);").count, 1)
        self.assertEqual(execute("SELECT * FROM t").rows(), [(1, 2), (None, -5), (None, 7)])
        self.assertEqual(execute("SELECT b, a, b FROM t WHERE b > ?", [0]).rows(), [(2, 1, 2), (7, None, 7)])
        self.assertEqual(execute("UPDATE t SET a = b, b = a").count, 3)
        self.assertEqual(execute("DELETE FROM t WHERE a = ?", [2]).count, 1)
        self.assertEqual(execute("SELECT * FROM t").columns(), [[-5, 7], [None, None]])
        self.assertEqual(self.session.tables(), [TableSize("T", 2, 2)])

    def test_set_functions_are_folds(self) -> None:
        generator = random.Random(11)
        column = random_column(generator, 5000, 0.2)
        self.session.write_table("t", {"a": column})
        bound = 1_000_000_000
        kept = [value for value in column if value is not None and value < bound]
        reply = self.session.execute(
            "SELECT COUNT(*), COUNT(a), SUM(a), MIN(a), MAX(a), MEDIAN(a) FROM t WHERE a < ?", [bound]
        )
        expected = (len(kept), len(kept), sum(kept), min(kept), max(kept), lower_median(kept))
        self.assertEqual(reply.rows(), [expected])

    def test_null_is_neither_less_nor_not_less(self) -> None:
        column = [1, 2, None]
        self.session.write_table("t", {"a": column})
        for condition, rows in (("a = NULL", []), ("NOT a < 2", [(2,)]), ("(a < 2) IS NOT TRUE", [(2,), (None,)])):
            self.assertEqual(self.session.execute(f"SELECT a FROM t WHERE {condition}").rows(), rows)

    def test_a_long_statement(self) -> None:
        self.session.execute("CREATE TABLE t (a INT)")
        values = ",".join("(%d)" % row for row in range(8_000))
        self.assertEqual(self.session.execute(f"INSERT INTO t VALUES {values}").count, 8_000)
        self.assertEqual(self.session.execute("SELECT SUM(a) FROM t").scalar(), sum(range(8_000)))

    def test_a_script(self) -> None:
        replies = self.session.run("CREATE TABLE t (a INT); SELECT b FROM t; -- ;\n INSERT INTO t VALUES (1), (2)")
        self.assertEqual([reply.count for reply in replies], [None, None, 2])
        self.assertEqual([reply.refusal and reply.refusal.number for reply in replies], [None, 22, None])
        self.assertEqual(self.session.run(" -- nothing"), [])

    def test_answers_are_the_bytes_of_replies(self) -> None:
        wanted = [b"ok\n", b"ok 1\n", b"A\n7\nrows 1\n", b"error 20: no such table\n"]
        statements = ["CREATE TABLE t (a INT)", "INSERT INTO t VALUES (7);", "SELECT a FROM t -- all", "SELECT a FROM u"]
        self.assertEqual(self.session.answers(statements), wanted)
        self.assertEqual(self.session.answers([]), [])
        self.assertEqual(self.session.answers(["SELECT a FROM t"], 60), wanted[2:3])
        with self.assertRaises(bitcol.ProgrammingError):
            self.session.answers(["SELECT a FROM t; TABLES"])
        with self.assertRaisesRegex(bitcol.ProgrammingError, "a list of str, not a str"):
            self.session.answers("SELECT a FROM t")

    def test_a_call_that_takes_longer_than_it_may(self) -> None:
        with tempfile.TemporaryDirectory() as folder:
            sleeper = Path(folder) / "sleeper"
            sleeper.write_text("#!/bin/sh\nexec sleep 60\n")
            sleeper.chmod(0o755)
            session = self.new_session(program=sleeper)
            with self.assertRaisesRegex(bitcol.OutOfTime, "took longer than it may"):
                session.answers(["TABLES"], 0.2)
            with self.assertRaises(bitcol.ProgramEnded):
                session.execute("TABLES")

    def test_tables_as_bytes(self) -> None:
        self.session.run("CREATE TABLE t (a INT, b BIGINT); INSERT INTO t VALUES (1, NULL), (NULL, 5000000000)")
        data = self.session.table_bytes("t")
        other = self.new_session()
        self.assertEqual(other.put_table("u", data), 2)
        self.assertEqual(other.execute("SELECT * FROM u").rows(), [(1, None), (None, 5000000000)])
        self.assertEqual(other.table_bytes("u"), data)
        with self.assertRaises(bitcol.DataRefused):
            other.put_table("v", data[:-1])
        self.assertEqual(other.put_table("v", memoryview(data)), 2)

    def test_what_is_no_bytes(self) -> None:
        self.session.execute("CREATE TABLE t (a INT)")
        for pieces in (b"1\n", bytearray(b"1\n"), memoryview(b"1\n"), "1\n", 5, None):
            with self.assertRaisesRegex(bitcol.ProgrammingError, f"a list of bytes, not a {type(pieces).__name__}"):
                self.session.load_bytes("t", pieces)  # type: ignore[arg-type]
        for piece in ("1\n", 1, None):
            said = f"a piece is to be bytes, not a {type(piece).__name__}"
            with self.assertRaisesRegex(bitcol.ProgrammingError, said):
                self.session.load_bytes("t", [b"1\n", piece])  # type: ignore[list-item]
            with self.assertRaisesRegex(bitcol.ProgrammingError, said):
                self.session.put_table("u", piece)  # type: ignore[arg-type]
        self.assertEqual(self.session.load_bytes("t", iter([bytearray(b"1\n"), memoryview(b"2\n")])), 2)
        self.assertEqual(self.session.execute("SELECT a FROM t").rows(), [(1,), (2,)])

    def test_files_of_statements(self) -> None:
        with tempfile.TemporaryDirectory() as folder:
            csv, saved = Path(folder) / "it's; 1.csv", Path(folder) / "t.table"
            csv.write_text("day,seconds\n1,30\n2,NULL\n3,\n")
            self.session.execute("CREATE TABLE visits (day INT, seconds INT)")
            self.assertEqual(self.session.load("visits", csv, header=True), 3)
            self.assertEqual(self.session.save("visits", saved), 3)
            self.assertEqual(self.session.open("kept", saved), 3)
            self.assertEqual(self.session.execute("SELECT * FROM kept").rows(), [(1, 30), (2, None), (3, None)])

    def test_the_folder_of_files(self) -> None:
        with tempfile.TemporaryDirectory() as folder:
            (Path(folder) / "a.csv").write_text("7\n")
            session = self.new_session(folder=folder)
            session.execute("CREATE TABLE t (a INT)")
            self.assertEqual(session.execute("LOAD t FROM 'a.csv'").count, 1)


class Refusals(SessionTestCase):
    def test_each_class(self) -> None:
        self.session.execute("CREATE TABLE t (a INT)")
        self.assertIsInstance(self.assert_refused(20, "SELECT a FROM u"), bitcol.ProgrammingError)
        self.assertIsInstance(self.assert_refused(10, "SELEC"), bitcol.StatementRefused)
        self.assertIsInstance(self.assert_refused(26, "INSERT INTO t VALUES (?)", [2**31]), bitcol.DataError)
        self.assertIsInstance(self.assert_refused(40, "OPEN u FROM 'no such file'"), bitcol.OperationalError)
        self.assert_refused(11, "TABLES" + " " * 65_531)
        self.assert_refused(10, "LOAD t FROM 'a\0b'")
        self.assertEqual(self.session.tables(), [TableSize("T", 1, 0)])

    def test_types_of_columns(self) -> None:
        self.session.run("CREATE TABLE u (a INT, b BIGINT, c INTEGER); INSERT INTO u VALUES (1, 4294967296, NULL)")
        types = {"A": bitcol.ColumnType.INTEGER, "B": bitcol.ColumnType.BIGINT, "C": bitcol.ColumnType.INTEGER}
        self.assertEqual(self.session.column_types("u"), types)
        self.assertEqual(self.session.execute("SELECT * FROM u").rows(), [(1, 4294967296, None)])
        with self.assertRaisesRegex(bitcol.StatementRefused, "error 20"):
            self.session.column_types("nowhere")

    def test_integers_of_64_bits(self) -> None:
        self.session.execute("CREATE TABLE u (a BIGINT, b INT)")
        rows = [(-(2**63), 1), (2**63 - 1, None), (None, 2)]
        for _ in range(2):
            self.session.executemany("INSERT INTO u VALUES (?, ?)", rows * 10_000)
        self.assertEqual(self.session.execute("SELECT * FROM u WHERE a IS NOT NULL OR b = ?", [2]).rows(), rows * 20_000)
        with self.assertRaisesRegex(bitcol.DataRefused, "value out of range: row 29999 has 2147483648"):
            self.session.executemany("INSERT INTO u VALUES (?, ?)", [*(rows * 10_000)[:-1], (2**31, 2**31)])
        self.assert_refused(60, "REBUILD u (a USING H)")

    def test_a_bound_value_may_be_outside_of_integer_in_a_condition(self) -> None:
        self.session.write_table("t", {"a": [GREATEST, None, LEAST]})
        found = self.session.execute("SELECT a FROM t WHERE a < ? AND a > ?", [2**63 - 1, -(2**63)])
        self.assertEqual(found.rows(), [(GREATEST,), (LEAST,)])

    def test_names_are_checked(self) -> None:
        for name in ("", "1a", "a b", "select", "a'; DROP TABLE t; --", "ä", "x" * 129):
            with self.assertRaisesRegex(bitcol.ProgrammingError, "not a name"):
                self.session.read_table(name)


    def test_places_without_values_are_not_sent(self) -> None:
        for values in ((), []):
            with self.assertRaisesRegex(bitcol.ProgrammingError, "values given: 0"):
                self.session.execute("SELECT a FROM t WHERE a = ?", values)
        with self.assertRaisesRegex(bitcol.ProgrammingError, "list or a tuple"):
            self.session.execute("TABLES", {})  # type: ignore[arg-type]


class ManyRows(SessionTestCase):
    def setUp(self) -> None:
        super().setUp()
        self.session.execute("CREATE TABLE t (a INT, b INT USING H, c INT DICTIONARY)")
        generator = random.Random(5)
        columns = [random_column(generator, 20_000, share) for share in (0.0, 0.1, 1.0)]
        self.rows = list(zip(*columns))

    def contents(self) -> list[bitcol.reply.Row]:
        return self.session.execute("SELECT * FROM t").rows()

    def test_few_and_many(self) -> None:
        expected: list[bitcol.reply.Row] = []
        for count in (1, 900, len(self.rows), 0, 2_345):
            rows = self.rows[:count]
            self.assertEqual(self.session.executemany("INSERT INTO t VALUES (?, ?, ?)", rows), count)
            expected += rows
            self.assertEqual(self.contents(), expected)

    def test_a_generator_and_lists(self) -> None:
        count = self.session.executemany("insert into T values (?,?,?);", ([a, b, c] for a, b, c in self.rows))
        self.assertEqual((count, self.contents()), (len(self.rows), self.rows))

    def test_columns_in_another_order(self) -> None:
        for rows in (self.rows[:10], self.rows):
            self.session.execute("DELETE FROM t")
            self.session.executemany("INSERT INTO t (c, a) VALUES (?, ?)", [(a, b) for a, b, _ in rows])
            self.assertEqual(self.contents(), [(b, None, a) for a, b, _ in rows])

    def test_more_than_a_file(self) -> None:
        """Then the rows are added in parts, each completely or not at all."""
        with mock.patch("bitcol.insertion.CSV_BYTES", 100_000):
            count = self.session.executemany("INSERT INTO t VALUES (?, ?, ?)", self.rows)
            self.assertEqual((count, self.contents()), (len(self.rows), self.rows))
            with self.assertRaisesRegex(bitcol.DataRefused, "row 19999 has 2147483648"):
                self.session.executemany("INSERT INTO t VALUES (?, ?, ?)", [*self.rows[:-1], (2**31, 0, 0)])
        kept = self.contents()[len(self.rows) :]
        self.assertTrue(0 < len(kept) < len(self.rows))
        self.assertEqual(kept, self.rows[: len(kept)])

    def test_one_column(self) -> None:
        self.session.execute("CREATE TABLE u (a INT)")
        column = [(b,) for _, b, _ in self.rows]
        self.session.executemany("INSERT INTO u VALUES (?)", column)
        self.assertEqual(self.session.execute("SELECT a FROM u").rows(), column)

    def test_all_or_none(self) -> None:
        for number in (10, 19_999):
            for bad, kind, said in (
                (2**31, bitcol.DataRefused, f"value out of range: row {number} has 2147483648"),
                (2**64, bitcol.DataRefused, f"row {number} has 18446744073709551616"),
                (10**5000, bitcol.DataError, "64 bits"),
                (1.5, bitcol.ProgrammingError, f"row {number}: a value is to be an integer or None, not a float"),
                ("7", bitcol.ProgrammingError, f"row {number}: .* not a str"),
            ):
                rows = [*self.rows[:number], (1, bad, 2)]
                with self.assertRaisesRegex(kind, said):
                    self.session.executemany("INSERT INTO t VALUES (?, ?, ?)", rows)
                self.assertEqual(self.session.tables(), [TableSize("T", 3, 0)])

    def test_rows_of_other_widths(self) -> None:
        with self.assertRaisesRegex(bitcol.ProgrammingError, "row 15000: 2 values, and 3 are wanted"):
            self.session.executemany("INSERT INTO t VALUES (?, ?, ?)", [*self.rows[:15_000], (1, 2)])
        self.assertEqual(self.contents(), [])

    def test_what_is_no_row(self) -> None:
        """A text is one value and not several, and without an order it isn't known which value is for which column."""
        for row in (1, None, "abc", b"abc", bytearray(b"abc"), {1, 2, 3}, {1: 2, 3: 4, 5: 6}):
            said = f"row 1: it is to be a list or a tuple of values, not a {type(row).__name__}"
            with self.assertRaisesRegex(bitcol.ProgrammingError, said):
                self.session.executemany("INSERT INTO t VALUES (?, ?, ?)", [(1, 2, 3), row])  # type: ignore[list-item]
        for rows in (5, None):
            for statement in ("INSERT INTO t VALUES (?, ?, ?)", "DELETE FROM t WHERE a = ?"):
                with self.assertRaisesRegex(bitcol.ProgrammingError, "the rows are to be a list of rows, not a"):
                    self.session.executemany(statement, rows)  # type: ignore[arg-type]
        self.assertEqual(self.contents(), [])
        added = self.session.executemany("INSERT INTO t VALUES (?, ?, ?)", [range(3), array.array("i", [4, 5, 6])])
        self.assertEqual((added, self.contents()), (2, [(0, 1, 2), (4, 5, 6)]))

    def test_refusals_of_the_statement(self) -> None:
        many = self.rows
        for statement, number in (
            ("INSERT INTO u VALUES (?, ?, ?)", 20),
            ("INSERT INTO t (a, b, d) VALUES (?, ?, ?)", 22),
            ("INSERT INTO t (a, b, A) VALUES (?, ?, ?)", 23),
            ("INSERT INTO t (a, b) VALUES (?, ?, ?)", 25),
        ):
            for rows in (many[:5], many):
                with self.assertRaises(bitcol.StatementRefused) as caught:
                    self.session.executemany(statement, rows)
                self.assertEqual(caught.exception.number, number)
        with self.assertRaises(bitcol.StatementRefused) as caught:
            self.session.executemany("INSERT INTO t VALUES (?, ?)", [row[:2] for row in many])
        self.assertEqual((caught.exception.number, self.contents()), (25, []))

    def test_other_statements_go_one_by_one(self) -> None:
        self.session.executemany("INSERT INTO t VALUES (?, ?, ?)", [(1, 1, 1), (2, 2, 2), (2, 3, 3)])
        self.assertEqual(self.session.executemany("UPDATE t SET b = ? WHERE a = ?", [(7, 1), (8, 2)]), 3)
        self.assertEqual(self.session.executemany("INSERT INTO t VALUES (?, 5, ?)", [(3, 4), (4, 5)]), 2)
        with self.assertRaises(bitcol.Refused):
            self.session.executemany("DELETE FROM t WHERE a = ? AND d = 1", [(1,), (2,)])
        self.assertEqual(self.contents(), [(1, 7, 1), (2, 8, 2), (2, 8, 3), (3, 5, 4), (4, 5, 5)])
