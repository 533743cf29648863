"""Tables from files: detecting CSV formats, invalid names, SQLite files, and files written from tables."""

import importlib.util
import io
import random
import unittest
from collections.abc import Iterator
from pathlib import Path
from typing import Any
from unittest import mock

import bitcol
from bitcol import ColumnType
from bitcol.shell import csv_import, exporting
from bitcol.shell.csv_import import PART_BYTES, Header, Part, header_of, parts_of
from bitcol.shell.fault import Fault
from bitcol.shell.importing import Import, Imported, imports_of, split_word
from bitcol.shell.names import column_names, name_of
from bitcol.shell.store import Store
from bitcol.shell.types import value_of
from tests.support import GREATEST, LEAST, random_column
from tests.terminal import ShellTestCase

HAS_SQLITE = importlib.util.find_spec("_sqlite3") is not None


class ImportTestCase(ShellTestCase):
    """A test with a store of its own."""

    def setUp(self) -> None:
        super().setUp()
        self.store = Store()
        self.addCleanup(self.store.close)
        self.told: list[str] = []

    def jobs(self, name: str, table: str | None = None) -> list[Import]:
        return imports_of(self.store, str(self.folder / name), table)

    def imported(self, name: str, table: str | None = None) -> Imported:
        """Imports a file that makes one table, and returns that."""
        (job,) = self.jobs(name, table)
        return job.run(self.told.append)

    def columns(self, table: str) -> dict[str, list[int | None]]:
        return self.store.call(lambda session: session.read_table(table).columns())

    def assert_fault(self, text: str, name: str, table: str | None = None) -> None:
        """Checks that making tables from a file fails with this text after the file's name, and leaves none."""
        before = self.store.call(lambda session: session.tables())
        with self.assertRaises(Fault) as caught:
            for job in self.jobs(name, table):
                job.run(self.told.append)
        self.assertEqual(str(caught.exception), f"{self.folder / name}{text}")
        self.assertEqual(self.store.call(lambda session: session.tables()), before)


class Csv(ImportTestCase):
    def check(self, content: str | bytes, columns: dict[str, list[int | None]], notes: tuple[str, ...] = ()) -> None:
        """Checks that a file with this content becomes a table with these columns."""
        self.write("t.csv", content)
        found = self.imported("t.csv", "t")
        rows = len(next(iter(columns.values())))
        self.assertEqual((found.table, found.rows, found.notes), ("T", rows, list(notes)))
        self.assertEqual(self.columns("t"), columns)
        self.store.call(lambda session: session.execute("DROP TABLE t"))

    def test_values(self) -> None:
        expected = {"A": [1, None, -2147483648, 7], "B": [None, None, 2147483647, -8]}
        self.check('a,b\n1,\n,NULL\n-2147483648,2147483647\n"7",-08\n', expected)
        self.check("a\n", {"A": []})
        self.check("a", {"A": []})
        self.check('a\n1\n""\n3', {"A": [1, None, 3]})

    def test_columns_with_values_of_more_than_32_bits(self) -> None:
        expected = {"A": [1, 2**31], "B": [None, -7], "C": [-(2**63), 2**63 - 1]}
        self.check("a;b;c\n1;;-9223372036854775808\n2147483648;-7;+09223372036854775807\n", expected)
        self.write("t.csv", "a,b,c\n1,2,3\n,2147483648,\n")
        self.imported("t.csv")
        types = self.store.call(lambda session: session.column_types("t"))
        self.assertEqual(types, {"A": ColumnType.INTEGER, "B": ColumnType.BIGINT, "C": ColumnType.INTEGER})

    def test_ends_of_lines(self) -> None:
        for end in ("\n", "\r\n", "\r", "\n\n"):
            self.check(end.join(["a,b", "1,2", ",3", ""]), {"A": [1, None], "B": [2, 3]})

    def test_a_byte_order_mark(self) -> None:
        self.check("\ufeffa,b\n1,2\n", {"A": [1], "B": [2]})

    def test_what_stands_between_fields(self) -> None:
        for delimiter in ";\t|":
            self.check(f"a{delimiter}b\n1{delimiter}\n", {"A": [1], "B": [None]})
        self.write("t.csv", "a;b\n1;2\n3,4;5\n")
        self.assert_fault(": line 3, column 'a': '3,4' is no integer", "t.csv")

    def test_names_of_columns(self) -> None:
        self.check(
            'day,Day,first name,2019,,count,"Größe, m²"\n1,2,3,4,5,6,7\n',
            {"DAY": [1], "DAY_2": [2], "FIRST_NAME": [3], "C_2019": [4], "C_5": [5], "C_COUNT": [6], "GROSSE_M2": [7]},
            (
                "column 2 'Day' is called DAY_2",
                "column 3 'first name' is called FIRST_NAME",
                "column 4 '2019' is called C_2019",
                "column 5 '' is called C_5",
                "column 6 'count' is called C_COUNT",
                "column 7 'Größe, m²' is called GROSSE_M2",
            ),
        )

    def test_a_header_over_lines(self) -> None:
        self.write("t.csv", '\n\n"a\nb",c\n1,2\n3,x\n')
        self.assert_fault(": line 6, column 'c': 'x' is no integer", "t.csv")
        self.check('\n\n"a\nb",c\n1,2\n', {"A_B": [1], "C": [2]}, ("column 1 'a\\nb' is called A_B",))

    def test_faults_name_line_and_column(self) -> None:
        wide = "has more than 64 bits, and a column holds -9223372036854775808 to 9223372036854775807"
        for lines, text in (
            ("1,30\n2,half\n", ": line 3, column 'seconds': 'half' is no integer"),
            ("1,30\n\n\n2,1.5\n", ": line 5, column 'seconds': '1.5' is no integer"),
            ("1, 30\n", ": line 2, column 'seconds': ' 30' is no integer"),
            ("1,9223372036854775808\n", f": line 2, column 'seconds': 9223372036854775808 {wide}"),
            ("-9223372036854775809,1\n", f": line 2, column 'day': -9223372036854775809 {wide}"),
            ("2147483648,1\n9223372036854775808,1\n", f": line 3, column 'day': 9223372036854775808 {wide}"),
            (f"{'0' * 5000}7,-{'0' * 5000}\nx,1\n", ": line 3, column 'day': 'x' is no integer"),
            (f"{'9' * 5000},1\n", f": line 2, column 'day': {'9' * 40}.. {wide}"),
            ("1,2\n1,2,3\n", ": line 3 has 3 fields, and the header has 2"),
            ("1,2\n1\n", ": line 3 has 1 field, and the header has 2"),
            ('"1\n2",3\n', ": line 2, column 'day': '1\\n2' is no integer"),
            (f"1,{'x' * 200}\n", f": line 2, column 'seconds': '{'x' * 40}..' is no integer"),
            ("1,\u0663\n", ": line 2, column 'seconds': '\u0663' is no integer"),
            ("1,\ufeff2\n", ": line 2, column 'seconds': '\\ufeff2' is no integer"),
            ("\ufeff1,2\n", ": line 2, column 'day': '\\ufeff1' is no integer"),
        ):
            self.write("visits.csv", "day,seconds\n" + lines)
            self.assert_fault(text, "visits.csv")

    def test_files_that_are_no_csv(self) -> None:
        for content, text in (
            (b"", ": the file is empty, and a CSV file begins with a header"),
            (b"\n\n\n", ": no line has a field, and a CSV file begins with a header"),
            (b"1,30\n2,45\n", ": line 1 has integers alone, and a CSV file begins with a header"),
            (b"a,b\n\x7fELF\0\0", ": no CSV file: line 2 has a zero byte"),
            (b"a," * 64 + b"a\n", ": the header has 65 fields, and a table has at most 64 columns"),
            (b"x" * 200_000, ": no CSV file: line 1: field larger than field limit (131072)"),
        ):
            self.write("t.csv", content)
            self.assert_fault(text, "t.csv")
        self.assert_fault(": No such file or directory", "no.csv")
        self.assert_fault(": Is a directory", ".")

    def test_names_of_tables(self) -> None:
        self.write("2024 visits.csv", "a\n1\n")
        found = self.imported("2024 visits.csv")
        self.assertEqual(found, Imported("T_2024_VISITS", 1, ["table '2024 visits' is called T_2024_VISITS"]))
        self.assert_fault(
            ": there is a table T_2024_VISITS already: DROP it, or give this one another name", "2024 visits.csv"
        )
        self.assertEqual(self.imported("2024 visits.csv", "select").notes, ["table 'select' is called T_SELECT"])

    def test_a_full_store(self) -> None:
        for number in range(64):
            self.store.call(lambda session: session.execute(f"CREATE TABLE t{number} (a INT)"))
        self.write("more.csv", "a\n1\n")
        self.assert_fault(": error 24: over a limit", "more.csv")

    def test_many_parts(self) -> None:
        """More than two parts, and a fault in the last."""
        values = random_column(random.Random(3), 2 * PART_BYTES // 9, 0.1)
        lines = "a,b\n" + "".join(f"{'' if value is None else value},7\n" for value in values)
        path = self.write("t.csv", lines)
        self.assertGreater(path.stat().st_size, 2 * PART_BYTES)
        self.assertEqual(self.imported("t.csv").rows, len(values))
        self.assertEqual(self.columns("t"), {"A": values, "B": [7] * len(values)})
        self.assertEqual((self.told[0][-1], self.told[-1]), ("%", "100 %"))
        path.write_text(f"{lines}8,{2**40}\n")
        self.assertEqual(self.imported("t.csv", "wide").rows, len(values) + 1)
        self.assertEqual(self.columns("wide"), {"A": [*values, 8], "B": [7] * len(values) + [2**40]})
        path.write_text(lines + "8,x\n")
        self.assert_fault(f": line {len(values) + 2}, column 'b': 'x' is no integer", "t.csv", "u")


class RandomCsv(ImportTestCase):
    PIECES = ["1", "-2", ",", ",", "\n", "\r\n", "\r", '"', '"4"', '""', "NULL", "x", " ", "-", "\ufeff", "2147483648"]
    PIECES += ["9223372036854775808"]

    def test_parts_are_read_as_the_whole(self) -> None:
        """Random files, cut into short parts, compared with one LOAD of each."""
        generator = random.Random(9)
        taken = 0
        for _ in range(200):
            front = generator.choice(["", "\ufeff"]) + "a,b" + generator.choice(["\n", "\r\n", "\r"])
            rows = generator.choices(["5,6\n", "-7,\r\n", '"8",NULL\n'], k=generator.randint(0, 6))
            last = generator.choices(self.PIECES, k=generator.randint(0, 5))
            path = self.write("t.csv", "".join([front, *rows, *last]))
            expected = self.loaded(path)
            with mock.patch.object(csv_import, "PART_BYTES", generator.randint(8, 40)):
                self.assertEqual(self.made(path), expected, path.read_bytes())
            taken += expected is not None
        self.assertTrue(40 < taken < 150, taken)

    def loaded(self, path: Path) -> list[Any] | None:
        """Returns the rows of one LOAD, or None if it is refused."""
        script = f"CREATE TABLE t (a BIGINT, b BIGINT); LOAD t FROM '{path}' WITH HEADER; SELECT * FROM t; DROP TABLE t"
        _, load, rows, _ = self.store.call(lambda session: session.run(script))
        return None if load.refusal else rows.rows()

    def made(self, path: Path) -> list[Any] | None:
        """Returns the rows that the shell makes from the file, or None if it refuses the file and names a line."""
        try:
            self.imported(path.name)
        except Fault as fault:
            self.assertRegex(str(fault), r": line \d+")
            return None
        rows = self.store.call(lambda session: session.execute("SELECT * FROM t").rows())
        self.store.call(lambda session: session.execute("DROP TABLE t"))
        return rows


class Parts(unittest.TestCase):
    def test_every_cut_gives_all_lines_once(self) -> None:
        content = b'a,b\r\n1,2\n\n3,"4"\r5,6\r\n,\n7,8'
        for first in range(len(b"a,b\r\n"), len(content) + 1):
            header = header_of(content[:first])
            self.assertEqual(header, Header(["a", "b"], ",", 1, 5))
            parts = list(parts_of(_Pieces(content[first:], 3), content[:first], header))
            self.assertEqual(b"".join(part.data for part in parts), content[5:])
            self.assertTrue(all(part.data.endswith(b"\n") for part in parts[:-1]))
            at = 5
            for part in parts:
                self.assertEqual(part.line, content[:at].count(b"\n") + 1)
                at += len(part.data)

    def test_parts_of_a_file_without_the_end_of_a_line(self) -> None:
        header = header_of(b"a\r1\r2")
        self.assertEqual(list(parts_of(_Pieces(b"\r3", 1), b"a\r1\r2", header)), [Part(b"1\r2\r3", 2)])


class _Pieces(io.BytesIO):
    """A file that returns a fixed number of bytes at a time."""

    def __init__(self, content: bytes, size: int) -> None:
        super().__init__(content)
        self._size = size

    def read(self, _: Any = None) -> bytes:
        return super().read(self._size)


class Fields(ImportTestCase):
    def test_a_field_is_read_as_the_program_reads_it(self) -> None:
        """Each text of up to 4 of some characters, alone on a line."""
        fields = [""]
        for _ in range(4):
            fields += [field + letter for field in fields for letter in "+-09"]
        fields += ["NULL", "null", "nUlL", "NUL", "null ", "1_0"]
        for column_type in ColumnType:
            create = f"CREATE TABLE t (a {column_type.name})"
            self.store.call(lambda session: session.execute(create))
            bounds = [column_type.least - 1, column_type.least, column_type.greatest, column_type.greatest + 1]
            for field in {*fields, *map(str, bounds)}:
                try:
                    value: int | None | str = value_of(field, column_type)
                except ValueError:
                    value = "refused"
                self.assertEqual(value, self.loaded(f'"{field}"\n'.encode()), field)
            self.store.call(lambda session: session.execute("DROP TABLE t"))

    def loaded(self, line: bytes) -> int | None | str:
        """Returns what the program makes of a CSV line."""
        try:
            self.store.call(lambda session: session.load_bytes("t", [line]))
        except bitcol.DataRefused:
            return "refused"
        rows = self.store.call(lambda session: session.execute("SELECT a FROM t").rows())
        self.store.call(lambda session: session.execute("DELETE FROM t"))
        value: int | None = rows[0][0]
        return value


class Names(unittest.TestCase):
    def test_names(self) -> None:
        for word, name in (
            ("visits", "VISITS"),
            ("a__b_", "A__B_"),
            ("a.b", "A_B"),
            ("_a", "A"),
            ("été", "ETE"),
            ("日本", "T"),
            ("--", "T"),
            ("1", "T_1"),
            ("table", "T_TABLE"),
            ("x" * 130, "X" * 128),
            ("1" * 130, "T_" + "1" * 126),
        ):
            self.assertEqual(name_of(word, "T"), name)
            self.assertTrue(bitcol.script.NAME.fullmatch(name))

    def test_names_that_are_taken(self) -> None:
        self.assertEqual(column_names(["a", "A", "a_2", "a"])[0], ["A", "A_2", "A_2_2", "A_3"])
        long = "x" * 128
        self.assertEqual(column_names([long, long])[0], [long.upper(), "X" * 126 + "_2"])


class TableFiles(ImportTestCase):
    def test_a_table_file_whatever_its_name(self) -> None:
        columns = {"A": [1, None, LEAST], "B": [GREATEST, 0, None]}
        self.store.call(lambda session: session.write_table("t", columns))
        self.store.call(lambda session: session.save("t", self.folder / "kept.csv"))
        self.assertEqual(self.imported("kept.csv"), Imported("KEPT", 3))
        self.assertEqual(self.columns("kept"), columns)
        self.assertEqual(self.imported("kept.csv", "other").table, "OTHER")
        self.assert_fault(": there is a table KEPT already: DROP it, or give this one another name", "kept.csv")

    def test_a_table_file_that_is_damaged(self) -> None:
        self.write("t.table", b"BITCOL\1\0and more")
        self.assert_fault(": error 44: not a table file", "t.table")

    def test_words_of_the_command_line(self) -> None:
        path = self.write("t.csv", "a\n1\n")
        both = self.write("t.csv:u", "a\n1\n")
        self.assertEqual(split_word(f"{path}:v"), (str(path), "v"))
        self.assertEqual(split_word(str(both)), (str(both), None))
        self.assertEqual(split_word("no:v"), ("no:v", None))


@unittest.skipUnless(HAS_SQLITE, "Python's module sqlite3 is not installed")
class Sqlite(ImportTestCase):
    def make(self, *statements: str) -> None:
        """Executes these statements in an SQLite file."""
        import sqlite3

        connection = sqlite3.connect(self.folder / "shop.db")
        for statement in statements:
            connection.execute(statement)
        connection.commit()
        connection.close()

    def test_all_tables(self) -> None:
        self.make(
            "CREATE TABLE items (id INTEGER PRIMARY KEY, price INT)",
            "INSERT INTO items VALUES (7, 100), (8, NULL)",
            'CREATE TABLE "order lines" ("item id" INT, "count" INT)',
            'INSERT INTO "order lines" VALUES (7, -9223372036854775808)',
            "CREATE VIEW cheap AS SELECT id FROM items",
        )
        found = [job.run(self.told.append) for job in self.jobs("shop.db")]
        self.assertEqual([(made.table, made.rows) for made in found], [("ITEMS", 2), ("ORDER_LINES", 1)])
        self.assertEqual(self.columns("items"), {"ID": [7, 8], "PRICE": [100, None]})
        self.assertEqual(self.columns("order_lines"), {"ITEM_ID": [7], "C_COUNT": [-(2**63)]})
        self.assertEqual(found[0].notes, [])
        self.assertEqual(
            found[1].notes,
            [
                "table 'order lines' is called ORDER_LINES",
                "column 1 'item id' is called ITEM_ID",
                "column 2 'count' is called C_COUNT",
            ],
        )

    def test_one_table(self) -> None:
        self.make("CREATE TABLE a (x INT)", "CREATE TABLE b (x INT)", "INSERT INTO b VALUES (1)")
        self.assertEqual(self.imported("shop.db", "B"), Imported("B", 1))
        self.assert_fault(": there is no table 'c'; it has a, b", "shop.db", "c")

    def test_texts_are_read_as_fields_of_csv(self) -> None:
        self.make("CREATE TABLE t (a TEXT, b TEXT)", "INSERT INTO t VALUES ('12', ''), ('-0012', 'NULL')")
        self.make(f"INSERT INTO t VALUES ('{'0' * 5000}', '+3')")
        self.imported("shop.db")
        self.assertEqual(self.columns("t"), {"A": [12, -12, 0], "B": [None, None, 3]})

    def test_values_that_no_column_holds(self) -> None:
        wide = "has more than 64 bits, and a column holds -9223372036854775808 to 9223372036854775807"
        for value, reason in (
            ("'abc'", "'abc' is no integer"),
            ("1.5", "1.5 is no integer"),
            ("x'00'", "a blob is no integer"),
            ("'9223372036854775808'", f"9223372036854775808 {wide}"),
            ("CAST(x'ff' AS TEXT)", "'\ufffd' is no integer"),
        ):
            self.make("DROP TABLE IF EXISTS t", "CREATE TABLE t (a, b)")
            self.make(f"INSERT INTO t VALUES (1, 2), (NULL, {value})")
            self.assert_fault(f", table t: row 2, column 'b': {reason}", "shop.db")

    def test_one_table_that_cannot_be_made_keeps_no_other_away(self) -> None:
        self.make("CREATE TABLE a (x)", "INSERT INTO a VALUES ('word')")
        self.make("CREATE TABLE b (x)", "INSERT INTO b VALUES (5)")
        ended = self.run_shell(typed=".import shop.db\nSELECT x FROM b;\n")
        self.assertEqual((ended.stdout, ended.returncode), ("X\n5\n", 1))
        self.assertEqual(ended.stderr, "line 1: error: shop.db, table a: row 1, column 'x': 'word' is no integer\n")
        self.assert_answers(("shop.db:b", "-c", "SELECT x FROM b"), "X\n5\n")

    def test_many_rows(self) -> None:
        self.make(
            "CREATE TABLE t (a INT, b INT)",
            "WITH RECURSIVE n(i) AS (SELECT 0 UNION ALL SELECT i + 1 FROM n WHERE i < 24999)"
            " INSERT INTO t SELECT i, CASE WHEN i % 10 THEN -i END FROM n",
        )
        self.imported("shop.db")
        expected = {"A": list(range(25_000)), "B": [-row if row % 10 else None for row in range(25_000)]}
        self.assertEqual(self.columns("t"), expected)
        self.assertEqual(self.told, ["40 %", "80 %", "100 %"])

    def test_files_that_cannot_be_read(self) -> None:
        self.write("bad.db", b"SQLite format 3\0 and no more")
        self.assert_fault(": SQLite: file is not a database", "bad.db")
        self.make("CREATE TABLE t (a INT)", "DROP TABLE t")
        self.assert_fault(": the file has no tables", "shop.db")


class WithoutSqlite(ShellTestCase):
    def test_the_shell_says_so(self) -> None:
        self.write("sqlite3.py", "raise ImportError\n")
        self.write("shop.db", b"SQLite format 3\0")
        self.assert_fails(
            ("shop.db", "-c", "TABLES"), "error: shop.db: Python's module sqlite3 is not installed\n"
        )


def _broken_off(fault: BaseException) -> Iterator[str]:
    """Yields the pieces of a text, and then raises a fault."""
    yield "A\n"
    raise fault


class Export(ShellTestCase):
    def test_csv_and_back(self) -> None:
        self.write("t.csv", "a,b\n1,\n,-2\n")
        self.write("one.csv", "a\n1\n\"\"\n")
        self.assert_answers(("t.csv", "one.csv"), "", ".export t out.csv\n.export one one.csv\n.export t out.table\n")
        self.assertEqual((self.folder / "out.csv").read_text(), "A,B\n1,\n,-2\n")
        self.assertEqual((self.folder / "one.csv").read_text(), 'A\n1\n""\n')
        for name in ("out.csv", "out.table"):
            self.assert_answers((name, "-c", "SELECT * FROM out"), "A,B\n1,\n,-2\n")
        self.assert_answers(("one.csv", "-c", "SELECT COUNT(*) FROM one"), "COUNT(*)\n2\n")

    def test_a_failure_leaves_the_old_file(self) -> None:
        self.write("t.csv", "a\n1\n")
        for line, error in (
            (".export nowhere t.csv", "error 20: no such table"),
            (".export nowhere t.table", "error 20: no such table"),
            (".export t no/t.table", "error 41: file cannot be written"),
            (".export t no/t.csv", "error: no/t.csv: No such file or directory"),
            (".export t .csv.txt", "error: .csv.txt: the suffix says what is written, .csv or .table"),
            (".export 1 t.csv", "error: not a name: '1'; a name is a letter, then letters, digits and _, at most 128,"
             " and no reserved word"),
        ):
            self.assert_fails(("t.csv",), f"line 1: {error}\n", typed=line)
        self.assertEqual((self.folder / "t.csv").read_text(), "a\n1\n")
        self.assertEqual([path.name for path in self.folder.iterdir()], ["t.csv"])

    def test_a_failure_in_the_middle_leaves_the_old_file(self) -> None:
        store = Store()
        self.addCleanup(store.close)
        store.call(lambda session: session.write_table("t", {"a": [1, 2]}))
        old = self.write("t.csv", "old")
        full = OSError(28, "No space left on device")
        for fault, expected in ((full, Fault), (KeyboardInterrupt(), KeyboardInterrupt)):
            with mock.patch.object(exporting, "rendered", lambda *_: _broken_off(fault)):
                with self.assertRaises(expected):
                    exporting.export_table(store, "t", str(old))
            store.call(lambda session: session.tables())
            self.assertEqual([(path.name, path.read_text()) for path in self.folder.iterdir()], [("t.csv", "old")])

    def test_a_link_and_who_may_read_it_stay(self) -> None:
        self.write("t.csv", "a\n1\n")
        (self.folder / "link.csv").symlink_to("t.csv")
        (self.folder / "t.csv").chmod(0o640)
        self.assert_answers(("t.csv",), "", "INSERT INTO t VALUES (2);\n.export t link.csv\n")
        self.assertTrue((self.folder / "link.csv").is_symlink())
        self.assertEqual((self.folder / "t.csv").read_text(), "A\n1\n2\n")
        self.assertEqual((self.folder / "t.csv").stat().st_mode & 0o777, 0o640)
