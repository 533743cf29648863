"""examples/table_file.py beside the program, in both directions: it reads what SAVE writes, and OPEN reads what it
writes, by both versions. The rows are those that the tests give."""

from __future__ import annotations

import importlib.util
import random
import subprocess
import sys
import tempfile
import unittest
from collections.abc import Iterator
from pathlib import Path
from types import ModuleType
from typing import Any

import bitcol
from tests.support import GREATEST, GREATEST_BIGINT, LEAST, LEAST_BIGINT, SessionTestCase, Value, random_column
from tests.test_tables import NO_TABLE, WORKED, with_bytes

EXAMPLE = Path(__file__).resolve().parents[3] / "examples/table_file.py"
CHOICES = [(layout, kind) for layout in "PVHS" for kind in ("OFFSET", "DICTIONARY")]
# More rows than a segment of 256.
MANY = 300
# The cells of a table's columns, by the columns' names.
Columns = dict[str, list[Value]]
# For each type a table with both ends of it, one value alone, small values, and no value.
FEW: dict[str, Columns] = {
    "INTEGER": {
        "A": [3, None, -1, LEAST, GREATEST, 0, None, 3, 3],
        "B2_": [None, 7, 7, 7, 7, 7, 7, 7, None],
        "C": [0, 1, 2, 3, 4, 5, 6, 7, 8],
        "D": [None] * 9,
    },
    "BIGINT": {
        "A": [LEAST_BIGINT, None, GREATEST_BIGINT, 0, -1, None, 2**32, 2**32 - 1, -(2**32)],
        "B2_": [None, 2**40, 2**40, 2**40, 2**40, 2**40, 2**40, 2**40, None],
        "C": [0, 1, 2, 3, 4, 5, 6, 7, 8],
        "D": [None] * 9,
    },
}


def has_program() -> bool:
    """Whether there is a program to run."""
    try:
        bitcol.find_program()
    except bitcol.OperationalError:
        return False
    return True


def loaded() -> ModuleType:
    """The example as a module."""
    found = importlib.util.spec_from_file_location("table_file_example", EXAMPLE)
    assert found is not None and found.loader is not None
    module = importlib.util.module_from_spec(found)
    found.loader.exec_module(module)
    return module


def tables_of(column_type: str) -> Iterator[Columns]:
    """Tables of columns of a type: few rows, one row, none, and many."""
    few = FEW[column_type]
    yield few
    yield {name: cells[:1] for name, cells in few.items()}
    yield {name: [] for name in few}
    generator, bits = random.Random(9), 32 if column_type == "INTEGER" else 64
    yield {name: random_column(generator, MANY, share, bits) for name, share in (("A", 0.1), ("B", 0.0))}


def value_list(rows: list[tuple[Value, ...]]) -> str:
    """The rows as in an INSERT."""
    return ", ".join("(" + ", ".join("NULL" if cell is None else str(cell) for cell in row) + ")" for row in rows)


@unittest.skipUnless(has_program(), "there is no program: build it by rt run in crates/bitcol, or name it by BITCOL")
class Example(SessionTestCase):
    def setUp(self) -> None:
        super().setUp()
        self.example: Any = loaded()

    def cases(self) -> Iterator[tuple[list[Any], Columns]]:
        """Headers and columns of tables in each layout, kind and type."""
        for layout, kind in CHOICES:
            for column_type in ("INTEGER", "BIGINT"):
                if (layout, column_type) != ("H", "BIGINT"):
                    for columns in tables_of(column_type):
                        yield [self.example.Header(name, layout, kind, column_type) for name in columns], columns

    def create(self, table: str, headers: list[Any], rows: list[tuple[Value, ...]]) -> None:
        """Makes a table of these rows by statements."""
        made = ", ".join(f"{name} {column_type} USING {layout} {kind}" for name, layout, kind, column_type in headers)
        self.session.execute(f"CREATE TABLE {table} ({made})")
        if rows:
            self.session.execute(f"INSERT INTO {table} VALUES {value_list(rows)}")

    def test_it_reads_and_writes_what_a_save_writes(self) -> None:
        for headers, columns in self.cases():
            with self.subTest(headers=headers, rows=len(columns["A"])):
                self.create("t", headers, list(zip(*columns.values())))
                data = self.session.table_bytes("t")
                self.assertEqual(self.example.version_of(data), 2)
                self.assertEqual(self.example.read_table(data), (headers, list(columns.values())))
                self.assertEqual(self.example.write_table(headers, list(columns.values())), data)
                self.session.execute("DROP TABLE t")

    def test_it_reads_what_a_save_writes_of_rows_that_are_left(self) -> None:
        columns = FEW["INTEGER"]
        rows = list(zip(*columns.values()))
        for layout, kind in CHOICES:
            with self.subTest(layout=layout, kind=kind):
                headers = [self.example.Header(name, layout, kind) for name in columns]
                between = [row for pair in zip(rows, [(1, 1, 99, 1)] * len(rows)) for row in pair]
                self.create("t", headers, between)
                self.assertEqual(self.session.execute("DELETE FROM t WHERE c = 99").count, len(rows))
                data = self.session.table_bytes("t")
                self.assertEqual(self.example.read_table(data), (headers, list(columns.values())))
                self.session.execute("DROP TABLE t")

    def test_an_open_reads_what_it_writes(self) -> None:
        for headers, columns in self.cases():
            rows = list(zip(*columns.values()))
            for version in (1, 2) if headers[0].type == "INTEGER" else (2,):
                with self.subTest(headers=headers, rows=len(rows), version=version):
                    data = self.example.write_table(headers, list(columns.values()), version=version)
                    self.assertEqual(self.session.put_table("t", data), len(rows))
                    found = self.session.execute("SELECT * FROM t")
                    self.assertEqual((list(found.headings), found.rows()), (list(columns), rows))
                    types = {name: column_type.name for name, column_type in self.session.column_types("t").items()}
                    self.assertEqual(types, {header.name: header.type for header in headers})
                    # Layouts and kinds come back as they were, and a SAVE is by version 2.
                    saved = self.example.write_table(headers, list(columns.values()))
                    self.assertEqual(self.session.table_bytes("t"), saved)
                    self.session.execute("DROP TABLE t")

    def test_both_refuse_what_is_no_table(self) -> None:
        for version, worked in WORKED.items():
            self.assertEqual(self.example.read_table(worked), ([self.example.Header("A")], [[3, None, -1]]))
            cuts = [worked[:size] for size in range(len(worked))]
            for data in (*cuts, worked + b"\0", *(with_bytes(worked, changes) for changes in NO_TABLE[version])):
                with self.assertRaises(self.example.NotTable):
                    self.example.read_table(data)
                with self.assertRaises(bitcol.Refused) as caught:
                    self.session.put_table("t", data)
                self.assertEqual(caught.exception.number, bitcol.ErrorNumber.NOT_A_TABLE_FILE)
        self.assertEqual(self.session.tables(), [])

    def test_the_commands(self) -> None:
        with tempfile.TemporaryDirectory() as name:
            folder = Path(name)

            def run(*words: str) -> tuple[int, str]:
                command = [sys.executable, "-B", str(EXAMPLE), *words]
                ended = subprocess.run(command, capture_output=True, text=True, cwd=folder, check=False)
                return ended.returncode, ended.stdout + ended.stderr

            self.session.run(
                "CREATE TABLE t (day INT, seconds INTEGER USING H DICTIONARY);"
                "INSERT INTO t VALUES (1, 30), (1, NULL), (-2, 45);"
                "CREATE TABLE big (a BIGINT USING S); INSERT INTO big VALUES (2147483648);"
            )
            self.session.save("t", folder / "t.table")
            self.session.save("big", folder / "big.table")
            shown = "2 columns, 3 rows\nDAY INTEGER V OFFSET: -2 to 1, 0 NULL\n"
            shown += "SECONDS INTEGER H DICTIONARY: 30 to 45, 1 NULL\n"
            self.assertEqual(run("show", "t.table"), (0, shown))
            self.assertEqual(run("csv", "t.table"), (0, "DAY,SECONDS\n1,30\n1,NULL\n-2,45\n"))
            self.assertEqual(run("convert", "t.table", "first.table", "1"), (0, ""))
            self.assertEqual(self.session.open("first", folder / "first.table"), 3)
            self.assertEqual(self.session.execute("SELECT * FROM first").rows(), [(1, 30), (1, None), (-2, 45)])
            self.assertEqual(run("convert", "first.table", "second.table"), (0, ""))
            self.assertEqual((folder / "second.table").read_bytes(), (folder / "t.table").read_bytes())
            refused = (1, "table_file.py: big.table: version 1 has no BIGINT\n")
            self.assertEqual(run("convert", "big.table", "first.table", "1"), refused)
