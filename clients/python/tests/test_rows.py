"""The module in C, if it was built: it makes the same of columns and rows as Python does, and leaves to it what it
doesn't take. Otherwise the tests are skipped, and the run says so.

Expected bytes are written bit by bit, or are those of the same package without the module.
"""

from __future__ import annotations

import array
import gc
import os
import random
import shutil
import struct
import subprocess
import sys
import tempfile
import unittest
from collections import namedtuple
from collections.abc import Callable
from pathlib import Path
from typing import Any

import bitcol
from bitcol import ColumnType, Table
from bitcol.optional import rows_module
from bitcol.reply import reply_of
from bitcol.rows_by_c import BLOCK_ROWS
from tests.support import GREATEST, GREATEST_BIGINT, LEAST, LEAST_BIGINT, only_python, random_column
from tests.test_tables import bits_of

try:
    import numpy
except ImportError:
    numpy = None  # type: ignore[assignment]
try:
    import _testcapi
except ImportError:
    _testcapi = None  # type: ignore[assignment]

rows = rows_module()
LENGTHS = (*range(18), 31, 32, 33, 63, 64, 65, BLOCK_ROWS - 1, BLOCK_ROWS, BLOCK_ROWS + 1, 2 * BLOCK_ROWS + 5)
Pair = namedtuple("Pair", "a b")


class Whole(int):
    """An int of a subclass."""


class Listed(list):
    """A list of a subclass, whose items are others than those of the list in it."""

    def __getitem__(self, place: Any) -> Any:
        return 7

    def __iter__(self) -> Any:
        return iter([7] * len(self))


def setUpModule() -> None:
    if rows is None:
        print("the module in C is not built, or BITCOL_ROWS is 0: its tests are left out", file=sys.stderr)


def words_of(cells: list[Any], size: int) -> bytes:
    """Returns a word for each cell."""
    return b"".join(struct.pack("<i" if size == 4 else "<q", cell or 0) for cell in cells)


def presence_of(cells: list[Any]) -> bytes:
    return bits_of([cell is not None for cell in cells])


def samples() -> list[list[Any]]:
    """Columns of each length: of random values of 32 and of 64 bits, with and without NULL, and of the ends of both."""
    generator = random.Random(31)
    kinds = [(length, share, bits) for length in LENGTHS for share in (0, 0.3, 1) for bits in (32, 64)]
    found = [random_column(generator, *kind) for kind in kinds]
    ends = (LEAST, GREATEST, LEAST_BIGINT, GREATEST_BIGINT, 0, -1, 1, None, 2**30 - 1, 2**30, 2**60, -(2**60))
    return [*found, *([end] for end in ends), list(ends), [LEAST, None, GREATEST], [GREATEST + 1, None], [LEAST - 1]]


def outcome(call: Callable[[], Any]) -> Any:
    """What a call returns, or the type and text of what it raises."""
    try:
        return call()
    except Exception as fault:
        return type(fault), str(fault)


def made(table: Table) -> tuple[Any, ...]:
    """All that a table says."""
    pieces = [b"".join(bitcol.table_file.encode(table.stored, version)) for version in (None, 2)]
    return pieces, table.columns(), list(table.rows()), table.types(), table.arrays()


@unittest.skipIf(rows is None, "the module in C is not built")
class Worked(unittest.TestCase):
    """By hand: 3, NULL and -1, as in docs/TABLE_FILE.md."""

    WORDS = bytes.fromhex("03000000 00000000 ffffffff")
    WIDE = bytes.fromhex("0300000000000000 0000000000000000 ffffffffffffffff")

    def test_in(self) -> None:
        for column in ([3, None, -1], (3, None, -1)):
            self.assertEqual(rows.column_in(column, 0, 3), (b"\x05", self.WIDE))
        self.assertEqual(rows.column_in([9, 3, None, -1, 9], 1, 4), (b"\x05", self.WIDE))
        pairs = [(3, 0), [None, 0], (-1, 0)]
        self.assertEqual(rows.rows_in(pairs, 0, 3, 2), [(b"\x05", self.WIDE), (b"\x07", bytes(24))])
        self.assertEqual(rows.narrowed(self.WIDE), self.WORDS)

    def test_out(self) -> None:
        for words, size in ((self.WORDS, 4), (self.WIDE, 8)):
            self.assertEqual(rows.list_out(b"\x05", words, size), [3, None, -1])
            self.assertEqual(list(rows.Rows((b"\x05", words, size))), [(3,), (None,), (-1,)])
            self.assertEqual(rows.ends_of(b"\x05", words, size), (-1, 3))
            self.assertIsNone(rows.ends_of(b"\x00", words, size))

    def test_planes(self) -> None:
        """The base is -1, the codes 4, nothing and 0; planes are lowest first."""
        eight = self.WORDS + bytes(20)
        self.assertEqual(rows.block_planes(b"\x05", eight, -1, 3, 4), [b"\x00", b"\x00", b"\x01"])
        self.assertEqual(rows.block_words(b"\x05", -1, (b"\x00", b"\x00", b"\x01"), 4), eight)
        self.assertEqual(rows.codes_told(b"\x05", (b"\x01", b"\x00", b"\x00")), (False, True, 4))
        self.assertEqual(rows.codes_told(b"\x05", (b"\x02",)), (True, True, 0))
        self.assertEqual(rows.codes_told(b"\x00", (b"\x00",)), (False, False, None))

    def test_ends_of_narrow_words(self) -> None:
        for number, is_narrow in ((LEAST, True), (GREATEST, True), (LEAST - 1, False), (GREATEST + 1, False)):
            found = rows.narrowed(struct.pack("<qq", 0, number))
            self.assertEqual(found, struct.pack("<ii", 0, number) if is_narrow else None)


@unittest.skipIf(rows is None, "the module in C is not built")
class Columns(unittest.TestCase):
    def test_columns_in_and_out(self) -> None:
        for cells in samples():
            presence, wide = presence_of(cells), words_of(cells, 8)
            self.assertEqual(rows.column_in(cells, 0, len(cells)), (presence, wide))
            self.assertEqual(rows.list_out(presence, wide, 8), cells)
            self.assertEqual(list(rows.Rows(*[(presence, wide, 8)] * 2)), [(cell, cell) for cell in cells])
            if all(cell is None or LEAST <= cell <= GREATEST for cell in cells):
                self.assertEqual(rows.narrowed(wide), words_of(cells, 4))
                self.assertEqual(rows.list_out(presence, words_of(cells, 4), 4), cells)

    def test_tables_as_by_python(self) -> None:
        """Files, lists, tuples, types and arrays, of columns and of rows."""
        for cells in samples():
            table = {"a": cells, "b": tuple(reversed(cells))}
            pairs = list(zip(*table.values()))
            mixed = [list(pair) if place % 3 else pair for place, pair in enumerate(pairs)]
            with only_python():
                expected = made(Table.of(table))
            for name, call in (
                ("columns", lambda: Table.of(table)),
                ("rows", lambda: Table.of_rows(["a", "b"], pairs)),
                ("lists", lambda: Table.of_rows(["a", "b"], tuple(mixed))),
                ("iterator", lambda: Table.of_rows(["a", "b"], iter(pairs))),
            ):
                with self.subTest(way=name, rows=len(cells)):
                    self.assertEqual(made(call()), expected)

    def test_each_width(self) -> None:
        generator = random.Random(32)
        for width in range(1, 65):
            base = generator.randint(LEAST_BIGINT, GREATEST_BIGINT - 2**width + 1)
            cells = [base, base + 2**width - 1, None, *(base + generator.getrandbits(width) for _ in range(40))]
            with only_python():
                expected = made(Table.of({"a": cells}))
            self.assertEqual(made(Table.of({"a": cells})), expected)
            self.assertEqual(made(Table.of_file(expected[0][1]))[:1], expected[:1])

    def test_many_columns(self) -> None:
        generator = random.Random(33)
        for width in (1, 3, 64, 65):
            names = [f"c{place}" for place in range(width)]
            columns = {name: random_column(generator, 100, 0.2) for name in names}
            table = Table.of_rows(names, list(zip(*columns.values())))
            self.assertEqual(table.columns(), columns)
            self.assertEqual(list(table), list(zip(*columns.values())))

    def test_a_table_whose_columns_have_different_lengths(self) -> None:
        self.assertEqual(list(Table.of({"a": [1, 2, 3], "b": [4, None]}).rows()), [(1, 4), (2, None)])
        self.assertEqual(list(Table.of({}).rows()), [])


@unittest.skipIf(rows is None, "the module in C is not built")
class LeftToPython(unittest.TestCase):
    """What the module doesn't take: the result, or the exception with its text, is that of Python."""

    UNUSUAL = (True, False, 1.0, float("nan"), "1", b"1", Whole(5), 2**63, -(2**63) - 1, 2**200, [1], object, ...)

    def unusual(self) -> list[Any]:
        return [*self.UNUSUAL, *([numpy.int64(5), numpy.float64(5), numpy.int8(-1)] if numpy is not None else [])]

    def assert_as_by_python(self, call: Callable[[], Table]) -> None:
        with only_python():
            expected = outcome(lambda: made(call()))
        self.assertEqual(outcome(lambda: made(call())), expected)

    def test_cells(self) -> None:
        for cell in self.unusual():
            for place in (0, 1, 8, BLOCK_ROWS - 1, BLOCK_ROWS, 2 * BLOCK_ROWS):
                column: list[Any] = [3, None] * BLOCK_ROWS + [4]
                column[place] = cell
                with self.subTest(cell=cell, place=place):
                    self.assertIsNone(rows.column_in(column, 0, len(column)))
                    self.assertIsNone(rows.rows_in([(1, each) for each in column], 0, len(column), 2))
                    self.assert_as_by_python(lambda: Table.of({"a": column}))
                    self.assert_as_by_python(lambda: Table.of_rows(["a", "b"], [(1, each) for each in column]))

    def test_numbers_beyond_the_type(self) -> None:
        for number in (GREATEST + 1, LEAST - 1, GREATEST_BIGINT, LEAST_BIGINT, GREATEST, LEAST, 2**63):
            for of in (None, *ColumnType):
                column = [1, None, *range(BLOCK_ROWS), number]
                self.assert_as_by_python(lambda: Table.of({"a": column}, column_type=of))
                self.assert_as_by_python(lambda: Table.of_rows(["a"], [[cell] for cell in column], column_type=of))
        with self.assertRaisesRegex(bitcol.DataError, "column b: row 2: a value outside -2147483648 to 2147483647"):
            Table.of_rows(["a", "b"], [(1, 2), (3, None), (4, 2**31)], column_type=ColumnType.INTEGER)

    def test_columns(self) -> None:
        numbers = array.array("i", [1])
        for column in (Listed([1, 2]), Pair(1, None), range(5), {1: 2}, {3}, numbers, "12", 5, None, [[1]]):
            self.assertIsNone(rows.column_in(column, 0, 1))
            self.assert_as_by_python(lambda: Table.of({"a": column}))

    def test_rows_of_other_kinds(self) -> None:
        for listed in (
            *([(1, 2), (3,)], [(1, 2), (3, 4, 5)], [()], [[], []], [(1, 2), Pair(3, 4)], [(1, 2), Listed([3, 4])]),
            *([(1, 2), {3, 4}], [(1, 2), "34"], [(1, 2), 5], [(1, 2), None], [(1, 2), range(2)], [(1, 2), {3: 4}]),
            *(Listed([(1, 2)]), Pair((1, 2), (3, 4)), ((1, 2), [3, None]), [(1, 2), array.array("q", [3, 4])], [], ()),
        ):
            with self.subTest(rows=listed):
                self.assert_as_by_python(lambda: Table.of_rows(["a", "b"], listed))
        for names in ([], ["a"], ["a", "b", "c"], [f"c{place}" for place in range(65)]):
            self.assert_as_by_python(lambda: Table.of_rows(names, [(1, 2)]))

    def test_what_has_not_these_rows(self) -> None:
        """As if another thread had removed rows since the last block."""
        for start, end in ((0, 3), (-1, 1), (2, 1), (3, 3), (sys.maxsize, sys.maxsize), (-sys.maxsize - 1, 2)):
            self.assertIsNone(rows.column_in([1, 2], start, end))
            self.assertIsNone(rows.rows_in([(1,), (2,)], start, end, 1))
        for width in (0, -1, 65, sys.maxsize):
            self.assertIsNone(rows.rows_in([(1,)], 0, 1, width))


@unittest.skipIf(rows is None, "the module in C is not built")
class Replies(unittest.TestCase):
    def test_worked(self) -> None:
        self.assertEqual(rows.rows_in_lines(b"3,NULL\n-1,0\n", 2), [(3, None), (-1, 0)])
        self.assertEqual(rows.rows_in_lines(b"NULL\n", 1), [(None,)])
        self.assertEqual(rows.rows_in_lines(b"", 3), [])

    def test_as_by_python(self) -> None:
        """Replies of each length, with the ends of 32 and 64 bits, and sums beyond them."""
        generator = random.Random(34)
        ends = [LEAST_BIGINT, GREATEST_BIGINT, LEAST, GREATEST, 0, -1, 10**18, -(10**18), 10**19, 2**64 - 1]
        for length in (*range(18), 1000, 40_003):
            for bits in (8, 32, 64):
                cells = [*random_column(generator, length, 0.2, bits), *ends[: length and bits // 8]]
                expected = [(cell, None, -7) for cell in cells]
                lines = "".join("NULL,NULL,-7\n" if cell is None else f"{cell},NULL,-7\n" for cell in cells)
                data = f"A,B,C\n{lines}rows {len(cells)}\n".encode()
                with only_python():
                    self.assertEqual(reply_of(data).rows(), expected)
                reply = reply_of(data)
                self.assertEqual((reply.rows(), list(reply), reply.first_rows(2)), (expected, expected, expected[:2]))
                self.assertEqual(sum(reply.batches(), []), expected)
                self.assertEqual((reply.columns()[0], reply.rows()), (cells, expected))

    def test_what_is_left_to_python(self) -> None:
        for lines, width in (
            *((b"1", 1), (b"1,", 1), (b",\n", 1), (b"\n", 1), (b"1,2\n", 1), (b"1\n", 2), (b"1\n2\n", 2)),
            *((b"NUL\n", 1), (b"NULLS\n", 1), (b"NULL", 1), (b"null\n", 1), (b"-\n", 1), (b"--1\n", 1)),
            *((b"1.5\n", 1), (b" 1\n", 1), (b"1 \n", 1), (b"01\n", 1), (b"-01\n", 1), (b"A\n", 1), (b"1e3\n", 1)),
            *((b"9223372036854775808\n", 1), (b"-9223372036854775809\n", 1), (b"1" * 30 + b"\n", 1), (b"+1\n", 1)),
            *((b"\0\n", 1), (b"1\r\n", 1), (b"1,2\n3", 2), (b"1\n", 0), (b"1\n", -1), (b"", 0), (b"1\n", 3)),
        ):
            with self.subTest(lines=lines, width=width):
                self.assertIsNone(rows.rows_in_lines(lines, width))

    def test_tables(self) -> None:
        data = b"TABLE,COLUMNS,ROWS\nT,2,3\nrows 1\n"
        self.assertEqual((reply_of(data).rows(), list(reply_of(data).batches())), ([("T", 2, 3)], [[("T", 2, 3)]]))
        with self.assertRaisesRegex(bitcol.InterfaceError, "has no rows"):
            reply_of(b"ok\n").rows()


@unittest.skipIf(rows is None, "the module in C is not built")
class Module(unittest.TestCase):
    def test_wrong_lengths(self) -> None:
        many = (b"\x01",) * 65
        for call, arguments in (
            (rows.codes_told, (b"\x01", (b"",))),
            (rows.codes_told, (b"\x01", (7,))),
            (rows.codes_told, (b"\x01", many)),
            (rows.ends_of, (b"\x01", bytes(3), 4)),
            (rows.ends_of, (b"", bytes(4), 4)),
            (rows.ends_of, (b"\x01", bytes(4), 2)),
            (rows.block_words, (b"\x01", 0, (b"\x01\x01",), 4)),
            (rows.block_words, (b"\x01", 0, many, 8)),
            (rows.block_words, (b"\x01", 0, (b"\x01",), 3)),
            (rows.block_planes, (b"\x01", bytes(28), 0, 1, 4)),
            (rows.block_planes, (b"\x01", bytes(32), 0, 0, 4)),
            (rows.block_planes, (b"\x01", bytes(32), 0, 33, 4)),
            (rows.block_planes, (b"\x01", bytes(64), 0, 65, 8)),
            (rows.narrowed, (bytes(7),)),
            (rows.narrowed, ([],)),
            (rows.list_out, (b"", bytes(4), 4)),
            (rows.list_out, (b"\0\0", bytes(4), 4)),
            (rows.list_out, (b"\0", bytes(4), 0)),
            (rows.Rows, ((b"\0", bytes(4), 4), (b"\0", bytes(8), 4))),
            (rows.Rows, ((b"\0", bytes(4), 8),)),
        ):
            with self.subTest(call=call.__name__, arguments=arguments), self.assertRaises(ValueError):
                call(*arguments)

    def test_wrong_types(self) -> None:
        view = memoryview(b"\0")
        for call, arguments in (
            (rows.codes_told, (view, ())),
            (rows.codes_told, (b"", [])),
            (rows.ends_of, (b"\0", bytearray(4), 4)),
            (rows.block_words, (b"\0", 0.5, (), 4)),
            (rows.block_planes, (b"\0", view, 0, 1, 4)),
            (rows.column_in, ([1], 0)),
            (rows.rows_in, ([1], 0, 1)),
            (rows.list_out, (view, bytes(4), 4)),
            (rows.rows_in_lines, (view, 1)),
            (rows.rows_in_lines, (b"1\n",)),
            (rows.Rows, ()),
            (rows.Rows, (7,)),
            (rows.Rows, ((view, bytes(4), 4),)),
            (rows.Rows, ((b"\0", bytes(4)),)),
        ):
            with self.subTest(call=call.__name__, arguments=arguments), self.assertRaises(TypeError):
                call(*arguments)
        with self.assertRaises(OverflowError):
            rows.block_words(b"\0", 2**63, (), 4)
        with self.assertRaises(TypeError):
            rows.Rows((b"\0", bytes(4), 4), named=1)

    def test_an_iterator(self) -> None:
        iterator = rows.Rows((b"\x07", words_of([1, 2, 3], 4), 4))
        self.assertIs(iter(iterator), iterator)
        self.assertEqual((iterator.__length_hint__(), next(iterator), iterator.__length_hint__()), (3, (1,), 2))
        self.assertEqual((list(iterator), list(iterator), iterator.__length_hint__()), ([(2,), (3,)], [], 0))

    def test_the_garbage_collector_has_nothing_to_visit(self) -> None:
        (row,) = rows.Rows((b"\x01", words_of([10**6], 4), 4))
        self.assertFalse(gc.is_tracked(row))
        self.assertTrue(gc.isenabled())


@unittest.skipIf(rows is None, "the module in C is not built")
class References(unittest.TestCase):
    """Each call, whatever its end, leaves as many objects and references as there were."""

    def calls(self) -> list[Callable[[], Any]]:
        cells = [10**6, None, -(10**12), *range(1000, 1040)]
        presence, words, pairs = presence_of(cells), words_of(cells, 8), [(cell, cell) for cell in cells]
        column = (presence, words, 8)
        table = Table.of({"a": cells, "b": cells})
        data = b"".join(table.file_pieces())
        return [
            *(lambda of=of: rows.column_in(of, 0, len(of)) for of in (cells, [*cells, 1.5], [*cells, 2**64])),
            *(lambda of=of: rows.rows_in(of, 0, len(of), 2) for of in (pairs, [*pairs, (1,)], [*pairs, (1, "2")])),
            *(lambda of=of: rows.narrowed(of) for of in (words, bytes(80), bytes(7))),
            *(lambda of=of: rows.list_out(of, words, 8) for of in (presence, b"")),
            *(lambda of=of: list(rows.Rows(column, of)) for of in (column, (b"", b"", 4), 7)),
            lambda: next(rows.Rows(column)),
            *(lambda of=of: rows.rows_in_lines(of, 2) for of in (b"1000,-5000\n" * 9, b"1000,NULL\n1000,\n")),
            lambda: rows.ends_of(presence, words, 8),
            lambda: rows.block_planes(b"\x01", bytes(64), 0, 64, 8),
            lambda: rows.block_words(b"\x01", 0, (b"\x01",) * 64, 8),
            lambda: rows.codes_told(b"\x01", (b"\x01",) * 64),
            lambda: made(Table.of_file(data)),
            lambda: Table.of_rows(["a", "b"], pairs),
        ]

    def test_repeated_calls(self) -> None:
        for place, call in enumerate(self.calls()):
            counts = []
            for _ in range(3):
                for _ in range(300):
                    outcome(call)
                gc.collect()
                counts.append((sys.getallocatedblocks(), sys.getrefcount(None)))
            with self.subTest(call=place):
                # Tests around this one may keep a few objects: a reference lost in each call would be 300.
                self.assertLess(abs(counts[2][0] - counts[1][0]), 100)
                self.assertLess(abs(counts[2][1] - counts[1][1]), 100)

    @unittest.skipIf(_testcapi is None, "_testcapi is not installed")
    def test_no_memory(self) -> None:
        """Each allocation of a call is refused in turn."""
        cells = [10**6, None, -(10**12), 10**9]
        presence, words, planes = presence_of(cells), words_of(cells, 8), (b"\x01",) * 9
        pairs, columns = [(cell, cell) for cell in cells], ((presence, words, 8),) * 2
        for call in (
            lambda: rows.column_in(cells, 0, 4),
            lambda: rows.rows_in(pairs, 0, 4, 2),
            lambda: rows.narrowed(words),
            lambda: rows.list_out(presence, words, 8),
            lambda: list(rows.Rows(*columns)),
            lambda: rows.rows_in_lines(b"100000,NULL\n200000,300000\n", 2),
            lambda: rows.ends_of(presence, words, 8),
            lambda: rows.block_planes(b"\x0d", words + bytes(32), 0, 9, 8),
            lambda: rows.block_words(b"\x01", 0, planes, 8),
            lambda: rows.codes_told(b"\x01", planes),
        ):
            expected, counts = call(), []
            for _ in range(3):
                found = [self.without_memory(call, which) for which in range(40)]
                self.assertIn(MemoryError, found)
                self.assertEqual([each for each in found if each is not MemoryError][-1:], [expected])
                del found
                counts.append(sys.getallocatedblocks())
            # The first time, the interpreter keeps freed tuples for later ones.
            self.assertLess(abs(counts[2] - counts[1]), 20)

    def without_memory(self, call: Callable[[], Any], which: int) -> Any:
        """What a call returns while an allocation, counted from 0, is refused, or MemoryError if it raises that."""
        _testcapi.set_nomemory(which, which + 1)
        try:
            return call()
        except MemoryError:
            return MemoryError
        finally:
            _testcapi.remove_mem_hooks()


class Found(unittest.TestCase):
    """Whether the module is used, as another process says."""

    ASKED = """if True:
        import bitcol
        from bitcol.optional import rows_module

        print(rows_module(), bitcol.Table.of({"a": [3]}).columns())
    """

    def said(self, folder: Path, **variables: str) -> str:
        environment = {name: value for name, value in os.environ.items() if name != "BITCOL_ROWS"}
        environment.update(variables, PYTHONPATH=str(folder))
        words = [sys.executable, "-B", "-c", self.ASKED]
        return subprocess.run(words, env=environment, cwd=folder, capture_output=True, text=True, check=True).stdout

    def setUp(self) -> None:
        room = tempfile.TemporaryDirectory()
        self.addCleanup(room.cleanup)
        self.folder = Path(room.name)
        shutil.copytree(Path(bitcol.__file__).parent, self.folder / "bitcol")

    @unittest.skipIf(rows is None, "the module in C is not built")
    def test_the_variable(self) -> None:
        for value, begins in ((None, "<module "), ("1", "<module "), ("0", "None ")):
            said = self.said(self.folder, **({} if value is None else {"BITCOL_ROWS": value}))
            self.assertTrue(said.startswith(begins) and said.endswith("{'a': [3]}\n"), said)

    def test_a_module_that_is_not_there_or_none(self) -> None:
        module = self.folder / "bitcol/_rows.abi3.so"
        module.unlink(missing_ok=True)
        self.assertEqual(self.said(self.folder), "None {'a': [3]}\n")
        module.write_bytes(b"no module")
        self.assertEqual(self.said(self.folder), "None {'a': [3]}\n")


if __name__ == "__main__":
    unittest.main()
