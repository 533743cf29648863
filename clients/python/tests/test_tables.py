"""Table files byte by byte, and writing and reading whole tables."""

import array
import os
import random
import struct
import tempfile
import unittest
from pathlib import Path
from unittest import mock

import bitcol
from bitcol import ColumnType, Kind, Layout, Table
from bitcol.cells import cells_of
from bitcol.table_file import HEADERS_BYTES, Column, ColumnHeader, decode, encode, headers_of, with_types
from tests.support import GREATEST, GREATEST_BIGINT, LEAST, LEAST_BIGINT, SessionTestCase, random_column

# The example files of docs/TABLE_FILE.md, in each version: a column A, V and OFFSET, with the rows 3, NULL and -1.
WORKED = {
    1: bytes.fromhex("424954434f4c 0100 0100 03000000 01 41 01 00 05 03000000 00000000 ffffffff"),
    2: bytes.fromhex("424954434f4c 0200 0100 03000000 01 41 00 01 00 05 ffffffffffffffff 03 01 00 00"),
}
# Changes after which they aren't valid table files: bytes and their positions.
NO_TABLE = {
    1: [{18: 0x0D}, {23: 0x01}, {16: 0x04}, {15: 0x61}, {17: 0x02}, {0: 0x62}, {6: 0x03}, {8: 0x00}, {10: 0x04}, {14: 0x00}],
    2: [
        *({15: 0x61}, {16: 0x02}, {17: 0x04}, {18: 0x02}, {19: 0x0D}, {27: 0x00}, {28: 0x04}, {29: 0x00}, {29: 0x03}),
        *({31: 0x04}, {16: 0x01, 17: 0x02}, {0: 0x62}, {6: 0x01}, {8: 0x00}, {10: 0x09}, {14: 0x00}, {28: 0x00}, {28: 0xFF}),
    ],
}


def spelled(columns: dict[str, list[object]], version: int = 1) -> bytes:
    """Returns the table file of these columns, written bit by bit as described. In version 1 all are INTEGER."""
    rows = len(next(iter(columns.values())))
    data = b"BITCOL" + struct.pack("<HHI", version, len(columns), rows)
    for name, cells in columns.items():
        is_bigint = any(cell is not None and not LEAST <= cell <= GREATEST for cell in cells)
        data += bytes([len(name)]) + name.encode() + bytes([is_bigint, 1, 0][2 - version :])
    for cells in columns.values():
        data += bits_of([cell is not None for cell in cells])
        data += b"".join(struct.pack("<i", cell or 0) for cell in cells) if version == 1 else planes_of(cells)
    return data


def planes_of(cells: list[object]) -> bytes:
    """Returns the part of a column of version 2 after its presence."""
    values = [cell for cell in cells if cell is not None]
    base = min(values, default=0)
    width = max(1, (max(values, default=0) - base).bit_length())
    codes = [0 if cell is None else cell - base for cell in cells]
    planes = (bits_of([code >> place & 1 for code in codes]) for place in reversed(range(width)))
    return struct.pack("<qB", base, width) + b"".join(planes)


def bits_of(bits: list[int]) -> bytes:
    """Returns a bit for each row, from the lowest bit of the first byte on."""
    found = bytearray((len(bits) + 7) // 8)
    for row, bit in enumerate(bits):
        found[row // 8] |= bit << row % 8
    return bytes(found)


def with_bytes(data: bytes, changes: dict[int, int]) -> bytes:
    """Returns the bytes with some of them replaced."""
    changed = bytearray(data)
    for place, byte in changes.items():
        changed[place] = byte
    return bytes(changed)


class Format(unittest.TestCase):
    def test_the_worked_files(self) -> None:
        for version, worked in WORKED.items():
            self.assertEqual(b"".join(encode([Column("A", cells_of([3, None, -1]))], version)), worked)
            (column,) = decode(worked)
            self.assertEqual((column.name, column.layout, column.kind), ("A", Layout.V, Kind.OFFSET))
            self.assertEqual((column.cells.to_list(), column.cells.column_type), ([3, None, -1], ColumnType.INTEGER))

    def test_what_a_reader_has_to_refuse(self) -> None:
        for version, worked in WORKED.items():
            cuts = [worked[:size] for size in range(len(worked))]
            for data in (*cuts, worked + b"\0", *(with_bytes(worked, changes) for changes in NO_TABLE[version])):
                with self.assertRaisesRegex(bitcol.DataError, "not a table file"):
                    decode(data)
        twice = b"BITCOL" + struct.pack("<HHI", 1, 2, 0) + b"\x01A\x01\x00" * 2
        with self.assertRaisesRegex(bitcol.DataError, "a name twice"):
            decode(twice)

    def test_each_byte_as_each_value_is_refused_or_has_one_spelling(self) -> None:
        for version, worked in WORKED.items():
            for place in range(len(worked)):
                for byte in range(256):
                    data = with_bytes(worked, {place: byte})
                    try:
                        columns = decode(data)
                    except bitcol.DataError:
                        continue
                    self.assertEqual(b"".join(encode(columns, version)), data)

    def test_lengths_around_a_byte_of_bits(self) -> None:
        generator = random.Random(2)
        for rows in (0, 1, 7, 8, 9, 15, 16, 17, 1000):
            for share in (0.0, 0.3, 1.0):
                cells = random_column(generator, rows, share)
                columns = {"A": list(cells), "B2_": list(reversed(cells))}
                made = Table.of({"a": cells, "b2_": cells[::-1]})
                self.assertEqual(b"".join(made.file_pieces()), spelled(columns))
                for version in WORKED:
                    data = spelled(columns, version)
                    self.assertEqual(b"".join(encode(made.stored, version)), data)
                    self.assertEqual(Table.of_file(data).columns(), columns)

    def test_columns_of_each_width(self) -> None:
        generator = random.Random(6)
        for width in range(1, 65):
            base = generator.randint(LEAST_BIGINT, GREATEST_BIGINT - 2**width + 1)
            cells = [base, base + 2**width - 1, None, *(base + generator.getrandbits(width) for _ in range(20))]
            data = spelled({"A": list(cells)}, 2)
            self.assertEqual(b"".join(encode(Table.of({"a": cells}).stored, 2)), data)
            self.assertEqual(Table.of_file(data).columns(), {"A": cells})

    def test_more_rows_than_a_block(self) -> None:
        generator = random.Random(5)
        for rows in (65_535, 65_536, 65_537, 140_003):
            cells = random_column(generator, rows, 0.1, 64)
            self.assertEqual(Table.of_file(b"".join(Table.of({"a": cells}).file_pieces())).columns(), {"A": cells})

    def test_the_type_of_a_column(self) -> None:
        for cells, column_type in (
            ([LEAST, None, GREATEST], ColumnType.INTEGER),
            ([None, GREATEST + 1], ColumnType.BIGINT),
            ([LEAST - 1], ColumnType.BIGINT),
            ([LEAST_BIGINT, GREATEST_BIGINT], ColumnType.BIGINT),
            (range(GREATEST, GREATEST + 2), ColumnType.BIGINT),
            ([], ColumnType.INTEGER),
        ):
            table = Table.of({"a": cells})
            self.assertEqual(table.types(), {"a": column_type})
            pieces = table.file_pieces()
            self.assertEqual(Table.of_file(b"".join(pieces)).types(), {"A": column_type})
        chosen = Table.of({"a": [1, None]}, column_type=ColumnType.BIGINT)
        data = b"".join(chosen.file_pieces())
        self.assertEqual(Table.of_file(data).types(), {"A": ColumnType.BIGINT})
        self.assertEqual(Table.of_file(with_types(data, {"A": ColumnType.INTEGER})).columns(), {"A": [1, None]})
        with self.assertRaisesRegex(bitcol.DataError, "column a: row 1: a value outside -2147483648 to 2147483647"):
            Table.of({"a": [1, 2**31]}, column_type=ColumnType.INTEGER)

    def test_a_value_that_is_none_of_its_type(self) -> None:
        data = b"".join(Table.of({"a": [0, 2**31]}).file_pieces())
        with self.assertRaisesRegex(bitcol.DataError, "a value that is no INTEGER"):
            decode(with_types(data, {"A": ColumnType.INTEGER}))

    def test_what_no_file_holds(self) -> None:
        for columns, kind, reason in (
            ({}, bitcol.ProgrammingError, "1 to 64 columns"),
            ({f"c{place}": [] for place in range(65)}, bitcol.ProgrammingError, "1 to 64 columns"),
            ({"a": [1], "b": []}, bitcol.ProgrammingError, "different lengths"),
            ({"a": [1], "A": [1]}, bitcol.ProgrammingError, "named twice"),
            ({"select": [1]}, bitcol.ProgrammingError, "not a name"),
            ({"a b": [1]}, bitcol.ProgrammingError, "not a name"),
            ({7: [1]}, bitcol.ProgrammingError, "not a name"),
            ({"a": range(16_777_217)}, bitcol.DataError, "at most 16777216 rows"),
            ({"a": [1, None, 2**63]}, bitcol.DataError, "column a: row 2: a value outside"),
            ({"a": [1, -(2**63) - 1]}, bitcol.DataError, "column a: row 1: a value outside"),
            ({"a": range(2**63 - 1, 2**63 + 1)}, bitcol.DataError, "column a: row 1: a value outside"),
            ({"a": [1, None, 2.0]}, bitcol.ProgrammingError, "column a: row 2: .* not a float"),
            ({"a": ["1"]}, bitcol.ProgrammingError, "column a: row 0: .* not a str"),
            ({"a": "12"}, bitcol.ProgrammingError, "column a: row 0: .* not a str"),
            ({"a": 5}, bitcol.ProgrammingError, "column a: a column has .* of type int"),
            ({"a": array.array("d", [1.0])}, bitcol.ProgrammingError, "not a float"),
        ):
            with self.assertRaisesRegex(kind, reason):
                Table.of(columns).file_pieces()
        with self.assertRaisesRegex(bitcol.ProgrammingError, "mapping"):
            Table.of([[1]])

    def test_a_file_that_is_too_large(self) -> None:
        """Version 2 is used instead of version 1 if its file is smaller."""
        columns = {"a": [3, None, -1] * 8}
        sizes = [len(b"".join(encode(Table.of(columns).stored, version))) for version in WORKED]
        self.assertEqual(sizes, [14 + 4 + 3 + 96, 14 + 5 + 9 + 12])
        with mock.patch("bitcol.table_file.FILE_BYTES", sizes[0] - 1):
            self.assertEqual(b"".join(Table.of(columns).file_pieces()), spelled({"A": columns["a"]}, 2))
        with mock.patch("bitcol.table_file.FILE_BYTES", sizes[1] - 1):
            with self.assertRaisesRegex(bitcol.DataError, "at most 39 bytes, not 40"):
                Table.of(columns).file_pieces()

    def test_a_bigint_in_layout_h(self) -> None:
        with self.assertRaisesRegex(bitcol.ProgrammingError, "column a: layout H holds no BIGINT"):
            Table.of({"a": [2**31]}, Layout.H).file_pieces()
        with self.assertRaisesRegex(bitcol.DataError, "not a table file: a BIGINT in layout H"):
            headers_of(with_bytes(WORKED[2], {16: 1, 17: 2}))

    def test_headers_of_the_front_of_a_file(self) -> None:
        names = [f"C{place:02}" + "X" * 125 for place in range(64)]
        columns = [Column(name, cells_of(range(1000)), Layout.S, Kind.DICTIONARY) for name in names]
        data = b"".join(encode(columns, 2))
        expected = [ColumnHeader(name, Layout.S, Kind.DICTIONARY) for name in names]
        self.assertEqual(headers_of(data[:HEADERS_BYTES]), expected)
        with self.assertRaisesRegex(bitcol.DataError, "a header is cut off"):
            headers_of(data[: HEADERS_BYTES - 1])

    def test_kinds_of_columns(self) -> None:
        expected = cells_of([0, 1, 2])
        for column in ((0, 1, 2), range(3), iter([0, 1, 2]), array.array("q", [0, 1, 2]), [False, True, 2]):
            self.assertEqual(cells_of(column), expected)

    def test_arrays(self) -> None:
        cells = random_column(random.Random(4), 1003, 0.2)
        numbers, present = Table.of_file(spelled({"A": list(cells)})).arrays()["A"]
        self.assertEqual(numbers.tolist(), [cell or 0 for cell in cells])
        self.assertEqual(list(present), [cell is not None for cell in cells])
        self.assertEqual(numbers.itemsize, 4)
        numbers, present = Table.of({"a": [None, 2**40]}).arrays()["a"]
        self.assertEqual((numbers.tolist(), list(present), numbers.itemsize), ([0, 2**40], [0, 1], 8))

    def test_a_table_of_rows(self) -> None:
        rows = [(1, None), [LEAST, GREATEST], (3, 4)]
        self.assertEqual(Table.of_rows(["a", "b"], rows).columns(), {"a": [1, LEAST, 3], "b": [None, GREATEST, 4]})
        self.assertEqual(list(Table.of_rows(["a", "b"], iter(rows))), [tuple(row) for row in rows])
        self.assertEqual(Table.of_rows(["a"], []).columns(), {"a": []})
        with self.assertRaisesRegex(bitcol.ProgrammingError, "row 1: 1 values, and 2 are wanted"):
            Table.of_rows(["a", "b"], [(1, 2), (3,)])
        with self.assertRaisesRegex(bitcol.ProgrammingError, "row 1: .* not a set"):
            Table.of_rows(["a", "b"], [(1, 2), {3, 4}])  # type: ignore[list-item]

    def test_what_is_no_layout_kind_or_type(self) -> None:
        for arguments, said in (
            (("V",), "'V' is none of Layout.P, Layout.V, Layout.H, Layout.S"),
            ((9,), "9 is none of Layout.P"),
            ((Layout.V, "OFFSET"), "'OFFSET' is none of Kind.OFFSET, Kind.DICTIONARY"),
            ((Layout.V, Kind.OFFSET, "BIGINT"), "'BIGINT' is none of ColumnType.INTEGER, ColumnType.BIGINT"),
        ):
            with self.assertRaisesRegex(bitcol.ProgrammingError, f"column a: {said}"):
                Table.of({"a": [1]}, *arguments)


class WholeTables(SessionTestCase):
    def test_in_and_out(self) -> None:
        generator = random.Random(7)
        shares = {"A": 0.0, "B": 0.1, "C": 1.0}
        columns = {name: random_column(generator, 30_011, share) for name, share in shares.items()}
        for layout in Layout:
            for kind in Kind:
                name = f"t_{layout.name}_{kind.name}"
                self.assertEqual(self.session.write_table(name, columns, layout, kind), 30_011)
                table = self.session.read_table(name)
                self.assertEqual((table.names, len(table)), (["A", "B", "C"], 30_011))
                self.assertEqual(table.columns(), columns)
                self.assertEqual(list(table.rows()), list(zip(*columns.values())))
                self.assertEqual({(column.layout, column.kind) for column in table.stored}, {(layout, kind)})

    def test_columns_of_both_types(self) -> None:
        generator = random.Random(8)
        columns = {name: random_column(generator, 3_011, 0.1, bits) for name, bits in (("A", 32), ("B", 64))}
        types = {"A": ColumnType.INTEGER, "B": ColumnType.BIGINT}
        self.session.write_table("t", columns)
        self.assertEqual(self.session.column_types("t"), types)
        table = self.session.read_table("t")
        self.assertEqual((table.columns(), table.types()), (columns, types))
        self.session.write_table("u", {"a": [1]}, column_type=ColumnType.BIGINT)
        self.assertEqual(self.session.column_types("u"), {"A": ColumnType.BIGINT})
        self.assertEqual(self.session.execute("SELECT * FROM t").rows(), list(table.rows()))

    def test_a_table_goes_from_store_to_store(self) -> None:
        self.session.write_table("t", {"a": [1, None], "b": [LEAST, GREATEST]}, Layout.H, Kind.DICTIONARY)
        other = self.new_session()
        other.write_table("copy", self.session.read_table("t"))
        self.assertEqual(other.execute("SELECT * FROM copy").rows(), [(1, LEAST), (None, GREATEST)])

    def test_what_statements_made_and_changed(self) -> None:
        self.session.run("CREATE TABLE t (a INT); INSERT INTO t VALUES (1), (NULL), (3); DELETE FROM t WHERE a = 1;")
        self.assertEqual(self.session.read_table("t").columns(), {"A": [None, 3]})

    def test_a_table_that_is_there(self) -> None:
        self.session.write_table("t", {"a": [1]})
        with self.assertRaises(bitcol.StatementRefused) as caught:
            self.session.write_table("T", {"a": [2]})
        self.assertEqual(caught.exception.number, bitcol.ErrorNumber.TABLE_EXISTS)
        self.assertEqual(self.session.read_table("t").columns(), {"A": [1]})

    def test_a_table_that_is_not_there(self) -> None:
        with self.assertRaises(bitcol.StatementRefused) as caught:
            self.session.read_table("t")
        self.assertEqual(caught.exception.number, bitcol.ErrorNumber.NO_SUCH_TABLE)

    def test_an_empty_table(self) -> None:
        self.assertEqual(self.session.write_table("t", {"a": [], "b": []}), 0)
        self.assertEqual(self.session.read_table("t").columns(), {"A": [], "B": []})

    def test_the_program_writes_what_the_codec_writes(self) -> None:
        columns: dict[str, list[object]] = {"A": [3, None, -1], "B": [LEAST_BIGINT, GREATEST, None]}
        with tempfile.TemporaryDirectory() as folder:
            path = Path(folder) / "t"
            self.session.write_table("t", columns)
            self.session.save("t", path)
            self.assertEqual(path.read_bytes(), spelled(columns, 2))

    def test_a_temporary_folder_with_a_long_name(self) -> None:
        self.addCleanup(setattr, tempfile, "tempdir", tempfile.tempdir)
        with tempfile.TemporaryDirectory() as folder:
            long = os.path.join(folder, *["x" * 100] * 3)
            os.makedirs(long)
            tempfile.tempdir = long
            with self.assertRaisesRegex(bitcol.ProgrammingError, "1 to 255 bytes"):
                self.session.write_table("t", {"a": [1]})
