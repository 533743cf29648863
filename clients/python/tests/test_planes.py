"""Columns as bit planes, with Python's integers, and with numpy and the module in C if these are there: all make the
same bytes.

The expected bytes are written bit by bit as docs/TABLE_FILE.md says.
"""

import random
import struct
import unittest
from unittest import mock

from bitcol.cells import Cells, cells_of
from bitcol.column_type import ColumnType
from bitcol.optional import rows_module
from bitcol.planes import cells_in_planes, fault_in, plane_pieces
from tests.support import GREATEST, GREATEST_BIGINT, LEAST, LEAST_BIGINT
from tests.test_tables import bits_of, planes_of

try:
    import numpy
except ImportError:
    numpy = None  # type: ignore[assignment]

# Lengths around byte boundaries, and one of two blocks.
LENGTHS = (0, 1, 7, 8, 9, 64, 100, 70_001)
ENDS = {
    ColumnType.INTEGER: [(0, 0), (5, 6), (-3, 250), (0, 256), (LEAST, GREATEST), (GREATEST, GREATEST)],
    ColumnType.BIGINT: [(7, 7), (0, 2**33), (LEAST_BIGINT, LEAST_BIGINT + 2**41), (LEAST_BIGINT, GREATEST_BIGINT)],
}


def drawn(rows: int, ends: tuple[int, int], known: float, generator: random.Random) -> list[int | None]:
    return [generator.randint(*ends) if generator.random() < known else None for _ in range(rows)]


def columns() -> list[tuple[ColumnType, list[int | None]]]:
    """Columns of each type: of values between two ends, all of them, some, or none."""
    generator = random.Random(21)
    return [
        (of, drawn(rows, ends, known, generator))
        for rows in LENGTHS
        for of, spans in ENDS.items()
        for ends in (spans if rows < 1_000 else spans[-1:])
        for known in (1.0, 0.6, 0.0)
    ]


class Planes(unittest.TestCase):
    """By Python's integers."""

    numpy = rows = None

    def setUp(self) -> None:
        for patch in (
            mock.patch("bitcol.planes.imported", lambda name: self.numpy),
            mock.patch("bitcol.planes.rows_module", lambda: self.rows),
        ):
            patch.start()
            self.addCleanup(patch.stop)

    def test_columns_there_and_back(self) -> None:
        for of, cells in columns():
            with self.subTest(type=of, rows=len(cells)):
                whole = b"".join(map(bytes, plane_pieces(cells_of(cells, of))))
                self.assertEqual(whole, planes_of(cells))
                self.assertEqual(self.read(cells, whole, of).to_list(), cells)

    def read(self, cells: list[int | None], whole: bytes, of: ColumnType) -> Cells:
        presence = memoryview(bits_of([cell is not None for cell in cells]))
        base, width = struct.unpack_from("<qB", whole)
        size = len(presence)
        planes = [memoryview(whole)[9 + place * size : 9 + (place + 1) * size] for place in range(width)]
        self.assertIsNone(fault_in(presence, base, planes, len(cells), of))
        return cells_in_planes(presence, base, planes, len(cells), of)

    def test_faults(self) -> None:
        """Three rows, of which the second is NULL. Planes are given highest first."""
        greatest = GREATEST
        for presence, base, planes, reason in (
            (0b1101, 0, (0b001,), "a bit past the last row"),
            (0b101, 0, (0b1001,), "a bit at a NULL"),
            (0b101, 0, (0b011,), "a bit at a NULL"),
            (0b000, 0, (0b010,), "a bit at a NULL"),
            (0b000, 1, (0b000,), "a base or a width without a value"),
            (0b000, 0, (0b000, 0b000), "a base or a width without a value"),
            (0b101, 0, (0b100, 0b001), "a base that is not the least value"),
            (0b101, 0, (0b000, 0b001), "a width that is not the one of the greatest code"),
            (0b101, greatest, (0b001,), "a value that is no INTEGER"),
            (0b101, LEAST - 1, (0b001,), "a value that is no INTEGER"),
            (0b101, greatest - 1, (0b001,), None),
            (0b101, greatest, (0b000,), None),
            (0b000, 0, (0b000,), None),
            (0b101, 0, (0b001, 0b000), None),
        ):
            with self.subTest(presence=presence, base=base, planes=planes):
                views = [memoryview(bytes([plane])) for plane in planes]
                found = fault_in(memoryview(bytes([presence])), base, views, 3, ColumnType.INTEGER)
                self.assertEqual(found, reason)


@unittest.skipIf(numpy is None, "numpy is not installed")
class PlanesByNumpy(Planes):
    numpy = numpy


@unittest.skipIf(rows_module() is None, "the module in C is not built")
class PlanesByC(Planes):
    rows = rows_module()


if __name__ == "__main__":
    unittest.main()
