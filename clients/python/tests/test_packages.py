"""numpy and pandas, if they are installed. Otherwise the tests are skipped, and the run says so."""

import sys
import unittest
from unittest import mock

import bitcol
from bitcol import Table
from tests.support import GREATEST, LEAST, SessionTestCase

try:
    import numpy
except ImportError:
    numpy = None  # type: ignore[assignment]
try:
    import pandas
except ImportError:
    pandas = None


def setUpModule() -> None:
    for name, module in (("numpy", numpy), ("pandas", pandas)):
        if module is None:
            print(f"{name} is not installed: its tests are left out", file=sys.stderr)


@unittest.skipIf(numpy is None, "numpy is not installed")
class Numpy(SessionTestCase):
    def test_arrays_in(self) -> None:
        for kind in ("int8", "uint8", "int16", "int32", ">i4", "int64", "uint64", "bool"):
            values = numpy.array([0, 1, 1, 0], kind)
            self.assertEqual(Table.of({"a": values}).columns(), {"a": [0, 1, 1, 0]})
        strided = numpy.arange(20)[::2]
        self.assertEqual(Table.of({"a": strided}).columns(), {"a": list(range(0, 20, 2))})
        objects = numpy.array([1, None], object)
        self.assertEqual(Table.of({"a": objects}).columns(), {"a": [1, None]})

    def test_masked_arrays_in(self) -> None:
        values = numpy.ma.array([1, 2**40, 3], mask=[False, True, False])
        self.assertEqual(Table.of({"a": values}).columns(), {"a": [1, None, 3]})

    def test_arrays_that_no_column_holds(self) -> None:
        for values, kind, reason in (
            (numpy.array([1.0]), bitcol.ProgrammingError, "column a: an array of float64"),
            (numpy.array(["1"]), bitcol.ProgrammingError, "column a: an array of <U1"),
            (numpy.array([[1]]), bitcol.ProgrammingError, "column a: a column has one dimension"),
            (numpy.array([1, 2**63], "uint64"), bitcol.DataError, "column a: row 1: a value outside"),
            (numpy.array([2**64 - 1], "uint64"), bitcol.DataError, "column a: row 0: a value outside"),
        ):
            with self.assertRaisesRegex(kind, reason):
                Table.of({"a": values})

    def test_the_type_of_an_array(self) -> None:
        for values, column_type in (
            (numpy.array([LEAST, GREATEST]), bitcol.ColumnType.INTEGER),
            (numpy.array([1, 2**31]), bitcol.ColumnType.BIGINT),
            (numpy.array([LEAST - 1]), bitcol.ColumnType.BIGINT),
            (numpy.array([2**63 - 1], "uint64"), bitcol.ColumnType.BIGINT),
            (numpy.array([], "int64"), bitcol.ColumnType.INTEGER),
        ):
            table = Table.of({"a": values})
            self.assertEqual((table.types(), table.columns()), ({"a": column_type}, {"a": values.tolist()}))
        with self.assertRaisesRegex(bitcol.DataError, "column a: row 1: a value outside"):
            Table.of({"a": numpy.array([1, 2**31])}, column_type=bitcol.ColumnType.INTEGER)

    def test_a_bigint_out(self) -> None:
        self.session.write_table("t", {"a": [3, None, 2**40]})
        cells = self.session.read_table("t").to_numpy()["A"]
        self.assertEqual((cells.tolist(), cells.dtype), ([3, None, 2**40], numpy.dtype("int64")))

    def test_a_table_out(self) -> None:
        self.session.write_table("t", {"a": [3, None, GREATEST], "b": [LEAST, 0, 1]})
        arrays = self.session.read_table("t").to_numpy()
        lists = {name: cells.tolist() for name, cells in arrays.items()}
        self.assertEqual(lists, {"A": [3, None, GREATEST], "B": [LEAST, 0, 1]})
        self.assertEqual({cells.dtype for cells in arrays.values()}, {numpy.dtype("int32")})
        arrays["B"][0] = 5

    def test_an_answer_out(self) -> None:
        self.session.write_table("t", {"a": [3, None, GREATEST]})
        (cells,) = self.session.execute("SELECT a FROM t").to_numpy()
        self.assertEqual((cells.tolist(), cells.dtype), ([3, None, GREATEST], numpy.dtype("int64")))
        (cells,) = self.session.execute("SELECT a FROM t WHERE a < 0").to_numpy()
        self.assertEqual((cells.tolist(), cells.dtype), ([], numpy.dtype("int64")))
        with self.assertRaisesRegex(bitcol.ProgrammingError, "names"):
            self.session.execute("TABLES").to_numpy()

    def test_values_to_bind(self) -> None:
        self.session.write_table("t", {"a": range(10)})
        found = self.session.execute("SELECT a FROM t WHERE a = ?", [numpy.int64(7)]).rows()
        self.assertEqual(found, [(7,)])
        self.session.executemany("INSERT INTO t VALUES (?)", numpy.arange(100_000).reshape(-1, 1))
        self.assertEqual(self.session.execute("SELECT SUM(a) FROM t").scalar(), 45 + sum(range(100_000)))
        with self.assertRaisesRegex(bitcol.ProgrammingError, "an integer or None"):
            self.session.execute("SELECT a FROM t WHERE a = ?", [numpy.float64(7)])


@unittest.skipIf(pandas is None, "pandas is not installed")
class Pandas(SessionTestCase):
    def test_frames_in(self) -> None:
        frame = pandas.DataFrame(
            {
                "a": [1, 2, 3],
                "b": pandas.array([1, None, 3], dtype="Int64"),
                "c": pandas.Series([None, 2, 3], dtype=object),
                "d": pandas.array([None, 1, 0], dtype="Int8"),
            }
        )
        expected = {"A": [1, 2, 3], "B": [1, None, 3], "C": [None, 2, 3], "D": [None, 1, 0]}
        self.assertEqual(self.session.write_table("t", frame), 3)
        self.assertEqual(self.session.read_table("t").columns(), expected)

    def test_floats_are_refused(self) -> None:
        """pandas turns integers into floats if one is missing: this store doesn't accept these as integers."""
        with self.assertRaisesRegex(bitcol.ProgrammingError, "column a: an array of float64"):
            self.session.write_table("t", pandas.DataFrame({"a": [1, None]}))

    def test_values_that_no_column_holds(self) -> None:
        for kind, value in (("uint64", 2**64 - 1), ("UInt64", 2**64 - 1), ("UInt64", 2**63)):
            with self.assertRaisesRegex(bitcol.DataError, "column a: row 1: a value outside"):
                values = numpy.array([5, value], kind.lower())
                self.session.write_table("t", pandas.DataFrame({"a": pandas.Series(values, dtype=kind)}))
        self.assertEqual(self.session.tables(), [])

    def test_frames_out(self) -> None:
        self.session.write_table("t", {"a": [3, None], "b": [LEAST, GREATEST]})
        frame = self.session.read_table("t").to_pandas()
        expected = pandas.DataFrame(
            {"A": pandas.array([3, None], dtype="Int32"), "B": pandas.array([LEAST, GREATEST], dtype="Int32")}
        )
        pandas.testing.assert_frame_equal(frame, expected)

    def test_an_answer_out(self) -> None:
        self.session.write_table("t", {"a": [3, None]})
        frame = self.session.execute("SELECT a, a FROM t").to_pandas()
        self.assertEqual(list(frame.columns), ["A", "A"])
        self.assertEqual(frame.iloc[:, 1].dtype, pandas.Int64Dtype())
        self.assertEqual(frame.iloc[0, 1], 3)
        self.assertTrue(frame.iloc[1, 0] is pandas.NA)


class NotInstalled(unittest.TestCase):
    def test_a_package_that_is_missing(self) -> None:
        table = Table.of({"a": [1]})
        for name, call in (("numpy", table.to_numpy), ("pandas", table.to_pandas)):
            with mock.patch.dict(sys.modules, {name: None}):
                with self.assertRaisesRegex(bitcol.NotSupportedError, f"{name} is not installed"):
                    call()
