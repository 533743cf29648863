"""Changes: versions, files that are cut, parts that are combined."""

from __future__ import annotations

import unittest
import unittest.mock

import bitcol
from bitcol import cluster
from bitcol.cluster import changes

from .statements import Chance
from .support import SEED, ClusterTestCase, PartsTestCase, write_csv


class Changes(PartsTestCase):
    def test_two_clients(self) -> None:
        table, _ = self.both("a INT", [[(1,)], [(2,)], [(3,)]])
        other = cluster.open(self.client, self.folder / "table")
        self.assertEqual(table.sql("UPDATE t SET a = 9 WHERE a = 2").count, 1)
        self.refused("changed by another client", lambda: other.sql("DELETE FROM t"), bitcol.OperationalError)
        self.assertEqual(other.sql("SELECT a FROM t").columns(), [[1, 2, 3]])
        self.assertEqual(other.refresh().sql("SELECT a FROM t").columns(), [[1, 9, 3]])
        self.assertEqual(other.sql("DELETE FROM t WHERE a > 2").count, 2)
        self.assertEqual(table.refresh().sql("SELECT SUM(a), COUNT(*) FROM t").rows(), [(1, 1)])

    def test_a_change_that_finds_no_row_makes_no_version(self) -> None:
        table, _ = self.both("a INT", [[(1,)], [(2,)]])
        for statement in ("DELETE FROM t WHERE a = 7", "UPDATE t SET a = 1 WHERE 1 = 0", "DELETE FROM t WHERE a > 2"):
            self.assertEqual(table.answer(statement), b"ok 0\n")
        self.assertEqual(table.version, 2)

    def test_only_parts_in_which_a_row_is_found_are_new(self) -> None:
        table, _ = self.both("a INT, b INT", [[(day, 0), (day, 1)] for day in range(4)])
        before = table.manifest.parts
        table.sql("UPDATE t SET b = 5 WHERE a = 2")
        self.assertEqual([one == other for one, other in zip(before, table.manifest.parts)], [True, True, False, True])
        table.sql("DELETE FROM t WHERE a = 0")
        self.assertEqual(table.manifest.parts[0], before[1])
        table.sql("DELETE FROM t")
        self.assertEqual((len(table), len(table.manifest.parts)), (0, 1))
        self.assertEqual(table.answer("SELECT COUNT(*), SUM(a) FROM t"), b"COUNT(*),SUM(A)\n0,NULL\nrows 1\n")

    def test_inserts_are_gathered(self) -> None:
        table = cluster.create(self.client, self.folder / "t", "t", "a INT")
        with unittest.mock.patch.object(changes, "GATHERED_ROWS", 3):
            for number in range(10):
                self.assertEqual(table.sql("INSERT INTO t VALUES (?), (NULL)", [number]).count, 2)
        self.assertEqual([part.rows for part in table.manifest.parts], [4, 4, 4, 4, 4])
        self.assertEqual(table.sql("SELECT a FROM t WHERE a IS NOT NULL").columns(), [list(range(10))])
        table.compact(8)
        self.assertEqual([part.rows for part in table.manifest.parts], [8, 8, 4])
        self.assertEqual(table.sql("SELECT a FROM t WHERE a IS NOT NULL").columns(), [list(range(10))])
        version = table.version
        self.assertEqual(table.compact(8).version, version)

    def test_files_are_cut(self) -> None:
        rows = [(number, None if number % 3 else number) for number in range(1000)]
        file = write_csv(self.folder / "long.csv", rows)
        file.write_text("a,b\n" + file.read_text())
        table = cluster.create(self.client, self.folder / "t", "t", "a INT, b INT")
        table.load([file], header=True, most_bytes=3_000)
        self.assertGreater(len(table.manifest.parts), 2)
        self.assertEqual(table.sql("SELECT * FROM t").rows(), rows)
        by_rows = cluster.create(self.client, self.folder / "u", "t", "a INT, b INT")
        by_rows.load([file], header=True, most_bytes=5_000, most_rows=300)
        self.assertLessEqual(max(part.rows for part in by_rows.manifest.parts), 300)
        self.assertEqual(by_rows.answer("SELECT * FROM t"), table.answer("SELECT * FROM t"))
        text = file.read_text()
        file.write_text(text + "1,x\n")
        load = table.load
        for most in (3_000, 2**28):
            self.refused("record 1002 field 2", lambda: load([file], True, most), bitcol.DataRefused)
        file.write_text(text.replace("\n500,", "\n\ufeff500,"))
        for most in (3_000, 2**28):
            self.refused("record 502 field 1", lambda: load([file], True, most), bitcol.DataRefused)

    def test_table_files_are_attached(self) -> None:
        table, one = self.both("a INT, b BIGINT", [[(1, 2)]])
        one.run(f"CREATE TABLE v (A INT USING S, B BIGINT DICTIONARY); INSERT INTO v VALUES (9, NULL);"
                f"SAVE v TO '{self.folder}/v.table'")
        self.assertEqual(table.attach([self.folder / "v.table"]).sql("SELECT * FROM t").rows(), [(1, 2), (9, None)])
        self.assertEqual(table.load([]).version, 3)

    def test_a_path_that_is_too_long_for_a_statement(self) -> None:
        folder = self.folder / ("x" * 150) / ("y" * 150)
        folder.mkdir(parents=True)
        table = cluster.create(self.client, folder / "t", "t", "a INT")
        table.load([write_csv(folder / "a.csv", [(5,)])])
        self.assertEqual(table.sql("SELECT a FROM t").scalar(), 5)


class ChangesByWorkers(ClusterTestCase, Changes):
    """The same with two workers."""

    test_a_path_that_is_too_long_for_a_statement = test_files_are_cut = None  # type: ignore[assignment]

    def test_frames(self) -> None:
        try:
            import pandas
        except ImportError:
            self.skipTest("pandas is not installed")
        chance = Chance(f"frames-{SEED}")
        rows = [(chance.choice([None, -(2**63), 2**63 - 1, 5]), number) for number in range(600)]
        table, _ = self.both("a BIGINT, b INT", [rows[:300], rows[300:310], rows[310:]])
        frame = table.to_dask_dataframe("SELECT * FROM t WHERE b >= 100")
        self.assertEqual(frame.npartitions, 3)
        found_rows = frame.compute().itertuples(index=False)
        cells = [tuple(None if cell is pandas.NA else int(cell) for cell in row) for row in found_rows]
        self.assertEqual(cells, rows[100:])
        found = frame.groupby("A").B.sum().compute().to_dict()
        keys = {a for a, _ in rows if a is not None}
        self.assertEqual(found, {key: sum(b for a, b in rows[100:] if a == key) for key in keys})
        framed = table.to_dask_dataframe
        self.refused("no such column", lambda: framed("SELECT z FROM t").compute(), bitcol.StatementRefused)
        self.refused("each of them once", lambda: framed("SELECT a, a FROM t"), bitcol.NotSupportedError)


if __name__ == "__main__":
    unittest.main()
