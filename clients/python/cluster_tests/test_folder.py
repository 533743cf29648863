"""Folders of tables: files that are complete or don't exist, manifests, and versions that are taken once."""

from __future__ import annotations

import os
import pickle
import threading
import types
import unittest
from pathlib import Path
from typing import Any
from unittest import mock

import bitcol
from bitcol import cluster
from bitcol.cluster import manifest as manifests
from bitcol.cluster.storage import UNFINISHED, HostFolder, RemoteFolder, storage_of

from .support import PartsTestCase, write_csv


class Host(PartsTestCase):
    def test_files(self) -> None:
        storage = storage_of(self.folder / "new")
        self.assertEqual(storage.names(), [])
        storage.prepare()
        storage.write(lambda: "a", b"1")
        storage.write(lambda: "a", b"2")
        self.assertEqual(storage.read("a"), b"2")
        with self.assertRaises(FileExistsError):
            storage.write_new("a", b"3")
        self.assertEqual((storage.read("a"), storage.names()), (b"2", ["a"]))
        self.refused("No such file", lambda: storage.read("b"), bitcol.OperationalError)

        def name() -> str:
            """When the name is asked for, all bytes are written, and no file is in place."""
            (unfinished,) = set(storage.names()) - {"a"}
            self.assertTrue(unfinished.endswith(UNFINISHED))
            self.assertEqual(storage.read(unfinished), b"12345")
            return "b"

        storage.write(name, b"12345")
        self.assertEqual((storage.read("b"), sorted(storage.names())), (b"12345", ["a", "b"]))
        storage.remove("b")
        self.assertLess(storage.age("a"), 60)
        storage.remove("a")
        storage.remove("a")
        self.assertEqual(storage.names(), [])
        self.assertEqual(pickle.loads(pickle.dumps(storage)), storage)

    def test_of_many_writers_one_takes_a_name(self) -> None:
        storage, told = HostFolder(str(self.folder)), []

        def write(number: int) -> None:
            try:
                storage.write_new("v", b"%d" % number)
                told.append(number)
            except FileExistsError:
                pass

        threads = [threading.Thread(target=write, args=(number,)) for number in range(8)]
        for thread in threads:
            thread.start()
        for thread in threads:
            thread.join()
        self.assertEqual([b"%d" % number for number in told], [storage.read("v")])
        self.assertEqual(storage.names(), ["v"])


class FileSystem:
    """An in-memory file system as in fsspec, which can create a file only if there is none."""

    files: dict[str, bytes] = {}

    def pipe_file(self, path: str, value: bytes, mode: str = "overwrite") -> None:
        if mode == "create" and path in self.files:
            raise FileExistsError(path)
        self.files[path] = value

    def cat_file(self, path: str) -> bytes:
        if path not in self.files:
            raise FileNotFoundError(path)
        return self.files[path]

    def ls(self, path: str, detail: bool) -> list[str]:
        return [name for name in self.files if name.startswith(path + "/")]

    def makedirs(self, path: str, exist_ok: bool) -> None:
        pass

    def invalidate_cache(self, path: str) -> None:
        pass

    def rm_file(self, path: str) -> None:
        del self.files[path]

    def modified(self, path: str) -> Any:
        return types.SimpleNamespace(timestamp=lambda: 0.0)


class Remote(PartsTestCase):
    """Storage by fsspec. A small file system stands in for an object store."""

    def setUp(self) -> None:
        super().setUp()
        FileSystem.files.clear()
        system = FileSystem()
        core = types.SimpleNamespace(url_to_fs=lambda url: (system, url.partition("://")[2]))
        module = types.SimpleNamespace(core=core)
        patch = mock.patch.dict("sys.modules", {"fsspec": module})
        patch.start()
        self.addCleanup(patch.stop)

    def test_a_table(self) -> None:
        table = cluster.create(self.client, "store://bucket/t", "t", "a INT")
        table.load([write_csv(self.folder / "1.csv", [(1,), (2,)])])
        other = cluster.open(self.client, "store://bucket/t")
        self.assertEqual(table.sql("UPDATE t SET a = 9 WHERE a = 2").count, 1)
        self.refused("changed by another client", lambda: other.sql("DELETE FROM t"), bitcol.OperationalError)
        self.assertEqual(other.refresh().sql("SELECT SUM(a) FROM t").scalar(), 10)
        self.assertEqual(other.vacuum(), 4)
        self.assertEqual(cluster.open(self.client, "store://bucket/t").sql("SELECT a FROM t").columns(), [[1, 9]])
        self.refused("there is a table", lambda: cluster.create(self.client, "store://bucket/t", "t", "a INT"))
        self.refused("store://bucket/t/b", lambda: RemoteFolder("store://bucket/t").read("b"), bitcol.OperationalError)

    def test_a_storage_that_cannot_put_new_files_alone(self) -> None:
        with mock.patch.object(FileSystem, "pipe_file", lambda self, path, value: None):
            self.refused("only where there is none", lambda: cluster.create(self.client, "store://b/t", "t", "a INT"))

    def test_without_fsspec(self) -> None:
        with mock.patch.dict("sys.modules", {"fsspec": None}):
            self.refused("fsspec is not installed", lambda: cluster.open(self.client, "store://b/t"))


class Manifests(PartsTestCase):
    def test_there_and_back(self) -> None:
        storage = HostFolder(str(self.folder))
        ends = {"B": manifests.Ends(None, None, 3), "A": manifests.Ends(-1, 7, 0)}
        part = manifests.Part("d" * 64, 3, 99, "x.csv", ends)
        columns = (manifests.Column("B", bitcol.ColumnType.INTEGER), manifests.Column("A", bitcol.ColumnType.BIGINT))
        first = manifests.Manifest(1, "T", "b INT, a BIGINT", columns, (part,))
        manifests.write_manifest(storage, first)
        self.assertEqual(manifests.read_manifest(storage), first)
        empty = manifests.Part("e" * 64, 0, 9, "", {})
        second = first.following([empty, part, empty])
        self.assertEqual((second.version, second.parts), (2, (part,)))
        self.assertEqual(first.following([empty, empty]).parts, (empty,))
        manifests.write_manifest(storage, second)
        self.assertEqual(manifests.versions(storage), [1, 2])
        self.assertEqual(manifests.read_manifest(storage, 1), first)
        self.refused("another client", lambda: manifests.write_manifest(storage, second), bitcol.OperationalError)
        self.refused("no version 3", lambda: manifests.read_manifest(storage, 3), bitcol.OperationalError)

    def test_a_column_may_be_named_as_a_part_of_json(self) -> None:
        table = cluster.create(self.client, self.folder / "t", "t", "digest INT, parts BIGINT, least INT")
        self.assertEqual(table.sql("INSERT INTO t VALUES (1, 2, 3)").count, 1)
        self.assertEqual(cluster.open(self.client, self.folder / "t").sql("SELECT * FROM t").rows(), [(1, 2, 3)])


class BadInput(PartsTestCase):
    """Each is an error that names what is faulty, and the table stays as it was."""

    def setUp(self) -> None:
        super().setUp()
        self.table, self.one = self.both("a INT, b INT", [[(1, 2)], [(3, None)]])
        self.data = self.table.answer("SELECT * FROM t")

    def tearDown(self) -> None:
        again = cluster.open(self.client, self.folder / "table", 2)
        self.assertEqual((self.table.version, again.answer("SELECT * FROM t")), (2, self.data))

    def test_csv_files(self) -> None:
        load, good = self.table.load, write_csv(self.folder / "good.csv", [(7, 8)])
        bad, wide, far = (self.folder / f"{name}.csv" for name in ("bad", "wide", "far"))
        bad.write_text("1,2\n3,half\n")
        wide.write_text("1,2,3\n")
        far.write_text(f"1,{2**70}\n")
        told = f"error 43: {bad}: record 2 field 2 is not an integer"
        self.refused(told, lambda: load([good, bad]), bitcol.DataRefused)
        self.refused(f"{wide}: record 1 has the wrong number of fields", lambda: load([wide, good]), bitcol.DataRefused)
        self.refused(f"{far}: value out of range", lambda: load([far]), bitcol.DataRefused)
        nothing = self.folder / "nothing.csv"
        self.refused(f"{nothing}: No such file", lambda: load([good, nothing]), bitcol.OperationalError)
        both = self.refused(f"{bad}: record 2", lambda: load([bad, good, wide]))
        self.assertIn(f"{wide}: record 1 has", str(both))
        self.assertIn("2 of 3 files at fault; nothing is changed", str(both))
        # The first version, its part, and the part of the good file.
        self.assertEqual(self.table.vacuum(0), 3)

    def test_table_files(self) -> None:
        with bitcol.Session() as other:
            others = {"swapped": "b INT, a INT", "wide": "a INT, b BIGINT", "more": "a INT, b INT, c INT"}
            for name, columns in others.items():
                other.run(f"CREATE TABLE {name} ({columns}); SAVE {name} TO '{self.folder}/{name}.table'")
                path = self.folder / f"{name}.table"
                self.refused(f"{path}: its columns are ", lambda: self.table.attach([path]), bitcol.DataError)
        good = write_csv(self.folder / "good.csv", [(7, 8)])
        self.refused(f"{good}: not a table file", lambda: self.table.attach([good]), bitcol.DataRefused)
        self.refused("No such file", lambda: self.table.attach([self.folder / "no.table"]), bitcol.OperationalError)

    def test_statements(self) -> None:
        for statement in ("UPDATE t SET z = 1", "UPDATE t SET a = 99999999999", "DELETE FROM u", "DELETE FROM t WHERE",
                          "INSERT INTO t VALUES (1)", "INSERT INTO t VALUES (1, 99999999999)", "UPDATE", "DELETE",
                          "UPDATE t SET a = 99999999999 WHERE a = 77", "UPDATE t SET a = 1, a = 2 WHERE 1 = 0"):
            self.assertEqual([self.table.answer(statement)], self.one.answers([statement]), statement)
        self.refused("value out of range", lambda: self.table.sql("UPDATE t SET a = 99999999999"), bitcol.DataRefused)

    def test_a_value_that_another_part_cannot_take(self) -> None:
        table, one = self.both("a INT, b BIGINT", [[(1, 5)], [(2, 3 * 10**9)]], "big")
        for statement in ("UPDATE t SET a = b", "UPDATE t SET a = b WHERE a > 1", "UPDATE t SET a = b WHERE b < 10"):
            self.assertEqual([table.answer(statement)], one.answers([statement]))
            self.same(table, one, "SELECT * FROM t")
        self.assertEqual(table.version, 3)

    def test_tables_that_cannot_be_made(self) -> None:
        self.refused("error 60", lambda: cluster.create(self.client, self.folder / "h", "t", "a BIGINT USING H"))
        self.refused("error 10", lambda: cluster.create(self.client, self.folder / "h", "t", "a TEXT"))
        self.refused("not a name", lambda: cluster.create(self.client, self.folder / "h", "select", "a INT"))
        self.refused("one statement", lambda: cluster.create(self.client, self.folder / "h", "t", "a INT); TABLES; ("))
        self.refused("there is a table", lambda: cluster.create(self.client, self.folder / "table", "t", "a INT"))
        self.refused("no table in", lambda: cluster.open(self.client, self.folder / "none"), bitcol.OperationalError)

    def test_folders_that_are_none(self) -> None:
        (self.folder / "file").write_text("")
        for folder in (self.folder / "file", self.folder / "file/below"):
            told = f"{folder}: the folder can't be made: "
            self.refused(told, lambda: cluster.create(self.client, folder, "t", "a INT"), bitcol.OperationalError)
        for name, told in (("a\0b", "no zero byte"), (b"a", "not a bytes"), (None, "not a NoneType")):
            self.refused(told, lambda: cluster.create(self.client, name, "t", "a INT"), bitcol.ProgrammingError)
            self.refused(told, lambda: cluster.open(self.client, name), bitcol.ProgrammingError)

    def test_files_that_are_none(self) -> None:
        """A single path instead of a list would be iterated letter by letter."""
        path = write_csv(self.folder / "good.csv", [(7, 8)])
        for call in (self.table.load, self.table.attach):
            for one in (str(path), os.fsencode(path), path):
                self.refused(f"a list of paths, not one path: {one!r}", lambda: call(one), bitcol.ProgrammingError)
            self.refused("no zero byte", lambda: call([path, "a\0b"]), bitcol.ProgrammingError)
            self.refused("not a int", lambda: call([5]), bitcol.ProgrammingError)

    def test_a_host_that_writes_nothing(self) -> None:
        """The file that can't be written is named, and not the CSV file with its rows."""
        path = write_csv(self.folder / "good.csv", [(7, 8)])
        for call in ("link", "replace"):
            with mock.patch.object(os, call, side_effect=OSError(28, "No space left on device")):
                changed = f"{self.folder / 'table'}/"
                told = self.refused("No space left on device", lambda: self.table.load([path]), bitcol.OperationalError)
                self.assertIn(changed, str(told))
                self.assertNotIn("good.csv", str(told))
        self.assertEqual(self.table.vacuum(0), 3)

    def test_damaged_parts_and_manifests(self) -> None:
        path = Path(self.folder / "table" / self.table.manifest.parts[1].file)
        whole = path.read_bytes()
        ask = "SELECT COUNT(*) FROM t"
        self.table = None  # type: ignore[assignment]
        # A bit of the last row's presence: still a valid table file, but a different one.
        for damaged in (whole[:-1], whole + b"x", whole[:-9] + bytes([whole[-9] ^ 1]) + whole[-8:], b""):
            path.write_bytes(damaged)
            self.refused(f"part {path} is damaged", lambda: cluster.open(self.client, self.folder / "table").sql(ask))
        path.unlink()
        self.refused(f"{path}: No such file", lambda: cluster.open(self.client, self.folder / "table").sql(ask))
        path.write_bytes(whole)
        self.table = cluster.open(self.client, self.folder / "table")
        self.assertEqual(self.table.sql(ask).scalar(), 2)
        self.table.sql("DELETE FROM t WHERE a = 1")
        newest = self.folder / "table" / "v00000003.json"
        text, folder = newest.read_text(), self.folder / "table"
        for damaged_text in (text.replace('"rows": 1', '"rows": 2', 1), text[:-40], "", "[]"):
            newest.write_text(damaged_text)
            told = "can be opened by number: 1, 2"
            self.refused(told, lambda: cluster.open(self.client, folder), bitcol.DataError)
        newest.unlink()
        self.table = cluster.open(self.client, self.folder / "table")
        alone = cluster.create(self.client, self.folder / "alone", "t", "a INT")
        (self.folder / "alone" / alone.manifest.file).write_text("")
        told = "v00000001.json is damaged; there is no other version"
        self.refused(told, lambda: cluster.open(self.client, self.folder / "alone"), bitcol.DataError)


if __name__ == "__main__":
    unittest.main()
