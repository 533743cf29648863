"""A session on another door: it needs nothing of a door but what Door declares."""

import contextlib
import unittest
from collections.abc import Iterable, Iterator

import bitcol
from bitcol.door import Bytes, Door, File


class MemoryFile:
    """A file of a door in this process."""

    name = "scratch"

    def __init__(self) -> None:
        self.data = b""

    def write(self, pieces: Iterable[Bytes]) -> None:
        self.data = b"".join(pieces)

    def read(self) -> bytes:
        return self.data


class ScriptedDoor:
    """Answers as the test says, and records what it was sent."""

    def __init__(self, *replies: bytes) -> None:
        self.replies = list(replies)
        self.scripts: list[bytes] = []
        self.file = MemoryFile()

    def answer(self, script: bytes, statements: int) -> list[bytes]:
        self.scripts.append(script)
        found, self.replies = self.replies[:statements], self.replies[statements:]
        return found

    @contextlib.contextmanager
    def scratch(self) -> Iterator[File]:
        yield self.file

    def close(self) -> None:
        self.scripts.append(b"closed")


class AnotherDoor(unittest.TestCase):
    def test_statements(self) -> None:
        door: Door = ScriptedDoor(b"ok 3\n", b"error 20: no such table\n", b"ok\n", b"A\n1\nrows 1\n")
        assert isinstance(door, ScriptedDoor)
        with bitcol.Session(door=door) as session:
            self.assertEqual(session.execute("INSERT INTO t VALUES (?), (2), (3)", [1]).count, 3)
            with self.assertRaises(bitcol.StatementRefused):
                session.execute("TABLES;")
            self.assertEqual([reply.headings for reply in session.run("DROP TABLE t; SELECT a FROM u")], [(), ("A",)])
        self.assertEqual(
            door.scripts,
            [b"INSERT INTO t VALUES ( 1 ), (2), (3);", b"TABLES;", b"DROP TABLE t; SELECT a FROM u;", b"closed"],
        )

    def test_a_file_that_is_refused_for_another_reason(self) -> None:
        door = ScriptedDoor(b"A\nrows 0\n", b"error 43: record 1 field 1 is not an integer\n")
        with self.assertRaisesRegex(bitcol.DataRefused, "^error 43: record 1 field 1 is not an integer$"):
            bitcol.Session(door=door).executemany("INSERT INTO t VALUES (?)", [(row,) for row in range(20_000)])
        self.assertEqual(door.file.data, b"".join(b"%d\n" % row for row in range(20_000)))
        self.assertEqual(door.scripts, [b"SELECT * FROM t WHERE 1 = 0;", b"LOAD t FROM 'scratch';"])

    def test_tables(self) -> None:
        door = ScriptedDoor(b"ok 3\n", b"ok 3\n")
        session = bitcol.Session(door=door)
        self.assertEqual(session.write_table("t", {"a": [3, None, -1]}), 3)
        self.assertEqual(session.read_table("t").columns(), {"A": [3, None, -1]})
        self.assertEqual(door.scripts, [b"OPEN T FROM 'scratch';", b"SAVE T TO 'scratch';"])
