"""CSV files are cut at ends of records, as the program reads them."""

from __future__ import annotations

import random
import unittest

import bitcol
from bitcol.cluster.csv_records import cut

from .support import SEED


def pieces(data: bytes, most_bytes: int, most_rows: int = 10**9) -> list[bytes]:
    return [data[start:end] for start, end in cut(data, most_bytes, most_rows)]


class Cut(unittest.TestCase):
    def test_lines(self) -> None:
        self.assertEqual(pieces(b"1\n2\n3\n", 4), [b"1\n2\n", b"3\n"])
        self.assertEqual(pieces(b"1\n2\n3", 100), [b"1\n2\n3"])
        self.assertEqual(pieces(b"12345\n6\n", 2), [b"12345\n", b"6\n"])
        self.assertEqual(pieces(b"1\r2\r3", 2), [b"1\r", b"2\r", b"3"])
        few = pieces(b"1\n2\n3\n4\n5\n", 100, 2)
        self.assertEqual((b"".join(few), max(piece.count(b"\n") for piece in few)), (b"1\n2\n3\n4\n5\n", 2))
        self.assertEqual(pieces(b"", 5), [b""])

    def test_quotes(self) -> None:
        self.assertEqual(pieces(b'"1\n2",3\n4,5\n', 6), [b'"1\n2",3\n', b"4,5\n"])
        self.assertEqual(pieces(b'"a""\n",1\n2,3\n', 4), [b'"a""\n",1\n', b"2,3\n"])
        self.assertEqual(pieces(b'1"\n2\n"3"x"\n4\n', 3), [b'1"\n', b"2\n", b'"3"x"\n', b"4\n"])
        self.assertEqual(pieces(b'1\n"2\n3\n', 100), [b'1\n"2\n3\n'])
        with self.assertRaisesRegex(bitcol.DataError, "a quote isn't closed"):
            pieces(b'1\n"2\n3\n4\n5\n', 4)

    def test_random_files(self) -> None:
        """The program reads the pieces as it reads the whole file: each is loaded after an empty line."""
        chance = random.Random(f"csv-{SEED}")
        with bitcol.Session() as session:
            for quote in ("", '"'):
                for _ in range(25):
                    first, second = ["", "1", "NULL", f"{quote}-7{quote}"], ["2", f"{quote}{quote}"]
                    ends = ["\n", "\r\n", "\r", "\n\n"]
                    rows = [f"{chance.choice(first)},{chance.choice(second)}{chance.choice(ends)}" for _ in range(30)]
                    data = "".join(rows).encode()
                    session.run("DROP TABLE t; CREATE TABLE t (a INT, b INT)")
                    session.run("DROP TABLE u; CREATE TABLE u (a INT, b INT)")
                    session.load_bytes("t", [data])
                    most = chance.choice([1, 7, 40, 1000])
                    for piece in pieces(data, most, chance.choice([1, 3, 100])):
                        session.load_bytes("u", [b"\n", piece])
                    whole, cut_up = session.answers(["SELECT * FROM t", "SELECT * FROM u"])
                    self.assertEqual(cut_up, whole)
