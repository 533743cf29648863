#!/usr/bin/env python3
"""Times the same queries over two columns with NULLs in bitcol, and in sqlite3, ClickHouse and numpy, in one run.

Four files of 1,048,576 rows: `a` of 0 to 255 and `b` of 32 bits, one in a hundred of each NULL. The stores take turns,
one thread each, and their results are compared: a difference ends the bench with status 1. Stores that aren't
installed are left out. numpy has arrays with a mask of the NULLs. Build bitcol first, by `rt run` in crates/bitcol.

    python3 bench/peers.py [FILES [ROWS]] [--layout V]      how many files of how many rows
"""

import argparse
import array
import random
import time
from collections.abc import Callable, Iterable
from pathlib import Path
from typing import Any

from clickhouse import ClickHouse, clickhouse_command
from common import LEAST, MOST, Number, data_file, options, rounds
from queries import Columns, Query, Range, Store, Taken, Written, texts
from report import Report, figure, times
from stores import Bitcol, Sqlite, compared, numpy

ROUNDS = 5
COUNT = "SELECT COUNT(*) FROM t WHERE "
QUERIES = [
    Written("COUNT, a < 26", text=COUNT + "a < 26"),
    Written("COUNT, b = 12345", text=COUNT + "b = 12345"),
    Written("COUNT, b < -1900000000", text=COUNT + "b < -1900000000"),
    Written("COUNT, b < 0", text=COUNT + "b < 0"),
    Written("COUNT, b BETWEEN two values", text=COUNT + "b BETWEEN -1000000 AND 1000000"),
    Written("COUNT, a < 26 AND b > 0 OR a = 200", text=COUNT + "a < 26 AND b > 0 OR a = 200"),
    Written("COUNT, a IN of 8", text=COUNT + "a IN (3, 17, 99, 120, 180, 201, 230, 250)"),
    Written("COUNT, NOT (a < 26 AND b > 0)", text=COUNT + "NOT (a < 26 AND b > 0)", is_three_valued=True),
    Written("COUNT, b IS NULL", text=COUNT + "b IS NULL"),
    Written("SUM, MIN, MAX and COUNT of b", text="SELECT SUM(b), MIN(b), MAX(b), COUNT(b) FROM t"),
    Written("SUM, MIN and MAX, a < 26", text="SELECT SUM(b), MIN(b), MAX(b) FROM t WHERE a < 26"),
    Query("SUM and COUNT by a", (Range("a", 0),), (), ("b",), "a"),
    Written("rows, three values of a", text="SELECT a, b FROM t WHERE a = 7 OR a = 8 OR a = 9", is_long=True),
    Written("rows, all", text="SELECT a, b FROM t", is_long=True),
]


def csv_file(number: int, rows: int) -> Path:
    generator = random.Random(number)
    path = data_file(f"peers-{number}.csv")
    with path.open("w") as out:
        for _ in range(rows):
            first = "" if generator.random() < 0.01 else generator.getrandbits(8)
            second = "" if generator.random() < 0.01 else generator.randint(LEAST, MOST)
            out.write(f"{first},{second}\n")
    return path


class Masked:
    """numpy's arrays of both columns, each with an array that says where it isn't NULL."""

    name = "numpy"
    loading: float | None = None

    def __init__(self, columns: Columns) -> None:
        values = array.array("i"), array.array("i")
        there = bytearray(), bytearray()
        for record in columns.records():
            for i, cell in enumerate(record):
                values[i].append(cell or 0)
                there[i].append(cell is not None)
        self.a, self.b = (numpy.frombuffer(column, "i4") for column in values)
        self.has_a, self.has_b = (numpy.frombuffer(column, bool) for column in there)

    def count(self, found: Any) -> list[tuple[int]]:
        return [(int(numpy.count_nonzero(found)),)]

    def ends(self, found: Any) -> tuple[int, int, int]:
        values = self.b[found]
        return int(values.sum(dtype="i8")), int(values.min()), int(values.max())

    def groups(self) -> list[tuple[int, ...]]:
        counts = numpy.bincount(self.a[self.has_a], minlength=256)
        both = self.has_a & self.has_b
        sums = numpy.zeros(256, "i8")
        numpy.add.at(sums, self.a[both], self.b[both])
        return [(group, int(sums[group]), int(counts[group])) for group in range(256) if counts[group]]

    def jobs(self) -> dict[str, Callable[[], list]]:
        a, b, has_a, has_b = self.a, self.b, self.has_a, self.has_b
        both = has_a & has_b
        return {
            "COUNT, a < 26": lambda: self.count((a < 26) & has_a),
            "COUNT, b = 12345": lambda: self.count((b == 12345) & has_b),
            "COUNT, b < -1900000000": lambda: self.count((b < -1_900_000_000) & has_b),
            "COUNT, b < 0": lambda: self.count((b < 0) & has_b),
            "COUNT, b BETWEEN two values": lambda: self.count((b >= -1_000_000) & (b <= 1_000_000) & has_b),
            "COUNT, a < 26 AND b > 0 OR a = 200":
                lambda: self.count(((a < 26) & (b > 0) & both) | ((a == 200) & has_a)),
            "COUNT, NOT (a < 26 AND b > 0)": lambda: self.count((has_a & (a >= 26)) | (has_b & (b <= 0))),
            "COUNT, b IS NULL": lambda: self.count(~has_b),
            "SUM, MIN, MAX and COUNT of b": lambda: [(*self.ends(has_b), self.count(has_b)[0][0])],
            "SUM, MIN and MAX, a < 26": lambda: [self.ends((a < 26) & both)],
            "SUM and COUNT by a": self.groups,
        }

    def round(self, queries: Iterable[Query]) -> dict[str, Taken]:
        found, jobs = {}, self.jobs()
        for query in queries:
            if query.title in jobs:
                start = time.process_time()
                rows = jobs[query.title]()
                found[query.title] = Taken(time.process_time() - start, list(texts(rows)))
        return found

    def close(self) -> None:
        pass


def stores_here(columns: Columns, layout: str, report: Report) -> list[Store]:
    """bitcol, and the other stores that are installed here."""
    stores: list[Store] = [Bitcol(columns, layout), Sqlite(columns)]
    if command := clickhouse_command():
        stores.append(other := ClickHouse(columns, command))
        if not other.is_three_valued:
            report.note("this ClickHouse takes NULL AND FALSE for NULL: left out where that shows")
    else:
        report.note("ClickHouse is not installed: left out")
    if numpy:
        stores.append(Masked(columns))
    else:
        report.note("numpy is not installed: left out")
    return stores


def more(parser: argparse.ArgumentParser) -> None:
    parser.add_argument("--layout", default="V", choices="VHSP", help="the layout of both columns; V if not given")


def main() -> None:
    files = Number("files", 4, 1, "how many files")
    words = options(__doc__, files, Number("rows", 1 << 20, 2_000, "how many rows each has"), more=more)
    paths = tuple(csv_file(number, words.rows) for number in range(words.files))
    columns = Columns(paths, {"a": "INT", "b": "INT"}, words.files * words.rows)
    report = Report("python3 bench/peers.py")
    stores = stores_here(columns, words.layout, report)
    try:
        found = compared(stores, QUERIES, rounds(ROUNDS))
    finally:
        for store in stores:
            store.close()
    base, *others = stores
    rows = []
    for query in QUERIES:
        own = found[base.name][query.title].seconds
        taken = [found[store.name].get(query.title) for store in others]
        beside = [times(each.seconds if each else None, own) for each in taken]
        rows.append([query.title, figure(own * 1e3), *beside])
    loads = [times(store.loading, base.loading) for store in others]
    rows.insert(0, ["LOAD of the files", figure((base.loading or 0) * 1e3), *loads])
    what = f"{columns.rows:,} rows, layout {words.layout}; bitcol in ms, the others as multiples of its time"
    report.table("peers", what, ["Query", "bitcol", *(store.name for store in others)], rows)
    report.finish()


if __name__ == "__main__":
    main()
