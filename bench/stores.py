"""The compared stores: bitcol in each layout, sqlite3, ClickHouse, numpy, and loops in C++ over plain columns.

Each has the same integers, without NULL unless it says that it supports NULL, executes the same queries, and reports
the time of each. One thread each. Times are processor times, for ClickHouse those that it reports itself.
"""

import array
import sqlite3
import subprocess
import sys
import time
from collections.abc import Callable, Iterable
from typing import Any

from clickhouse import ClickHouse, clickhouse_command
from common import data_file, kernel
from program import Program, each_row
from queries import Answer, Columns, Query, Store, Taken, shortened, texts
from report import require

try:
    import numpy
except ImportError:
    numpy = None


class Bitcol:
    """bitcol with all columns in one layout, except BIGINT columns under H, which are in V."""

    def __init__(self, columns: Columns, layout: str) -> None:
        self.name = f"bitcol {layout}"
        self.program = Program()
        choices = {name: "V" if kind == "BIGINT" and layout == "H" else layout for name, kind in columns.types.items()}
        made = ", ".join(f"{name} {kind} USING {choices[name]}" for name, kind in columns.types.items())
        self.program.do(f"CREATE TABLE t ({made})")
        self.loading: float | None = sum(self.program.ask(f"LOAD t FROM '{path}'")[0] for path in columns.files)

    def round(self, queries: Iterable[Query]) -> dict[str, Taken]:
        found = {}
        for query in queries:
            took, reply = self.program.ask(query.sql())
            found[query.title] = Taken(took, shortened(query, each_row(reply)))
        return found

    def close(self) -> None:
        self.program.close()


class Sqlite:
    """Python's module sqlite3, in memory."""

    name = "sqlite3"
    # It is filled with rows from Python, which can't be compared with a LOAD.
    loading: float | None = None

    def __init__(self, columns: Columns) -> None:
        self.base = sqlite3.connect(":memory:", isolation_level=None)
        self.base.execute(f"CREATE TABLE t ({', '.join(columns.types)})")
        self.base.execute("BEGIN")
        self.base.executemany(f"INSERT INTO t VALUES ({', '.join('?' * len(columns.types))})", columns.records())
        self.base.execute("COMMIT")

    def ask(self, query: Query) -> Taken:
        start = time.process_time()
        rows = self.base.execute(query.sql(ordered=True)).fetchall()
        took = time.process_time() - start
        return Taken(took, shortened(query, texts(rows)))

    def round(self, queries: Iterable[Query]) -> dict[str, Taken]:
        return {query.title: self.ask(query) for query in queries}

    def close(self) -> None:
        self.base.close()


def arrays_of(columns: Columns) -> dict[str, array.array]:
    """Each column as an array of 32 bits, or of 64 if it is a BIGINT. A NULL is 0 there."""
    made = {name: array.array("q" if kind == "BIGINT" else "i") for name, kind in columns.types.items()}
    appends = [column.append for column in made.values()]
    for record in columns.records():
        for append, cell in zip(appends, record):
            append(cell or 0)
    return made


class Numpy:
    """Masks and sums over numpy's arrays."""

    name = "numpy"
    loading: float | None = None

    def __init__(self, arrays: dict[str, array.array]) -> None:
        kinds = {"q": "i8", "i": "i4"}
        self.columns = {name: numpy.frombuffer(column, kinds[column.typecode]) for name, column in arrays.items()}

    def mask(self, query: Query) -> Any:
        tests = [self.columns[test.column] >= test.least for test in query.ranges if test.least is not None]
        tests += [self.columns[test.column] <= test.greatest for test in query.ranges if test.greatest is not None]
        tests += [self.columns[less] < self.columns[more] for less, more in query.orders]
        found = tests[0] if tests else numpy.ones(len(next(iter(self.columns.values()))), bool)
        for test in tests[1:]:
            found &= test
        return found

    def answer(self, query: Query) -> Answer:
        found = self.mask(query)
        if not query.group:
            count = int(numpy.count_nonzero(found))
            totals = [int(self.columns[name][found].sum(dtype="i8")) if count else None for name in query.sums]
            return list(texts([(*totals, count)]))
        keys = self.columns[query.group][found]
        order = numpy.argsort(keys, kind="stable")
        groups, starts, counts = numpy.unique(keys[order], return_index=True, return_counts=True)
        if not len(groups):
            return []
        sums = [numpy.add.reduceat(self.columns[name][found][order], starts, dtype="i8") for name in query.sums]
        return list(texts(zip(groups.tolist(), *(column.tolist() for column in sums), counts.tolist())))

    def round(self, queries: Iterable[Query]) -> dict[str, Taken]:
        return {query.title: timed(lambda: self.answer(query)) for query in queries}

    def close(self) -> None:
        self.columns.clear()


def timed(call: Callable[[], Answer]) -> Taken:
    start = time.process_time()
    answer = call()
    return Taken(time.process_time() - start, answer)


class Loops:
    """Loops in C++ over plain columns, compiled: bench/kernels/ranges.cpp."""

    name = "C++"
    loading: float | None = None

    def __init__(self, arrays: dict[str, array.array], program: str, rounds: int = 3) -> None:
        self.program, self.rounds = program, rounds
        self.places = {name: place for place, name in enumerate(arrays)}
        self.files = []
        for name, column in arrays.items():
            path = data_file(f"{name}.{column.itemsize}")
            with path.open("wb") as file:
                (column if sys.byteorder == "little" else swapped(column)).tofile(file)
            self.files.append(path)

    def line(self, query: Query) -> str:
        """The query as the program reads it."""
        words: list[object] = [len(query.ranges)]
        for test in query.ranges:
            least = -(2**31) if test.least is None else test.least
            words += [self.places[test.column], least, 2**31 - 1 if test.greatest is None else test.greatest]
        words.append(len(query.orders))
        words += [self.places[name] for pair in query.orders for name in pair]
        words.append(self.places[query.group] if query.group else -1)
        words += [len(query.sums) + 1, *(self.places[name] for name in query.sums), -1]
        return " ".join(map(str, words)) + "\n"

    def round(self, queries: Iterable[Query]) -> dict[str, Taken]:
        asked = list(queries)
        command = [self.program, str(self.rounds), *map(str, self.files)]
        lines = "".join(map(self.line, asked))
        done = subprocess.run(command, input=lines, stdout=subprocess.PIPE, text=True, check=True)
        found = {}
        for query, line in zip(asked, done.stdout.splitlines(), strict=True):
            nanoseconds, _, rows = line.partition(" ")
            answer = [tuple(row.split(",")) for row in rows.split(";") if row]
            found[query.title] = Taken(int(nanoseconds) / 1e9, answer)
        return found

    def close(self) -> None:
        for path in self.files:
            path.unlink()


def swapped(column: array.array) -> array.array:
    """A copy with the bytes of each number reversed."""
    copy = column[:]
    copy.byteswap()
    return copy


def stores_of(columns: Columns, layouts: str) -> tuple[list[Store], list[str]]:
    """A filled store of each kind that is installed here, and the names of those that aren't."""
    stores: list[Store] = [Bitcol(columns, layout) for layout in layouts]
    missing = []
    stores.append(Sqlite(columns))
    if command := clickhouse_command():
        stores.append(ClickHouse(columns, command))
    else:
        missing.append("ClickHouse")
    program = kernel("ranges")
    arrays = arrays_of(columns) if numpy or program else {}
    if numpy:
        stores.append(Numpy(arrays))
    else:
        missing.append("numpy")
    if program:
        stores.append(Loops(arrays, program))
    else:
        missing.append("C++")
    return stores, missing


def compared(stores: list[Store], queries: list[Query], rounds: int) -> dict[str, dict[str, Taken]]:
    """For each store and query the fastest of some rounds, in which all stores take turns. Ends the bench with
    status 1 if two results differ."""
    least: dict[str, dict[str, Taken]] = {store.name: {} for store in stores}
    expected: dict[str, Answer] = {}
    words = {query.title: query.sql() for query in queries}
    for _ in range(rounds):
        for store in stores:
            for title, taken in store.round(queries).items():
                wanted = expected.setdefault(title, taken.answer)
                told = f"{title}, {words[title]}: {store.name} {taken.answer[:8]}, {stores[0].name} {wanted[:8]}"
                require(taken.answer == wanted, told)
                known = least[store.name].setdefault(title, taken)
                if taken.seconds < known.seconds:
                    least[store.name][title] = taken
    return least
