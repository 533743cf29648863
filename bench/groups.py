#!/usr/bin/env python3
"""Times GROUP BY over dense and sparse values, with few groups and many, and reports the peak memory.

A row is a group's number and a random value of 32 bits. Dense groups are the numbers from 0; sparse ones are drawn from
all of 32 bits, and in the last of them nearly each row is a group. All columns are in one layout; the numbers may be in
a DICTIONARY. sqlite3 in memory, and numpy if it is installed, execute the same in the same run, and the results are
compared: a difference ends the bench with status 1. Neither has a MEDIAN of groups. A loop in C++ counts dense groups
and sums them up in tables with an entry for each number, and prints nothing. Build bitcol first, by `rt run` in
crates/bitcol.

    python3 bench/groups.py [ROWS [ROUNDS]] [--layout V] [--kind OFFSET]      how many rows; 4194304 if not given
"""

import argparse
import array
import functools
import random
import sqlite3
import time
from collections.abc import Callable
from dataclasses import dataclass
from typing import Any

from common import LEAST, MOST, Number, data_file, kernel, options
from program import Program, rows_of
from queries import Query
from report import Report, figure, require, times
from stores import Loops
from tables import csv_file, filled_base, least_of_base

try:
    import numpy
except ImportError:
    numpy = None

STATEMENTS = {
    "COUNT": "SELECT g, COUNT(*) FROM t GROUP BY g",
    "SUM": "SELECT g, SUM(v) FROM t GROUP BY g",
    "COUNT, SUM": "SELECT g, COUNT(*), SUM(v) FROM t GROUP BY g",
    "MIN, MAX": "SELECT g, MIN(v), MAX(v) FROM t GROUP BY g",
    "COUNT, half": "SELECT g, COUNT(*) FROM t WHERE v < 0 GROUP BY g",
    "MEDIAN": "SELECT g, MEDIAN(v) FROM t GROUP BY g",
}
Pairs = list[tuple[int, int]]


@dataclass(frozen=True)
class Shape:
    """The number of groups, and whether their numbers are spread over all of 32 bits."""

    name: str
    groups: int
    is_sparse: bool

    def rows(self, count: int) -> Pairs:
        draw = random.Random(count)
        if self.groups > count:
            return [(draw.randint(LEAST, MOST), draw.randint(LEAST, MOST)) for _ in range(count)]
        numbers = [draw.randint(LEAST, MOST) for _ in range(self.groups)] if self.is_sparse else range(self.groups)
        return [(numbers[int(draw.random() * len(numbers))], draw.randint(LEAST, MOST)) for _ in range(count)]


def shapes(rows: int) -> list[Shape]:
    """The shapes; with fewer rows than a million, the many groups are a quarter of the rows."""
    many = min(1_000_000, rows // 4)
    few = min(1_000, many)
    dense = [Shape(f"{groups:,} dense", groups, False) for groups in sorted({10, few, many})]
    sparse = [Shape(f"{groups:,} sparse", groups, True) for groups in sorted({few, many})]
    return [*dense, *sparse, Shape("nearly each row", 1 << 32, True)]


def numpy_answers(rows: Pairs) -> dict[str, Callable[[], list[Any]]]:
    """The statements over numpy's arrays: rows sorted by groups, and folded group by group."""
    groups, values = (numpy.array(column, "i4") for column in zip(*rows))

    def sorted_by_groups(found: Any) -> tuple[Any, Any, Any, Any]:
        order = numpy.argsort(groups[found], kind="stable")
        numbers, starts, counts = numpy.unique(groups[found][order], return_index=True, return_counts=True)
        return numbers, starts, counts, values[found][order]

    def folded(what: str) -> list[Any]:
        numbers, starts, counts, ordered = sorted_by_groups(values < 0 if what == "COUNT, half" else slice(None))
        sums = functools.partial(numpy.add.reduceat, ordered, starts, dtype="i8")
        columns = {
            "COUNT": lambda: [counts],
            "COUNT, half": lambda: [counts],
            "SUM": lambda: [sums()],
            "COUNT, SUM": lambda: [counts, sums()],
            "MIN, MAX": lambda: [fold.reduceat(ordered, starts) for fold in (numpy.minimum, numpy.maximum)],
        }[what]()
        return [numbers, *columns]

    return {what: functools.partial(folded, what) for what in STATEMENTS if what != "MEDIAN"}


def in_loops(rows: Pairs, expected: dict[str, list[tuple[str, ...]]]) -> dict[str, float]:
    """Seconds of a loop in C++ for the statements that it has, over dense groups; none without g++."""
    program = kernel("ranges")
    if program is None:
        return {}
    loops = Loops({name: array.array("i", column) for name, column in zip("gv", zip(*rows))}, program)
    found = loops.round([Query("COUNT", group="g"), Query("COUNT, SUM", sums=("v",), group="g")])
    loops.close()
    for what, taken in found.items():
        # The number of rows comes last there.
        answer = [(row[0], row[-1], *row[1:-1]) for row in taken.answer]
        require(answer == expected[what], f"{what}: C++ {answer[:5]}, bitcol {expected[what][:5]}")
    return {what: taken.seconds for what, taken in found.items()}


def medians(rows: Pairs) -> list[tuple[str, ...]]:
    """The lower median of each group, in order, by sorting."""
    groups: dict[int, list[int]] = {}
    for group, value in rows:
        groups.setdefault(group, []).append(value)
    return [(str(group), str(sorted(groups[group])[(len(groups[group]) - 1) // 2])) for group in sorted(groups)]


def peak(statement: str) -> int:
    """The bytes that a statement takes at its peak, beyond the table, in a process of its own. The same over two rows
    runs first, so that the program's own pages aren't counted."""
    with Program(returns_memory=True) as program:
        program.do("CREATE TABLE two (g INT, v INT)", "INSERT INTO two VALUES (1, 1), (2, -1)")
        program.do(statement.replace("FROM t", "FROM two"), f"OPEN t FROM '{data_file('groups.table')}'")
        return program.peak(statement)


def beside(base: sqlite3.Connection, shape: Shape, rows: Pairs,
           expected: dict[str, list[tuple[str, ...]]]) -> dict[str, dict[str, float]]:
    """Seconds of sqlite3, of numpy and of the loop for each statement that they have. Their results have to equal
    bitcol's."""
    found: dict[str, dict[str, float]] = {"sqlite3": {}}
    for what, text in STATEMENTS.items():
        if what != "MEDIAN":
            found["sqlite3"][what], answer = least_of_base(base, text + " ORDER BY g", 1)
            require(answer == expected[what], f"{what}: sqlite3 {answer[:5]}, bitcol {expected[what][:5]}")
    if numpy:
        found["numpy"] = {}
        for what, call in numpy_answers(rows).items():
            start = time.process_time()
            columns = call()
            found["numpy"][what] = time.process_time() - start
            answer = [tuple(map(str, row)) for row in zip(*(column.tolist() for column in columns))]
            require(answer == expected[what], f"{what}: numpy {answer[:5]}, bitcol {expected[what][:5]}")
    found["C++"] = {} if shape.is_sparse else in_loops(rows, expected)
    return found


def time_shape(shape: Shape, words: argparse.Namespace) -> list[list[str | float]]:
    """A line for each statement: nanoseconds per row, the others' multiples, bytes per row at the peak."""
    rows = shape.rows(words.rows)
    path = csv_file("groups.csv", rows)
    own, expected = {}, {}
    with Program() as program:
        program.do(f"CREATE TABLE t (g INT USING {words.layout} {words.kind}, v INT USING {words.layout})",
                   f"LOAD t FROM '{path}'")
        for what, text in STATEMENTS.items():
            own[what], reply = program.least(text, words.rounds)
            expected[what] = rows_of(reply)
        program.do(f"SAVE t TO '{data_file('groups.table')}'")
    peaks = {what: peak(text) for what, text in STATEMENTS.items()}
    require(expected["MEDIAN"] == medians(rows), f"MEDIAN of {shape.name}")
    others = beside(filled_base("gv", rows), shape, rows, expected)
    return [
        [shape.name, f"{len(expected['COUNT']):,}", what, own[what] / words.rows * 1e9,
         *(times(costs.get(what), own[what]) for costs in others.values()),
         figure(peaks[what] / words.rows, 2)]
        for what in STATEMENTS
    ]


def given(words: argparse.Namespace) -> list[str]:
    """The words of the command line that say how the groups' numbers are kept, if that isn't the usual way."""
    return [] if words.kind == "OFFSET" else ["--kind", words.kind]


def more(parser: argparse.ArgumentParser) -> None:
    parser.add_argument("--layout", default="V", choices="VHSP", help="the layout of both columns; V if not given")
    parser.add_argument("--kind", default="OFFSET", choices=["OFFSET", "DICTIONARY"],
                        help="the kind of encoding of the groups' numbers; OFFSET if not given")


def main() -> None:
    numbers = Number("rows", 1 << 22, 1_000, "how many rows"), Number("rounds", 3, 1, "how many rounds")
    words = options(__doc__, *numbers, more=more)
    report = Report(" ".join(["python3 bench/groups.py", *given(words)]))
    if numpy is None:
        report.note("numpy is not installed: left out")
    lines: list[list[str]] = []
    heights: dict[str, list[tuple[float | str, float]]] = {what: [] for what in STATEMENTS}
    for shape in shapes(words.rows):
        for line in time_shape(shape, words):
            heights[str(line[2])].append((shape.name, float(line[3])))
            lines.append([figure(cell) if isinstance(cell, float) else cell for cell in line])
    name = "groups" if words.kind == "OFFSET" else "groups-dictionary"
    for what, points in heights.items():
        report.line(name, what, points)
    what = (f"{words.rows:,} rows, layout {words.layout}, numbers in kind {words.kind}; ns a row, the others as "
            "multiples, and memory at the peak")
    others = ["sqlite3", *(["numpy"] if numpy else []), "C++"]
    heading = ["Group numbers", "groups", "Statement", "bitcol", *others, "bytes a row"]
    report.table(name, what, heading, lines)
    report.finish()
    for file in ("groups.csv", "groups.table"):
        data_file(file).unlink()


if __name__ == "__main__":
    main()
