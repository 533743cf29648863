#!/usr/bin/env python3
"""Times an UPDATE of half the rows of a table by values and by a literal, and a REBUILD, in each layout, both kinds and
both types; and a DELETE of every other row and a SELECT of all of them. sqlite3 does the same in memory, except for the
REBUILD, in the same run, and the contents of the tables are compared: a difference ends the bench with status 1. The
SELECT is compared with sqlite3's shell, too, which writes the same lines.

Build bitcol first, by `rt run` in crates/bitcol.

    python3 bench/changes.py [ROWS [ROUNDS]]      how many rows; 1000000 if not given
"""

import argparse
import random
import re
import sqlite3
import subprocess
import time
from collections.abc import Callable
from dataclasses import dataclass
from pathlib import Path

from common import LAYOUTS, Number, data_file, options, random_value
from common import sqlite3 as sqlite3_shell
from program import Program, rows_of
from report import Report, figure, require, times
from tables import Row, csv_file, fill, filled_base, least_of_base

UPDATES = {
    "UPDATE by another column": "UPDATE t SET a = b, b = a WHERE c < 0",
    "UPDATE by a literal": "UPDATE t SET a = 5, b = 5 WHERE c < 0",
}
REBUILD = "REBUILD"
DELETE = "DELETE FROM t WHERE d = 1"
SELECT = "SELECT * FROM t"
CONTENT = "SELECT MIN(a), MAX(b), COUNT(*) FROM t WHERE c < 0 AND a <= b"
ENTRIES = 4_096
# What the timer of sqlite3's shell says of a statement.
TIMER = re.compile(r"user ([\d.]+) sys ([\d.]+)")
Contents = list[list[tuple[str, ...]]]


def of_distances(generator: random.Random) -> int:
    """A value of a column of distances: any 32-bit integer."""
    return random_value(generator)


def of_entries(generator: random.Random) -> int:
    """A value of a column of a dictionary: one of a few, among them the literal."""
    return 7 * generator.randrange(ENTRIES) + 5


def of_long_distances(generator: random.Random) -> int:
    """A value of a column of type BIGINT: any 64-bit integer."""
    return generator.getrandbits(64) - 2**63


@dataclass(frozen=True)
class Shape:
    """Columns that are changed: a name, their type and kind, their values, and the layouts that hold them."""

    name: str
    column_type: str
    kind: str
    value: Callable[[random.Random], int]
    layouts: str = LAYOUTS


SHAPES = (
    Shape("offset", "INTEGER", "OFFSET", of_distances),
    Shape("dictionary", "INTEGER", "DICTIONARY", of_entries),
    Shape("bigint", "BIGINT", "OFFSET", of_long_distances, LAYOUTS.replace("H", "")),
)


def four_columns(count: int, value: Callable[[random.Random], int]) -> list[Row]:
    """Two columns to be set, one that is below 0 in half the rows, and one that is 1 in every other row. In two rows
    each of the first two has the ends of both, so that neither is encoded again when it is set to the values of the
    other."""
    generator = random.Random(count)
    values = [(value(generator), value(generator)) for _ in range(count)]
    least, most = min(min(pair) for pair in values), max(max(pair) for pair in values)
    values[:2] = [(least, most), (most, least)]
    return [(*pair, generator.choice((-1, 1)), i % 2) for i, pair in enumerate(values)]


def changed_base(base: sqlite3.Connection, rounds: int) -> tuple[dict[str, float], Contents]:
    """Seconds of sqlite3's updates, and the contents of its table after each."""
    costs, contents = {}, []
    for what, text in UPDATES.items():
        least = float("inf")
        for _ in range(rounds):
            start = time.process_time()
            base.execute(text)
            least = min(least, time.process_time() - start)
        costs[what] = least
        contents.append(least_of_base(base, CONTENT, 1)[1])
    return costs, contents


def change(layout: str, shape: Shape, path: Path, rounds: int) -> tuple[dict[str, float], Contents]:
    """Seconds of the updates and of a REBUILD in a layout, and the contents of the table after each update."""
    costs, contents = {}, []
    with Program() as program:
        fill(program, "abcd", f"USING {layout} {shape.kind}", path, column_type=shape.column_type)
        for what, text in UPDATES.items():
            costs[what] = program.least(text, rounds)[0]
            contents.append(rows_of(program.ask(CONTENT)[1]))
        costs[REBUILD] = program.least("REBUILD t", rounds)[0]
    return costs, contents


def time_shape(shape: Shape, words: argparse.Namespace, report: Report) -> None:
    """A table of the changes of one shape: ns for each value that is set or rebuilt."""
    count, rounds = words.rows, words.rounds
    rows = four_columns(count, shape.value)
    path = csv_file("changes.csv", rows)
    theirs, wanted = changed_base(filled_base("abcd", rows), rounds)
    own = {}
    for layout in shape.layouts:
        own[layout], contents = change(layout, shape, path, rounds)
        require(contents == wanted, f"{layout} {shape.name}: {contents}, sqlite3 {wanted}")
    lines = []
    for what in (*UPDATES, REBUILD):
        scale = 1e9 / count / (4 if what == REBUILD else 1)
        costs = {layout: own[layout][what] for layout in shape.layouts}
        ratios = [times(theirs.get(what), costs["V"]), times(theirs.get(what), max(costs.values()))]
        lines.append([what, *(figure(cost * scale, 2) for cost in costs.values()), *ratios])
        report.line(f"changes-{shape.name}", what, ((layout, cost * scale) for layout, cost in costs.items()))
    what = f"{count:,} rows, type {shape.column_type}, kind {shape.kind}; ns for each value that is set or built anew"
    heading = ["Statement", *shape.layouts, "sqlite3, times V", "times the worst"]
    report.table(f"changes-{shape.name}", what, heading, lines)


def least_of_shell(shell: str, path: Path, rounds: int) -> tuple[float, str]:
    """Seconds of the SELECT in sqlite3's shell, by the shell's own timer, and the lines."""
    script, shown = map(data_file, ("shell.sql", "shell_shown.txt"))
    fills = f"CREATE TABLE t (a INT, b INT, c INT, d INT);\n.mode csv\n.import {path} t\n.mode list\n.separator ,\n"
    selects = f".timer on\n.output {shown}\n{SELECT};\n.output /dev/null\n" + f"{SELECT};\n" * rounds
    script.write_text(fills + selects)
    with script.open("rb") as stdin:
        told = subprocess.run([shell, ":memory:"], stdin=stdin, capture_output=True, text=True, check=True).stdout
    seconds = [float(user) + float(system) for user, system in TIMER.findall(told)]
    require(len(seconds) == rounds + 1, f"sqlite3's shell timed {len(seconds)} SELECTs of {rounds + 1}")
    lines = shown.read_text()
    for file in (script, shown):
        file.unlink()
    return min(seconds[1:]), lines


def time_rows(words: argparse.Namespace, report: Report) -> None:
    """A table of the DELETE and of the SELECT of all rows, in milliseconds."""
    rows = four_columns(words.rows, of_distances)
    path, base, lines = csv_file("changes.csv", rows), filled_base("abcd", rows), []
    with Program() as program:
        fill(program, "abcd", "", path)
        shown, reply = program.least(SELECT, words.rounds)
        theirs, answer = least_of_base(base, SELECT, 2)
        require(rows_of(reply) == answer, "SELECT * of all rows")
        lines.append(["SELECT * of four columns", figure(shown * 1e3), figure(theirs * 1e3), times(theirs, shown)])
        if shell := sqlite3_shell():
            theirs, written = least_of_shell(shell, path, min(words.rounds, 2))
            require(reply.splitlines()[1:-1] == written.splitlines(), "SELECT * of all rows in sqlite3's shell")
            what = "the same in sqlite3's shell"
            lines.append([what, figure(shown * 1e3), figure(theirs * 1e3), times(theirs, shown)])
        deleted, reply = program.ask(DELETE)
        start = time.process_time()
        count = base.execute(DELETE).rowcount
        theirs = time.process_time() - start
        require(reply == f"ok {count}\n", f"DELETE: {reply}, sqlite3 {count}")
        lines.append(["DELETE of every other row", figure(deleted * 1e3), figure(theirs * 1e3), times(theirs, deleted)])
    heading = ["Statement", "bitcol", "sqlite3", "times as long"]
    report.table("rows-and-deletes", f"{words.rows:,} rows; ms, layout V", heading, lines)


def main() -> None:
    numbers = Number("rows", 1_000_000, 1_000, "how many rows"), Number("rounds", 5, 1, "how many rounds")
    words = options(__doc__, *numbers)
    report = Report("python3 bench/changes.py")
    for shape in SHAPES:
        time_shape(shape, words, report)
    time_rows(words, report)
    report.finish()
    data_file("changes.csv").unlink()


if __name__ == "__main__":
    main()
