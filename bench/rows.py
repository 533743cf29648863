#!/usr/bin/env python3
"""Times statements over 1,000 rows up to 16,777,216, which is the most that a table holds: how cost grows.

A table of one column of random 32-bit values, one in ten NULL, in layout V, and of 256 groups. Small tables are queried
many times. sqlite3 in memory executes the same in the same run, and the results are compared: a difference ends the
bench with status 1. Build bitcol first, by `rt run` in crates/bitcol.

    python3 bench/rows.py [ROWS [ROUNDS]] [--layout V]      the most rows; 16777216 if not given
"""

import argparse
import random

from common import LEAST, MOST, Number, data_file, options
from program import Program, rows_of
from report import Report, figure, require, times
from tables import Row, csv_file, fill, filled_base, least_of_base

STATEMENTS = {
    "none found": "SELECT COUNT(*) FROM t WHERE a = 77",
    "half found": "SELECT COUNT(*) FROM t WHERE a < 0",
    "SUM": "SELECT SUM(a) FROM t",
    "COUNT by 256 groups": "SELECT g, COUNT(*) FROM t GROUP BY g",
}
REBUILD, LOAD = "REBUILD", "LOAD"
A_FILE = 1 << 20
# About how many rows are processed in a round.
IN_A_ROUND = 1 << 20


def sizes(most: int) -> list[int]:
    """1,000, and powers of four up to the greatest number."""
    return [1_000, *(4**power for power in range(6, 13) if 4**power < most), *([most] if most > 1_000 else [])]


def drawn_rows(count: int) -> list[Row]:
    """Rows of a value and a group's number; 77 doesn't occur as a value."""
    draw = random.Random(5)
    values = (None if draw.random() < 0.1 else draw.randint(LEAST, MOST) for _ in range(count))
    return [(value + 1 if value == 77 else value, draw.getrandbits(8)) for value in values]


def costs(rows: list[Row], count: int, words: argparse.Namespace) -> tuple[dict[str, float], dict[str, float]]:
    """Nanoseconds per row of each statement over this number of rows, in bitcol and in sqlite3. For more rows than a
    file has the same file is loaded many times."""
    copies = max(1, count // A_FILE)
    taken = rows[: count // copies]
    path = csv_file("rows.csv", taken)
    repeats = max(1, min(200, IN_A_ROUND // count))
    with Program() as program:
        own = {LOAD: fill(program, "ag", f"USING {words.layout}", path, copies)}
        replies = {}
        for what, text in STATEMENTS.items():
            own[what], replies[what] = program.least(text, words.rounds, repeats)
        own[REBUILD], _ = program.least("REBUILD t", words.rounds)
    base = filled_base("ag", (row for _ in range(copies) for row in taken))
    theirs = {}
    for what, text in STATEMENTS.items():
        ordered = text + (" ORDER BY g" if "GROUP" in text else "")
        theirs[what], answer = least_of_base(base, ordered, 1, max(1, repeats // 20))
        require(answer == rows_of(replies[what]), f"{count} rows, {what}: sqlite3 {answer[:4]}, {replies[what][:99]}")
    in_nanoseconds = [{what: cost / count * 1e9 for what, cost in found.items()} for found in (own, theirs)]
    return in_nanoseconds[0], in_nanoseconds[1]


def more(parser: argparse.ArgumentParser) -> None:
    parser.add_argument("--layout", default="V", choices="VHSP", help="the layout of both columns; V if not given")


def main() -> None:
    numbers = Number("rows", 1 << 24, 4_096, "the most rows"), Number("rounds", 5, 1, "how many rounds")
    words = options(__doc__, *numbers, more=more)
    rows = drawn_rows(min(words.rows, A_FILE))
    found = {count: costs(rows, count, words) for count in sizes(words.rows)}
    report = Report("python3 bench/rows.py")
    kinds = [*STATEMENTS, REBUILD, LOAD]
    lines = [
        [f"{count:,}", *(figure(own[what]) for what in kinds), *(times(theirs[what], own[what]) for what in STATEMENTS)]
        for count, (own, theirs) in found.items()
    ]
    for what in kinds:
        report.line("rows", what, ((count, own[what]) for count, (own, _) in found.items()))
    heading = ["Rows", *kinds, "sqlite3", "half", "SUM", "groups"]
    what = f"layout {words.layout}; ns a row in bitcol, and sqlite3's time as multiples of the first four"
    report.table("rows", what, heading, lines)
    report.finish()
    data_file("rows.csv").unlink()


if __name__ == "__main__":
    main()
