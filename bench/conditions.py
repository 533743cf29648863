#!/usr/bin/env python3
"""Times SELECTs whose condition has 1, 10 and 100 predicates, in bitcol and in sqlite3, in one run.

A table of two columns of random 32-bit values. Each SELECT finds no row, so that only the condition is timed. sqlite3
is Python's own, in memory. Build bitcol first, by `rt run` in crates/bitcol.

    python3 bench/conditions.py [ROWS [ROUNDS]]      how many rows; 1000000 if not given
"""

import random

from common import MOST, Number, data_file, options, random_row, random_value
from program import Program, rows_of
from report import Report, figure, require, times
from tables import csv_file, fill, filled_base, least_of_base

PREDICATES = (1, 10, 100)


def select(predicates: int) -> str:
    """Each predicate except the last is true at nearly all rows, so each one reads them; the last is true at none."""
    generator = random.Random(predicates)
    tests = [f"{generator.choice('ab')} <> {random_value(generator)}" for _ in range(predicates - 1)]
    return "SELECT a FROM t WHERE " + " AND ".join(tests + [f"b > {MOST}"])


def main() -> None:
    numbers = Number("rows", 1_000_000, 1_000, "how many rows"), Number("rounds", 7, 1, "how many rounds")
    words = options(__doc__, *numbers)
    generator = random.Random(words.rows)
    rows = [random_row(generator) for _ in range(words.rows)]
    path = csv_file("conditions.csv", rows)
    base, lines = filled_base("ab", rows), []
    with Program() as program:
        fill(program, "ab", "", path)
        for predicates in PREDICATES:
            scale = 1e9 / words.rows / predicates
            own, reply = program.least(select(predicates), words.rounds, 5)
            theirs, answer = least_of_base(base, select(predicates), 2)
            require(rows_of(reply) == answer == [], f"{predicates} predicates: {reply}, {answer}")
            lines.append([str(predicates), figure(own * scale, 2), figure(theirs * scale, 2), times(theirs, own)])
    report = Report("python3 bench/conditions.py")
    heading = ["Predicates", "bitcol", "sqlite3", "times as long"]
    report.table("conditions", f"{words.rows:,} rows; ns a row and predicate", heading, lines)
    report.finish()
    data_file("conditions.csv").unlink()


if __name__ == "__main__":
    main()
