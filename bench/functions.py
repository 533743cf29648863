#!/usr/bin/env python3
"""Times set functions over a column of 32-bit values in each layout, in bitcol and in sqlite3, in one run, and also
a loop in C++ over plain 32-bit integers that branches on NULL (bench/kernels/functions.cpp).

One value in ten is NULL. sqlite3 is Python's own, in memory; the results of all layouts and of sqlite3 are compared,
and a difference ends the bench with status 1. Build bitcol first, by `rt run` in crates/bitcol. Without g++ the loop is
left out.

    python3 bench/functions.py [ROWS [ROUNDS]]      how many rows; 4194304 if not given
"""

import random

from common import LAYOUTS, Number, data_file, options, random_value
from loops import functions_cost
from program import Program, rows_of
from report import Report, figure, require, times
from tables import csv_file, fill, filled_base, least_of_base

FOUR = "SUM(b), MIN(b), MAX(b), COUNT(b)"
LISTS = ("COUNT(b)", "SUM(b)", "MIN(b)", "MAX(b)", "MEDIAN(b)", FOUR)
STATEMENTS = {functions: f"SELECT {functions} FROM t" for functions in LISTS} | {
    "COUNT(*) where half are found": "SELECT COUNT(*) FROM t WHERE b < 0",
    "a scan that finds none": "SELECT b FROM t WHERE b = 77",
}
# How often a round repeats what takes little time.
REPEATS = 5


def cells(count: int) -> list[tuple[int | None]]:
    draw = random.Random(count)
    values = (None if draw.randrange(10) == 0 else random_value(draw) for _ in range(count))
    return [(78 if value == 77 else value,) for value in values]


def main() -> None:
    words = options(__doc__, Number("rows", 1 << 22, 1_000, "how many rows"), Number("rounds", 7, 1, "how many rounds"))
    rows = cells(words.rows)
    path = csv_file("functions.csv", rows)
    own: dict[str, dict[str, float]] = {what: {} for what in STATEMENTS}
    answers: dict[str, list[tuple[str, ...]]] = {}
    for layout in LAYOUTS:
        with Program() as program:
            fill(program, "b", f"USING {layout}", path)
            for what, text in STATEMENTS.items():
                cost, reply = program.least(text, words.rounds, REPEATS)
                own[what][layout] = cost / words.rows * 1e9
                wanted = answers.setdefault(what, rows_of(reply))
                require(rows_of(reply) == wanted, f"{what}: {layout} {reply}, {wanted}")
    base, lines = filled_base("b", rows), []
    for what, costs in own.items():
        beside = None
        if "MEDIAN" not in what:
            cost, answer = least_of_base(base, STATEMENTS[what], 2)
            require(answer == answers[what], f"{what}: sqlite3 {answer}, {answers[what]}")
            beside = cost / words.rows * 1e9
        lines.append([what, *(figure(costs[layout], 2) for layout in LAYOUTS), times(beside, costs["V"])])
    if loop := functions_cost(words.rows):
        lines.append([f"{FOUR}, a loop in C++", figure(loop, 2), "", "", "", ""])
    report = Report("python3 bench/functions.py")
    heading = ["", *LAYOUTS, "sqlite3, times V"]
    report.table("functions", f"{words.rows:,} values, all rows found; ns a row", heading, lines)
    report.finish()
    data_file("functions.csv").unlink()


if __name__ == "__main__":
    main()
