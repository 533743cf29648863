#!/usr/bin/env python3
"""Times an INSERT of one row whose value lies below all others of its column, of kind OFFSET, in each layout: ns a row
of the table.

All codes of the column are moved to the new base, and its ends are found, since the width follows from them. The
columns hold random values of so many bits, of which none or one in ten is NULL. Each value that is inserted is one less
than the one before, and the width of the codes stays. The time of as many INSERTs of a value that has a code is taken
away. The ends of the values and their number are compared with those that are due: a difference ends the bench with
status 1. Build bitcol first, by `rt run` in crates/bitcol.

    python3 bench/growth.py [ROWS [ROUNDS]]      how many rows; 1000000 if not given
"""

import argparse
import random
from collections.abc import Sequence
from dataclasses import dataclass
from pathlib import Path

from common import LAYOUTS, Number, data_file, options
from program import Program, rows_of
from report import Report, figure, require
from tables import fill

ENDS = "SELECT MIN(a), MAX(a), COUNT(a), COUNT(*) FROM t"
# How many values are inserted in a round, each below the one before.
STEPS = 100
SOME_NULL = 0.1


@dataclass(frozen=True)
class Shape:
    """A column: how many bits its codes have, its type, the part of its values that are NULL, and the layouts that
    hold it."""

    bits: int
    column_type: str
    nulls: float
    layouts: str = LAYOUTS

    @property
    def name(self) -> str:
        return f"{self.column_type}, {self.bits} bits{', one in ten NULL' if self.nulls else ''}"


KINDS = ((8, "INTEGER", LAYOUTS), (31, "INTEGER", LAYOUTS), (63, "BIGINT", LAYOUTS.replace("H", "")))
SHAPES = tuple(Shape(bits, of, nulls, layouts) for bits, of, layouts in KINDS for nulls in (0, SOME_NULL))


def values(shape: Shape, count: int) -> list[int | None]:
    """Random values that begin at 0. Codes of these bits hold the inserted values, too, and fewer bits hold too few."""
    draw, end = random.Random(shape.bits), (1 << shape.bits) - STEPS
    return [None if draw.random() < shape.nulls else draw.randrange(end) for _ in range(count)]


def written_to(name: str, column: Sequence[int | None]) -> Path:
    """A CSV file of one column. An empty line would be no row, so a NULL is written as a word."""
    path = data_file(name)
    path.write_text("".join("NULL\n" if value is None else f"{value}\n" for value in column))
    return path


def inserts(numbers: Sequence[int]) -> list[str]:
    return [f"INSERT INTO t VALUES ({number})" for number in numbers]


def seconds(layout: str, shape: Shape, path: Path, column: Sequence[int | None]) -> tuple[float, float]:
    """Seconds of an INSERT of a value that has a code, and of one below all others, in a table filled anew."""
    present = [value for value in column if value is not None]
    least, most = min(present), max(present)
    with Program() as program:
        fill(program, "a", f"USING {layout} OFFSET", path, column_type=shape.column_type)
        # The memory of the column has room for further rows from here on.
        program.do(*inserts([least]))
        usual = program.ask_each(inserts([least] * STEPS))[0]
        below = program.ask_each(inserts([least - step for step in range(1, STEPS + 1)]))[0]
        found = rows_of(program.ask(ENDS)[1])
    further = 1 + 2 * STEPS
    wanted = [(str(least - STEPS), str(most), str(len(present) + further), str(len(column) + further))]
    require(found == wanted, f"{layout}, {shape.name}: {found} in place of {wanted}")
    return usual, below


def costs(shape: Shape, words: argparse.Namespace) -> dict[str, float]:
    """Nanoseconds a row of an INSERT below all others, in each layout that holds the shape. The layouts take turns."""
    column = values(shape, words.rows)
    path = written_to("growth.csv", column)
    usual, below = (dict.fromkeys(shape.layouts, float("inf")) for _ in range(2))
    for _ in range(words.rounds):
        for layout in shape.layouts:
            took = seconds(layout, shape, path, column)
            usual[layout], below[layout] = min(usual[layout], took[0]), min(below[layout], took[1])
    return {layout: (below[layout] - usual[layout]) / words.rows * 1e9 for layout in shape.layouts}


def main() -> None:
    numbers = Number("rows", 1_000_000, 1_000, "how many rows"), Number("rounds", 5, 1, "how many rounds")
    words = options(__doc__, *numbers)
    report = Report("python3 bench/growth.py")
    lines = []
    for shape in SHAPES:
        found = costs(shape, words)
        lines.append([shape.name, *(figure(found.get(layout)) for layout in LAYOUTS)])
    what = f"{words.rows:,} rows of one column, kind OFFSET; ns a row for each INSERT of a value below all others"
    report.table("growth", what, ["Values", *LAYOUTS], lines)
    report.finish()
    data_file("growth.csv").unlink()


if __name__ == "__main__":
    main()
