#!/usr/bin/env python3
"""Times six ways to build a dictionary in C++ and a REBUILD of a DICTIONARY column in bitcol, in ns per value.

The ways are those of bench/kernels/dictionaries.cpp; each gives the same entries and codes. The values of bitcol's
column are drawn in the same way. Without g++ only bitcol is timed. Build bitcol first, by `rt run` in crates/bitcol.

    python3 bench/dictionaries.py [ROWS [ROUNDS]]      how many values; 1048576 if not given
"""

import random
from collections.abc import Callable

from common import LEAST, MOST, Number, data_file, options
from loops import dictionary_costs
from program import Program
from report import Report, figure
from tables import csv_file, fill

WAYS = ("search", "table", "bits", "sort", "radix", "hash")


def shapes() -> dict[str, Callable[[], int]]:
    """How the values of each shape are drawn, by the name that the loops use for the shape."""
    draw = random.Random(7)
    pool = [draw.getrandbits(31) for _ in range(100_000)]
    return {
        "256 dense": lambda: draw.getrandbits(8),
        "1000 in 2^31": lambda: draw.randrange(1_000) * 2_000_000 - 1_000_000_000,
        "1000000 dense": lambda: draw.randrange(1_000_000),
        "100000 in 2^31": lambda: pool[draw.randrange(len(pool))],
        "32 bits": lambda: draw.randint(LEAST, MOST),
    }


def main() -> None:
    numbers = Number("rows", 1 << 20, 1_000, "how many values"), Number("rounds", 5, 1, "how many rounds")
    words = options(__doc__, *numbers)
    loops = dictionary_costs(words.rows, words.rounds)
    lines = []
    for name, draw in shapes().items():
        path = csv_file("dictionaries.csv", ((draw(),) for _ in range(words.rows)))
        with Program() as program:
            fill(program, "a", "USING V DICTIONARY", path)
            cost, _ = program.least("REBUILD t", words.rounds)
        ways = loops.get(name, {})
        lines.append([name, figure(cost / words.rows * 1e9), *(figure(ways.get(way)) for way in WAYS)])
    report = Report("python3 bench/dictionaries.py")
    heading = ["Values", "REBUILD", *WAYS]
    report.table("dictionaries", f"{words.rows:,} values; ns a value, in bitcol and by each way in C++", heading, lines)
    report.finish()
    data_file("dictionaries.csv").unlink()


if __name__ == "__main__":
    main()
