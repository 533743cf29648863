#!/usr/bin/env python3
"""Times `a < b AND a > b` in each layout, and the same with a constant instead of `b`, in ns per row.

No row is found. `b` has the encoding of `a`, and `c` another base. Build bitcol first, by `rt run` in crates/bitcol.

    python3 bench/pairs.py [ROWS [ROUNDS]]      how many rows; 4194304 if not given
"""

import random

from common import LAYOUTS, LEAST, MOST, Number, data_file, options
from program import Program, rows_of
from report import Report, figure, require
from tables import csv_file, fill

COMPARED = {"a constant": "5", "another column, same encoding": "b", "another column, another base": "c"}


def drawn_rows(count: int) -> list[tuple[int, int, int]]:
    """Rows whose columns `a` and `b` have the same ends, and whose `c` has no value below 0."""
    draw = random.Random(11)
    rows = [(draw.randint(LEAST, MOST), draw.randint(LEAST, MOST), draw.getrandbits(31)) for _ in range(count - 2)]
    return [(LEAST, LEAST, 0), (MOST, MOST, 0), *rows]


def main() -> None:
    words = options(__doc__, Number("rows", 1 << 22, 2_000, "how many rows"), Number("rounds", 9, 1, "how many rounds"))
    path = csv_file("pairs.csv", drawn_rows(words.rows))
    found: dict[str, dict[str, float]] = {name: {} for name in COMPARED}
    for layout in LAYOUTS:
        with Program() as program:
            fill(program, "abc", f"USING {layout}", path)
            for name, other in COMPARED.items():
                asked = f"SELECT COUNT(*) FROM t WHERE a < {other} AND a > {other}"
                cost, reply = program.least(asked, words.rounds)
                require(rows_of(reply) == [("0",)], f"{layout}, {name}: {reply}")
                found[name][layout] = cost / words.rows * 1e9
    report = Report("python3 bench/pairs.py")
    lines = [[name, *(figure(costs[layout], 2) for layout in LAYOUTS)] for name, costs in found.items()]
    report.table("pairs", f"{words.rows:,} rows; ns a row for the whole condition", ["", *LAYOUTS], lines)
    report.finish()
    data_file("pairs.csv").unlink()


if __name__ == "__main__":
    main()
