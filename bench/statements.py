#!/usr/bin/env python3
"""Times a whole `SELECT a FROM t WHERE a = x` that finds no row, and the scan alone in C++, in one run.

Values of 8 and of 32 bits, in each layout. The scan is the best of the loops of bench/kernels/scans.cpp in the same
layout; without g++ they are left out. Build bitcol first, by `rt run` in crates/bitcol.

    python3 bench/statements.py [ROWS [ROUNDS]]      how many rows; 4194304 if not given
"""

import contextlib
import random

from common import LAYOUTS, LEAST, MOST, Number, data_file, options
from loops import scan_costs
from program import Program, rows_of
from report import Report, figure, require, times
from tables import csv_file, fill

MISSING = 77
# Which loops a layout is compared with.
LOOPS = {"V": ("V", "V-branch"), "H": ("H",), "S": ("S",), "P": ("P",)}


def values(bits: int, count: int) -> list[tuple[int]]:
    draw = random.Random(bits)
    drawn = (draw.getrandbits(8) if bits == 8 else draw.randint(LEAST, MOST) for _ in range(count))
    return [(value + 1 if value == MISSING else value,) for value in drawn]


def least_costs(bits: int, rows: int, rounds: int) -> tuple[dict[str, float], dict[tuple[str, int], float]]:
    """Nanoseconds per row of the statement in each layout, and of the loops. They take turns, round by round."""
    path = csv_file("statements.csv", values(bits, rows))
    own = dict.fromkeys(LAYOUTS, float("inf"))
    loops: dict[tuple[str, int], float] = {}
    with contextlib.ExitStack() as running:
        programs = {layout: running.enter_context(Program()) for layout in LAYOUTS}
        for layout, program in programs.items():
            fill(program, "a", f"USING {layout}", path)
        for _ in range(rounds):
            for layout, program in programs.items():
                cost, reply = program.ask(f"SELECT a FROM t WHERE a = {MISSING}")
                require(rows_of(reply) == [], f"{layout}, {bits} bits: {reply}")
                own[layout] = min(own[layout], cost / rows * 1e9)
            for key, cost in scan_costs((bits,), rows, 1).items():
                loops[key] = min(cost, loops.get(key, cost))
    return own, loops


def main() -> None:
    numbers = Number("rows", 1 << 22, 2_048, "how many rows"), Number("rounds", 15, 1, "how many rounds")
    words = options(__doc__, *numbers)
    report = Report("python3 bench/statements.py")
    lines = []
    for bits in (8, 32):
        own, loops = least_costs(bits, words.rows, words.rounds)
        for layout, cost in own.items():
            beside = min((loops[name, bits] for name in LOOPS[layout] if (name, bits) in loops), default=None)
            lines.append([str(bits), layout, figure(cost), figure(beside), times(cost, beside)])
    heading = ["Bits", "Layout", "statement", "scan in C++", "times"]
    report.table("statements", f"{words.rows:,} rows; ns a row, and how many times as long", heading, lines)
    report.finish()
    data_file("statements.csv").unlink()


if __name__ == "__main__":
    main()
