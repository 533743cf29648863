#!/usr/bin/env python3
"""Times how fast codes are appended, read and scanned in each layout at each width, and the same scans in C++.

Random codes; a tenth of them is found. The fastest of the rounds counts, since a machine's speed varies. The loops in
C++ (bench/kernels/scans.cpp) take turns with the timing program, and also measure memory bandwidth; without g++ they
are left out. Build the timing program first, by `rt run` in crates/bw_bench.

    python3 bench/layouts.py [ROUNDS [CODES]]       3 rounds over 16,777,216 codes if not given
"""

import re
import subprocess

from common import LAYOUTS, Number, built, options
from loops import scan_costs
from report import Report, figure, times

FIGURE = re.compile(r"^([PVHS]) (\d+) (\w+) (\d+) ns", re.MULTILINE)
COUNT = re.compile(r"^count (\d+) ns", re.MULTILINE)
TOLD = (1, 4, 8, 12, 16, 20, 24, 28, 32, 40, 48, 56, 64)
IN_LOOPS = (4, 8, 12, 16, 20, 24, 28, 32)
# The loops in C++, and how the table names them.
LOOPS = {"V": "C++ V", "V-branch": "V-branch", "H": "C++ H", "S": "C++ S", "P": "C++ P", "P-count": "P-count",
         "memory": "memory"}
# How often the two programs take turns.
TURNS = 4
Costs = dict[tuple[str, int, str], float]


def own_costs(rounds: int, codes: int) -> tuple[Costs, float | None]:
    """Nanoseconds per code by layout, width and work, and those of a plain pass that counts."""
    command = [built("bw_bench"), str(rounds), str(codes)]
    done = subprocess.run(command, input="", capture_output=True, text=True, check=True)
    least: Costs = {}
    for layout, width, what, taken in FIGURE.findall(done.stderr):
        key = layout, int(width), what
        least[key] = min(int(taken) / codes, least.get(key, float("inf")))
    plain = COUNT.search(done.stderr)
    return least, int(plain[1]) / rounds / codes if plain else None


def least_costs(rounds: int, codes: int) -> tuple[Costs, dict[tuple[str, int], float], float | None]:
    """The least of both programs, which take turns, and the plain pass."""
    own: Costs = {}
    loops: dict[tuple[str, int], float] = {}
    plains: list[float] = []
    turns = min(TURNS, rounds)
    for _ in range(turns):
        costs, plain = own_costs(rounds // turns, codes)
        own = {key: min(cost, own.get(key, cost)) for key, cost in costs.items()}
        beside = scan_costs(IN_LOOPS, codes, rounds // turns)
        loops = {key: min(cost, loops.get(key, cost)) for key, cost in beside.items()}
        plains += [] if plain is None else [plain]
    return own, loops, min(plains, default=None)


def work_lines(own: Costs, what: str) -> list[list[str]]:
    """A line for each width, with the time of each layout; empty if a layout has no codes of that width."""
    widths = [width for width in TOLD if any((layout, width, what) in own for layout in LAYOUTS)]
    return [[str(width), *(figure(own.get((layout, width, what))) for layout in LAYOUTS)] for width in widths]


def wide_lines(own: Costs) -> list[list[str]]:
    """For each work the time at 64 bits as a multiple of that at 32; empty for H, which has no codes of 64 bits."""
    return [
        [what, *(times(own.get((layout, 64, what)), own.get((layout, 32, what))) for layout in LAYOUTS)]
        for what in ("extend", "read", "scan")
    ]


def scan_lines(own: Costs, loops: dict[tuple[str, int], float]) -> list[list[str]]:
    """The scans of each width, the loops' times, and V, H and S as multiples of theirs."""
    lines = []
    for line in work_lines(own, "scan"):
        width = int(line[0])
        best_v = min((loops[name, width] for name in ("V", "V-branch") if (name, width) in loops), default=None)
        ratios = [times(own.get(("V", width, "scan")), best_v),
                  *(times(own.get((name, width, "scan")), loops.get((name, width))) for name in "HS")]
        lines.append([*line, *(figure(loops.get((name, width))) for name in LOOPS), *ratios])
    return lines


def main() -> None:
    numbers = Number("rounds", 3, 1, "how many rounds"), Number("codes", 1 << 24, 4_096, "how many codes")
    words = options(__doc__, *numbers, crate="bw_bench")
    own, loops, plain = least_costs(words.rounds, words.codes)
    report = Report(f"python3 bench/layouts.py {words.rounds} {words.codes}")
    told = f"{words.codes:,} codes; ns a code" + (f"; a plain pass that counts: {figure(plain)}" if plain else "")
    place = "memory" if words.codes > 1 << 22 else "caches"
    heading = ["Bits", *LAYOUTS]
    beside = [*LOOPS.values(), "V, times", "H, times", "S, times"]
    report.table(f"scans-in-{place}", told, heading + beside, scan_lines(own, loops))
    if place == "caches":
        for what in ("extend", "read"):
            told = f"{what}: {words.codes:,} codes; ns a code"
            report.table(f"{what}-in-caches", told, heading, work_lines(own, what))
        told = f"codes of 64 bits as multiples of the time of 32; {words.codes:,} codes"
        report.table("wide-codes", told, ["", *LAYOUTS], wide_lines(own))
    for layout in LAYOUTS:
        heights = sorted((width, cost) for (name, width, what), cost in own.items() if (name, what) == (layout, "scan"))
        report.line(f"scans-in-{place}", layout, heights)
    for name in ("V", "H", "S", "P", "memory"):
        heights = [(width, loops[name, width]) for width in IN_LOOPS if (name, width) in loops]
        if heights:
            report.line(f"scans-in-{place}", name if name == "memory" else f"C++ {name}", heights)
    report.finish()


if __name__ == "__main__":
    main()
