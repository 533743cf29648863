"""Times of the C++ loops of bench/kernels, which are compiled if g++ is installed."""

import subprocess
from collections.abc import Iterable

from common import kernel

# How many of the rows the scans find.
PART = 0.1


def scan_costs(widths: Iterable[int], rows: int, rounds: int) -> dict[tuple[str, int], float]:
    """Nanoseconds per row of each loop of scans.cpp at each width; nothing without a compiler. The loop `memory` reads
    32 bits per row and adds them up."""
    program = kernel("scans")
    if program is None:
        return {}
    command = [program, str(rows), str(rounds), str(PART), *map(str, widths)]
    done = subprocess.run(command, stdout=subprocess.PIPE, text=True, check=True)
    found = (line.split() for line in done.stdout.splitlines())
    return {(name, int(width)): float(cost) for name, width, cost, _ in found}


def dictionary_costs(rows: int, rounds: int) -> dict[str, dict[str, float]]:
    """Nanoseconds per value of each way of dictionaries.cpp, by the values."""
    program = kernel("dictionaries")
    if program is None:
        return {}
    done = subprocess.run([program, str(rows), str(rounds)], stdout=subprocess.PIPE, text=True, check=True)
    found: dict[str, dict[str, float]] = {}
    for line in done.stdout.splitlines():
        values, way, cost = line.split(",")
        found.setdefault(values, {})[way] = float(cost)
    return found


def functions_cost(rows: int) -> float | None:
    """Nanoseconds per row of the loop of functions.cpp, or None without a compiler."""
    program = kernel("functions")
    if program is None:
        return None
    done = subprocess.run([program, str(rows)], stdout=subprocess.PIPE, stderr=subprocess.DEVNULL, check=True)
    return float(done.stdout)
