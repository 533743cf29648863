#!/usr/bin/env python3
"""Times how fast values are fitted and encoded and how fast plain codes are scanned, compared with plain passes in the
same run.

The values are random numbers of 32 bits. Build the timing program first, by `rt run` in crates/bw_bench.

    python3 bench/codes.py [ROUNDS [VALUES]]       20 rounds over 1,000,000 values if not given
"""

import re
import subprocess

from common import Number, built, options
from report import Report, figure, times

# A line that begins with the work; those of the layouts begin with a layout and a width.
FIGURE = re.compile(r"^(\w+) (\d+) ns", re.MULTILINE)

# What is timed, and what it is compared with.
COMPARED = {
    "OFFSET, fit and encode": (("fit_offset", "encode_offset"), ("pass",), "a plain pass that reads and writes"),
    "DICTIONARY, fit and encode": (
        ("fit_dictionary", "encode_dictionary"),
        ("sort", "search"),
        "a sort and a binary search a value",
    ),
    "a plain scan to a mask": (("scan",), ("count",), "counting alone"),
}


def main() -> None:
    numbers = Number("rounds", 20, 1, "how many rounds"), Number("values", 1_000_000, 1_000, "how many values")
    words = options(__doc__, *numbers, crate="bw_bench")
    command = [built("bw_bench"), str(words.rounds), str(words.values)]
    done = subprocess.run(command, input="", capture_output=True, text=True, check=True)
    found = {what: int(taken) / words.rounds / words.values for what, taken in FIGURE.findall(done.stderr)}
    lines = []
    for what, (work, plain, beside) in COMPARED.items():
        cost = sum(found[part] for part in work)
        lines.append([what, figure(cost, 2), beside, times(cost, sum(found[part] for part in plain))])
    report = Report("python3 bench/codes.py")
    heading = ["Work", "ns a value", "compared with", "times as long"]
    report.table("codes", f"{words.values:,} random values of 32 bits", heading, lines)
    report.finish()


if __name__ == "__main__":
    main()
