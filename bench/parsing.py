#!/usr/bin/env python3
"""Times how fast tokens and statements are read, compared with a plain pass over the same bytes in the same run.

The plain pass looks at one byte after another. Each script is INSERT statements of about 60 KB: with random
32-bit values, with values of one digit (the most tokens per byte), and with blanks, signs and NULLs as people
write them. Build the timing program first, by `rt run` in crates/bw_bench.

    python3 bench/parsing.py [ROUNDS]       how often each script is read; 20 if not given
"""

import random
import re
import subprocess
from collections.abc import Callable
from pathlib import Path

from common import SETTINGS, Number, built, data_file, insert, options, random_row, rows_of_a_statement, written
from report import Report, figure, times

STATEMENTS = 50
FIGURE = re.compile(r"(\w+) (\d+) ns")


def full_row(generator: random.Random) -> str:
    return written(random_row(generator))


def dense_row(generator: random.Random) -> str:
    return written((generator.randint(0, 9), generator.randint(0, 9)))


def loose_row(generator: random.Random) -> str:
    values = [generator.choice(["NULL", "+7", "- 12", "300", "-45000"]) for _ in range(3)]
    return f"( {', '.join(values)} )"


SCRIPTS = {"random": full_row, "dense": dense_row, "written": loose_row}


def write_script(name: str, row: Callable[[random.Random], str]) -> Path:
    generator = random.Random(name)
    path = data_file(f"parsing-{name}.sql")
    with path.open("w") as out:
        for _ in range(1 if SETTINGS.quick else STATEMENTS):
            out.write(insert(rows_of_a_statement(lambda: row(generator))))
    return path


def main() -> None:
    words = options(__doc__, Number("rounds", 20, 1, "how often each script is read"), crate="bw_bench")
    timer, lines = built("bw_bench"), []
    for name, row in SCRIPTS.items():
        path = write_script(name, row)
        with path.open("rb") as script:
            done = subprocess.run([timer, str(words.rounds)], stdin=script, capture_output=True, text=True, check=True)
        found = {what: int(nanoseconds) for what, nanoseconds in FIGURE.findall(done.stderr)}
        size = path.stat().st_size * words.rounds
        for what in ("tokens", "statement"):
            lines.append([name, what, figure(size / found[what] * 1_000), times(found[what], found["plain"])])
    report = Report("python3 bench/parsing.py")
    heading = ["Script", "Call", "MB a second", "times as long as a plain pass"]
    report.table("parsing", "INSERT statements of 60 KB", heading, lines)
    report.finish()


if __name__ == "__main__":
    main()
