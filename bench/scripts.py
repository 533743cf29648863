#!/usr/bin/env python3
"""Writes scripts of many rows, runs them through bitcol and sqlite3, and prints how fast each was.

A script creates a table of two columns, fills it by INSERT statements of about 60 KB each, and ends
with one SELECT that finds about 1% of the rows. sqlite3 gets the same statements, in memory and in
one transaction. Build bitcol first, by `rt run` in crates/bitcol.

    python3 bench/scripts.py [--sizes 1,10,100]        sizes in megabytes
"""

import argparse
import random
import shutil
import sys
from dataclasses import dataclass
from pathlib import Path

from common import (
    LEAST,
    MEGABYTE,
    MOST,
    SETTINGS,
    built,
    data_file,
    insert,
    options,
    processor_seconds,
    random_row,
    rounds,
    rows_of_a_statement,
    sqlite3,
    written,
)
from report import Report, figure, require, times

# The values of the first column are uniform, so 1% of them are below this.
BOUND = LEAST + (MOST - LEAST + 1) // 100


@dataclass
class Script:
    path: Path
    rows: int
    found: int

    def megabytes(self) -> float:
        return self.path.stat().st_size / MEGABYTE


@dataclass
class Run:
    seconds: float
    peak_megabytes: float


def write_script(megabytes: float) -> Script:
    """A script of about this size; the same each time."""
    path = data_file(f"rows-{megabytes:g}.sql")
    generator = random.Random(megabytes)
    size = count = found = 0

    def next_row() -> str:
        nonlocal count, found
        row = random_row(generator)
        count += 1
        found += row[0] < BOUND
        return written(row)

    with path.open("w") as out:
        size += out.write("CREATE TABLE t (a INTEGER, b INTEGER);\n")
        while size < megabytes * MEGABYTE:
            size += out.write(insert(rows_of_a_statement(next_row)))
        out.write(f"SELECT a, b FROM t WHERE a < {BOUND};\n")
    return Script(path, count, found)


def timed(name: str, command: list[str], source: Path, script: Script) -> Run:
    """Runs the command over the file, and reads from its last lines how many rows it found."""
    answers = data_file("answers")
    with answers.open("wb") as stdout:
        seconds, peak = processor_seconds(command, source, stdout)
    found = FOUND[name](answers)
    require(found == script.found, f"{name} found {found} rows of {script.found}")
    return Run(seconds, peak)


def quickest_of(programs: dict[str, tuple[list[str], Path]], script: Script) -> dict[str, Run]:
    """The fastest run of each program. They take turns, so other load on the machine matters little."""
    found = [
        {name: timed(name, command, source, script) for name, (command, source) in programs.items()}
        for _ in range(rounds())
    ]
    return {name: min((runs[name] for runs in found), key=lambda run: run.seconds) for name in programs}


def bitcol_found(answers: Path) -> int:
    last = answers.read_bytes().splitlines()[-1].split()
    if last[:1] != [b"rows"]:
        sys.exit(f"bitcol's last line is {last!r}")
    return int(last[1])


def sqlite_found(answers: Path) -> int:
    return len(answers.read_bytes().splitlines())


def sqlite_script(script: Script) -> Path:
    """The same statements in one transaction."""
    path = script.path.with_suffix(".sqlite.sql")
    with script.path.open("rb") as source, path.open("wb") as out:
        out.write(b"BEGIN;\n")
        shutil.copyfileobj(source, out)
        out.write(b"COMMIT;\n")
    return path


FOUND = {"bitcol": bitcol_found, "sqlite3": sqlite_found}


def more(parser: argparse.ArgumentParser) -> None:
    parser.add_argument("--sizes", help="sizes in megabytes, with commas between; 1,10,100 if not given")


def main() -> None:
    words = options(__doc__, more=more)
    sizes = words.sizes or ("0.07" if SETTINGS.quick else "1,10,100")
    sqlite, lines = sqlite3(), []
    for size in map(float, sizes.split(",")):
        script = write_script(size)
        programs = {"bitcol": ([built("bitcol")], script.path)}
        if sqlite is not None:
            programs["sqlite3"] = ([sqlite, ":memory:"], sqlite_script(script))
        runs = quickest_of(programs, script)
        own, other = runs["bitcol"], runs.get("sqlite3")
        part = times(own.seconds, other.seconds if other else None)
        rate = figure(script.megabytes() / own.seconds)
        lines.append([f"{size:g} MB", part, rate, f"{script.rows:,}", figure(own.peak_megabytes)])
    report = Report("python3 bench/scripts.py")
    heading = ["Script", "bitcol's time as a part of sqlite3's", "MB a second", "rows", "MB at the peak"]
    report.table("scripts", "INSERT statements of 60 KB, and a SELECT of 1% of the rows", heading, lines)
    report.finish()


if __name__ == "__main__":
    main()
