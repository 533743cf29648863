#!/usr/bin/env python3
"""Times LOAD of CSV files and sqlite3's `.import`, and SAVE and OPEN of the table of all files and of the table of
one, in one run and in each layout: in fresh pages of 4 KB, in fresh huge pages, and in memory that the program has used
before. It also reports what the kernel takes for a page that is touched for the first time.

The files have two columns of random values of 32 bits, of which one in ten of the second is NULL. They are loaded into
columns of either type. For the LOAD of one file it also reports the peak memory beyond the bytes of the file. Build
bitcol first, by `rt run` in crates/bitcol.

    python3 bench/files.py [FILES [ROWS]]      how many files of how many rows; 4 of 1048576 if not given
"""

import mmap
import random
import time
from dataclasses import dataclass
from pathlib import Path

from common import (
    LAYOUTS,
    MEGABYTE,
    Number,
    built,
    data_file,
    options,
    processor_seconds,
    random_value,
    rounds,
    sqlite3,
)
from report import Report, figure, times

TYPES = ("INTEGER", "BIGINT")
# How many more times than once a table is saved or opened: the difference excludes startup and what comes before.
MORE = 8


@dataclass(frozen=True)
class Memory:
    """Which memory the program uses for a file's bytes and for columns."""

    name: str
    # The tunables of glibc that ask for it.
    tunables: str
    # Whether each table is dropped before the next is opened.
    drops: bool

    def run(self, script: Path) -> tuple[list[str], Path]:
        asked = ["env", f"GLIBC_TUNABLES={self.tunables}"] if self.tunables else []
        return [*asked, built("bitcol"), "--stop"], script


MEMORIES = (
    Memory("fresh pages of 4 KB", "", drops=False),
    # From glibc 2.35 on.
    Memory("fresh huge pages", "glibc.malloc.hugetlb=1", drops=False),
    # Freed memory stays with the program.
    Memory("its own memory", f"glibc.malloc.mmap_max=0:glibc.malloc.trim_threshold={1 << 36}", drops=True),
)


def csv_file(number: int, rows: int) -> Path:
    """A file with this number of rows."""
    generator = random.Random(number)
    path = data_file(f"load{number}.csv")
    with path.open("w") as file:
        for _ in range(rows):
            second = "" if generator.random() < 0.1 else random_value(generator)
            file.write(f"{random_value(generator)},{second}\n")
    return path


def script_file(name: str, *statements: str) -> Path:
    path = data_file(name)
    path.write_text("".join(statements))
    return path


def opened(table: Path, count: int, drops: bool) -> str:
    """Statements that open the table repeatedly, each time under another name, and drop each but the last if asked."""
    opens = [f"OPEN u{number} FROM '{table}';\n" for number in range(count)]
    between = [f"DROP TABLE u{number};\n" if drops else "" for number in range(count - 1)]
    return "".join(a + b for a, b in zip(opens, [*between, ""]))


def made(layout: str, which: str, loads: str) -> Path:
    """The file of the table that the loads fill, created by a run that isn't timed."""
    table = data_file(f"{which}_{layout}.table")
    create = f"CREATE TABLE t (a INT USING {layout}, b INT USING {layout});\n"
    script = script_file("make.sql", create, loads, f"SAVE t TO '{table}';\n")
    processor_seconds([built("bitcol"), "--stop"], script)
    return table


def scripts_of(layout: str, which: str, table: Path, drops: bool) -> dict[str, Path]:
    """Scripts that save a table once and several times, and that open it once and several times, by what they do."""
    begin = f"OPEN t FROM '{table}';\n"
    saved = f"SAVE t TO '{data_file('saved.table')}';\n"
    name = f"{which}_{layout}_{'drops' if drops else 'keeps'}.sql"
    return {
        "save": script_file(f"save_{name}", begin, saved),
        "saves": script_file(f"saves_{name}", begin, saved * (1 + MORE)),
        "open": script_file(f"open_{name}", opened(table, 1, drops)),
        "opens": script_file(f"opens_{name}", opened(table, 1 + MORE, drops)),
    }


def quickest_of(runs: dict) -> dict:
    """The fastest of some rounds of each run: processor seconds, and the least of the memory peaks."""
    found = [{name: processor_seconds(*run) for name, run in runs.items()} for _ in range(rounds())]
    return {name: tuple(min(each[name][part] for each in found) for part in (0, 1)) for name in runs}


def empty_table(column_type: str) -> str:
    """A statement that creates the table of the files, with columns of this type."""
    return f"CREATE TABLE t (a {column_type}, b {column_type});\n"


def time_loads(paths: list[Path], rows: int, report: Report) -> None:
    loads = [f"LOAD t FROM '{path}';\n" for path in paths]
    program = [built("bitcol"), "--stop"]
    runs = {}
    for column_type in TYPES:
        create, name = empty_table(column_type), column_type.lower()
        runs[column_type, "one"] = program, script_file(f"load_one_{name}.sql", create, loads[0])
        runs[column_type, "all"] = program, script_file(f"load_{name}.sql", create, *loads)
    if other := sqlite3():
        imports = "".join(f".import {path} t\n" for path in paths)
        script = script_file("import.sql", empty_table("INTEGER"), "BEGIN;\n.mode csv\n", imports, "COMMIT;\n")
        runs["sqlite3"] = [other, ":memory:"], script
    found = quickest_of(runs)
    theirs = found["sqlite3"][0] if other else None
    lines = []
    for column_type in TYPES:
        # This includes the process itself: the figure for a script of one CREATE is too high, since the process was
        # Python before.
        held = found[column_type, "one"][1] * MEGABYTE - paths[0].stat().st_size
        took = found[column_type, "all"][0]
        cost = took / (len(paths) * rows * 2) * 1e9
        lines.append([column_type, figure(cost), times(theirs, took), figure(held / (rows * 2), 2)])
    peak = "bytes a value at the peak, beside the file's"
    heading = ["Columns", "ns a value", "sqlite3's .import takes times as long", peak]
    report.table("loads", f"LOAD of {len(paths)} files of {rows:,} rows", heading, lines)


def time_table(layout: str, which: str, paths: list[Path], rows: int) -> tuple[float, dict[tuple[str, str], float]]:
    """Megabytes of the table's file, and for each memory the megabytes per second of SAVE and of OPEN."""
    table = made(layout, which, "".join(f"LOAD t FROM '{path}';\n" for path in paths))
    runs = {
        (memory, name): memory.run(source)
        for memory in MEMORIES
        for name, source in scripts_of(layout, which, table, memory.drops).items()
    }
    found = quickest_of(runs)
    size = table.stat().st_size / MEGABYTE
    rates = {}
    for memory in MEMORIES:
        for what in ("save", "open"):
            took = (found[memory, f"{what}s"][0] - found[memory, what][0]) / MORE
            rates[memory.name, what] = size / took
    return size, rates


def first_touch() -> float:
    """Nanoseconds for a page of 4 KB that is touched for the first time, beyond those for one that was touched
    before."""
    pages = 16_384
    marks = b"\1" * pages

    def touched(memory: mmap.mmap) -> float:
        begin = time.perf_counter()
        memory[:: mmap.PAGESIZE] = marks
        return time.perf_counter() - begin

    fresh, again = [], []
    for _ in range(rounds()):
        with mmap.mmap(-1, pages * mmap.PAGESIZE) as memory:
            fresh.append(touched(memory))
            again.append(touched(memory))
    return (min(fresh) - min(again)) / pages * 1e9


def time_tables(paths: list[Path], rows: int, report: Report) -> None:
    """A table of SAVE and one of OPEN, over both sizes and all memories."""
    found = {
        (which, layout): time_table(layout, which, paths[:1] if which == "one" else paths, rows)
        for layout in LAYOUTS
        for which in ("one", "all")
    }
    for what in ("save", "open"):
        lines = []
        for memory in MEMORIES:
            for which in ("one", "all"):
                rates = [found[which, layout][1][memory.name, what] for layout in LAYOUTS]
                name = f"{figure(found[which, 'V'][0])} MB, {memory.name}"
                lines.append([name, *map(figure, rates)])
                if which == "all":
                    report.line(f"files-{what}", memory.name, zip(LAYOUTS, rates))
        report.table(f"files-{what}", "MB of file a second", [what.upper(), *LAYOUTS], lines)


def main() -> None:
    words = options(__doc__, Number("files", 4, 2, "how many files"), Number("rows", 1 << 20, 500, "how many rows"))
    paths = [csv_file(number, words.rows) for number in range(words.files)]
    report = Report("python3 bench/files.py")
    time_loads(paths, words.rows, report)
    time_tables(paths, words.rows, report)
    # At the end, since a program's peak memory is never reported as lower than Python's.
    report.note(f"The first touch of a page of {mmap.PAGESIZE} bytes: {first_touch():.0f} ns")
    report.finish()


if __name__ == "__main__":
    main()
