#!/usr/bin/env python3
"""Runs hostile scripts and files, at three sizes, with a small stack, and prints the time per byte.

    python3 evidence/hostile.py

The stack has 256 KiB. Each run has to end as it should, and its processor time must grow only as its bytes do. Table
files that claim the most columns and rows and have few bytes have to be refused as such in little memory. Build bitcol
first, by `rt run` in crates/bitcol.
"""

import os
import resource
import subprocess
import sys
import tempfile
from pathlib import Path

from common import MEGABYTE, Progress, built

STACK = 256 * 1024
LITTLE_MEMORY = 64 * MEGABYTE
LONGEST_STATEMENT = 65_536
SIZES = [25 * MEGABYTE, 50 * MEGABYTE, 100 * MEGABYTE]

TABLE = "CREATE TABLE t (a INTEGER USING V, b INTEGER USING S DICTIONARY);\n"
ROWS = "INSERT INTO t VALUES (1, 2), (NULL, 3), (3, NULL);\n"

SYNTAX = "error 10: syntax error"
TOO_DEEP = "error 12: nested too deeply"
MOST_ROWS = 16_777_216
TABLE_FULL = "error 28: table full"
NOT_TABLE = "error 44: not a table file"
WRONG_COUNT = "error 42: record 1 has the wrong number of fields"


def one_long(byte):
    """One part that never ends."""
    return lambda size: (byte * size, {}, None)


def statements(statement, reply):
    """The same statement repeated, over a table of three rows."""

    def case(size):
        count = size // len(statement)
        return TABLE + ROWS + statement * count, {}, ["ok", "ok 3"] + reply * count

    return case


def condition(test, joined):
    """A statement whose condition is as long as a statement may be: a test, joined with itself."""
    room = LONGEST_STATEMENT - len("SELECT a FROM t WHERE ")
    count = (room + len(joined)) // (len(test) + len(joined))
    return "SELECT a FROM t WHERE " + joined.join([test] * count) + ";\n"


def loaded(record, reply):
    """One LOAD of a file that repeats a record."""

    def case(size):
        count = size // len(record)
        return TABLE + "LOAD t FROM 'f';\n", {"f": record * count}, ["ok", reply(count)]

    return case


def wrong_count(_records):
    return WRONG_COUNT


def rows_loaded(records):
    return f"ok {records}" if records <= MOST_ROWS else TABLE_FULL


WHOLE = ["A", "1", "NULL", "3", "rows 3"]
NO_ROWS = ["A", "rows 0"]

CASES = {
    "blanks": one_long(" "),
    "hyphens": one_long("-"),
    "cuts": one_long(";"),
    "quotes": one_long("'"),
    "one word": one_long("a"),
    "one word's statements": statements("a" * 60_000 + ";\n", [SYNTAX]),
    "digits": statements("9" * 60_000 + ";\n", ["error 13: number too large"]),
    "parentheses": statements("(" * 60_000 + ";\n", [TOO_DEEP]),
    "texts": statements("'" * 60_000 + ";\n", [SYNTAX]),
    "a long AND": statements(condition("1=1", " AND "), WHOLE),
    "a long OR": statements(condition("1=2", " OR "), NO_ROWS),
    "a long AND of columns": statements(condition("a=a", " AND "), ["A", "1", "3", "rows 2"]),
    "deep comparisons": statements(condition("(" * 64 + "a=1" + ")" * 64, "OR"), ["A", "1", "rows 1"]),
    "NOT in parentheses": statements(condition("(NOT " * 64 + "a=1" + ")" * 64, "OR"), ["A", "1", "rows 1"]),
    "a record of one line": loaded("1,", wrong_count),
    "empty records": loaded(",\n", rows_loaded),
    "quotes in a file": loaded('"', wrong_count),
    "zeros in a file": loaded("\0", wrong_count),
    "digits in a file": loaded("9", wrong_count),
}


def claims(version, header):
    """Table files of this version that claim the most columns and rows, keyed by the little that follows the claim."""
    front = f"BITCOL{chr(version)}\0" + "\x40\0" + "\0\0\0\x01"
    headers = front + "".join(header.replace("A", f"A{number:02}") for number in range(64))
    return {"nothing": front, "64 headers": headers, "64 headers and a column": headers + "\0" * MEGABYTE}


CLAIMS = {1: claims(1, "\x03A\x01\0"), 2: claims(2, "\x03A\0\x01\0")}


def small_stack():
    resource.setrlimit(resource.RLIMIT_STACK, (STACK, STACK))


def little_memory():
    small_stack()
    resource.setrlimit(resource.RLIMIT_AS, (LITTLE_MEMORY, LITTLE_MEMORY))


def seconds(program, script, files, replies, limits=small_stack):
    with tempfile.TemporaryDirectory() as folder:
        for name, text in files.items():
            (Path(folder) / name).write_text(text)
        source, answers = Path(folder) / "script", Path(folder) / "answers"
        source.write_text(script)
        with source.open("rb") as stdin, answers.open("wb") as stdout:
            process = subprocess.Popen([program], stdin=stdin, stdout=stdout, cwd=folder, preexec_fn=limits)
            _, status, usage = os.wait4(process.pid, 0)
        process.returncode = os.waitstatus_to_exitcode(status)
        if process.returncode != 0:
            sys.exit(f"ended with status {process.returncode}")
        lines = answers.read_text().splitlines()
        if replies is not None and lines != replies:
            sys.exit(f"answered {lines[:5]} .. ({len(lines)} lines) for {replies[:5]} .. ({len(replies)} lines)")
        return usage.ru_utime + usage.ru_stime


def main():
    program = built("bitcol")
    progress = Progress("hostile", sum(map(len, CLAIMS.values())) + len(CASES) * len(SIZES))
    for version, files in CLAIMS.items():
        for after, file in files.items():
            seconds(program, "OPEN t FROM 'f';\n", {"f": file}, [NOT_TABLE], little_memory)
            progress.clear()
            memory = f"{LITTLE_MEMORY // MEGABYTE} MB"
            print(f"a claim of version {version}, with {after} behind it: refused in {memory}", flush=True)
            progress.step()
    for name, case in CASES.items():
        figures = []
        for size in SIZES:
            script, files, replies = case(size)
            length = len(script) + sum(map(len, files.values()))
            time = seconds(program, script, files, replies)
            figures.append(f"{time / length * 1e9:7.2f}")
            progress.step(name)
        progress.clear()
        sizes = ", ".join(f"{size // MEGABYTE} MB" for size in SIZES)
        print(f"{name:24} ns a byte at {sizes}: {' '.join(figures)}", flush=True)


if __name__ == "__main__":
    main()
