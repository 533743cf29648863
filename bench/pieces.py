#!/usr/bin/env python3
"""Runs scripts of 2^30 bytes that come through a pipe, and prints their time and the peak memory. Each script is
generated while it is read.

    python3 bench/pieces.py [BYTES]

Build bitcol first, by `rt run` in crates/bitcol.
"""

import os
import subprocess
import threading
import time
from typing import IO

from common import MEGABYTE, Number, built, options
from report import Report, figure, require, times

PIECE = 2**16


def repeated(statement: bytes) -> bytes:
    """A piece of whole statements, padded with blanks."""
    return (statement * (PIECE // len(statement))).ljust(PIECE, b" ")


# What each script consists of, and how many replies a piece of it gets.
SCRIPTS = {
    "comments": (repeated(b"-- nothing; here\n"), 0),
    "blanks": (b" " * PIECE, 0),
    "one long statement": (b"a" * PIECE, 0),
    "statements of 60 KB": (b"SELECT '".ljust(60_000, b"x") + b"';" + b" " * (PIECE - 60_002), 1),
    "short statements": (repeated(b"DROP TABLE t;"), PIECE // len(b"DROP TABLE t;")),
}


def feed(pipe: IO[bytes], piece: bytes, count: int) -> None:
    with pipe:
        for _ in range(count):
            pipe.write(piece)


def run(piece: bytes, count: int) -> tuple[int, float, float]:
    """How many lines the program writes for these pieces, its processor seconds, and its peak memory in MB."""
    process = subprocess.Popen([built("bitcol")], stdin=subprocess.PIPE, stdout=subprocess.PIPE)
    assert process.stdin and process.stdout
    feeder = threading.Thread(target=feed, args=(process.stdin, piece, count))
    feeder.start()
    answered = process.stdout
    lines = sum(block.count(b"\n") for block in iter(lambda: answered.read(2**20), b""))
    feeder.join()
    _, status, usage = os.wait4(process.pid, 0)
    process.returncode = os.waitstatus_to_exitcode(status)
    return lines, usage.ru_utime + usage.ru_stime, usage.ru_maxrss * 1024 / MEGABYTE


def main() -> None:
    words = options(__doc__, Number("bytes", 2**30, 2**17, "how long each script is"))
    count = words.bytes // PIECE
    found, lines = {}, []
    for name, (piece, replies) in SCRIPTS.items():
        answered, seconds, peak = run(piece, count)
        wanted = replies * count + (name == "one long statement")
        require(answered == wanted, f"{name}: {answered} replies of {wanted}")
        found[name] = seconds
        rate = count * PIECE / MEGABYTE / seconds
        lines.append([name, figure(rate), times(seconds, found.get("comments")), figure(peak)])
    report = Report("python3 bench/pieces.py")
    heading = ["Script", "MB a second", "times the time of comments", "MB at the peak"]
    report.table("pieces", f"scripts of {count * PIECE:,} bytes through a pipe", heading, lines)
    report.finish()


if __name__ == "__main__":
    main()
