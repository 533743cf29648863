#!/usr/bin/env python3
"""Times every statement in every layout and kind, and in sqlite3 in memory, in one run, by processor time.

A row per statement, a column per layout and kind. Three shapes of values: `byte` (0 to 255), `int` (random, 32 bits)
and `few` (1,000 values, 2,000,000 apart). One in a hundred of the first column is NULL. The replies of all layouts and
kinds are compared with each other and with sqlite3's: a difference ends the bench with status 1. Build bitcol first, by
`rt run` in crates/bitcol.

    python3 bench/matrix.py [ROWS [ROUNDS]] [--shapes byte,int,few] [--only WORD]
"""

import argparse
import random
import sqlite3
import tempfile
import time
from collections.abc import Callable
from dataclasses import dataclass
from pathlib import Path

from common import LAYOUTS, LEAST, Number, options
from program import Program
from report import Report, figure, require, times

KINDS = ("OFFSET", "DICTIONARY")
CHOICES = [(layout, kind) for kind in KINDS for layout in LAYOUTS]
MICROSECONDS = 1e6
Row = tuple[int | None, int, int, int]


@dataclass(frozen=True)
class Statement:
    """A statement with the words of a shape in braces; what runs before each time, and whether sqlite3 has it."""

    title: str
    text: str
    before: tuple[str, ...] = ()
    shared: bool = True
    # Whether it takes so little time that it is reported in microseconds, and not per row.
    is_small: bool = False


# The table as it was filled; in bitcol from a file.
REFILL = "refill"
HALF = "DELETE FROM t WHERE d < 50"
COUNT = "SELECT COUNT(*) FROM t WHERE "
SET = "UPDATE t SET a = "
ONE = "INSERT INTO t VALUES ({x}, {x}, {x}, 1000)"
STATEMENTS = (
    Statement("LOAD", "LOAD u FROM 'matrix.csv'", ("DROP TABLE u", "CREATE TABLE u ({made})"), shared=False),
    Statement("COUNT, a = x", COUNT + "a = {x}"),
    Statement("COUNT, a < x, half", COUNT + "a < {mid}"),
    Statement("COUNT, a BETWEEN", COUNT + "a BETWEEN {x} AND {mid}"),
    Statement("COUNT, a IN of 8", COUNT + "a IN ({eight})"),
    Statement("COUNT, a IN of 100", COUNT + "a IN ({hundred})"),
    Statement("COUNT, a IS NULL", COUNT + "a IS NULL"),
    Statement("COUNT, NOT (.. AND ..)", COUNT + "NOT (a < {mid} AND b > {x})"),
    Statement("COUNT, a < b", COUNT + "a < b"),
    Statement("COUNT, a < c, other base", COUNT + "a < c"),
    Statement("COUNT, all", "SELECT COUNT(*) FROM t"),
    Statement("SUM(a)", "SELECT SUM(a) FROM t"),
    Statement("SUM(a), half", "SELECT SUM(a) FROM t WHERE b < {mid}"),
    Statement("MIN(a), MAX(a)", "SELECT MIN(a), MAX(a) FROM t"),
    Statement("MEDIAN(a)", "SELECT MEDIAN(a) FROM t", shared=False),
    Statement("MEDIAN(a), half", "SELECT MEDIAN(a) FROM t WHERE b < {mid}", shared=False),
    Statement("SUM(b) by 100 groups", "SELECT d, SUM(b) FROM t GROUP BY d"),
    Statement("COUNT by a, not NULL", "SELECT a, COUNT(*) FROM t WHERE a IS NOT NULL GROUP BY a"),
    Statement("rows, 1 in 100", "SELECT a, b FROM t WHERE d = 7"),
    Statement("rows, all", "SELECT a, b FROM t"),
    Statement("UPDATE, literal, half", SET + "{x} WHERE d < 50", (REFILL,)),
    Statement("UPDATE, column, half", SET + "b WHERE d < 50", (REFILL,)),
    Statement("UPDATE, new value, 1 in 100", SET + "2147483647 WHERE d = 7", (REFILL,)),
    Statement("DELETE, half", HALF, (REFILL,)),
    Statement("rows, all, after it", "SELECT a, b FROM t", (REFILL, HALF)),
    Statement("REBUILD after it", "REBUILD t", (REFILL, HALF), shared=False),
    Statement("SAVE after it", "SAVE t TO 'half.table'", (REFILL, HALF), shared=False),
    Statement("REBUILD", "REBUILD t", (REFILL,), shared=False),
    Statement("REBUILD a in V OFFSET", "REBUILD t (a USING V OFFSET)", (REFILL,), shared=False),
    Statement("REBUILD a in S DICTIONARY", "REBUILD t (a USING S DICTIONARY)", (REFILL,), shared=False),
    Statement("SAVE", "SAVE t TO 'again.table'", (REFILL,), shared=False),
    Statement("OPEN", "OPEN u FROM 'again.table'", ("DROP TABLE u", "SAVE t TO 'again.table'"), shared=False),
    Statement("STATS, a < x", "STATS SELECT a FROM t WHERE a < {mid}", shared=False),
    Statement("INSERT, one row", ONE, is_small=True),
    Statement("INSERT, new value", ONE.replace("({x}", "(2147483647"), (REFILL,), is_small=True),
    # Only the first column is encoded anew: the others have a code for their values.
    Statement("INSERT, below the least", "INSERT INTO t VALUES ({below}, NULL, NULL, 7)", (REFILL,), is_small=True),
    Statement("DELETE, one row", "DELETE FROM t WHERE d = 1000", (REFILL, ONE), is_small=True),
)


def drawn(shape: str, generator: random.Random) -> Callable[[], int]:
    """A function that draws a value of a shape."""
    if shape == "byte":
        return lambda: generator.getrandbits(8)
    if shape == "int":
        return lambda: generator.getrandbits(32) - (1 << 31)
    return lambda: 2_000_000 * generator.randrange(1_000) - 1_000_000_000


def rows_of_shape(shape: str, count: int) -> list[Row]:
    """Columns a, b and c of the shape, c with another base and half the values' spread, and d of 0 to 99."""
    generator = random.Random(11)
    draw, shift = drawn(shape, generator), 60 if shape == "byte" else 0
    return [
        (None if generator.random() < 0.01 else draw(), draw(), draw() // 2 - shift, generator.randrange(100))
        for _ in range(count)
    ]


def words_of(rows: list[Row]) -> dict[str, str]:
    """What the statements' braces stand for: values of the column, at even steps in sorted order, and the number below
    the least of them."""
    known = sorted(row[0] for row in rows if row[0] is not None)
    eight, hundred = ([known[i * len(known) // (n + 1)] for i in range(1, n + 1)] for n in (8, 100))
    return {
        "x": str(known[len(known) // 3]),
        "mid": str(known[len(known) // 2]),
        "below": str(max(known[0] - 1, LEAST)),
        "eight": ", ".join(map(str, eight)),
        "hundred": ", ".join(map(str, hundred)),
    }


def reply_like(rows: list[tuple], count: int) -> str:
    """What bitcol replies if sqlite3 returns these rows, or changes this many; without the heading."""
    if count >= 0:
        return f"ok {count}"
    lines = [",".join("NULL" if cell is None else str(cell) for cell in row) for row in rows]
    return "\n".join([*lines, f"rows {len(rows)}"])


class Sqlite:
    """sqlite3 in memory, with the same table."""

    def __init__(self, rows: list[Row]) -> None:
        self.base, self.rows = sqlite3.connect(":memory:", isolation_level=None), rows
        self.refill()

    def refill(self) -> None:
        self.base.execute("DROP TABLE IF EXISTS t")
        self.base.execute("CREATE TABLE t (a INT, b INT, c INT, d INT)")
        self.base.execute("BEGIN")
        self.base.executemany("INSERT INTO t VALUES (?, ?, ?, ?)", self.rows)
        self.base.execute("COMMIT")

    def least(self, statement: Statement, words: dict[str, str], rounds: int) -> tuple[float, str]:
        """The least processor time of a statement, and its reply as bitcol writes it."""
        text, took, reply = statement.text.format(**words), float("inf"), ""
        for _ in range(min(rounds, 2)):
            for line in statement.before:
                self.refill() if line is REFILL else self.base.execute(line.format(**words))
            start = time.process_time()
            done = self.base.execute(text + (" ORDER BY 1" if "GROUP BY" in text else ""))
            rows = done.fetchall()
            took = min(took, time.process_time() - start)
            reply = reply_like(rows, done.rowcount)
        return took, reply


def without_heading(reply: str) -> str:
    heading, between, rest = reply.rstrip("\n").partition("\n")
    return rest if between else heading


def in_choice(choice: tuple[str, str], folder: Path, statements: list[Statement], words: dict[str, str],
              rounds: int) -> dict[str, tuple[float, str]]:
    """The least time and the reply for each statement, in one layout and kind."""
    made = ", ".join(f"{column} INT USING {' '.join(choice)}" for column in "abcd")
    words = words | {"made": made}
    found: dict[str, tuple[float, str]] = {}
    with Program(folder) as program:
        program.do(f"CREATE TABLE t ({made})", f"CREATE TABLE u ({made})", "LOAD t FROM 'matrix.csv'")
        program.do("SAVE t TO 'whole.table'")
        for statement in statements:
            for _ in range(rounds):
                for line in statement.before:
                    refill = ("DROP TABLE t", "OPEN t FROM 'whole.table'")
                    program.do(*(refill if line is REFILL else [line.format(**words)]))
                took, reply = program.ask(statement.text.format(**words))
                found[statement.title] = min(took, found.get(statement.title, (took, ""))[0]), without_heading(reply)
    return found


def time_shape(shape: str, statements: list[Statement], count: int, rounds: int, report: Report) -> None:
    rows = rows_of_shape(shape, count)
    words = words_of(rows)
    with tempfile.TemporaryDirectory() as name:
        lines = (",".join("" if cell is None else str(cell) for cell in row) for row in rows)
        (Path(name) / "matrix.csv").write_text("\n".join(lines) + "\n")
        found = {choice: in_choice(choice, Path(name), statements, words, rounds) for choice in CHOICES}
    other, cells = Sqlite(rows), []
    for statement in statements:
        title, scale = statement.title, MICROSECONDS if statement.is_small else 1e9 / count
        answers = {choice: answered[title] for choice, answered in found.items()}
        reply = answers[CHOICES[0]][1]
        for choice, (_, said) in answers.items():
            require(said == reply or title.startswith("STATS"), f"{shape}, {title}: {choice} {said[:99]}, {reply[:99]}")
        own = [took for took, _ in answers.values()]
        theirs, said = other.least(statement, words, rounds) if statement.shared else (None, reply)
        require(said == reply, f"{shape}, {title}: sqlite3 {said[:99]}, {reply[:99]}")
        ratios = [times(theirs, max(min(own), 1e-9)), times(theirs, max(own))]
        unit = " (us)" if statement.is_small else ""
        cells.append([title + unit, *(figure(took * scale) for took in own), *ratios])
    heading = ["Statement", *(f"{layout} {kind[0]}" for layout, kind in CHOICES), "best", "worst"]
    what = f"{count:,} rows; ns a row, and sqlite3's time as a multiple of the best and of the worst"
    report.table(f"matrix-{shape}", what, heading, cells)


def more(parser: argparse.ArgumentParser) -> None:
    parser.add_argument("--shapes", default="byte,int,few", help="some of byte, int and few")
    parser.add_argument("--only", default="", metavar="WORD", help="only statements with this word in their titles")


def main() -> None:
    numbers = Number("rows", 1 << 20, 120, "how many rows"), Number("rounds", 3, 1, "how many rounds")
    words = options(__doc__, *numbers, more=more)
    statements = [statement for statement in STATEMENTS if words.only in statement.title]
    report = Report("python3 bench/matrix.py")
    for shape in words.shapes.split(","):
        time_shape(shape, statements, words.rows, words.rounds, report)
    report.finish()


if __name__ == "__main__":
    main()
