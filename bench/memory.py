#!/usr/bin/env python3
"""Reports how much memory a column takes in each layout: bits of memory a value, which the program holds when all rows
have come by INSERT statements of 60 KB, and at the peak until then.

One column of kind OFFSET with random values of so many bits, of which one in ten is NULL. The first rows have both ends
of them, so the column is never encoded anew. Freed memory goes back to the kernel at once. What the program held before
the first row isn't counted, nor what one statement takes while it is executed. Build bitcol first, by `rt run` in
crates/bitcol.

    python3 bench/memory.py [ROWS]      how many rows; 4194304 if not given
"""

import itertools
import random
import re
from collections.abc import Iterator
from pathlib import Path

from common import LAYOUTS, Number, insert, options, rows_of_a_statement
from program import Program
from report import Report, figure, require

WIDTHS = (4, 8, 16, 32, 64)
# The greatest width of a code in H.
WIDEST_IN_H = 32


def values(bits: int) -> Iterator[str]:
    """Rows, as text, without an end: the ends of the values, and then random ones."""
    generator, least = random.Random(bits), -(1 << bits - 1)
    yield from (f"({end})" for end in (least, -least - 1))
    while True:
        yield "(NULL)" if generator.random() < 0.1 else f"({least + generator.getrandbits(bits)})"


def statements(bits: int, rows: int) -> list[str]:
    """INSERT statements of this number of rows."""
    left = itertools.islice(values(bits), rows)
    found = []
    while part := rows_of_a_statement(lambda: next(left, "")):
        part = [row for row in part if row]
        if not part:
            break
        found.append(insert(part).rstrip(";\n"))
    return found


def taken(layout: str, column_type: str, inserts: list[str], rows: int) -> tuple[float, float]:
    """Bits a row that the program holds in the end, and at the peak, beyond those before the first row and what a
    statement takes while it is executed."""
    with Program(returns_memory=True) as program:
        create = f"CREATE TABLE t (a {column_type} USING {layout})"
        program.do(create, inserts[0], "DROP TABLE t", create)
        statement = program.peak(inserts[0])
        program.do("DROP TABLE t", create)
        Path(f"/proc/{program.child.pid}/clear_refs").write_text("5")
        before = program.memory("VmRSS")
        program.do(*inserts)
        held, peak = program.memory("VmRSS") - before, program.memory("VmHWM") - before - statement
        count = re.search(r"^\d+$", program.ask("SELECT COUNT(*) FROM t")[1], re.MULTILINE)
        require(count is not None and int(count[0]) == rows, f"{layout}: {count} of {rows} rows")
    return held * 8 / rows, max(held, peak) * 8 / rows


def main() -> None:
    words = options(__doc__, Number("rows", 1 << 22, 20_000, "how many rows"))
    report = Report("python3 bench/memory.py")
    lines = []
    for bits in WIDTHS:
        inserts = statements(bits, words.rows)
        column_type = "INTEGER" if bits <= 32 else "BIGINT"
        layouts = [layout for layout in LAYOUTS if layout != "H" or bits <= WIDEST_IN_H]
        found = {layout: taken(layout, column_type, inserts, words.rows) for layout in layouts}
        parts = [found[layout][part] if layout in found else None for part in (0, 1) for layout in LAYOUTS]
        lines.append([str(bits), *map(figure, parts)])
    heading = ["Bits of a code", *LAYOUTS, *(f"{layout}, peak" for layout in LAYOUTS)]
    report.table("memory", f"{words.rows:,} rows of one column; bits of memory a row", heading, lines)
    report.finish()


if __name__ == "__main__":
    main()
