"""Tables that several benches fill: CSV files of random values, loaded into a running bitcol and into sqlite3."""

import sqlite3
import time
from collections.abc import Iterable, Sequence
from pathlib import Path

from common import data_file
from program import Program, rows_of

Row = Sequence[int | None]


def csv_file(name: str, rows: Iterable[Row]) -> Path:
    """A CSV file of these rows, in the folder `data`."""
    path = data_file(name)
    with path.open("w") as out:
        out.writelines(",".join("" if cell is None else str(cell) for cell in row) + "\n" for row in rows)
    return path


def fill(program: Program, columns: str, choice: str, path: Path, times: int = 1, column_type: str = "INT") -> float:
    """Creates a table t of these columns, each of this type, layout and kind, and loads the file this many times.
    Returns the seconds of the loads."""
    program.do(f"CREATE TABLE t ({', '.join(f'{column} {column_type} {choice}' for column in columns)})")
    return sum(program.ask(f"LOAD t FROM '{path}'")[0] for _ in range(times))


def filled_base(columns: str, rows: Iterable[Row]) -> sqlite3.Connection:
    """sqlite3 in memory, with the same table."""
    base = sqlite3.connect(":memory:", isolation_level=None)
    base.execute(f"CREATE TABLE t ({', '.join(f'{column} INT' for column in columns)})")
    base.execute("BEGIN")
    base.executemany(f"INSERT INTO t VALUES ({', '.join('?' * len(columns))})", rows)
    base.execute("COMMIT")
    return base


def least_of_base(base: sqlite3.Connection, words: str, rounds: int,
                  times: int = 1) -> tuple[float, list[tuple[str, ...]]]:
    """The least processor time of a query of sqlite3 in some rounds, and its rows as bitcol writes them."""
    least, rows = float("inf"), []
    for _ in range(rounds):
        start = time.process_time()
        for _ in range(times):
            rows = base.execute(words).fetchall()
        least = min(least, (time.process_time() - start) / times)
    return least, [tuple("NULL" if cell is None else str(cell) for cell in row) for row in rows]


__all__ = ["csv_file", "fill", "filled_base", "least_of_base", "rows_of"]
