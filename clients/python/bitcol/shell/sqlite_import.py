"""Reads tables of SQLite files by Python's module sqlite3, which may not be installed."""

from __future__ import annotations

import contextlib
import importlib
from collections.abc import Iterator, Sequence
from pathlib import Path
from typing import Any

from ..column_type import ColumnType
from ..table_file import COLUMN_LIMIT, ROW_LIMIT
from .csv_import import Tell
from .fault import Fault
from .types import checked, value_of

MARK = b"SQLite format 3\0"
ROWS_AT_ONCE = 10_000


def table_names(path: str) -> list[str]:
    """Returns the names of the file's tables, as they are spelled there. Raises a Fault if it can't be read."""
    with _connected(path) as connection:
        found = connection.execute("SELECT name FROM sqlite_master WHERE type = 'table' ORDER BY name")
        return [name for (name,) in found if not name.startswith("sqlite_")]


def read_table(path: str, table: str, tell: Tell) -> tuple[list[str], list[list[int | None]]]:
    """Returns the names of a table's columns, as they are spelled there, and the columns. Raises a Fault, without the
    file's name, if a value isn't an integer, or the file can't be read."""
    with _connected(path) as connection:
        quoted = '"' + table.replace('"', '""') + '"'
        (rows,) = connection.execute(f"SELECT COUNT(*) FROM {quoted}").fetchone()
        cursor = connection.execute(f"SELECT * FROM {quoted}")
        names = [column[0] for column in cursor.description]
        if len(names) > COLUMN_LIMIT or rows > ROW_LIMIT:
            raise Fault(f"{len(names)} columns and {rows} rows: a table has at most {COLUMN_LIMIT} and {ROW_LIMIT}")
        columns: list[list[int | None]] = [[] for _ in names]
        while batch := cursor.fetchmany(ROWS_AT_ONCE):
            before = len(columns[0])
            for name, column, cells in zip(names, columns, zip(*batch)):
                column += _values(cells, name, before)
            tell(f"{100 * len(columns[0]) // max(rows, 1)} %")
        return names, columns


def _values(cells: Sequence[Any], column: str, before: int) -> Sequence[int | None]:
    """Returns the cells of a column as integers and None. `before` rows came before them."""
    if set(map(type, cells)) <= {int, type(None)}:
        # An SQLite integer has at most 64 bits.
        return cells
    return [_value(cell, column, row) for row, cell in enumerate(cells, before + 1)]


def _value(cell: Any, column: str, row: int) -> int | None:
    """Returns a cell as an integer or None. A text is read like a CSV field, since many files store integers so."""
    try:
        if cell is None or isinstance(cell, str):
            return value_of(cell or "", ColumnType.BIGINT)
        if isinstance(cell, int):
            return checked(cell, ColumnType.BIGINT)
        raise ValueError("a blob is no integer" if isinstance(cell, bytes) else f"{cell!r} is no integer")
    except ValueError as fault:
        raise Fault(f"row {row}, column {column!r}: {fault}") from None


@contextlib.contextmanager
def _connected(path: str) -> Iterator[Any]:
    """Opens the file for reading only. An error of SQLite is raised as a Fault."""
    try:
        sqlite3 = importlib.import_module("sqlite3")
    except ImportError:
        raise Fault("Python's module sqlite3 is not installed") from None
    try:
        with contextlib.closing(sqlite3.connect(f"{Path(path).resolve().as_uri()}?mode=ro", uri=True)) as connection:
            # A text that isn't UTF-8 isn't an integer either, and is reported as such.
            connection.text_factory = lambda data: data.decode(errors="replace")
            yield connection
    except sqlite3.Error as fault:
        raise Fault(f"SQLite: {fault}") from None
