"""Makes tables from CSV files, table files and SQLite files. A file's first bytes tell its kind, whatever its name."""

from __future__ import annotations

import os
import stat
from collections.abc import Callable
from dataclasses import dataclass, field
from pathlib import Path

from ..errors import DataError, ErrorNumber, Refused
from ..table import Table
from ..table_file import MARK as TABLE_FILE_MARK
from . import sqlite_import
from .csv_import import CsvTable, Tell
from .fault import Fault, reason_of
from .names import column_names, name_of
from .store import Store


@dataclass(frozen=True)
class Source:
    """A file: its path, and the name that messages and its table use for it."""

    path: str
    label: str


@dataclass(frozen=True)
class Imported:
    """A table that was made from a file, and notes on names that differ from those in the file."""

    table: str
    rows: int
    notes: list[str] = field(default_factory=list)


@dataclass(frozen=True)
class Import:
    """One table that is to be made from a file. `run` makes it, or raises and makes none."""

    label: str
    run: Callable[[Tell], Imported]


def split_word(word: str) -> tuple[str, str | None]:
    """Splits an argument into a file and a table's name: `FILE`, or `FILE:TABLE` if no file has this name."""
    path, colon, table = word.rpartition(":")
    if colon and table and not os.path.exists(word) and os.path.exists(path):
        return path, table
    return word, None


def imports_of(store: Store, path: str, table: str | None, label: str | None = None) -> list[Import]:
    """Returns the imports for a file: a table of this name, or named after the file; for an SQLite file the table of
    this name, or all. If `label` is given, it names the file instead of its path. Raises a Fault if the file can't be
    read."""
    source = Source(path, path if label is None else label)
    # A pipe or a device can't be read twice.
    first = b"" if is_special(path) else _first_bytes(source)
    if first.startswith(sqlite_import.MARK):
        return [_sqlite(store, source, name) for name in _chosen(source, table)]
    if first.startswith(TABLE_FILE_MARK):
        return [Import(source.label, lambda _: _of_table_file(store, source, table))]
    return [Import(source.label, lambda tell: _of_csv(store, source, table, tell))]


def is_special(path: str) -> bool:
    """Returns whether the path is a pipe or a device."""
    try:
        mode = os.stat(path).st_mode
    except (OSError, ValueError):
        return False
    return not stat.S_ISREG(mode) and not stat.S_ISDIR(mode)


def _first_bytes(source: Source) -> bytes:
    try:
        with open(source.path, "rb") as file:
            return file.read(len(sqlite_import.MARK))
    except OSError as fault:
        raise Fault(f"{source.label}: {reason_of(fault)}") from None
    except ValueError as fault:
        raise Fault(f"{source.label!r}: {fault}") from None


def _table_name(label: str, table: str | None) -> tuple[str, list[str]]:
    """Returns the name for a table: this one, or the file's, and a note if that had to be changed."""
    word = Path(label).stem if table is None else table
    name = name_of(word, "T")
    return name, [] if name == word.upper() else [f"table {word!r} is called {name}"]


def _of_csv(store: Store, source: Source, table: str | None, tell: Tell) -> Imported:
    name, notes = _table_name(source.label, table)
    try:
        with open(source.path, "rb") as file:
            status = os.fstat(file.fileno())
            size = status.st_size if stat.S_ISREG(status.st_mode) else 0
            rows, more = CsvTable(store, name).fill(file, size, tell)
    except OSError as fault:
        raise Fault(f"{source.label}: {reason_of(fault)}") from None
    except Fault as fault:
        raise Fault(f"{source.label}: {fault}") from None
    except Refused as refusal:
        raise _named(refusal, source.label, name) from None
    return Imported(name, rows, notes + more)


def _of_table_file(store: Store, source: Source, table: str | None) -> Imported:
    name, notes = _table_name(source.label, table)
    try:
        with store.making(name, lambda session: session.open(name, source.path)) as rows:
            return Imported(name, rows, notes)
    except Refused as refusal:
        raise _named(refusal, source.label, name) from None


def _chosen(source: Source, table: str | None) -> list[str]:
    """Returns the tables of an SQLite file to import: all, or the one of this name, compared as SQLite does."""
    try:
        names = sqlite_import.table_names(source.path)
    except Fault as fault:
        raise Fault(f"{source.label}: {fault}") from None
    chosen = names if table is None else [name for name in names if name.lower() == table.lower()]
    if not chosen:
        there = f"it has {', '.join(names)}" if names else "it has none"
        missing = f"there is no table {table!r}; {there}" if table else "the file has no tables"
        raise Fault(f"{source.label}: {missing}")
    return chosen


def _sqlite(store: Store, source: Source, table: str) -> Import:
    """Returns the import of one table of an SQLite file."""
    label = f"{source.label}, table {table}"

    def run(tell: Tell) -> Imported:
        name, notes = _table_name(source.label, table)
        try:
            words, columns = sqlite_import.read_table(source.path, table, tell)
            names, more = column_names(words)
            made = Table.of(dict(zip(names, columns)))
            with store.making(name, lambda session: session.write_table(name, made)) as rows:
                return Imported(name, rows, notes + more)
        except Refused as refusal:
            raise _named(refusal, label, name) from None
        except (DataError, Fault) as fault:
            raise Fault(f"{label}: {fault}") from None

    return Import(label, run)


def _named(refusal: Refused, label: str, table: str) -> Fault:
    """Returns a refusal with the name of its file, and advice if the table exists already."""
    if refusal.number == ErrorNumber.TABLE_EXISTS:
        return Fault(f"{label}: there is a table {table} already: DROP it, or give this one another name")
    return Fault(f"{label}: {refusal}")
