"""Adds many rows to an existing table at once: by one INSERT if they fit into a statement, else by a CSV file and LOAD.

Both add all of their rows or none.
"""

from __future__ import annotations

import re
from collections.abc import Callable, Iterable, Iterator, Sequence
from dataclasses import dataclass
from itertools import chain, islice
from typing import Any

from .cells import check_widths
from .column_type import ColumnType, column_types
from .door import Door
from .errors import DataError, DataRefused, ErrorNumber, ProgrammingError
from .reply import Reply
from .script import GREATEST_NUMBER, LEAST_NUMBER, NAME, integer, quoted

# The longest text of rows that is put into a statement: a statement has at most 65,536 bytes, and the rest is names.
STATEMENT_BYTES = 48_000
# The longest CSV file that LOAD accepts.
CSV_BYTES = 268_435_456
# Rows that are formatted in one step: enough to make the cost of a step negligible, few enough for a processor's
# cache.
ROWS_AT_ONCE = 1_000

Batch = list[Any]

_NAMES = rf"{NAME.pattern}(?:\s*,\s*{NAME.pattern})*"
_INSERT = re.compile(
    rf"\s*INSERT\s+INTO\s+(?P<table>{NAME.pattern})\s*(?:\((?P<columns>\s*{_NAMES}\s*)\))?"
    r"\s*VALUES\s*\((?P<places>\s*\?\s*(?:,\s*\?\s*)*)\)\s*;?\s*",
    re.IGNORECASE,
)


@dataclass(frozen=True)
class Insertion:
    """`INSERT INTO table (columns) VALUES (?, ..)`: the columns are None if the statement lists none."""

    table: str
    columns: tuple[str, ...] | None
    places: int

    def statement(self, tuples: str) -> str:
        """Returns the INSERT of these tuples."""
        listed = "" if self.columns is None else f" ({', '.join(self.columns)})"
        return f"INSERT INTO {self.table}{listed} VALUES {tuples}"


def insertion_of(statement: str) -> Insertion | None:
    """Parses an INSERT whose values are all `?`. Returns None for any other statement."""
    found = _INSERT.fullmatch(statement)
    if found is None:
        return None
    names = None if found["columns"] is None else tuple(name.strip() for name in found["columns"].split(","))
    return Insertion(found["table"], names, found["places"].count("?"))


class Inserter:
    """Performs an insertion through the statements and files of a store."""

    def __init__(self, insertion: Insertion, execute: Callable[[str], Reply], door: Door) -> None:
        self._insertion = insertion
        self._execute = execute
        self._door = door

    def insert(self, rows: Iterable[Sequence[Any]]) -> int:
        """Adds the rows, and returns their number. Raises Refused, and what batches_of raises; then no row was added,
        unless the rows need more than one file."""
        batches = batches_of(rows, self._insertion.places)
        held: list[Batch] = []
        tuples: list[str] = []
        for cells in batches:
            held.append(cells)
            tuples.append(tuples_of(cells, self._insertion.places))
            if sum(map(len, tuples)) > STATEMENT_BYTES:
                return self._load(chain(held, batches))
        return self._insert(tuples, held) if tuples else 0

    def _insert(self, tuples: Sequence[str], batches: Sequence[Batch]) -> int:
        """Adds these tuples, which have the cells of these batches, by one INSERT. Returns the number of rows."""
        try:
            return self._execute(self._insertion.statement(",".join(tuples))).count or 0
        except DataRefused as refusal:
            order = self._order()
            lines = [lines_of(cells, self._insertion.places, order) for cells in batches]
            raise self._located(refusal, lines) from None

    def _load(self, batches: Iterable[Batch]) -> int:
        order = self._order()
        lines = (lines_of(cells, self._insertion.places, order) for cells in batches)
        added = 0
        with self._door.scratch() as file:
            for part in _files(lines):
                file.write(part)
                added += self._load_file(file.name, part, added)
        return added

    def _load_file(self, name: str, lines: Sequence[bytes], before: int) -> int:
        """Adds these lines by a LOAD, and returns the number of rows added. `before` rows came before them."""
        try:
            return self._execute(f"LOAD {self._insertion.table} FROM {quoted(name)}").count or 0
        except DataRefused as refusal:
            raise self._located(refusal, lines, before) from None

    def _located(self, refusal: DataRefused, lines: Sequence[bytes], before: int = 0) -> DataRefused:
        """Returns the refusal of these lines with the offending value added: neither INSERT nor LOAD says which value
        is out of range, so it is searched for. `before` rows came before these lines."""
        if refusal.number not in (ErrorNumber.NUMBER_TOO_LARGE, ErrorNumber.VALUE_OUT_OF_RANGE):
            return refusal
        types = list(column_types(self._execute, self._insertion.table).values())
        return DataRefused(refusal.number, f"{refusal.text}: {_first_outside(lines, types, before)}")

    def _order(self) -> list[int | None]:
        """Returns for each column of the table the position of its value in a row, or None if the INSERT omits it."""
        insertion = self._insertion
        columns = self._execute(f"SELECT * FROM {insertion.table} WHERE 1 = 0").headings
        listed = columns if insertion.columns is None else tuple(name.upper() for name in insertion.columns)
        if len(listed) != insertion.places or len(set(listed)) < len(listed) or not set(listed) <= set(columns):
            # Such an INSERT is refused whatever its values are. Send it, so that the store says why.
            self._execute(insertion.statement(f"({','.join(['NULL'] * insertion.places)})"))
        return [listed.index(column) if column in listed else None for column in columns]


def batches_of(rows: Iterable[Sequence[Any]], places: int) -> Iterator[Batch]:
    """Yields the rows in batches, each as one list of the cells of its rows one after the other: ints and None.

    Raises ProgrammingError or DataError, with the row's number counted from 0, if the number of values in a row isn't
    `places`, or a value is neither None nor an integer that a statement can hold.
    """
    remaining, taken = iter(rows), 0
    while batch := list(islice(remaining, ROWS_AT_ONCE)):
        check_widths(batch, places, taken)
        cells = list(chain.from_iterable(batch))
        if not set(map(type, cells)) <= {int, type(None)}:
            cells = [_number(cell, taken + place // places) for place, cell in enumerate(cells)]
        yield cells
        taken += len(batch)


def tuples_of(cells: Batch, places: int) -> str:
    """Returns the tuples of an INSERT with these cells."""
    row = f"({','.join(['%s'] * places)}),"
    return _formatted(row, cells, places)[:-1]


def lines_of(cells: Batch, places: int, order: Sequence[int | None]) -> bytes:
    """Returns the CSV lines with these cells. `order` has the position of each field's value; None makes it NULL."""
    if order != list(range(places)):
        width = len(order)
        woven: Batch = [None] * (len(cells) // places * width)
        for field, place in enumerate(order):
            if place is not None:
                woven[field::width] = cells[place::places]
        cells, places = woven, width
    return _formatted(",".join(["%s"] * places) + "\n", cells, places).encode()


def _formatted(row: str, cells: Batch, places: int) -> str:
    """Formats all rows in one step, which takes half the time of one step for each row."""
    try:
        return (row * (len(cells) // places) % tuple(cells)).replace("None", "NULL")
    except ValueError:  # so many digits that Python doesn't write them
        raise DataError("an integer of more than 64 bits: a statement has none") from None


def _number(cell: Any, row: int) -> int | None:
    """Converts a cell to an int or None. Raises ProgrammingError if it can't, DataError if it has more than 64 bits."""
    if cell is None:
        return None
    try:
        number = integer(cell)
    except ProgrammingError as fault:
        raise ProgrammingError(f"row {row}: {fault}") from None
    if not LEAST_NUMBER <= number <= GREATEST_NUMBER:
        raise DataError(f"row {row}: an integer of more than 64 bits: a statement has none")
    return number


def _files(lines: Iterable[bytes]) -> Iterator[list[bytes]]:
    """Splits the lines into parts that LOAD accepts as files: one part, unless they are longer than such a file."""
    part: list[bytes] = []
    size = 0
    for piece in lines:
        if part and size + len(piece) > CSV_BYTES:
            yield part
            part, size = [], 0
        part.append(piece)
        size += len(piece)
    if part:
        yield part


def _first_outside(lines: Sequence[bytes], types: Sequence[ColumnType], before: int) -> str:
    """Describes the first value that is outside of its column's type, with its row counted from 0. `before` rows came
    before these lines, and their fields have these types."""
    rows = chain.from_iterable(piece.decode().splitlines() for piece in lines)
    for row, line in enumerate(rows, before):
        for value, column_type in zip(line.split(","), types):
            if value != "NULL" and not column_type.least <= int(value) <= column_type.greatest:
                return f"row {row} has {value}"
    return "no row is known"
