"""Makes tables from CSV files with a header.

The file is read in parts, and the program LOADs each: that is quick, and shows the progress. A column is INTEGER until
a part has a value of more than 32 bits: then it becomes BIGINT, and the part is LOADed again. If a part is refused for
another reason, the line and the column are searched for here, and the table is dropped.
"""

from __future__ import annotations

import csv
import io
from collections.abc import Callable, Iterator, Sequence
from dataclasses import dataclass
from functools import partial
from itertools import chain
from typing import BinaryIO, Protocol

from ..column_type import ColumnType
from ..errors import DataRefused, ErrorNumber
from ..session import Session
from ..table_file import COLUMN_LIMIT, with_types
from .fault import Fault
from .names import column_names
from .render import counted
from .store import Store
from .types import NUMBER, value_of

# The size of a part: large enough to make the cost of its statement negligible, small enough for memory and for showing
# the progress.
PART_BYTES = 2**23
# A header may span lines, and empty lines may come before it: at most this many bytes are searched for it.
HEADER_BYTES = 2**20

# An integer with fewer digits has at most 32 bits.
SHORTEST_WIDE = 10

_BYTE_ORDER_MARK = b"\xef\xbb\xbf"
_DELIMITERS = ",;\t|"
# LOAD skips the first record of each part, which is this one, so a byte order mark in the middle of a file is a fault.
_LEFT_OUT = b"0\n"

Tell = Callable[[str], None]


@dataclass(frozen=True)
class Header:
    """The first record of a file: its fields, their delimiter, and the number of its lines and bytes."""

    fields: list[str]
    delimiter: str
    lines: int
    size: int


@dataclass(frozen=True)
class Part:
    """Whole lines of a file, and the number of the first, counted from 1."""

    data: bytes
    line: int


@dataclass(frozen=True)
class CsvTable:
    """A table that is to be made from a CSV file."""

    store: Store
    table: str

    def fill(self, file: BinaryIO, size: int, tell: Tell) -> tuple[int, list[str]]:
        """Makes the table from a file of `size` bytes, 0 if that isn't known. Returns the number of rows, and a note
        for each column whose name differs from that in the file. Raises a Fault, without the file's name, if the file
        isn't such a CSV file; then the table isn't made."""
        block = file.read(PART_BYTES)
        header = header_of(block)
        names, notes = column_names(header.fields)
        columns = ", ".join(f"{name} {ColumnType.INTEGER.name}" for name in names)
        create = f"CREATE TABLE {self.table} ({columns})"
        with self.store.making(self.table, lambda session: session.execute(create)):
            return self._load(parts_of(file, block, header), names, header, size, tell), notes

    def _load(self, parts: Iterator[Part], names: Sequence[str], header: Header, size: int, tell: Tell) -> int:
        rows, done = 0, header.size
        for part in parts:
            rows += self._load_part(part, names, header)
            done += len(part.data)
            tell(f"{min(100 * done // size, 100)} %" if size else f"{done / 1e6:.0f} MB")
        return rows

    def _load_part(self, part: Part, names: Sequence[str], header: Header) -> int:
        data = part.data
        if header.delimiter != ",":
            # Exchanging the two keeps a comma inside a field from becoming a delimiter.
            data = data.translate(bytes.maketrans(f"{header.delimiter},".encode(), f",{header.delimiter}".encode()))
        load = partial(_loaded, self.table, [_LEFT_OUT, data])
        try:
            return self.store.call(load)
        except DataRefused as refusal:
            fault = first_fault(part, header)
            if fault or refusal.number != ErrorNumber.VALUE_OUT_OF_RANGE:
                raise Fault(fault or f"a record from line {part.line} on is refused") from refusal
        wide = {names[place]: ColumnType.BIGINT for place in wide_columns(part, header)}
        self.store.call(partial(_retyped, self.table, wide))
        return self.store.call(load)


def _loaded(table: str, pieces: list[bytes], session: Session) -> int:
    return session.load_bytes(table, pieces, header=True)


def _retyped(table: str, types: dict[str, ColumnType], session: Session) -> int:
    """Makes a table again with other types for some of its columns, which can hold its values. No statement does that,
    but the file of a table has the same cells for both types."""
    with session.scratch() as file:
        session.save(table, file.name)
        file.write([with_types(file.read(), types)])
        session.execute(f"DROP TABLE {table}")
        return session.open(table, file.name)


def header_of(block: bytes) -> Header:
    """Returns the header of a file that begins with these bytes. Raises a Fault if it has none."""
    if not block:
        raise Fault("the file is empty, and a CSV file begins with a header")
    if b"\0" in block:
        raise Fault(f"no CSV file: line {block.count(10, 0, block.index(0)) + 1} has a zero byte")
    skipped = len(_BYTE_ORDER_MARK) if block.startswith(_BYTE_ORDER_MARK) else 0
    lines = block[skipped:HEADER_BYTES].splitlines(keepends=True)
    texts = [line.decode("utf-8", "replace") for line in lines]
    delimiter = _delimiter(next((text for text in texts if text.strip()), ""))
    reader = csv.reader(texts, delimiter=delimiter)
    line, fields = next(_records(reader, 1), (0, []))
    if not fields:
        raise Fault("no line has a field, and a CSV file begins with a header")
    if len(fields) > COLUMN_LIMIT:
        raise Fault(f"the header has {len(fields)} fields, and a table has at most {COLUMN_LIMIT} columns")
    if all(map(NUMBER.fullmatch, fields)):
        raise Fault(f"line {line} has integers alone, and a CSV file begins with a header")
    size = skipped + sum(map(len, lines[: reader.line_num]))
    return Header(fields, delimiter, reader.line_num, size)


def parts_of(file: BinaryIO, block: bytes, header: Header) -> Iterator[Part]:
    """Yields what follows the header in the file, in parts that end with a line. `block` has already been read."""
    line = header.lines + 1
    pieces: list[bytes] = []
    for block in chain([block[header.size :]], iter(partial(file.read, PART_BYTES), b"")):
        end = block.rfind(b"\n") + 1
        if end:
            part = Part(b"".join([*pieces, block[:end]]), line)
            yield part
            line += part.data.count(b"\n")
            pieces = []
        pieces.append(block[end:])
    if last := b"".join(pieces):
        yield Part(last, line)


def first_fault(part: Part, header: Header) -> str | None:
    """Describes the first line of a part that isn't a row of the table, and why. Returns None if each is one."""
    text = part.data.decode("utf-8", "backslashreplace")
    reader = csv.reader(io.StringIO(text, newline=""), delimiter=header.delimiter)
    for line, record in _records(reader, part.line):
        reason = _fault_of(record, header.fields)
        if reason:
            return f"line {line}{reason}"
    return None


def wide_columns(part: Part, header: Header) -> set[int]:
    """Returns the positions of the columns with a value of more than 32 bits in this part, whose lines are all rows."""
    text = part.data.decode("utf-8", "backslashreplace")
    reader = csv.reader(io.StringIO(text, newline=""), delimiter=header.delimiter)
    return {place for _, fields in _records(reader, part.line) for place, field in enumerate(fields) if _is_wide(field)}


def _is_wide(field: str) -> bool:
    """Returns whether a field, which is an integer or NULL, is an integer of more than 32 bits."""
    if len(field) < SHORTEST_WIDE:
        return False
    try:
        value_of(field, ColumnType.INTEGER)
    except ValueError:
        return True
    return False


class _Reader(Protocol):
    """A reader of Python's module csv."""

    @property
    def line_num(self) -> int:
        """The number of lines that it has read."""

    def __iter__(self) -> Iterator[list[str]]:
        """The records."""


def _records(reader: _Reader, first: int) -> Iterator[tuple[int, list[str]]]:
    """Yields the records of a reader, each with the line on which it begins. `first` is the number of the reader's
    first line. An empty line isn't a record."""
    line = first
    try:
        for record in reader:
            if record:
                yield line, record
            line = first + reader.line_num
    except csv.Error as fault:
        raise Fault(f"no CSV file: line {line}: {fault}") from None


def _fault_of(record: Sequence[str], columns: Sequence[str]) -> str | None:
    """Returns why a record isn't a row, checked like the program does: first the number of fields, then each field."""
    if len(record) != len(columns):
        return f" has {counted(len(record), 'field')}, and the header has {len(columns)}"
    for field, column in zip(record, columns):
        try:
            value_of(field, ColumnType.BIGINT)
        except ValueError as fault:
            return f", column {column!r}: {fault}"
    return None


def _delimiter(line: str) -> str:
    """Returns the delimiter of this line: a comma if it has one, else the candidate that occurs most often."""
    return "," if "," in line else max(_DELIMITERS, key=line.count)
