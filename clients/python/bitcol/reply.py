"""Replies: where each one ends in a stream of bytes, and what it says.

A reply is one line, `ok`, `ok n` or `error n: text`, or it is a line of headings, the rows, and a line `rows n`. No
heading and no row begins with a lower-case letter, so the first line tells the kind, and `rows` the end.
"""

from __future__ import annotations

import json
from collections.abc import Iterator, Sequence
from functools import lru_cache
from typing import Any, Union

from .errors import InterfaceError, ProgrammingError, Refused, refusal
from .lines import LineIndex
from .optional import numpy_module, pandas_module, rows_module

Cell = Union[int, str, None]
Row = tuple[Any, ...]

_ONE_LINE = (b"ok", b"error ", b"units ")
_LAST_LINE = b"\nrows "
# The bytes of rows that are read at a time when an answer isn't needed as a whole.
_BATCH_BYTES = 2**18
# Headings of few bytes are remembered. For longer ones it would take memory, and hardly save time.
_LONGEST_REMEMBERED = 256
_read_json = json.JSONDecoder().raw_decode


class ReplyBuffer:
    """Splits a stream of bytes into replies. The time is linear in the bytes, in whatever pieces they arrive."""

    def __init__(self) -> None:
        # Mostly bytes come as one piece that is one reply. They are copied to an array only if they are not.
        self._bytes: bytes | bytearray = b""
        # No reply ends before this offset.
        self._looked = 0

    def add(self, data: bytes) -> None:
        """Appends bytes."""
        if not self._bytes:
            self._bytes = data
        elif isinstance(self._bytes, bytearray):
            self._bytes += data
        else:
            self._bytes = bytearray(self._bytes) + data

    def take(self) -> bytes | None:
        """Removes and returns the first reply, or returns None if it isn't complete."""
        end = self._first_end()
        if end < 0:
            return None
        held = self._bytes
        self._looked = 0
        if end == len(held):
            self._bytes = b""
            return bytes(held)
        if not isinstance(held, bytearray):
            held = self._bytes = bytearray(held)
        with memoryview(held) as view:
            reply = bytes(view[:end])
        del held[:end]
        return reply

    def _first_end(self) -> int:
        """The number of bytes of the first reply, or -1 if it isn't complete."""
        data = self._bytes
        if data.startswith(_ONE_LINE):
            return data.find(b"\n") + 1 or -1
        last = data.find(_LAST_LINE, self._looked)
        if last < 0:
            self._looked = max(0, len(data) - len(_LAST_LINE) + 1)
            return -1
        self._looked = last
        return data.find(b"\n", last + 1) + 1 or -1


class Reply:
    """The reply to a statement.

    `count` is the n of `ok n`, `rows n` or `units n`, or None if there is none. `headings` has a heading for each
    column of an answer with rows, and is empty otherwise. `is_units` says whether the reply is `units n`, the reply to
    a STATS. `refusal` is the exception for a refused statement, or None.
    """

    __slots__ = ("_body", "_cells", "_index", "count", "headings", "is_units", "refusal")

    def __init__(
        self,
        count: int | None = None,
        headings: tuple[str, ...] = (),
        body: bytes = b"",
        refusal: Refused | None = None,
        is_units: bool = False,
    ) -> None:
        self.count = count
        self.headings = headings
        self.is_units = is_units
        self.refusal = refusal
        self._body = body
        self._cells: list[Any] | None = None
        self._index: LineIndex | None = None

    @classmethod
    def of_rows(cls, headings: tuple[str, ...], rows: Sequence[Row]) -> Reply:
        """Makes an answer with these rows, which doesn't come from the program."""
        made = cls(len(rows), headings)
        made._cells = [cell for row in rows for cell in row]
        return made

    def rows(self) -> list[Row]:
        """Returns all rows as tuples, with None for NULL. Raises InterfaceError if the reply has no rows to show."""
        if self._cells is not None or not self.headings or rows_module() is None:
            return self._rows_of(self._all_cells())
        if len(self._body) <= _BATCH_BYTES:
            return self._rows_in(self._body)
        rows: list[Row] = []
        for start, end in self._parts():
            rows += self._rows_in(self._body[start:end])
        return rows

    def columns(self) -> list[list[Any]]:
        """Returns a list of cells for each heading."""
        cells, width = self._all_cells(), len(self.headings)
        return [cells[first::width] for first in range(width)]

    def first_rows(self, limit: int) -> list[Row]:
        """Returns the first rows, at most `limit`. The others aren't parsed."""
        if self._cells is not None:
            return self.rows()[:limit]
        end = 0
        for _ in range(min(limit, len(self))):
            end = self._body.index(b"\n", end) + 1
        return self._rows_in(self._body[:end])

    def lines_at(self, first: int, limit: int) -> str:
        """Returns the lines of at most `limit` rows from row `first` on, counted from 0, as the program wrote them. The
        other rows aren't parsed, so any part of a long answer is available at once. Raises InterfaceError as batches
        does."""
        if self._cells is not None or not self.headings:
            return "".join(_line_of(row, "NULL") for row in self.rows()[first : first + limit])
        if self._index is None:
            self._index = LineIndex(self._body)
        start, end = self._index.start_of(first), self._index.start_of(first + limit)
        return self._body[start:end].decode("ascii")

    def batches(self) -> Iterator[list[Row]]:
        """Yields all rows in order, in batches. Rows aren't kept, so an answer of millions of rows takes less memory.
        Raises InterfaceError if the reply has no rows to show."""
        if self._cells is not None or not self.headings:
            yield self.rows()
            return
        for start, end in self._parts():
            yield self._rows_in(self._body[start:end])

    def lines(self, null: str) -> Iterator[str]:
        """Yields the rows as CSV lines, some at a time, with `null` for NULL. Raises InterfaceError as batches does."""
        if self._cells is not None or not self.headings or self._names_tables():
            for rows in self.batches():
                yield "".join(_line_of(row, null) for row in rows)
        else:
            for start, end in self._parts():
                yield self._body[start:end].decode("ascii").replace("NULL", null)

    def scalar(self) -> Any:
        """Returns the only cell of the answer. Raises ProgrammingError if it isn't one row of one column."""
        cells = self._all_cells()
        if len(cells) != 1:
            raise ProgrammingError(f"the answer has {len(cells)} cells, not one")
        return cells[0]

    def to_numpy(self) -> list[Any]:
        """Returns a masked array of 64-bit integers for each heading, masked where a cell is NULL."""
        numpy = numpy_module()
        arrays = []
        for column in self._integer_columns():
            mask = numpy.fromiter((cell is None for cell in column), bool, len(column))
            values = [0 if cell is None else cell for cell in column] if mask.any() else column
            arrays.append(numpy.ma.array(numpy.array(values, numpy.int64), mask=mask))
        return arrays

    def to_pandas(self) -> Any:
        """Returns a pandas data frame of Int64 columns, with NA for NULL and the headings as names."""
        pandas = pandas_module()
        columns = {place: pandas.array(cells, dtype="Int64") for place, cells in enumerate(self._integer_columns())}
        # A heading may occur twice, but a key of a mapping only once.
        return pandas.DataFrame(columns).set_axis(list(self.headings), axis=1)

    def _integer_columns(self) -> list[list[Any]]:
        if self._names_tables():
            raise ProgrammingError("a list of tables has names, which are no integers")
        return self.columns()

    def _all_cells(self) -> list[Any]:
        """All cells, row by row."""
        if not self.headings:
            raise InterfaceError("the statement's answer has no rows")
        if self._cells is None:
            self._cells = self._cells_of(self._body)
            self._body = b""
        return self._cells

    def _cells_of(self, lines: bytes) -> list[Any]:
        return _names_and_integers(lines) if self._names_tables() else _integers(lines)

    def _rows_of(self, cells: list[Any]) -> list[Row]:
        remaining = iter(cells)
        return list(zip(*[remaining] * len(self.headings)))

    def _parts(self) -> Iterator[tuple[int, int]]:
        """Yields the start and end of parts of the body that consist of whole lines."""
        start = 0
        while start < len(self._body):
            # No line is as long as a batch.
            end = self._body.rfind(b"\n", start, start + _BATCH_BYTES) + 1
            yield start, end
            start = end

    def _rows_in(self, lines: bytes) -> list[Row]:
        """The rows that these lines of the body are: by the module in C, if that is there and takes them."""
        module = None if self._names_tables() else rows_module()
        made: list[Row] | None = None if module is None else module.rows_in_lines(lines, len(self.headings))
        return self._rows_of(self._cells_of(lines)) if made is None else made

    def _names_tables(self) -> bool:
        # TABLE is a reserved word, so no column has this name.
        return self.headings[:1] == ("TABLE",)

    def __iter__(self) -> Iterator[Row]:
        return iter(self.rows())

    def __len__(self) -> int:
        """The number of rows of the answer."""
        return (self.count or 0) if self.headings else 0

    def __bool__(self) -> bool:
        return True

    def __repr__(self) -> str:
        if self.refusal is not None:
            return f"<Reply {self.refusal}>"
        if self.headings:
            return f"<Reply {','.join(self.headings)}: rows {self.count}>"
        word = "units" if self.is_units else "ok"
        return f"<Reply {word}>" if self.count is None else f"<Reply {word} {self.count}>"


def reply_of(data: bytes) -> Reply:
    """Parses the bytes of one reply."""
    first = data.index(b"\n") + 1
    if first < len(data):
        last = data.rindex(_LAST_LINE) + 1
        return Reply(int(data[last + len(b"rows ") : -1]), _headings_in(data[: first - 1]), data[first:last])
    if data.startswith(b"ok"):
        return Reply(int(data[len(b"ok ") : -1]) if len(data) > len(b"ok\n") else None)
    if data.startswith(b"units "):
        return Reply(int(data[len(b"units ") : -1]), is_units=True)
    number, _, text = data[len(b"error ") : -1].partition(b": ")
    return Reply(refusal=refusal(int(number), text.decode()))


def _headings_in(line: bytes) -> tuple[str, ...]:
    return _remembered_headings(line) if len(line) <= _LONGEST_REMEMBERED else _split_headings(line)


def _split_headings(line: bytes) -> tuple[str, ...]:
    return tuple(line.decode().split(","))


_remembered_headings = lru_cache(maxsize=512)(_split_headings)


def _line_of(row: Row, null: str) -> str:
    """The CSV line of a row, with `null` for NULL."""
    return ",".join(null if cell is None else str(cell) for cell in row) + "\n"


def _integers(body: bytes) -> list[Any]:
    """Parses rows of integers and NULL as a JSON list: the JSON reader is the quickest in the standard library."""
    listed = b"[" + body[:-1].replace(b"\n", b",").replace(b"NULL", b"null") + b"]"
    cells: list[Any]
    cells, _ = _read_json(listed.decode("ascii"))
    return cells


def _names_and_integers(body: bytes) -> list[Any]:
    """Parses the rows of a list of tables."""
    cells = body.decode().replace("\n", ",").split(",")[:-1]
    return [int(cell) if cell.isdigit() else cell for cell in cells]
