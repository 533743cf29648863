"""Cuts CSV files at ends of records, so that a file beyond the limits of a table, or a large one, becomes several
parts.

Records are those of the program: `,` between fields, `"` around them, and LF, CR LF or CR at the end of a line. An
opening quote counts only at the beginning of a field, and more may follow a closing quote up to the next comma.
"""

from __future__ import annotations

import re

from ..errors import DataError
from ..table_file import ROW_LIMIT

_FIELD = rb'(?:"[^"]*(?:""[^"]*)*"(?!")[^,\r\n]*|[^",\r\n][^,\r\n]*)?'
_RECORD = re.compile(_FIELD + rb"(?:," + _FIELD + rb")*(?:\r\n|\r|\n|\Z)")


def cut(data: bytes, most_bytes: int, most_rows: int = ROW_LIMIT) -> list[tuple[int, int]]:
    """Returns where pieces of a CSV file begin and end: each is as many whole records as these limits allow, or one
    record. Raises DataError if records can't be told apart and the rest is longer than a piece may be."""
    find = _end_of_records if b'"' in data else _end_of_lines
    pieces, start = [], 0
    while start < len(data):
        end = find(data, start, most_bytes, most_rows)
        pieces.append((start, end))
        start = end
    return pieces or [(0, 0)]


def _end_of_lines(data: bytes, start: int, most_bytes: int, most_rows: int) -> int:
    """Returns the end of a piece of a file without quotes, whose records are its lines. A cut between CR and LF makes
    an empty line, which isn't a record."""
    size = most_bytes
    while True:
        end = start + size
        if end < len(data):
            end = max(data.rfind(b"\n", start, end), data.rfind(b"\r", start, end)) + 1
            if end == 0:
                return _end_of_line(data, start + size)
        else:
            end = len(data)
        piece = data[start:end]
        lines = piece.count(b"\n") + piece.count(b"\r") - piece.count(b"\r\n") + (not piece.endswith((b"\n", b"\r")))
        if lines <= most_rows:
            return end
        size = (end - start) // 2


def _end_of_line(data: bytes, at: int) -> int:
    """Returns the end of the line that contains this byte."""
    ends = [place + 1 for place in (data.find(b"\n", at), data.find(b"\r", at)) if place >= 0]
    return min(ends, default=len(data))


def _end_of_records(data: bytes, start: int, most_bytes: int, most_rows: int) -> int:
    """Returns the end of a piece of a file with quotes."""
    end, rows = start, 0
    while end < len(data) and rows < most_rows:
        found = _RECORD.match(data, end)
        if found is None:
            # A quote that is never closed: the rest is one record, which the program judges.
            if len(data) - end > most_bytes:
                raise DataError("a quote isn't closed, so that the file can't be cut at its records")
            return len(data) if end == start or len(data) - start <= most_bytes else end
        if found.end() - start > most_bytes and end > start:
            break
        end, rows = found.end(), rows + 1
    return end
