"""The table file format, versions 1 and 2: the only module that knows it. docs/TABLE_FILE.md describes it.

    pieces = encode([Column("A", cells_of([3, None, -1]))])     # the pieces of a file, in order
    columns = decode(b"".join(pieces))                          # and back

In each version a table has exactly one encoding. So encoding the columns that decode returned, in the version of the
decoded bytes, gives the same bytes.
"""

from __future__ import annotations

import struct
from collections.abc import Iterator, Mapping, Sequence
from dataclasses import dataclass
from enum import IntEnum

from .cells import Cells, presence_size
from .column_type import ColumnType
from .door import Bytes
from .errors import DataError, ProgrammingError
from .planes import FRAME, WIDEST, cells_in_planes, fault_in, plane_pieces
from .script import NAME, RESERVED, checked_name

MARK = b"BITCOL"
COLUMN_LIMIT, ROW_LIMIT = 64, 16_777_216
FILE_BYTES = 268_435_456

_FRONT = struct.Struct("<6sHHI")  # mark, version, columns, rows
# A cell of version 1.
_WORD_BYTES = 4
# The front, and for each column its name of at most 128 bytes with the length, its type, layout and kind.
HEADERS_BYTES = _FRONT.size + COLUMN_LIMIT * (1 + 128 + 3)


class Layout(IntEnum):
    """How a column's codes are arranged in memory, by its number in a file. It never changes an answer."""

    P = 0
    V = 1
    H = 2
    S = 3


class Kind(IntEnum):
    """How a column's values are encoded, by its number in a file. It never changes an answer."""

    OFFSET = 0
    DICTIONARY = 1


@dataclass(frozen=True)
class Column:
    """A column of a file. The name is in upper case."""

    name: str
    cells: Cells
    layout: Layout = Layout.V
    kind: Kind = Kind.OFFSET

    @property
    def header(self) -> ColumnHeader:
        """What a file says about the column before its cells."""
        return ColumnHeader(self.name, self.layout, self.kind, self.cells.column_type)


def encode(columns: Sequence[Column], version: int | None = None) -> list[Bytes]:
    """Returns the bytes of a file with these columns, in pieces, in this version of the format. If no version is given,
    it is 1, whose cells need no conversion, if that can hold them: all are INTEGER, and the file isn't too large.

    Raises ProgrammingError if no file can hold them: there are none or more than 64, their lengths differ, a name isn't
    valid or occurs twice, or a BIGINT has layout H; and DataError if they have more rows or bytes than a file can have.
    """
    rows = _checked(columns)
    if version is None:
        is_first = all(column.cells.column_type is ColumnType.INTEGER for column in columns)
        version = 1 if is_first and _words_file_size(columns, rows) <= FILE_BYTES else 2
    pieces: list[Bytes] = [_FRONT.pack(MARK, version, len(columns), rows)]
    pieces += [_header_bytes(version, column.header) for column in columns]
    for column in columns:
        pieces.append(column.cells.presence)
        pieces += [column.cells.words] if version == 1 else plane_pieces(column.cells)
    if (size := sum(map(len, pieces))) > FILE_BYTES:
        raise DataError(f"a table file has at most {FILE_BYTES} bytes, not {size}")
    return pieces


def _checked(columns: Sequence[Column]) -> int:
    """Returns the number of rows. Raises what encode raises if no file can hold these columns."""
    if not 1 <= len(columns) <= COLUMN_LIMIT:
        raise ProgrammingError(f"a table has 1 to {COLUMN_LIMIT} columns, not {len(columns)}")
    names = [checked_name(column.name) for column in columns]
    if len(set(names)) < len(names):
        raise ProgrammingError(f"a column named twice: {', '.join(names)}")
    lengths = {column.name: column.cells.rows for column in columns}
    if len(set(lengths.values())) > 1:
        raise ProgrammingError(f"columns of different lengths: {lengths}")
    for column in columns:
        if not column.header.holds_its_type:
            raise ProgrammingError(f"column {column.name}: layout H holds no BIGINT")
    rows = columns[0].cells.rows
    if rows > ROW_LIMIT:
        raise DataError(f"a table has at most {ROW_LIMIT} rows, not {rows}")
    return rows


def _words_file_size(columns: Sequence[Column], rows: int) -> int:
    """Returns the number of bytes of the file in version 1."""
    headers = sum(3 + len(column.name) for column in columns)
    return _FRONT.size + headers + len(columns) * (presence_size(rows) + _WORD_BYTES * rows)


def _header_bytes(version: int, header: ColumnHeader) -> bytes:
    name = checked_name(header.name).encode("ascii")
    numbers = [header.layout, header.kind] if version == 1 else [header.column_type, header.layout, header.kind]
    return bytes([len(name)]) + name + bytes(numbers)


@dataclass(frozen=True)
class ColumnHeader:
    """What a file says about a column before its cells."""

    name: str
    layout: Layout
    kind: Kind
    column_type: ColumnType = ColumnType.INTEGER

    @property
    def holds_its_type(self) -> bool:
        """Whether a column of this type may have this layout."""
        return (self.layout, self.column_type) != (Layout.H, ColumnType.BIGINT)


@dataclass(frozen=True)
class _Front:
    """A file up to its cells: version, headers, rows, and where each header ends, and so where the cells begin."""

    version: int
    headers: list[ColumnHeader]
    rows: int
    ends: list[int]


def headers_of(data: bytes) -> list[ColumnHeader]:
    """Returns the headers of a table file's columns. Its first HEADERS_BYTES are sufficient. Raises DataError, with the
    reason, if the bytes aren't a table file."""
    return _front(data).headers


def with_types(data: bytes, types: Mapping[str, ColumnType]) -> bytes:
    """Returns a table file of version 2 with other types for some of its columns, given by their names. The cells stay
    as they are, and have to be valid for these types."""
    changed, front = bytearray(data), _front(data)
    for header, end in zip(front.headers, front.ends):
        changed[end - 3] = types.get(header.name, header.column_type)
    return bytes(changed)


def decode(data: bytes) -> list[Column]:
    """Returns the columns of a table file. Raises DataError, with the reason, if the bytes aren't a table file."""
    front = _front(data)
    found = list((_cells_in_words if front.version == 1 else _cells_in_planes)(data, front))
    return [Column(header.name, cells, header.layout, header.kind) for header, cells in zip(front.headers, found)]


def _front(data: bytes) -> _Front:
    if len(data) < _FRONT.size:
        raise _no_table_file("it is cut off")
    mark, version, width, rows = _FRONT.unpack_from(data)
    if mark != MARK:
        raise _no_table_file("another mark")
    if version not in (1, 2):
        raise _no_table_file(f"version {version}, which this client doesn't know")
    if not 1 <= width <= COLUMN_LIMIT or rows > ROW_LIMIT:
        raise _no_table_file("columns or rows out of range")
    at, headers, ends = _FRONT.size, [], []
    for _ in range(width):
        header, at = _header(version, data, at)
        headers.append(header)
        ends.append(at)
    if len({header.name for header in headers}) < width:
        raise _no_table_file("a name twice")
    return _Front(version, headers, rows, ends)


def _header(version: int, data: bytes, at: int) -> tuple[ColumnHeader, int]:
    """Returns the header at this byte, and where the next part begins."""
    name_end = at + 1 + data[at] if at < len(data) else at
    end = name_end + version + 1
    if end > len(data):
        raise _no_table_file("a header is cut off")
    name = data[at + 1 : name_end].decode("latin-1")
    if not NAME.fullmatch(name) or name != name.upper() or name in RESERVED:
        raise _no_table_file(f"no name: {name!r}")
    try:
        column_type = ColumnType.INTEGER if version == 1 else ColumnType(data[name_end])
        header = ColumnHeader(name, Layout(data[end - 2]), Kind(data[end - 1]), column_type)
    except ValueError as fault:
        raise _no_table_file(str(fault)) from None
    if not header.holds_its_type:
        raise _no_table_file("a BIGINT in layout H")
    return header, end


def _cells_in_words(data: bytes, front: _Front) -> Iterator[Cells]:
    """Yields the cells of each column of a file of version 1, without copying them."""
    view, rows, at = memoryview(data), front.rows, front.ends[-1]
    size = presence_size(rows)
    if len(data) != at + len(front.headers) * (size + _WORD_BYTES * rows):
        raise _no_table_file("another length than its headers tell")
    for _ in front.headers:
        words = at + size
        end = words + _WORD_BYTES * rows
        cells = Cells(rows, view[at:words], view[words:end])
        if reason := cells.fault():
            raise _no_table_file(reason)
        yield cells
        at = end


def _cells_in_planes(data: bytes, front: _Front) -> Iterator[Cells]:
    """Yields the cells of each column of a file of version 2, once the number of bytes is checked for all columns."""
    view, at = memoryview(data), front.ends[-1]
    size = presence_size(front.rows)
    frames: list[tuple[int, int, int]] = []
    for _ in front.headers:
        planes = at + size + FRAME.size
        if planes > len(data):
            raise _no_table_file("a column is cut off")
        base, width = FRAME.unpack_from(data, at + size)
        if not 1 <= width <= WIDEST:
            raise _no_table_file(f"a width of {width} bits")
        frames.append((at, base, width))
        at = planes + width * size
    if at != len(data):
        raise _no_table_file("another length than its columns tell")
    for header, (start, base, width) in zip(front.headers, frames):
        presence, first = view[start : start + size], start + size + FRAME.size
        bits = [view[first + place * size : first + (place + 1) * size] for place in range(width)]
        if reason := fault_in(presence, base, bits, front.rows, header.column_type):
            raise _no_table_file(reason)
        yield cells_in_planes(presence, base, bits, front.rows, header.column_type)


def _no_table_file(reason: str) -> DataError:
    return DataError(f"not a table file: {reason}")
