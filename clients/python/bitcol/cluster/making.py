"""How workers make parts: from CSV files and table files, and from other parts by a change. Each function is a task
that returns what a manifest says about the part, or the error because of which there is none. The tasks are
idempotent."""

from __future__ import annotations

import mmap
import os
import re
import tempfile
from collections.abc import Callable, Sequence
from concurrent.futures import ThreadPoolExecutor
from dataclasses import dataclass
from pathlib import Path
from typing import TypeVar, Union

from ..errors import DataError, Error, ErrorNumber, OperationalError, ProgramEnded, Refused
from ..reply import reply_of
from ..script import FILE_NAME_BYTES
from ..session import Session
from ..table_file import FILE_BYTES, headers_of
from .csv_records import cut
from .manifest import Column, Ends, Part, digest_of, part_file
from .merge import REFUSED
from .programs import Place, named, opened

_Made = TypeVar("_Made")
_RECORD_NUMBER = re.compile(r"record (\d+)")
# The errors of LOAD after which the file is cut: too many rows, too many bytes.
CUT_FOR = (ErrorNumber.TABLE_FULL, ErrorNumber.FILE_TOO_LARGE)


@dataclass(frozen=True)
class Piece:
    """A piece of a CSV file from one byte to another, all of it if `end` is None; and whether its first record is a
    header."""

    path: str
    start: int = 0
    end: int | None = None
    header: bool = False


# What a CSV file becomes: a part, the pieces that are to become parts, or an error.
Loaded = Union[Part, list[Piece], Error]


def make_empty(place: Place, definition: str) -> tuple[Part, list[Column]] | Error:
    """A task: makes a part without rows. Returns it and the columns that CREATE TABLE makes from this definition."""

    def make() -> tuple[Part, list[Column]]:
        with Session() as session:
            session.execute(f"CREATE TABLE {place.table} ({definition})")
            return kept(session, place, ""), _columns_of(session.table_bytes(place.table))

    return _or_error(make)


def cut_csv(path: str, header: bool, most_bytes: int, most_rows: int, is_forced: bool) -> list[Piece] | Error:
    """A task: returns the pieces of a CSV file that become parts. A file that isn't too long is one piece, and isn't
    read, unless that is forced."""

    def make() -> list[Piece]:
        size = os.path.getsize(path)
        if size == 0 or (size <= min(most_bytes, FILE_BYTES) and not is_forced):
            return [Piece(path, header=header)]
        with open(path, "rb") as file, mmap.mmap(file.fileno(), 0, access=mmap.ACCESS_READ) as mapped:
            ranges = cut(mapped[:], min(most_bytes, FILE_BYTES - 1), most_rows)
        return [Piece(path, start, end, header and start == 0) for start, end in ranges]

    return _or_error(make, path)


def load_csv(path: str, place: Place, definition: str, header: bool, most_bytes: int, most_rows: int) -> Loaded:
    """A task: makes a part from a CSV file, or returns its pieces if it has to be cut."""
    pieces = cut_csv(path, header, most_bytes, most_rows, is_forced=False)
    if isinstance(pieces, Error) or len(pieces) > 1:
        return pieces
    return load_piece(pieces[0], place, definition)


def load_piece(piece: Piece, place: Place, definition: str) -> Part | Error:
    """A task: makes a part from a piece of a CSV file."""

    def make() -> Part:
        with Session() as session:
            session.execute(f"CREATE TABLE {place.table} ({definition})")
            if piece.end is None:
                _load_file(session, place.table, piece)
            else:
                with open(piece.path, "rb") as file:
                    file.seek(piece.start)
                    data = file.read(piece.end - piece.start)
                # After an empty line nothing is taken for the byte order mark with which a file may begin.
                front = [b"\n"] if piece.start else []
                session.load_bytes(place.table, [*front, data], piece.header)
            return kept(session, place, piece.path)

    return _or_error(make, piece.path)


def _load_file(session: Session, table: str, piece: Piece) -> None:
    if len(os.fsencode(piece.path)) <= FILE_NAME_BYTES:
        session.load(table, piece.path, piece.header)
        return
    with tempfile.TemporaryDirectory() as scratch:
        short = Path(scratch) / "csv"
        short.symlink_to(piece.path)
        session.load(table, short, piece.header)


def attach_file(path: str, place: Place, columns: Sequence[Column]) -> Part | Error:
    """A task: makes a part from a table file, which has to have these columns."""

    def make() -> Part:
        data = Path(path).read_bytes()
        with Session() as session:
            session.put_table(place.table, data)
            found = _columns_of(data)
            if list(columns) != found:
                raise DataError(f"{path}: its columns are {_told(found)}, and those of the table {_told(columns)}")
            return kept(session, place, path)

    return _or_error(make, path)


def change_part(part: Part | None, place: Place, definition: str, statement: str) -> tuple[bytes, Part | None] | Error:
    """A task: executes a statement that changes a part, or a part without rows if it is None. Returns the bytes of the
    reply and the resulting part: the same one if nothing is changed."""

    def make() -> tuple[bytes, Part | None]:
        with Session() if part is None else opened(place, part) as session:
            if part is None:
                session.execute(f"CREATE TABLE {place.table} ({definition})")
            (reply,) = session.answers([statement])
            if reply.startswith(REFUSED) or not reply_of(reply).count:
                return reply, part
            return reply, kept(session, place, "" if part is None else part.source)

    return _or_error(make)


def put_together(parts: Sequence[Part], place: Place, definition: str) -> Part | Error:
    """A task: makes one part with the rows of several parts, one after the other."""

    def make() -> Part:
        with Session() as session:
            session.execute(f"CREATE TABLE {place.table} ({definition})")
            for part in parts:
                with opened(place, part) as other:
                    (reply,) = other.answers([f"SELECT * FROM {place.table}"])
                # The rows of a reply are valid CSV records.
                rows = memoryview(reply)[reply.index(b"\n") + 1 : reply.rindex(b"rows ")]
                for start, end in cut(bytes(rows), FILE_BYTES):
                    session.load_bytes(place.table, [rows[start:end]])
            return kept(session, place, parts[0].source)

    return _or_error(make)


def kept(session: Session, place: Place, source: str) -> Part:
    """Writes the table of a session as a part's file, and returns what a manifest says about it."""
    data = session.table_bytes(place.table)
    names = [column.name for column in _columns_of(data)]
    items = [f"COUNT({name}), MIN({name}), MAX({name})" for name in names]
    with ThreadPoolExecutor(1) as helper:
        # The digest is computed while the host writes.
        digest = helper.submit(digest_of, data)
        rows, *cells = session.execute(f"SELECT COUNT(*), {', '.join(items)} FROM {place.table}").rows()[0]
        place.storage.write(lambda: part_file(digest.result()), data)
    ends = {name: Ends(least, greatest, rows - count) for name, (count, least, greatest) in zip(names, _threes(cells))}
    return Part(digest.result(), rows, len(data), source, ends)


def _threes(cells: list[int]) -> list[tuple[int, int, int]]:
    return list(zip(cells[::3], cells[1::3], cells[2::3]))


def _columns_of(data: bytes) -> list[Column]:
    return [Column(header.name, header.column_type) for header in headers_of(data)]


def _told(columns: Sequence[Column]) -> str:
    return ", ".join(f"{column.name} {column.type.name}" for column in columns)


def counted_from(error: Error, records: int) -> Error:
    """Returns an error of a piece, before which its file has `records` records, with a record's number in the file."""
    if not isinstance(error, Refused) or not records:
        return error
    text = _RECORD_NUMBER.sub(lambda found: f"record {int(found[1]) + records}", error.text, count=1)
    return type(error)(error.number, text)


def with_text(error: Error, text: str) -> Error:
    """Returns an error of the same class and number with another text."""
    return type(error)(error.number, text) if isinstance(error, Refused) else type(error)(text)


def _or_error(make: Callable[[], _Made], about: str | None = None) -> Union[_Made, Error]:
    """Returns what is made, or the error because of which there is none, with what it is about. The end of a program is
    raised: then dask retries."""
    try:
        return make()
    except ProgramEnded:
        raise
    except Refused as refusal:
        return refusal if about is None else named(refusal, about)
    except Error as error:
        return error
    except OSError as fault:
        return OperationalError(f"{about or fault.filename}: {fault.strerror}")
