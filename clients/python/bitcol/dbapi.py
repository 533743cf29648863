"""DB-API 2.0 (PEP 249) over a session.

There are no transactions: each statement is final once it is answered. So commit does nothing, and rollback raises
NotSupportedError.
"""

from __future__ import annotations

import datetime
from collections.abc import Iterable, Iterator, Sequence
from itertools import islice
from types import TracebackType
from typing import Any

from . import errors
from .door import Door
from .errors import InterfaceError, NotSupportedError, ProgrammingError
from .reply import Reply, Row
from .script import PathLike
from .session import Session

apilevel = "2.0"
threadsafety = 2  # threads may share the module and connections
paramstyle = "qmark"


class TypeObject:
    """The type of a column's values, as given in `description`."""

    def __init__(self, name: str) -> None:
        self._name = name

    def __repr__(self) -> str:
        return self._name


NUMBER = TypeObject("NUMBER")
STRING = TypeObject("STRING")  # only for the names in a list of tables
BINARY = TypeObject("BINARY")
DATETIME = TypeObject("DATETIME")
ROWID = TypeObject("ROWID")

# PEP 249 requires these. No column can hold what they return, so binding it raises ProgrammingError.
Date = datetime.date
Time = datetime.time
Timestamp = datetime.datetime
DateFromTicks = datetime.date.fromtimestamp
TimestampFromTicks = datetime.datetime.fromtimestamp
Binary = bytes


def TimeFromTicks(ticks: float) -> datetime.time:  # noqa: N802 - PEP 249 gives the name
    """Returns the time of day for a number of seconds since the epoch."""
    return datetime.datetime.fromtimestamp(ticks).time()


def connect(
    program: PathLike | None = None, folder: PathLike | None = None, *, door: Door | None = None
) -> Connection:
    """Returns a connection to a new, empty store, which ends with it. See Session for the arguments."""
    return Connection(Session(program, folder, door=door))


class Connection:
    """A session with the interface of PEP 249. `session` is that session, for what PEP 249 doesn't cover."""

    Warning = errors.Warning
    Error = errors.Error
    InterfaceError = errors.InterfaceError
    DatabaseError = errors.DatabaseError
    DataError = errors.DataError
    OperationalError = errors.OperationalError
    IntegrityError = errors.IntegrityError
    InternalError = errors.InternalError
    ProgrammingError = errors.ProgrammingError
    NotSupportedError = errors.NotSupportedError

    def __init__(self, session: Session) -> None:
        self.session = session

    def cursor(self) -> Cursor:
        """Returns a cursor of this connection. Cursors of one connection see the same tables."""
        return Cursor(self)

    def commit(self) -> None:
        """Does nothing: a statement that was answered is final."""

    def rollback(self) -> None:
        """Raises NotSupportedError: no statement can be rolled back."""
        raise NotSupportedError("there are no transactions: a statement that was answered is final")

    def close(self) -> None:
        """Ends the store; its tables are gone."""
        self.session.close()

    def __enter__(self) -> Connection:
        return self

    def __exit__(
        self, kind: type[BaseException] | None, fault: BaseException | None, trace: TracebackType | None
    ) -> None:
        self.close()


class Cursor:
    """Executes statements, and fetches the rows of the last one."""

    def __init__(self, connection: Connection) -> None:
        self.connection = connection
        self.arraysize = 1
        self.description: list[tuple[str, TypeObject, None, None, None, None, bool]] | None = None
        self.rowcount = -1
        self._rows: Iterator[Row] | None = None
        self._is_closed = False

    def execute(self, operation: str, parameters: Sequence[Any] = ()) -> Cursor:
        """Executes a statement with these values in place of its `?`. `rowcount` is then the number of rows of the
        answer, added or found, or -1 if the reply has no number."""
        self._forget()
        reply = self.connection.session.execute(operation, parameters)
        self.rowcount = -1 if reply.count is None else reply.count
        if reply.headings:
            self.description = _description(reply)
            self._rows = iter(reply.rows())
        return self

    def executemany(self, operation: str, seq_of_parameters: Iterable[Sequence[Any]]) -> Cursor:
        """Executes a statement for each sequence of values: see Session.executemany."""
        self._forget()
        self.rowcount = self.connection.session.executemany(operation, seq_of_parameters)
        return self

    def fetchone(self) -> Row | None:
        """Returns the next row, or None after the last."""
        return next(self._remaining(), None)

    def fetchmany(self, size: int | None = None) -> list[Row]:
        """Returns the next rows, at most `size`, by default `arraysize`. Raises ProgrammingError if that is invalid."""
        limit = self.arraysize if size is None else size
        if not isinstance(limit, int) or limit < 0:
            raise ProgrammingError(f"a number of rows is an integer from 0 on, not {limit!r}")
        return list(islice(self._remaining(), limit))

    def fetchall(self) -> list[Row]:
        """Returns all remaining rows."""
        return list(self._remaining())

    def close(self) -> None:
        """Closes the cursor, which can't be used any more."""
        self._forget()
        self._is_closed = True

    def setinputsizes(self, sizes: Sequence[Any]) -> None:
        """Does nothing, as PEP 249 allows."""

    def setoutputsize(self, size: int, column: int | None = None) -> None:
        """Does nothing, as PEP 249 allows."""

    def __iter__(self) -> Iterator[Row]:
        return self._remaining()

    def _forget(self) -> None:
        """Discards the last statement's answer."""
        if self._is_closed:
            raise InterfaceError("the cursor is closed")
        self.description, self.rowcount, self._rows = None, -1, None

    def _remaining(self) -> Iterator[Row]:
        if self._is_closed:
            raise InterfaceError("the cursor is closed")
        if self._rows is None:
            raise InterfaceError("no statement with rows was executed")
        return self._rows


def _description(reply: Reply) -> list[tuple[str, TypeObject, None, None, None, None, bool]]:
    """Returns for each column of an answer its name, its type, None four times, and whether values may be NULL."""
    is_listing = reply.headings[0] == "TABLE"
    return [
        (heading, STRING if is_listing and place == 0 else NUMBER, None, None, None, None, not is_listing)
        for place, heading in enumerate(reply.headings)
    ]
