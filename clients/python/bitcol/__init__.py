"""bitcol from Python: tables of nullable integers in main memory, whose answers are proved.

    import bitcol

    with bitcol.Session() as session:
        session.execute("CREATE TABLE visits (day INT, seconds INT)")
        session.executemany("INSERT INTO visits VALUES (?, ?)", [(1, 30), (1, None), (2, 45)])
        print(session.execute("SELECT SUM(seconds) FROM visits WHERE day < ?", [2]).scalar())

Session is this package's own interface, connect that of DB-API 2.0 (PEP 249). Only the standard library is needed.
"""

from .column_type import ColumnType
from .dbapi import (
    BINARY,
    DATETIME,
    NUMBER,
    ROWID,
    STRING,
    Binary,
    Connection,
    Cursor,
    Date,
    DateFromTicks,
    Time,
    TimeFromTicks,
    Timestamp,
    TimestampFromTicks,
    apilevel,
    connect,
    paramstyle,
    threadsafety,
)
from .door import Door, File
from .errors import (
    DatabaseError,
    DataError,
    DataRefused,
    Error,
    ErrorNumber,
    IntegrityError,
    InterfaceError,
    InternalError,
    NotSupportedError,
    OperationalError,
    OutOfTime,
    ProgramEnded,
    ProgrammingError,
    Refused,
    StatementRefused,
    StoreRefused,
    Warning,
)
from .library import Library, find_library
from .program import find_program
from .reply import Reply, reply_of
from .script import quoted
from .session import Session, TableSize
from .table import Table
from .table_file import Kind, Layout

__all__ = [
    "BINARY",
    "DATETIME",
    "NUMBER",
    "ROWID",
    "STRING",
    "Binary",
    "ColumnType",
    "Connection",
    "Cursor",
    "DataError",
    "DataRefused",
    "DatabaseError",
    "Date",
    "DateFromTicks",
    "Door",
    "Error",
    "ErrorNumber",
    "File",
    "IntegrityError",
    "InterfaceError",
    "InternalError",
    "Kind",
    "Layout",
    "Library",
    "NotSupportedError",
    "OperationalError",
    "OutOfTime",
    "ProgramEnded",
    "ProgrammingError",
    "Refused",
    "Reply",
    "Session",
    "StatementRefused",
    "StoreRefused",
    "Table",
    "TableSize",
    "Time",
    "TimeFromTicks",
    "Timestamp",
    "TimestampFromTicks",
    "Warning",
    "apilevel",
    "connect",
    "find_library",
    "find_program",
    "paramstyle",
    "quoted",
    "reply_of",
    "threadsafety",
]
