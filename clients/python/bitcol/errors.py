"""The exceptions of this package: the hierarchy of PEP 249, and within it the store's numbered refusals.

    Warning
    Error
        InterfaceError            the client was used in a way that isn't allowed
        DatabaseError
            DataError             a value that no column or statement can hold
            OperationalError      the program can't be started, or was given more than it accepts
                ProgramEnded      .. the program ended, and its tables are gone
                    OutOfTime     .. because a call exceeded its time limit
            ProgrammingError      a statement or a parameter that is wrong in itself
            NotSupportedError     what the store, or a package that isn't installed, would have to do
            IntegrityError        never raised: PEP 249 requires the name
            InternalError         answers of a table's parts contradict their earlier answers
            Refused               the store refused a statement, and says so by a number and a text
                StatementRefused  .. because of what the statement says; also a ProgrammingError
                DataRefused       .. because of a value or of a file's bytes; also a DataError
                StoreRefused      .. because of a lack of room or memory, or a file; also an OperationalError
"""

from __future__ import annotations

from enum import IntEnum


class Warning(Exception):  # noqa: A001 - PEP 249 gives the name
    """Never raised: PEP 249 requires the name."""


class Error(Exception):
    """The base class of all exceptions that this package raises."""


class InterfaceError(Error):
    """The client was used in a way that isn't allowed: a closed session, a cursor without rows."""


class DatabaseError(Error):
    """An error that is related to the store."""


class DataError(DatabaseError):
    """A value that no column or statement can hold."""


class OperationalError(DatabaseError):
    """The program can't be started, was given more than it accepts, or ended."""


class ProgramEnded(OperationalError):
    """The program ended, and its tables are gone. The text says how it ended."""


class OutOfTime(ProgramEnded):
    """A call exceeded its time limit, and the program was ended. Its tables are gone."""


class IntegrityError(DatabaseError):
    """Never raised: the store has no keys and no checks."""


class InternalError(DatabaseError):
    """Answers of the parts of a table (bitcol.cluster) contradict their earlier answers."""


class ProgrammingError(DatabaseError):
    """A statement or a parameter that is wrong in itself."""


class NotSupportedError(DatabaseError):
    """Something that the store doesn't support, or that needs a package that isn't installed."""


class ErrorNumber(IntEnum):
    """The numbers of refusals. The description of the language says when each one is returned."""

    SYNTAX_ERROR = 10
    STATEMENT_TOO_LONG = 11
    NESTED_TOO_DEEPLY = 12
    NUMBER_TOO_LARGE = 13
    NO_SUCH_TABLE = 20
    TABLE_EXISTS = 21
    NO_SUCH_COLUMN = 22
    COLUMN_NAMED_TWICE = 23
    OVER_A_LIMIT = 24
    WRONG_NUMBER_OF_VALUES = 25
    VALUE_OUT_OF_RANGE = 26
    COLUMNS_AND_SET_FUNCTIONS_MIXED = 27
    TABLE_FULL = 28
    FILE_CANNOT_BE_READ = 40
    FILE_CANNOT_BE_WRITTEN = 41
    WRONG_NUMBER_OF_FIELDS = 42
    FIELD_IS_NOT_AN_INTEGER = 43
    NOT_A_TABLE_FILE = 44
    FILE_TOO_LARGE = 46
    LAYOUT_HOLDS_NO_BIGINT = 60
    OUT_OF_MEMORY = 90


class Refused(DatabaseError):
    """The store refused a statement. It changed nothing, except for the file of a SAVE that failed with error 41.

    `number` is an ErrorNumber, or a plain int if a later program uses a number that isn't one; `text` is the text that
    the program writes after the number.
    """

    def __init__(self, number: int, text: str) -> None:
        super().__init__(number, text)
        self.number = number
        self.text = text

    def __str__(self) -> str:
        return f"error {int(self.number)}: {self.text}"


class StatementRefused(Refused, ProgrammingError):
    """Refused because of what the statement says: its words, its names, its form."""


class DataRefused(Refused, DataError):
    """Refused because of a value or the bytes of a file."""


class StoreRefused(Refused, OperationalError):
    """Refused because of a lack of room or memory, or because of a file."""


_DATA = {
    ErrorNumber.NUMBER_TOO_LARGE,
    ErrorNumber.VALUE_OUT_OF_RANGE,
    ErrorNumber.WRONG_NUMBER_OF_FIELDS,
    ErrorNumber.FIELD_IS_NOT_AN_INTEGER,
    ErrorNumber.NOT_A_TABLE_FILE,
}
_STORE = {
    ErrorNumber.TABLE_FULL,
    ErrorNumber.FILE_CANNOT_BE_READ,
    ErrorNumber.FILE_CANNOT_BE_WRITTEN,
    ErrorNumber.FILE_TOO_LARGE,
    ErrorNumber.OUT_OF_MEMORY,
}


def refusal(number: int, text: str) -> Refused:
    """Returns the exception for a refusal with this number and text: a plain Refused if the number isn't known."""
    try:
        known = ErrorNumber(number)
    except ValueError:
        return Refused(number, text)
    if known in _DATA:
        return DataRefused(known, text)
    return StoreRefused(known, text) if known in _STORE else StatementRefused(known, text)
