"""A session: tables that live until the session is closed, and the calls that work on them."""

from __future__ import annotations

from collections.abc import Iterable, Mapping, Sequence
from contextlib import AbstractContextManager
from dataclasses import dataclass
from types import TracebackType
from typing import Any

from .column_type import ColumnType, column_types
from .coprocess import Coprocess
from .door import Bytes, Door, File, pieces_of
from .errors import ProgrammingError
from .insertion import Inserter, insertion_of
from .program import find_program
from .reply import Reply, reply_of
from .script import PathLike, bound_statement, checked_name, checked_text, quoted, statement_of, statements_of
from .table import Table
from .table_file import Kind, Layout


@dataclass(frozen=True)
class TableSize:
    """An existing table: its name, its number of columns and its number of rows."""

    name: str
    columns: int
    rows: int


class Session:
    """Tables of nullable integers in a store of their own. They are gone when the session is closed.

    Threads may share a session: its calls take turns. A refused statement raises Refused and changes nothing.
    """

    def __init__(
        self, program: PathLike | None = None, folder: PathLike | None = None, *, door: Door | None = None
    ) -> None:
        """Starts a store: the program at this path, or the one that find_program finds. File names in statements are
        relative to `folder`. If a `door` is given, it is used instead of a program. Raises OperationalError if the
        program can't be started."""
        self._door: Door = Coprocess(find_program() if program is None else program, folder) if door is None else door

    def execute(self, statement: str, values: Sequence[Any] = ()) -> Reply:
        """Executes one statement, with these values (integers and None) for its `?`, and returns the reply."""
        text = checked_text(statement)
        has_values = "?" in text or not isinstance(values, tuple) or values
        script = bound_statement(text, values) if has_values else statement_of(text)
        (data,) = self._door.answer(script, 1)
        return _accepted(reply_of(data))

    def executemany(self, statement: str, rows: Iterable[Sequence[Any]]) -> int:
        """Executes a statement once for each row of values, and returns the sum of the counts of the replies.

        An INSERT whose values are all `?` is quick. It adds all rows or none, if the rows as CSV have at most
        268,435,456 bytes; otherwise they are added in parts of at most this size, all or none of each part. Any other
        statement is executed row by row, up to the first that is refused.
        """
        insertion = insertion_of(checked_text(statement))
        try:
            remaining = iter(rows)
        except TypeError:
            raise ProgrammingError(f"the rows are to be a list of rows, not a {type(rows).__name__}") from None
        if insertion is not None:
            return Inserter(insertion, self.execute, self._door).insert(remaining)
        return sum(self.execute(statement, row).count or 0 for row in remaining)

    def run(self, script: str) -> list[Reply]:
        """Executes a script, and returns the replies to all of its statements, refusals included. A refusal isn't
        raised, and the statements after it are executed."""
        statements = statements_of(checked_text(script))
        if not statements:
            return []
        return [reply_of(data) for data in self._door.answer(b"".join(statements), len(statements))]

    def answers(self, statements: Sequence[str], seconds: float | None = None) -> list[bytes]:
        """Executes statements, and returns the reply to each as the bytes that the program wrote, refusals included.
        All statements are sent at once. If they take longer than `seconds`, the store is ended, and OutOfTime is
        raised."""
        if isinstance(statements, str):
            raise ProgrammingError("the statements are to be a list of str, not a str")
        scripts = [statement_of(checked_text(statement)) for statement in statements]
        # If no time limit is given, a door whose `answer` takes none works as well.
        limit = () if seconds is None else (seconds,)
        return self._door.answer(b"".join(scripts), len(scripts), *limit) if scripts else []

    def put_table(self, table: str, data: Bytes) -> int:
        """OPEN of bytes instead of a table file: makes a new table from them, and returns the number of rows."""
        with self._door.scratch() as file:
            file.write(pieces_of([data]))
            return self.open(table, file.name)

    def table_bytes(self, table: str) -> bytes:
        """SAVE to bytes: returns the table file of a table."""
        with self._door.scratch() as file:
            self.save(table, file.name)
            return file.read()

    def write_table(
        self,
        table: str,
        columns: Table | Mapping[str, Iterable[Any]] | Any,
        layout: Layout = Layout.V,
        kind: Kind = Kind.OFFSET,
        column_type: ColumnType | None = None,
    ) -> int:
        """Makes a new table from whole columns: a mapping of names to lists, arrays of integers or numpy arrays, or a
        pandas data frame. If no type is given, a column is BIGINT if one of its values has more than 32 bits, else
        INTEGER. Returns the number of rows. Raises Refused if the table exists already (TABLE_EXISTS)."""
        made = columns if isinstance(columns, Table) else Table.of(columns, layout, kind, column_type)
        pieces = made.file_pieces()
        with self._door.scratch() as file:
            file.write(pieces)
            return self.open(table, file.name)

    def read_table(self, table: str) -> Table:
        """Returns a whole table."""
        return Table.of_file(self.table_bytes(table))

    def load(self, table: str, path: PathLike, header: bool = False) -> int:
        """LOAD: adds the rows of a CSV file to a table, all or none, and returns their number."""
        return self._count(f"LOAD {checked_name(table)} FROM {quoted(path)}{' WITH HEADER' if header else ''}")

    def load_bytes(self, table: str, pieces: Iterable[Bytes], header: bool = False) -> int:
        """LOAD of bytes instead of a CSV file: adds their rows, all or none, and returns their number. Raises
        ProgrammingError if a piece isn't bytes."""
        with self._door.scratch() as file:
            file.write(pieces_of(pieces))
            return self.load(table, file.name, header)

    def save(self, table: str, path: PathLike) -> int:
        """SAVE: writes a table to a table file, replacing an existing one, and returns the number of rows."""
        return self._count(f"SAVE {checked_name(table)} TO {quoted(path)}")

    def open(self, table: str, path: PathLike) -> int:
        """OPEN: makes a new table from a table file, and returns the number of rows."""
        return self._count(f"OPEN {checked_name(table)} FROM {quoted(path)}")

    def tables(self) -> list[TableSize]:
        """Returns the tables, in the order in which they were created."""
        return [TableSize(*row) for row in self.execute("TABLES").rows()]

    def column_types(self, table: str) -> dict[str, ColumnType]:
        """Returns the type of each column of a table, by the column's name, in order."""
        return column_types(self.execute, checked_name(table))

    def scratch(self) -> AbstractContextManager[File]:
        """A file that both statements and this process can reach. It is removed when the context ends."""
        return self._door.scratch()

    def close(self) -> None:
        """Ends the store; its tables are gone. Closing a closed session does nothing."""
        self._door.close()

    def _count(self, statement: str) -> int:
        return self.execute(statement).count or 0

    def __enter__(self) -> Session:
        return self

    def __exit__(
        self, kind: type[BaseException] | None, fault: BaseException | None, trace: TracebackType | None
    ) -> None:
        self.close()


def _accepted(reply: Reply) -> Reply:
    """Returns the reply, or raises it if it is a refusal."""
    if reply.refusal is not None:
        raise reply.refusal
    return reply
