"""What all windows of a page share: a store with its tables, and the answers that are kept.

Requests to the store take turns, so the scripts of two windows, or a script and the import of a file, are never
interleaved.
"""

from __future__ import annotations

import contextlib
import os
import tempfile
import threading
import time
from collections.abc import Iterator
from dataclasses import dataclass, field
from pathlib import Path

from ..column_type import ColumnType
from ..errors import Error, OperationalError, ProgramEnded, Refused
from ..reply import Reply
from ..script import checked_name
from ..session import Session
from ..shell.completion import DELIMITERS, Catalog, statement_completions
from ..shell.csv_import import Tell
from ..shell.exporting import export_table
from ..shell.fault import Fault
from ..shell.importing import Imported, imports_of
from ..shell.lengths import cells_that_fit, check_length
from ..shell.shell import types_by_table
from ..shell.statements import Statement, StatementBuffer
from ..shell.store import Store
from ..shell.units import units_of
from ..table_file import HEADERS_BYTES, ColumnHeader, headers_of
from .answers import ANSWER_CELLS, Answers

TOO_LONG = "the answer is too long for the memory of this process"
# The first words of statements that change no table.
_READING = ("SELECT", "STATS", "TABLES", "SAVE")


@dataclass(frozen=True)
class Outcome:
    """The outcome of a statement: the reply, with the number under which it is kept if it has rows, the seconds that it
    took, and for a SELECT or a STATS the units that the condition reads; or an error."""

    statement: Statement
    reply: Reply | None = None
    answer: int | None = None
    seconds: float | None = None
    units: int | None = None
    error: str | None = None


@dataclass(frozen=True)
class TableShape:
    """A table as it is: its name, its columns with their types, and its number of rows."""

    name: str
    columns: dict[str, ColumnType]
    rows: int


@dataclass(frozen=True)
class Message:
    """A message to all windows, numbered from 1."""

    number: int
    text: str
    is_error: bool


@dataclass
class FileOutcome:
    """The outcome of an import: the tables that were made from a file, and why others weren't."""

    imported: list[Imported] = field(default_factory=list)
    errors: list[str] = field(default_factory=list)

    @contextlib.contextmanager
    def taking_errors(self) -> Iterator[None]:
        """Adds an error that ends the context to the errors, except ProgramEnded, which isn't about the file."""
        try:
            yield
        except ProgramEnded:
            raise
        except Error as fault:
            self.errors.append(str(fault))


class Workspace:
    """A store that is used in turns, by calls from any thread."""

    def __init__(self, store: Store) -> None:
        self.answers = Answers()
        self._store = store
        self._turn = threading.Lock()
        self._has_program = True
        self._catalog = Catalog()
        self._headers: dict[str, list[ColumnHeader]] = {}
        self._messages: list[Message] = []

    def run(self, script: str) -> list[Outcome]:
        """Executes the statements of a script, one after the other, and returns the outcome of each. Those after a
        refused one are executed too, but none after the end of the program. Raises OperationalError if there is no
        program."""
        outcomes: list[Outcome] = []
        with contextlib.suppress(ProgramEnded), self._taking_turns() as store:
            for statement in statements_in(script):
                if not statement.text.upper().startswith(_READING):
                    self._headers.clear()
                try:
                    outcomes.append(self._carried_out(store, statement))
                except ProgramEnded as fault:
                    outcomes.append(Outcome(statement, error=str(fault)))
                    raise
                except (Error, MemoryError) as fault:
                    text = TOO_LONG if isinstance(fault, MemoryError) else str(fault)
                    outcomes.append(Outcome(statement, error=text))
        return outcomes

    def import_file(
        self, path: str, label: str, table: str | None = None, tell: Tell = lambda _: None
    ) -> FileOutcome:
        """Makes tables from a file that messages call `label`: a CSV file, a table file, or an SQLite file. What can't
        be made is reported, and `tell` is called with the progress. Raises ProgramEnded, and OperationalError as run
        does."""
        outcome = FileOutcome()
        with self._taking_turns() as store, outcome.taking_errors():
            self._headers.clear()
            for job in imports_of(store, path, table, label):
                with outcome.taking_errors():
                    imported = job.run(tell)
                    notes = [f"{job.label}: {note}" for note in imported.notes]
                    outcome.imported.append(Imported(imported.table, imported.rows, notes))
        return outcome

    def tables(self) -> list[TableShape]:
        """Returns the tables in the order of creation. Raises ProgramEnded, and OperationalError as run does."""
        with self._taking_turns() as store:
            shapes = store.call(_shapes)
        self._catalog = Catalog({shape.name: list(shape.columns) for shape in shapes})
        return shapes

    def headers(self, table: str) -> list[ColumnHeader]:
        """Returns the names, layouts and kinds of a table's columns. No statement returns the latter two, but a table
        file has them, so one is written. Raises a Fault if that is refused."""
        name = checked_name(table)
        with self._taking_turns() as store:
            if name not in self._headers:
                with self.folder() as folder:
                    path = folder / "table"
                    try:
                        store.call(lambda session: session.save(name, path))
                    except Refused as refusal:
                        raise Fault(f"layouts of {name}, from a table file: {refusal}") from None
                    self._headers[name] = _headers_in(path)
            return self._headers[name]

    def export(self, table: str, path: Path) -> int:
        """Writes a table to a file, in the format of its suffix, and returns the number of rows. See export_table."""
        name = checked_name(table)
        with self._taking_turns() as store:
            return export_table(store, name, os.fspath(path))

    def completions(self, before: str) -> tuple[str, list[str]]:
        """Returns the word at the end of a script's start, and its completions, by the tables as they were last listed.
        It doesn't wait for statements."""
        start = max(before.rfind(delimiter) for delimiter in DELIMITERS) + 1
        buffer = StatementBuffer()
        for line in before[:start].split("\n"):
            buffer.add(line)
        # The buffer ends each line with a line feed, but the last one isn't complete.
        statement = buffer.text.removesuffix("\n")
        return before[start:], statement_completions(statement, before[start:], self._catalog)

    def tell(self, text: str, is_error: bool = False) -> None:
        """Sends a message to all windows."""
        self._messages.append(Message(len(self._messages) + 1, text, is_error))

    def messages(self, after: int) -> list[Message]:
        """Returns the messages for a window that knows those up to this number."""
        return self._messages[after:]

    @contextlib.contextmanager
    def folder(self) -> Iterator[Path]:
        """A folder for files, which is removed when the context ends. Raises OperationalError if it can't be made."""
        try:
            room = tempfile.TemporaryDirectory(prefix="bitcol-", ignore_cleanup_errors=True)
        except OSError as fault:
            raise OperationalError(f"no temporary folder: {fault}") from fault
        with room as name:
            yield Path(name).resolve()

    def _carried_out(self, store: Store, statement: Statement) -> Outcome:
        """Executes a statement, and returns the outcome unless it is refused."""

        def carry_out(session: Session) -> tuple[Reply, float, int | None]:
            check_length(session, statement.text, min(ANSWER_CELLS, cells_that_fit()))
            start = time.perf_counter()
            reply = session.execute(statement.text)
            seconds = time.perf_counter() - start
            return reply, seconds, reply.count if reply.is_units else units_of(session, statement.text)

        reply, seconds, units = store.call(carry_out)
        return Outcome(statement, reply, self.answers.keep(reply) if reply.headings else None, seconds, units)

    @contextlib.contextmanager
    def _taking_turns(self) -> Iterator[Store]:
        """Yields the store, while nobody else uses it. If its program ends, ProgramEnded is raised, and the next turn
        begins with another program. Raises OperationalError if none can be started."""
        with self._turn:
            if not self._has_program:
                self._start()
            try:
                yield self._store
            except ProgramEnded as fault:
                self._has_program = False
                self._headers.clear()
                self._catalog = Catalog()
                self.tell(str(fault), is_error=True)
                raise

    def _start(self) -> None:
        """Starts another program. Raises OperationalError if it can't be started."""
        try:
            self._store.restart()
        except OperationalError as fault:
            self.tell(str(fault), is_error=True)
            raise
        self._has_program = True
        self.tell("another program was started, and it has no tables")


def statements_in(script: str) -> list[Statement]:
    """Returns the statements of a script, the last of which needs no `;`."""
    buffer = StatementBuffer()
    statements = [statement for line in script.split("\n") for statement in buffer.add(line)]
    last = buffer.finish()
    return statements if last is None else [*statements, last]


def _shapes(session: Session) -> list[TableShape]:
    columns = types_by_table(session)
    return [TableShape(table.name, columns[table.name], table.rows) for table in session.tables()]


def _headers_in(path: Path) -> list[ColumnHeader]:
    try:
        with path.open("rb") as file:
            return headers_of(file.read(HEADERS_BYTES))
    except OSError as fault:
        raise OperationalError(f"a temporary file can't be read: {fault}") from fault
