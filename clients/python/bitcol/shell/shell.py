"""Handles a line of input: a statement or a command is executed, and its answer or its error is shown."""

from __future__ import annotations

import contextlib
import time
from collections.abc import Callable, Iterable, Iterator
from dataclasses import dataclass
from functools import partial

from ..column_type import ColumnType
from ..errors import Error, OperationalError, ProgramEnded, Refused
from ..reply import Reply
from ..script import checked_name
from ..session import Session
from .commands import perform
from .completion import Catalog
from .console import Console, Progress
from .fault import Fault, reason_of
from .importing import Import, imports_of
from .lengths import cells_that_fit, check_length
from .plot import Canvas, Chart, drawn
from .render import Mode, counted, rendered
from .statements import Pending, StatementBuffer
from .store import Store
from .workload import History

# The rows that a terminal shows by default.
ROW_LIMIT = 40
# How deep files may read other files.
DEEPEST_READ = 16
# What users of other shells type to quit or to get help. No statement begins with these words.
_WITHOUT_POINT = {"help": ".help", "quit": ".quit", "exit": ".quit"}


@dataclass
class Settings:
    """What the commands set: how answers are written, whether the time is shown, and how many rows a terminal shows
    (None for all)."""

    mode: Mode = Mode.TABLE
    timer: bool = False
    limit: int | None = ROW_LIMIT


class Shell:
    """Executes lines on a store. A line that is refused is reported, and the next line is executed."""

    def __init__(self, store: Store, console: Console, settings: Settings, is_interactive: bool = False) -> None:
        """If the shell is interactive, a program that ended is restarted. Otherwise all calls raise ProgramEnded."""
        self.store = store
        self.console = console
        self.settings = settings
        self.failures = 0
        self.is_ended = False
        self.has_store = True
        self.history = History()
        # The REBUILD that is advised for each table.
        self.advised: dict[str, str] = {}
        self._is_interactive = is_interactive
        self._answer: Reply | None = None
        self._catalog: Catalog | None = None
        self._place = ""
        self._depth = 0

    def feed(self, buffer: StatementBuffer, text: str) -> None:
        """Takes a line, and executes its command, or the statements that it ends."""
        word = text.strip().removesuffix(";").lower()
        if buffer.pending is Pending.NOTHING and (word.startswith(".") or word in _WITHOUT_POINT):
            buffer.skip()
            self._attempt_at(buffer.lines, lambda: perform(self, _WITHOUT_POINT.get(word, text)))
            return
        for statement in buffer.add(text):
            if not self.is_ended:
                self._attempt_at(statement.line, partial(self.run, statement.text))

    def read_lines(self, lines: Iterable[str], name: str = "") -> None:
        """Executes all lines of a file of this name, or of standard input. The last statement needs no `;`. An error
        names the line."""
        before, self._place = self._place, f"{name}, line " if name else "line "
        try:
            buffer = StatementBuffer()
            for text in lines:
                self.feed(buffer, text.removesuffix("\n"))
                if self.is_ended:
                    return
            if last := buffer.finish():
                self._attempt_at(last.line, partial(self.run, last.text))
        finally:
            self._place = before

    def read_file(self, path: str) -> None:
        """Executes the lines of a file. Raises a Fault if it can't be read."""
        if self._depth == DEEPEST_READ:
            raise Fault(f"{path}: files read files that read files, {DEEPEST_READ} deep")
        try:
            # Lines end as in the language, and in no other way.
            file = open(path, encoding="utf-8-sig", errors="surrogateescape", newline="\n")
        except (OSError, ValueError) as fault:
            raise Fault(f"{path}: {reason_of(fault) if isinstance(fault, OSError) else fault}") from None
        with file:
            self._depth += 1
            try:
                self.read_lines(file, path)
            finally:
                self._depth -= 1

    def run(self, statement: str) -> None:
        """Executes a statement, and shows its answer. Raises a Fault if there is no memory for the answer."""
        # Even a statement whose wait is interrupted may be executed.
        self._catalog = None
        with self.waiting("waiting"):
            reply, seconds = self.store.call(partial(_timed, statement))
        self.history.add(statement)
        self.show(reply, self.settings.limit)
        if self.settings.timer:
            self.console.note(f"{seconds:.3f} s")

    def import_file(self, path: str, table: str | None = None) -> None:
        """Makes tables from a file. A table that can't be made is reported, and the others are made. Raises a Fault if
        the file can't be read."""
        for job in imports_of(self.store, path, table):
            self.attempt(partial(self._import, job))

    def show_schema(self, table: str | None = None) -> None:
        """Shows the statement that makes a table like this one, or one for each table."""
        name = None if table is None else checked_name(table)
        for made, types in self.store.call(lambda session: types_by_table(session, name)).items():
            typed = ", ".join(f"{column} {column_type.name}" for column, column_type in types.items())
            self.console.line(f"CREATE TABLE {made} ({typed});")

    def plot(self, chart: Chart | None, column: str | None) -> None:
        """Draws a column of the last answer with rows, as plot.drawn does."""
        if self._answer is None or not len(self._answer):
            raise Fault("there is no answer with rows to draw")
        canvas = Canvas(self.console.width, self.console.has_blocks)
        self.console.write(drawn(self._answer, chart, column, self.settings.limit or ROW_LIMIT, canvas))

    def catalog(self) -> Catalog:
        """Returns the tables and their columns, or, while an abandoned call is still running, those that are known."""
        if self._catalog is None and not self.store.is_busy:
            self._catalog = Catalog(self.store.call(columns_by_table))
        return self._catalog or Catalog()

    def attempt(self, action: Callable[[], None]) -> None:
        """Performs an action, and reports the reason if it fails."""
        try:
            action()
        except ProgramEnded as fault:
            self._take_end(str(fault))
            if not self._is_interactive:
                raise
        except Refused as refusal:
            self._report(str(refusal), is_numbered=True)
        except Error as fault:
            self._report(str(fault))
        except MemoryError:
            self._report("the answer is too long for the memory of this process")
        except OSError:
            # The output can't be written.
            raise
        except Exception as fault:
            # An internal error of the shell must not cost a user at the prompt the tables.
            if not self._is_interactive:
                raise
            self._report(f"a fault of the shell: {type(fault).__name__}: {fault}")

    def _attempt_at(self, number: int, action: Callable[[], None]) -> None:
        """Performs an action that the line of this number asks for."""
        before = self._place
        self._place = f"{before}{number}: " if before else ""
        try:
            self.attempt(action)
        finally:
            self._place = before

    def _report(self, text: str, is_numbered: bool = False) -> None:
        """Writes an error. A refusal has its number already, and the word `error` before it."""
        self.failures += 1
        self.console.fault(f"{self._place}{'' if is_numbered else 'error: '}{text}")

    def _take_end(self, text: str) -> None:
        """Reports the end of the program, and starts another one if the shell is interactive. Otherwise the end reaches
        everything that was in progress, but is reported only once."""
        if not self.has_store:
            return
        self._report(text)
        if self._is_interactive:
            self._restart()
        else:
            self.has_store = False

    def _restart(self) -> None:
        self._catalog = None
        self.advised.clear()
        try:
            self.store.restart()
        except OperationalError as fault:
            self._report(str(fault))
            self.has_store, self.is_ended = False, True
        else:
            self.console.note("another program was started, and it has no tables")

    def _import(self, job: Import) -> None:
        self._catalog = None
        with self.waiting(job.label) as progress:
            imported = job.run(progress.tell)
        for note in imported.notes:
            self.console.note(f"{job.label}: {note}")
        if self._is_interactive:
            self.console.remark(f"{imported.table}: {counted(imported.rows, 'row')}")

    def show(self, reply: Reply, limit: int | None) -> None:
        """Shows an answer: all of it in a pipe, and in a terminal at most `limit` rows, if there is a limit."""
        if reply.is_units:
            reply = Reply.of_rows(("UNITS",), [(reply.count,)])
        if not reply.headings:
            self.console.remark("ok" if reply.count is None else f"ok, {counted(reply.count, 'row')}")
            return
        self._answer = reply
        limit = limit if self.console.is_terminal else None
        self.console.write(rendered(reply, self.settings.mode, limit, self.console.style))
        if limit is not None and len(reply) > limit:
            self.console.remark(f".. {counted(len(reply) - limit, 'row')} more")
        elif self.settings.mode is Mode.TABLE:
            self.console.remark(counted(len(reply), "row"))

    @contextlib.contextmanager
    def waiting(self, label: str) -> Iterator[Progress]:
        """Shows a progress line, which is updated while waiting for the store."""
        with self.console.progress(label) as progress:
            self.store.on_wait = progress.tell
            try:
                yield progress
            finally:
                self.store.on_wait = lambda: None


def _timed(statement: str, session: Session) -> tuple[Reply, float]:
    """Returns the reply to a statement, and the seconds that it took."""
    check_length(session, statement, cells_that_fit())
    start = time.perf_counter()
    reply = session.execute(statement)
    return reply, time.perf_counter() - start


def columns_by_table(session: Session, table: str | None = None) -> dict[str, tuple[str, ...]]:
    """Returns the names of the columns of a table, or of each. Raises Refused if there is no such table."""
    names = [made.name for made in session.tables()] if table is None else [table]
    return {name: session.execute(f"SELECT * FROM {name} WHERE 1 = 0").headings for name in names}


def types_by_table(session: Session, table: str | None = None) -> dict[str, dict[str, ColumnType]]:
    """Returns the column types of a table, or of each, by column name. Raises Refused if there is no such table."""
    names = [made.name for made in session.tables()] if table is None else [table]
    return {name: session.column_types(name) for name in names}
