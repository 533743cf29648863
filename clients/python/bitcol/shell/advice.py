"""Finds the layouts and kinds of a table's columns that suit the SELECTs that are run on it, by trying them.

They are tried on a copy of the table in a separate program, so neither the table nor its store is affected, whatever
happens to the copy.
"""

from __future__ import annotations

import contextlib
import time
from collections.abc import Callable, Iterator, Sequence
from dataclasses import dataclass
from functools import partial
from typing import Any

from ..errors import ProgramEnded, Refused
from ..session import Session
from ..table_file import ColumnHeader, Kind, Layout, headers_of
from .fault import Fault
from .lengths import cells_that_fit, check_length
from .sizes import Values, values_of
from .store import Store
from .workload import Work

# A call of a store: runs a job with its session, and returns the result.
Call = Callable[[Callable[[Session], Any]], Any]

LAYOUTS = (Layout.V, Layout.H, Layout.S, Layout.P)
KINDS = (Kind.OFFSET, Kind.DICTIONARY)
# Each choice is tried in turns with the others, so that no choice alone meets all the times when the machine is slow:
# as many turns as fit into this many seconds, within these bounds. In a turn each SELECT is repeated by the same rule.
TURNS_SECONDS, FEWEST_TURNS, MOST_TURNS = 2.0, 3, 12
RUNS_SECONDS, FEWEST_RUNS, MOST_RUNS = 0.01, 3, 20
# A choice that takes up to this many times as long as the quickest counts as equally quick.
AS_QUICK = 1.25


@dataclass(frozen=True)
class Choice:
    """A layout and a kind."""

    layout: Layout
    kind: Kind

    @property
    def words(self) -> str:
        """The choice as a REBUILD spells it."""
        return f"USING {self.layout.name} {self.kind.name}"


@dataclass(frozen=True)
class Figures:
    """What SELECTs took, each counted as often as it is run: units, and the seconds of the quickest of several runs."""

    units: int
    seconds: float

    def or_quicker(self, before: Figures | None) -> Figures:
        """Returns these figures, with the seconds of the ones before if those were fewer."""
        return self if before is None else Figures(self.units, min(self.seconds, before.seconds))


@dataclass(frozen=True)
class Trial:
    """A choice for a column, what the SELECTs that read the column took with it, the width of the codes in bits, and
    the bytes that the codes take according to docs/LAYOUTS.md."""

    column: str
    choice: Choice
    figures: Figures
    width: int
    size: int


@dataclass(frozen=True)
class Columns:
    """The trials of a column, its current choice, and the advised one."""

    trials: list[Trial]
    standing: Choice
    best: Choice


@dataclass(frozen=True)
class Advice:
    """What was measured for a table: with its columns as they are, with one of them changed, and after this REBUILD."""

    columns: list[Columns]
    standing: Figures
    rebuild: str
    rebuilt: Figures

    @property
    def is_worthwhile(self) -> bool:
        """Whether the REBUILD is advised. One that changes no layout and no kind is, if fewer units are read after it;
        any other is, unless the SELECTs take more than `AS_QUICK` times as long after it."""
        if any(tried.best != tried.standing for tried in self.columns):
            return self.rebuilt.seconds <= AS_QUICK * self.standing.seconds
        return self.rebuilt.units < self.standing.units


class Advisor:
    """Measures SELECTs on a table. `tell` is called with the progress."""

    def __init__(self, store: Store, table: str, works: Sequence[Work], tell: Callable[[str], None]) -> None:
        self._store, self._table, self._works, self._tell = store, table, works, tell

    def advice(self) -> Advice:
        """Measures everything. Raises Refused if a SELECT is refused, or the table can't be saved; and a Fault if there
        is no room for a copy, or something happens to it."""
        for work in self._works:
            self._store.call(partial(check_length, statement=work.statement, most=cells_that_fit()))
        data = self._store.call(self._bytes)
        headers = [header for header in headers_of(data) if self._works_on(header.name)]
        with _copy(self._store, self._table, data) as copy:
            columns = [self._tried(copy, header, headers) for header in headers]
            changed = [
                f"{tried.trials[0].column} {tried.best.words}" for tried in columns if tried.best != tried.standing
            ]
            rebuild = f"REBUILD {self._table}" + (f" ({', '.join(changed)})" if changed else "")
            _execute(copy, rebuild)
            standing, rebuilt = self._compared(copy)
        return Advice(columns, standing, rebuild, rebuilt)

    def _compared(self, copy: Call) -> tuple[Figures, Figures]:
        """Measures all SELECTs on the table as it is, and on its copy as it is now, in turns."""
        self._tell("all together")
        standing = rebuilt = None
        for _ in _turns():
            standing = _measured(self._store.call, self._works).or_quicker(standing)
            rebuilt = _measured(copy, self._works).or_quicker(rebuilt)
        assert standing and rebuilt
        return standing, rebuilt

    def _bytes(self, session: Session) -> bytes:
        """Returns the table as a file. Raises a Fault if there may be no room for a copy."""
        size = next(table for table in session.tables() if table.name == self._table)
        if size.rows * size.columns > cells_that_fit():
            raise Fault(f"there may be no room for a copy of {self._table}, and layouts are tried on a copy")
        return session.table_bytes(self._table)

    def _works_on(self, column: str) -> list[Work]:
        """Returns the SELECTs that read a column."""
        return [work for work in self._works if column in work.words]

    def _tried(self, copy: Call, header: ColumnHeader, headers: Sequence[ColumnHeader]) -> Columns:
        """Tries each layout and kind of a column, and restores the current choice."""
        column, works = header.name, self._works_on(header.name)
        self._tell(f"column {headers.index(header) + 1} of {len(headers)}")
        values = copy(partial(values_of, table=self._table, column=column))
        standing, choices = Choice(header.layout, header.kind), choices_for(header)
        found: dict[Choice, Figures] = {}
        for turn in _turns():
            first = turn * FEWEST_TURNS % len(choices)
            for choice in choices[first:] + choices[:first]:
                _execute(copy, f"REBUILD {self._table} ({column} {choice.words})")
                found[choice] = _measured(copy, works).or_quicker(found.get(choice))
        _execute(copy, f"REBUILD {self._table} ({column} {standing.words})")
        trials = [_trial(column, choice, found[choice], values) for choice in choices]
        return Columns(trials, standing, best_of(trials, standing))


def choices_for(header: ColumnHeader) -> list[Choice]:
    """Returns the layouts and kinds that a column of this type may have."""
    choices = [Choice(layout, kind) for layout in LAYOUTS for kind in KINDS]
    return [
        choice
        for choice in choices
        if ColumnHeader(header.name, choice.layout, choice.kind, header.column_type).holds_its_type
    ]


def best_of(trials: Sequence[Trial], standing: Choice) -> Choice:
    """Returns, of the choices that count as being as quick as the quickest, the one with the fewest bytes; among equals
    the current one, else the quickest."""
    limit = AS_QUICK * min(trial.figures.seconds for trial in trials)
    quick = [trial for trial in trials if trial.figures.seconds <= limit]
    return min(quick, key=lambda each: (each.size, each.choice != standing, each.figures.seconds)).choice


def _trial(column: str, choice: Choice, figures: Figures, values: Values) -> Trial:
    return Trial(column, choice, figures, values.width(choice.kind), values.size(choice.layout, choice.kind))


@contextlib.contextmanager
def _copy(store: Store, table: str, data: bytes) -> Iterator[Call]:
    """Makes a separate store with only this table, which is closed when the context ends, and yields its `call`. It
    raises a Fault if a statement is refused there, or if that store's program ends, which leaves the other running."""
    copy = store.another()
    copy.on_wait = store.on_wait

    def call(job: Callable[[Session], Any]) -> Any:
        try:
            return copy.call(job)
        except (ProgramEnded, Refused) as fault:
            raise Fault(f"the copy of {table}: {fault}; {table} itself is as it was") from None

    try:
        call(lambda session: session.put_table(table, data))
        yield call
    finally:
        # Nobody waits for what is still being executed there.
        copy.close(0)


def _execute(call: Call, statement: str) -> None:
    call(lambda session: session.execute(statement))


def _measured(call: Call, works: Sequence[Work]) -> Figures:
    """Measures what these SELECTs take in a store as it is."""
    units, seconds = 0, 0.0
    for work in works:
        units += work.times * call(partial(_units, work.statement))
        seconds += work.times * _quickest(call, work.statement)
    return Figures(units, seconds)


def _units(statement: str, session: Session) -> int:
    return session.execute(f"STATS {statement}").count or 0


def _quickest(call: Call, statement: str) -> float:
    """Returns the seconds of the quickest of several runs."""
    runs: list[float] = []
    while len(runs) < FEWEST_RUNS or (sum(runs) < RUNS_SECONDS and len(runs) < MOST_RUNS):
        runs.append(call(partial(_seconds, statement)))
    return min(runs)


def _turns() -> Iterator[int]:
    """Yields the numbers of the turns."""
    start = time.monotonic()
    for turn in range(MOST_TURNS):
        if turn >= FEWEST_TURNS and time.monotonic() - start > TURNS_SECONDS:
            return
        yield turn


def _seconds(statement: str, session: Session) -> float:
    """Returns the seconds from when a statement is sent to the last byte of its answer."""
    start = time.perf_counter()
    session.execute(statement)
    return time.perf_counter() - start
