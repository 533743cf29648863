"""The command .advise: what it measures, shown as an answer, and the REBUILD that it sends."""

from __future__ import annotations

from collections.abc import Sequence
from functools import partial
from typing import TYPE_CHECKING

from ..errors import Refused
from ..reply import Reply, Row
from ..script import checked_name
from ..session import Session
from ..table_file import Layout
from .advice import Advice, Advisor, Columns, Figures
from .fault import Fault, reason_of
from .render import counted
from .workload import History, Work, history_of

if TYPE_CHECKING:
    from .shell import Shell

APPLY = "apply"
HEADINGS = ("COLUMN", "LAYOUT", "KIND", "UNITS", "MICROSECONDS", "WIDTH", "BYTES", "NOTE")
# The longest text of a statement that is shown.
LONGEST_SHOWN = 100


def advise(shell: Shell, table: str, word: str | None = None) -> None:
    """Measures the SELECTs of this session on a table, or those of a file, and shows the result; or sends the REBUILD
    that it advised before. Raises a Fault if there is nothing to measure, or nothing was advised."""
    name = checked_name(table)
    if word == APPLY:
        _apply(shell, name)
        return
    works = _accepted(shell, (shell.history if word is None else _history_in(word)).of(name))
    if not works:
        where = "of this session" if word is None else f"in {word}"
        raise Fault(f"no SELECT {where} reads a column of {name} in a condition, a set function or a GROUP BY")
    with shell.waiting("trying layouts") as progress:
        advice = Advisor(shell.store, name, works, progress.tell).advice()
    _say(shell, name, works, advice)


def _apply(shell: Shell, table: str) -> None:
    statement = shell.advised.get(table)
    if statement is None:
        raise Fault(f"nothing is advised for {table}: .advise {table} measures it")
    shell.run(statement)
    del shell.advised[table]


def _history_in(path: str) -> History:
    try:
        with open(path, encoding="utf-8-sig", errors="surrogateescape", newline="\n") as file:
            return history_of(file)
    except (OSError, ValueError) as fault:
        raise Fault(f"{path}: {reason_of(fault) if isinstance(fault, OSError) else fault}") from None


def _accepted(shell: Shell, works: Sequence[Work]) -> list[Work]:
    """Returns the SELECTs that aren't refused. For each of the others it says why it is left out."""
    found = []
    for work in works:
        try:
            shell.store.call(partial(Session.execute, statement=f"STATS {work.statement}"))
        except Refused as refusal:
            shell.console.note(f"left out: {_shortened(work.statement)}: {refusal}")
        else:
            found.append(work)
    return found


def _say(shell: Shell, table: str, works: Sequence[Work], advice: Advice) -> None:
    """Shows everything that was measured, and remembers what is advised."""
    console = shell.console
    for work in works:
        console.note(f"{work.times} x {_shortened(work.statement)}")
    console.note(f"as it stands: {_figures(advice.standing)}")
    shell.show(Reply.of_rows(HEADINGS, [row for tried in advice.columns for row in _rows(tried)]), limit=None)
    for tried in advice.columns:
        if all(trial.choice.layout is not Layout.H for trial in tried.trials):
            console.note(f"layout H isn't tried for {tried.trials[0].column}: it holds no BIGINT")
    console.note(f"{advice.rebuild}: {_figures(advice.rebuilt)}")
    shell.advised.pop(table, None)
    if advice.is_worthwhile:
        shell.advised[table] = advice.rebuild
        console.note(f"advised: .advise {table.lower()} {APPLY} sends this REBUILD")
    else:
        console.note("nothing is advised: what stands is as good")


def _rows(tried: Columns) -> list[Row]:
    """Returns a row of the answer for each trial of a column."""
    rows: list[Row] = []
    for trial in tried.trials:
        notes = [
            note
            for note, choice in (("stands", tried.standing), ("advised", tried.best))
            if trial.choice == choice
        ]
        choice, figures = trial.choice, trial.figures
        names = trial.column, choice.layout.name, choice.kind.name
        numbers = figures.units, _microseconds(figures), trial.width, trial.size
        rows.append((*names, *numbers, ", ".join(notes)))
    return rows


def _figures(figures: Figures) -> str:
    return f"{counted(figures.units, 'unit')}, {_microseconds(figures)} microseconds"


def _microseconds(figures: Figures) -> int:
    return round(1e6 * figures.seconds)


def _shortened(statement: str) -> str:
    return statement if len(statement) <= LONGEST_SHOWN else statement[:LONGEST_SHOWN] + ".."
