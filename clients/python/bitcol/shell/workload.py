"""The SELECTs that are run on a table: those of this session, or those of a file."""

from __future__ import annotations

import re
from collections.abc import Iterable, Iterator
from dataclasses import dataclass

from ..script import RESERVED
from .lengths import Selection, selection_of
from .statements import Pending, StatementBuffer

# How many SELECTs of a session are remembered: the oldest are dropped first.
MOST_REMEMBERED = 1_000
_COMMENT = re.compile(r"--[^\n]*")
_OPERAND = re.compile(r"\(\s*([A-Z]\w*)\s*\)")
_WORD = re.compile(r"[A-Z]\w*")


@dataclass(frozen=True)
class Work:
    """A SELECT in one line, how often it is run, and the words that may be columns that it reads to find rows, to
    compute set functions and to make groups. Columns that it only shows aren't among them."""

    statement: str
    times: int
    words: frozenset[str]


class History:
    """The SELECTs that were answered."""

    def __init__(self) -> None:
        self._times: dict[str, int] = {}

    def add(self, statement: str) -> None:
        """Remembers a statement that was answered, if it is a SELECT."""
        if selection_of(statement) is None:
            return
        text = _in_one_line(statement)
        self._times[text] = self._times.get(text, 0) + 1
        if len(self._times) > MOST_REMEMBERED:
            del self._times[next(iter(self._times))]

    def of(self, table: str) -> list[Work]:
        """Returns those on the table of this name that read columns."""
        return works_of(self._times, table)


def history_of(lines: Iterable[str]) -> History:
    """Returns the SELECTs in the lines of a file. Commands and other statements are left out."""
    history = History()
    for statement in _statements(lines):
        history.add(statement)
    return history


def works_of(times: dict[str, int], table: str) -> list[Work]:
    """Returns the SELECTs on this table that read columns. `times` says how often each one-line SELECT is run."""
    works = []
    for statement, count in times.items():
        selection = selection_of(statement)
        if selection is not None and _WORD.findall(selection.source.upper())[1:] == [table]:
            words = _words_of(selection)
            if words:
                works.append(Work(statement, count, words))
    return works


def _statements(lines: Iterable[str]) -> Iterator[str]:
    buffer = StatementBuffer()
    for line in lines:
        if buffer.pending is Pending.NOTHING and line.lstrip().startswith("."):
            buffer.skip()
            continue
        yield from (statement.text for statement in buffer.add(line.removesuffix("\n")))
    last = buffer.finish()
    if last is not None:
        yield last.text


def _in_one_line(statement: str) -> str:
    """Returns the SELECT without comments and with one blank between words. It has no quoted texts."""
    return " ".join(_COMMENT.sub(" ", statement).split())


def _words_of(selection: Selection) -> frozenset[str]:
    read = f"{selection.condition} {selection.grouping}".upper()
    return frozenset([*_WORD.findall(read), *_OPERAND.findall(selection.items.upper())]) - RESERVED
