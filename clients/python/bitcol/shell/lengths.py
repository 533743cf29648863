"""Determines how long an answer will be, before its statement is sent.

An answer is in memory as a whole. One that doesn't fit into memory would end the program in the middle of the answer,
and its tables with it. So the rows of a long answer are counted first.
"""

from __future__ import annotations

import os
import re
import resource
from dataclasses import dataclass
from pathlib import Path

from ..errors import Refused
from ..session import Session
from .fault import Fault

# The most bytes that a cell takes while its answer is made: 8 in the program, 12 as text here, and 12 when shown.
CELL_BYTES = 32
_AVAILABLE = re.compile(r"^MemAvailable:\s*(\d+) kB$", re.MULTILINE)
_PIECE = re.compile(r"'[^']*'|--[^\n]*|;|[A-Za-z]\w*")


@dataclass(frozen=True)
class Selection:
    """A SELECT in four parts: `SELECT ..`, `FROM table`, condition, `GROUP BY column`. The last two may be empty."""

    items: str
    source: str
    condition: str = ""
    grouping: str = ""

    @property
    def without_rows(self) -> str:
        """A SELECT with the same headings and no row, or one row of set functions. A line feed comes before its WHERE,
        since the part before may end with a comment."""
        return f"{self.items}{self.source}\nWHERE 1 = 0{self.grouping and ' '}{self.grouping}"

    @property
    def counting(self) -> str:
        """A SELECT of the number of rows that it finds."""
        return f"SELECT COUNT(*) {self.source}{self.condition}"

    @property
    def by_group(self) -> str:
        """A SELECT with a cell for each of its groups."""
        return f"{self.counting}{self.grouping}"

    @property
    def has_functions(self) -> bool:
        """Whether it has set functions."""
        return "(" in _PIECE.sub("", self.items)

    @property
    def is_one_row(self) -> bool:
        """Whether its answer is one row, whatever it finds."""
        return self.has_functions and not self.grouping


def selection_of(statement: str) -> Selection | None:
    """Returns the parts of a SELECT, without its `;`, or None if the statement isn't one."""
    cut = next((found.start() for found in _PIECE.finditer(statement) if found[0] == ";"), len(statement))
    statement = statement[:cut]
    words = [(found[0].upper(), found.start()) for found in _PIECE.finditer(statement) if found[0][0].isalpha()]
    starts = dict(reversed(words))
    if not words or words[0][0] != "SELECT" or "FROM" not in starts:
        return None
    grouping = starts.get("GROUP", len(statement))
    source, condition = starts["FROM"], starts.get("WHERE", grouping)
    if not source <= condition <= grouping:
        return None
    parts = statement[:source], statement[source:condition], statement[condition:grouping], statement[grouping:]
    return Selection(*parts)


def cells_that_fit() -> int:
    """Returns how many cells an answer may have now: those for which there is memory."""
    return available_bytes() // CELL_BYTES


def check_length(session: Session, statement: str, most: int) -> None:
    """Raises a Fault if the answer would have more than `most` cells. A statement that the store refuses passes."""
    selection = selection_of(statement)
    if selection is None:
        return
    try:
        width = len(session.execute(selection.without_rows).headings)
        if selection.is_one_row or width * max(table.rows for table in session.tables()) <= most:
            return
        rows = _rows_of(session, selection, width, most)
    except Refused:
        return
    if rows * width > most:
        may_have = "has" if not selection.grouping or rows <= most else "may have"
        raise Fault(
            f"the answer {may_have} {rows} rows of {width} columns, which is {rows * width} cells, and there is room"
            f" for {most}: choose fewer columns or rows, or SAVE the table"
        )


def _rows_of(session: Session, selection: Selection, width: int, most: int) -> int:
    """Returns the number of rows of an answer. Groups are counted if they may be too many for these cells, unless there
    may be no room for one cell of each: then the result is the number of rows found, which is at least as large."""
    found: int = session.execute(selection.counting).scalar()
    if selection.grouping and found <= most < found * width:
        return len(session.execute(selection.by_group))
    return found


def available_bytes() -> int:
    """Returns the memory that a process can get now: what the system says, and at most the limit for this process."""
    try:
        found = _AVAILABLE.search(Path("/proc/meminfo").read_text(encoding="ascii"))
    except OSError:
        found = None
    if found:
        available = int(found[1]) * 1024
    else:
        # Half of all memory, if the system doesn't say how much is in use.
        available = os.sysconf("SC_PHYS_PAGES") * os.sysconf("SC_PAGE_SIZE") // 2
    limit = resource.getrlimit(resource.RLIMIT_AS)[0]
    return available if limit == resource.RLIM_INFINITY else min(available, limit)
