"""Splits lines of input into statements as the program splits a script: at each `;` outside texts and comments."""

from __future__ import annotations

import re
from dataclasses import dataclass
from enum import Enum, auto

# The pieces of a line: a quoted text up to its end or the line's, a comment, a `;`, blanks, and anything else.
_PIECE = re.compile(r"'[^']*'?|--.*|;|[\t\r\n ]+|[^';\-\t\r\n ]+|-", re.DOTALL)
_BLANKS = "\t\r\n "


@dataclass(frozen=True)
class Statement:
    """A statement without its `;`, and the number of the line on which it begins, counted from 1."""

    text: str
    line: int


class Pending(Enum):
    """What has been read of a statement before its `;`."""

    NOTHING = auto()
    STATEMENT = auto()
    TEXT = auto()


class StatementBuffer:
    """Takes lines, and returns statements as soon as they are complete. The time is linear in the lines."""

    def __init__(self) -> None:
        self._lines = 0
        self.clear()

    @property
    def lines(self) -> int:
        """The number of lines so far."""
        return self._lines

    def clear(self) -> None:
        """Drops the incomplete statement."""
        self._pieces: list[str] = []
        self._first_line = 0
        self._in_text = False

    @property
    def pending(self) -> Pending:
        """What has been read of the incomplete statement."""
        if not self._pieces:
            return Pending.NOTHING
        return Pending.TEXT if self._in_text else Pending.STATEMENT

    @property
    def text(self) -> str:
        """The incomplete statement, as it was given. Blanks and comments before it are left out."""
        return "".join(self._pieces)

    def skip(self) -> None:
        """Counts a line that isn't part of a statement."""
        self._lines += 1

    def add(self, line: str) -> list[Statement]:
        """Adds a line, given without its line feed, and returns the statements that it completes."""
        self._lines += 1
        closed: list[Statement] = []
        at = self._end_of_text(line)
        for found in _PIECE.finditer(line, at):
            piece = found[0]
            if piece == ";":
                if self._pieces:
                    closed.append(Statement(self.text, self._first_line))
                self.clear()
            else:
                self._add_piece(piece)
        if self._pieces:
            self._pieces.append("\n")
        return closed

    def finish(self) -> Statement | None:
        """Removes and returns the last statement if it has no `;`, else returns None."""
        last = Statement(self.text, self._first_line) if self._pieces else None
        self.clear()
        return last

    def _end_of_text(self, line: str) -> int:
        """Returns the offset after a quoted text that was begun on an earlier line, or 0 if there is none."""
        if not self._in_text:
            return 0
        end = line.find("'") + 1
        self._in_text = end == 0
        end = end or len(line)
        self._pieces.append(line[:end])
        return end

    def _add_piece(self, piece: str) -> None:
        """Adds a piece that isn't a `;`. A statement begins with the first that is neither blank nor a comment."""
        if not self._pieces:
            if piece[0] in _BLANKS or piece.startswith("--"):
                return
            self._first_line = self._lines
        self._in_text = piece[0] == "'" and (len(piece) == 1 or piece[-1] != "'")
        self._pieces.append(piece)
