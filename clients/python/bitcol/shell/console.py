"""Where the shell writes: answers to standard output, and errors to standard error.

In a terminal remarks are written among the answers, headings are bold, and long loads show their progress. Output to a
pipe or a file is plain: answers and nothing else.
"""

from __future__ import annotations

import contextlib
import os
import shutil
import time
from collections.abc import Iterable
from dataclasses import dataclass
from typing import TextIO

# A shorter load shows no progress.
QUIET_SECONDS = 0.5
BETWEEN_SECONDS = 0.1
LONGEST_LABEL = 40
# Moves to the start of the line, and erases the line.
_ERASE = "\r\x1b[K"


@dataclass(frozen=True)
class Style:
    """The escape sequences that begin a heading, a NULL and an error, and end them. Plain if all are empty."""

    heading: str = ""
    null: str = ""
    fault: str = ""
    end: str = ""


PLAIN = Style()
COLOURED = Style(heading="\x1b[1m", null="\x1b[2m", fault="\x1b[31m", end="\x1b[0m")


def style_of(stream: TextIO) -> Style:
    """Returns the style for a stream: plain unless it is a terminal with colours and the variable NO_COLOR is empty."""
    coloured = stream.isatty() and os.environ.get("TERM", "dumb") != "dumb" and not os.environ.get("NO_COLOR")
    return COLOURED if coloured else PLAIN


class Console:
    """The two output streams, and what is known about them."""

    def __init__(self, out: TextIO, errors: TextIO) -> None:
        self.out = out
        self.errors = errors
        self.is_terminal = out.isatty()
        self.style = style_of(out)
        self._error_style = style_of(errors)

    @property
    def width(self) -> int:
        """The number of characters of a line of the terminal, or 80 if that isn't known."""
        return shutil.get_terminal_size().columns

    @property
    def has_blocks(self) -> bool:
        """Whether the output's encoding has block characters."""
        try:
            "█▁".encode(self.out.encoding or "ascii")
        except UnicodeEncodeError:
            return False
        return True

    def write(self, pieces: Iterable[str]) -> None:
        """Writes an answer."""
        self.out.writelines(pieces)

    def line(self, text: str) -> None:
        """Writes a line of an answer."""
        self.out.write(text + "\n")

    def remark(self, text: str) -> None:
        """Writes what is of interest to a user at a terminal, but not to a program that reads the output."""
        if self.is_terminal:
            self.line(text)

    def note(self, text: str) -> None:
        """Writes what has to be shown in any case: among the answers in a terminal, else to standard error."""
        if self.is_terminal:
            self.line(text)
        else:
            self._say(text)

    def fault(self, text: str) -> None:
        """Writes an error, after the answers before it."""
        self.out.flush()
        self._say(f"{self._error_style.fault}{text}{self._error_style.end}")

    def progress(self, label: str) -> Progress:
        """Returns a line that shows the progress of something."""
        return Progress(self.errors, label)

    def _say(self, text: str) -> None:
        """Writes a line to standard error. If nobody reads that, the line is dropped."""
        with contextlib.suppress(OSError):
            self.errors.write(text + "\n")
            self.errors.flush()


class Progress:
    """A line on standard error that shows the progress of a long load, and is erased at its end. Nothing is shown if
    standard error isn't a terminal."""

    def __init__(self, stream: TextIO, label: str) -> None:
        self._stream = stream
        # A wrapped line couldn't be erased.
        self._label = label if len(label) <= LONGEST_LABEL else f"..{label[2 - LONGEST_LABEL :]}"
        self._is_shown = stream.isatty()
        self._start = time.monotonic()
        self._next = self._start + QUIET_SECONDS
        self._text = ""
        self._is_there = False

    def tell(self, text: str = "") -> None:
        """Shows the progress. Without a text, only the seconds are updated."""
        is_news = text not in ("", self._text)
        self._text = text or self._text
        now = time.monotonic()
        if self._is_shown and (now >= self._next or is_news and self._is_there):
            self._next = now + BETWEEN_SECONDS
            self._is_there = True
            seconds = f"{int(now - self._start)} s"
            self._stream.write(f"{_ERASE}{self._label}: {', '.join(filter(None, [self._text, seconds]))}")
            self._stream.flush()

    def __enter__(self) -> Progress:
        return self

    def __exit__(self, *_: object) -> None:
        if self._is_there:
            self._stream.write(_ERASE)
            self._stream.flush()
