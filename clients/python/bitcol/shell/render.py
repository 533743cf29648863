"""Answers as text: aligned tables, CSV, JSON, Markdown, and lines of `name = value`."""

from __future__ import annotations

import re
from collections.abc import Callable, Iterable, Iterator, Sequence
from enum import Enum
from itertools import chain, count
from typing import Any

from ..reply import Reply, Row
from .console import PLAIN, Style

NULL = "NULL"
_BLANKS = re.compile(r" +$", re.MULTILINE)


class Mode(Enum):
    """How answers are written. The value is the mode's word in commands."""

    TABLE = "table"
    CSV = "csv"
    JSON = "json"
    MARKDOWN = "md"
    LINE = "line"


class _Rows:
    """The rows of an answer up to a limit, in batches. They can be iterated over repeatedly."""

    def __init__(self, reply: Reply, limit: int | None) -> None:
        self._reply = reply
        self._limit = limit

    def __iter__(self) -> Iterator[list[Row]]:
        return self._reply.batches() if self._limit is None else iter([self._reply.first_rows(self._limit)])

    def lines(self, null: str) -> Iterator[str]:
        """Yields the rows as CSV lines, with `null` for NULL."""
        if self._limit is None:
            return self._reply.lines(null)
        template = ",".join(["%s"] * len(self._reply.headings)) + "\n"
        return (_formatted(template, rows, null) for rows in self)

    def texts(self) -> list[bool]:
        """Returns for each column whether it has texts, which are the names of tables."""
        first = self._reply.first_rows(1)
        return [isinstance(cell, str) for cell in first[0]] if first else [False] * len(self._reply.headings)


def rendered(reply: Reply, mode: Mode, limit: int | None = None, style: Style = PLAIN) -> Iterator[str]:
    """Yields the text of an answer with rows in pieces: all rows, or the first up to the limit. Each line is ended."""
    return _RENDERERS[mode](reply.headings, _Rows(reply, limit), style)


def counted(number: int, what: str) -> str:
    """`1 row`, `2 rows`."""
    return f"{number} {what}{'' if number == 1 else 's'}"


def shown(cell: Any) -> str:
    """Returns a cell as it is shown to people."""
    return NULL if cell is None else str(cell)


def _table(headings: Sequence[str], batches: _Rows, style: Style) -> Iterator[str]:
    """Writes columns under their headings, as wide as their widest cell: numbers to the right, names to the left."""
    widths = list(map(len, headings))
    for rows in batches:
        widths = list(map(max, widths, map(_width, zip(*rows)))) if rows else widths
    texts = batches.texts()
    template = "  ".join(f"%{'-' if is_text else ''}{width}s" for is_text, width in zip(texts, widths))
    yield f"{style.heading}{(template % tuple(headings)).rstrip()}{style.end}\n"
    yield "  ".join("-" * width for width in widths) + "\n"
    for rows in batches:
        lines = _formatted(template + "\n", rows, f"{style.null}{NULL}{style.end}")
        # If the last column has texts, there are blanks after them.
        yield _BLANKS.sub("", lines) if texts[-1] else lines


def _csv(headings: Sequence[str], batches: _Rows, _: Style) -> Iterator[str]:
    """Writes a line of headings and one for each row. NULL is an empty field, which is quoted if it is the only one."""
    yield ",".join(headings) + "\n"
    yield from batches.lines("" if len(headings) > 1 else '""')


def _json(headings: Sequence[str], batches: _Rows, _: Style) -> Iterator[str]:
    """Writes a list with an object for each row, one on each line."""
    cells = ['"%s"' if is_text else "%s" for is_text in batches.texts()]
    row = ", ".join(f'"{key}": {cell}' for key, cell in zip(_distinct(headings), cells))
    pieces = _after_the_first((_formatted(",\n{" + row + "}", rows, "null") for rows in batches), ",\n")
    yield "["
    yield from pieces
    yield "]\n"


def _markdown(headings: Sequence[str], batches: _Rows, _: Style) -> Iterator[str]:
    """Writes a Markdown table with right-aligned columns."""
    yield f"| {' | '.join(headings)} |\n"
    yield f"|{'|'.join(['---:'] * len(headings))}|\n"
    template = f"| {' | '.join(['%s'] * len(headings))} |\n"
    for rows in batches:
        yield _formatted(template, rows, NULL)


def _lines(headings: Sequence[str], batches: _Rows, style: Style) -> Iterator[str]:
    """Writes a line `NAME = value` for each cell, and an empty line between rows."""
    width = max(map(len, headings))
    row = "".join(f"{style.heading}{heading.rjust(width)}{style.end} = %s\n" for heading in headings)
    return _after_the_first((_formatted("\n" + row, rows, NULL) for rows in batches), "\n")


def _formatted(template: str, rows: Sequence[Row], null: str) -> str:
    """Formats all rows in one step, which takes a fraction of the time of one step for each cell.

    Python writes None for NULL, which has the same width, and no name has lower-case letters.
    """
    return (template * len(rows) % tuple(chain.from_iterable(rows))).replace("None", null)


def _after_the_first(pieces: Iterable[str], before: str) -> Iterator[str]:
    """Yields the pieces, without the text before each row before the first."""
    remaining = iter(pieces)
    yield next(remaining, "").removeprefix(before)
    yield from remaining


def _width(column: Sequence[Any]) -> int:
    """Returns the width of the widest cell. Among integers that is the least or the greatest."""
    known = [cell for cell in column if cell is not None]
    if known and isinstance(known[0], str):
        return max(map(len, known))
    ends = [min(known), max(known)] if known else []
    return max(len(shown(cell)) for cell in (ends if len(known) == len(column) else [*ends, None]))


def _distinct(headings: Sequence[str]) -> list[str]:
    """Returns the headings, with `_2` and so on appended to repeated ones: an object has each key once."""
    found: list[str] = []
    for heading in headings:
        numbered = (heading if number == 1 else f"{heading}_{number}" for number in count(1))
        found.append(next(key for key in numbered if key not in found))
    return found


_RENDERERS: dict[Mode, Callable[[Sequence[str], _Rows, Style], Iterator[str]]] = {
    Mode.TABLE: _table,
    Mode.CSV: _csv,
    Mode.JSON: _json,
    Mode.MARKDOWN: _markdown,
    Mode.LINE: _lines,
}
