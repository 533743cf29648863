"""Charts of an answer's columns in block characters: a bar for each row, or a line over all rows."""

from __future__ import annotations

from collections.abc import Iterator, Sequence
from dataclasses import dataclass
from enum import Enum
from itertools import chain
from typing import Optional

from ..reply import Reply
from .fault import Fault
from .render import counted, shown

LINE_HEIGHT = 8
LEAST_WIDTH = 10
# The steps within a block, to the right and upwards, with which values are drawn.
EIGHTHS = 8
_TO_THE_RIGHT = " ▏▎▍▌▋▊▉█"
_UP = " ▁▂▃▄▅▆▇█"
_PLAIN_BLOCK = "#"

Value = Optional[int]


class Chart(Enum):
    """The form of a chart. The value is its word in commands."""

    BARS = "bars"
    LINE = "line"


@dataclass(frozen=True)
class Canvas:
    """The number of characters of a line, and whether there are block characters. If there are none, `#` is drawn for a
    block that is at least half full."""

    width: int
    has_blocks: bool = True

    def block(self, blocks: str, eighths: int) -> str:
        """Returns the block that is filled by this many eighths."""
        if self.has_blocks:
            return blocks[eighths]
        return _PLAIN_BLOCK if eighths >= EIGHTHS // 2 else " "


def drawn(reply: Reply, chart: Chart | None, column: str | None, limit: int, canvas: Canvas) -> Iterator[str]:
    """Draws a column of an answer: this one, else the second, or the only one. Bars are drawn for at most `limit` rows,
    with labels from the first column unless that is drawn itself. If no chart is given, it is bars up to the limit, and
    a line beyond. Raises a Fault if there is no such column, or it has no numbers."""
    headings = reply.headings
    if column is not None and column.upper() not in headings:
        raise Fault(f"the last answer has no column {column!r}; it has {', '.join(headings)}")
    place = min(1, len(headings) - 1) if column is None else headings.index(column.upper())
    if chart is None:
        chart = Chart.BARS if len(reply) <= limit else Chart.LINE
    rows = reply.first_rows(limit if chart is Chart.BARS else 1)
    if isinstance(rows[0][place], str):
        raise Fault(f"{headings[place]} has names, and numbers are drawn")
    if chart is Chart.LINE:
        values = [row[place] for batch in reply.batches() for row in batch]
        return chain([f"{headings[place]}\n"], line(values, canvas))
    labels = [str(number) if place == 0 else shown(row[0]) for number, row in enumerate(rows, 1)]
    title = headings[place] if place == 0 else f"{headings[place]} by {headings[0]}"
    rest = [f".. {counted(len(reply) - limit, 'row')} more\n"] if len(reply) > limit else []
    return chain([f"{title}\n"], bars(labels, [row[place] for row in rows], canvas), rest)


def bars(labels: Sequence[str], values: Sequence[Value], canvas: Canvas) -> Iterator[str]:
    """Yields a line for each value: its label, a bar from 0 to the value, and the value. Bars of negative values extend
    to the left, in whole blocks."""
    texts = list(map(shown, values))
    label_width = max(map(len, labels), default=0)
    known = [value for value in values if value is not None]
    least, greatest = min(known, default=0), max(known, default=0)
    # Two blanks and the sign are beside the bars.
    room = max(LEAST_WIDTH, canvas.width - label_width - max(map(len, texts), default=0) - 3)
    scale = _Scale.of(min(least, 0), max(greatest, 0), room)
    for label, value, text in zip(labels, values, texts):
        bar = scale.bar(value or 0, canvas) if scale.left else scale.right_bar(value or 0, canvas)
        yield f"{label.rjust(label_width)} {bar}{' ' if bar else ''}{text}\n"


@dataclass(frozen=True)
class _Scale:
    """The placement of bars: the blocks to the left and to the right of 0, for values from `least` to `greatest`."""

    least: int
    greatest: int
    left: int
    right: int

    @classmethod
    def of(cls, least: int, greatest: int, room: int) -> _Scale:
        """Fits bars into `room` blocks. `least` is at most 0, and `greatest` at least 0."""
        span = (greatest - least) or 1
        # Rounded up, so that there is room for a bar to the left if there is a negative value.
        left = -(least * room // span)
        return cls(least, greatest, min(left, room), max(room - left, 0))

    def right_bar(self, value: int, canvas: Canvas) -> str:
        """Returns the bar of a value that isn't negative. It is visible unless the value is 0."""
        eighths = max(round(value * self.right * EIGHTHS / self.greatest), 1) if value > 0 else 0
        full, rest = divmod(eighths, EIGHTHS)
        bar = canvas.block(_TO_THE_RIGHT, EIGHTHS) * full + (canvas.block(_TO_THE_RIGHT, rest) if rest else "")
        return bar.rstrip()

    def bar(self, value: int, canvas: Canvas) -> str:
        """Returns the bar of a value with the blanks left of it, for the case that some values are negative."""
        blocks = max(round(value * self.left / self.least), 1) if value < 0 else 0
        to_the_left = " " * (self.left - blocks) + canvas.block(_TO_THE_RIGHT, EIGHTHS) * blocks
        return f"{to_the_left}|{self.right_bar(value, canvas)}"


def line(values: Sequence[Value], canvas: Canvas) -> Iterator[str]:
    """Yields a line chart of all values from left to right, scaled between the least and the greatest, and a line that
    says how many values are in a column. A column shows the mean of its values, and is empty if all are NULL."""
    known = [value for value in values if value is not None]
    if not known:
        yield f"{counted(len(values), 'row')}, and no value but NULL\n"
        return
    least, greatest = min(known), max(known)
    label_width = max(len(str(least)), len(str(greatest)))
    width = min(len(values), max(LEAST_WIDTH, canvas.width - label_width - 2))
    steps = EIGHTHS * LINE_HEIGHT
    levels = [_level(mean, least, greatest, steps) for mean in means(values, width)]
    for row in range(LINE_HEIGHT - 1, -1, -1):
        label = {LINE_HEIGHT - 1: str(greatest), 0: str(least)}.get(row, "")
        blocks = [canvas.block(_UP, min(max(level - EIGHTHS * row, 0), EIGHTHS)) for level in levels]
        yield f"{label.rjust(label_width)} {''.join(blocks)}".rstrip() + "\n"
    share = "" if width == len(values) else f", about {round(len(values) / width)} to a column, which is their mean"
    yield f"{' ' * label_width} rows 1 to {len(values)}{share}\n"


def means(values: Sequence[Value], columns: int) -> list[float | None]:
    """Splits the values into this many groups of neighbours. Returns for each the mean of its values, None if all are
    NULL."""
    found: list[float | None] = []
    for column in range(columns):
        start, end = column * len(values) // columns, (column + 1) * len(values) // columns
        known = [value for value in values[start:end] if value is not None]
        found.append(sum(known) / len(known) if known else None)
    return found


def _level(mean: float | None, least: int, greatest: int, steps: int) -> int:
    """Returns the height of a mean in steps: at least 1, so that it is visible, and 0 if there is none."""
    if mean is None:
        return 0
    if least == greatest:
        return steps // 2
    return 1 + round((mean - least) * (steps - 1) / (greatest - least))
