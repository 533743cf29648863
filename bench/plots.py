"""Plots as SVG: lines over a number, or bars over names, with axes that show their units.

The background is opaque, so a plot reads the same on a white and on a dark page. Lines differ in colour and in
dashes, and bars in colour and in order, so none is recognised by its colour alone.
"""

import math
from collections.abc import Sequence
from dataclasses import dataclass
from html import escape

WIDE, HIGH = 860, 420
LEFT, RIGHT, TOP, BOTTOM = 70, 190, 44, 62
INK, FAINT, RULE, PAPER = "#1f2430", "#6b7280", "#dfe3e8", "#ffffff"
COLOURS = ("#1b6ca8", "#c2571a", "#2e8b57", "#6b4c9a", "#b3261e", "#6b7280", "#8a6d00", "#0f766e", "#be3b84", "#374151")
DASHES = ("none", "7 3", "2 3", "9 3 2 3")
# How many of the lines, from the first on, are solid.
SOLID = 4

Points = Sequence[tuple[float | str, float]]


@dataclass(frozen=True)
class Plot:
    """What a plot shows besides its lines: a title, the units of both axes, and which axes are logarithmic."""

    title: str
    across: str
    up: str
    is_log_across: bool = False
    is_log_up: bool = False
    has_bars: bool = False


@dataclass(frozen=True)
class Axis:
    """Maps values to positions between two ends of the picture."""

    least: float
    greatest: float
    begin: float
    end: float
    is_log: bool

    def place(self, value: float) -> float:
        low, high, here = (
            math.log10(each) if self.is_log else each for each in (self.least, self.greatest, max(value, self.least))
        )
        return self.begin + (here - low) / (high - low or 1) * (self.end - self.begin)

    def ticks(self) -> list[float]:
        """Powers of ten, or some five round numbers."""
        if self.is_log:
            first, last = round(math.log10(self.least)), round(math.log10(self.greatest))
            return [10.0**power for power in range(first, last + 1)]
        step = 10 ** math.floor(math.log10(self.greatest / 4 or 1))
        step *= next(factor for factor in (1, 2, 2.5, 5, 10) if self.greatest / (step * factor) <= 6)
        return [step * i for i in range(int(self.greatest / step + 1e-9) + 1)]


def axis_of(values: list[float], begin: float, end: float, is_log: bool, from_zero: bool = True) -> Axis:
    """An axis that holds these values: between powers of ten, or from 0 or the least to a little above the greatest."""
    positive = [value for value in values if value > 0] or [1.0]
    if is_log:
        least, greatest = math.floor(math.log10(min(positive))), math.ceil(math.log10(max(positive)))
        return Axis(10.0**least, 10.0 ** max(greatest, least + 1), begin, end, True)
    return Axis(0 if from_zero else min(values), max(positive) * (1.05 if from_zero else 1), begin, end, False)


def round_places(places: list[float]) -> list[float]:
    """The least of some whole numbers, and up to a dozen multiples of a power of two up to the greatest."""
    least, greatest = min(places), max(places)
    step = 1
    while (greatest - least) / step > 12:
        step *= 2
    return sorted({least, *(float(at) for at in range(step, int(greatest) + 1, step) if at > least)})


def number(value: float) -> str:
    return f"{value:,.0f}" if value >= 10 or value == int(value) else f"{value:.3g}"


class Drawing:
    """The marks of one SVG."""

    def __init__(self, plot: Plot) -> None:
        self.marks = [
            f'<svg xmlns="http://www.w3.org/2000/svg" viewBox="0 0 {WIDE} {HIGH}" width="{WIDE}" height="{HIGH}" '
            f'font-family="sans-serif" font-size="12">',
            f"<title>{escape(plot.title)}</title>",
            f'<rect width="{WIDE}" height="{HIGH}" fill="{PAPER}"/>',
        ]
        self.words(LEFT, 22, plot.title, "start", INK, 14)
        # A name of more than 20 letters would start left of the picture.
        place, anchor = (LEFT - 8, "end" if len(plot.up) < 9 else "middle") if len(plot.up) <= 20 else (4, "start")
        self.words(place, TOP - 8, plot.up, anchor, FAINT)
        self.words((LEFT + WIDE - RIGHT) / 2, HIGH - 12, plot.across, "middle", FAINT)

    def words(self, x: float, y: float, text: str, anchor: str = "middle", colour: str = INK, size: int = 12) -> None:
        self.marks.append(
            f'<text x="{x:.1f}" y="{y:.1f}" text-anchor="{anchor}" fill="{colour}" '
            f'font-size="{size}">{escape(text)}</text>'
        )

    def line(self, x1: float, y1: float, x2: float, y2: float, colour: str = RULE) -> None:
        self.marks.append(f'<line x1="{x1:.1f}" y1="{y1:.1f}" x2="{x2:.1f}" y2="{y2:.1f}" stroke="{colour}"/>')

    def rule(self, up: Axis) -> None:
        """A line across the plot at each tick of its height, and the axes."""
        for tick in up.ticks():
            y = up.place(tick)
            self.line(LEFT, y, WIDE - RIGHT, y)
            self.words(LEFT - 8, y + 4, number(tick), "end")
        self.line(LEFT, TOP, LEFT, HIGH - BOTTOM, FAINT)
        self.line(LEFT, HIGH - BOTTOM, WIDE - RIGHT, HIGH - BOTTOM, FAINT)

    def svg(self) -> str:
        return "\n".join([*self.marks, "</svg>"]) + "\n"


def drawn_lines(plot: Plot, lines: dict[str, Points]) -> str:
    """Lines over numbers, with a legend at the right."""
    places = [float(place) for points in lines.values() for place, _ in points]
    heights = [height for points in lines.values() for _, height in points]
    across = axis_of(places, LEFT, WIDE - RIGHT, plot.is_log_across, from_zero=False)
    up = axis_of(heights, HIGH - BOTTOM, TOP, plot.is_log_up)
    drawing = Drawing(plot)
    drawing.rule(up)
    for tick in across.ticks() if plot.is_log_across else round_places(places):
        drawing.words(across.place(tick), HIGH - BOTTOM + 18, number(tick))
    for i, (name, points) in enumerate(lines.items()):
        colour, dash = COLOURS[i % len(COLOURS)], DASHES[0 if i < SOLID else 1 + i % (len(DASHES) - 1)]
        style = f'fill="none" stroke="{colour}" stroke-width="2" stroke-dasharray="{dash}"'
        path = " ".join(f"{across.place(float(x)):.1f},{up.place(y):.1f}" for x, y in points)
        drawing.marks.append(f'<polyline points="{path}" {style}/>')
        y = TOP + 8 + 20 * i
        drawing.marks.append(f'<path d="M{WIDE - RIGHT + 16} {y}h26" {style}/>')
        drawing.words(WIDE - RIGHT + 48, y + 4, name, "start")
    return drawing.svg()


def drawn_bars(plot: Plot, lines: dict[str, Points]) -> str:
    """Bars side by side over each name, with a legend at the right."""
    names = list(dict.fromkeys(str(place) for points in lines.values() for place, _ in points))
    up = axis_of([height for points in lines.values() for _, height in points], HIGH - BOTTOM, TOP, plot.is_log_up)
    drawing = Drawing(plot)
    drawing.rule(up)
    room = (WIDE - LEFT - RIGHT) / len(names)
    bar = room * 0.8 / len(lines)
    for at, name in enumerate(names):
        drawing.words(LEFT + (at + 0.5) * room, HIGH - BOTTOM + 18, name)
    for i, (name, points) in enumerate(lines.items()):
        colour = COLOURS[i % len(COLOURS)]
        for place, height in points:
            x, y = LEFT + names.index(str(place)) * room + room * 0.1 + i * bar, up.place(height)
            drawing.marks.append(
                f'<rect x="{x:.1f}" y="{y:.1f}" width="{bar - 1:.1f}" height="{HIGH - BOTTOM - y:.1f}" fill="{colour}">'
                f"<title>{escape(name)}, {escape(str(place))}: {height:.3g} {escape(plot.up)}</title></rect>"
            )
        y = TOP + 8 + 20 * i
        drawing.marks.append(f'<rect x="{WIDE - RIGHT + 16}" y="{y - 8}" width="14" height="14" fill="{colour}"/>')
        drawing.words(WIDE - RIGHT + 38, y + 4, name, "start")
    return drawing.svg()


def drawn(plot: Plot, lines: dict[str, Points]) -> str:
    """The SVG of a plot."""
    return drawn_bars(plot, lines) if plot.has_bars else drawn_lines(plot, lines)
