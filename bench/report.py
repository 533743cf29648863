"""Tables of figures and lines of plots: printed by each bench, and written as JSON for bench/all.py."""

import json
import os
import platform
import sqlite3
import subprocess
import sys
import time
from collections.abc import Iterable, Sequence
from dataclasses import asdict, dataclass, field
from pathlib import Path
from typing import Any

from common import ROOT, SETTINGS


@dataclass
class Table:
    """A table of a document: its name there, what its figures are, and its cells as text."""

    name: str
    figures: str
    heading: list[str]
    rows: list[list[str]]

    def lines(self) -> list[str]:
        """The table in Markdown."""
        ruler = "|" + "---|" * len(self.heading)
        return [row_line(self.heading), ruler, *map(row_line, self.rows)]


@dataclass
class Line:
    """A line, or a row of bars, of a plot: a height at each place."""

    plot: str
    name: str
    points: list[tuple[float | str, float]]


def row_line(cells: Iterable[str]) -> str:
    return "| " + " | ".join(cells) + " |"


def figure(value: float | None, digits: int = 3) -> str:
    """A number with this many significant digits, and no exponent; empty if there is no number."""
    if value is None:
        return ""
    if value == 0:
        return "0"
    shown = float(f"{value:.{digits}g}")
    if abs(shown) >= 10 ** (digits - 1):
        return f"{shown:,.0f}"
    places = digits - 1
    while abs(shown) < 1 and abs(shown) < 10 ** (digits - 1 - places) and places < 6:
        places += 1
    while abs(shown) >= 10 ** (digits - places):
        places -= 1
    return f"{shown:.{max(places, 0)}f}"


def times(value: float | None, base: float | None) -> str:
    """A value as a multiple of another, with two digits; empty if either is missing."""
    return figure(value / base, 2) if value is not None and base else ""


def processor_model() -> str:
    """The name of the machine's processor, as the kernel reports it."""
    for line in Path("/proc/cpuinfo").read_text().splitlines() if Path("/proc/cpuinfo").exists() else ():
        if line.startswith("model name"):
            return line.split(":", 1)[1].strip()
    return platform.processor() or "unknown processor"


def commit() -> str:
    """The commit that is checked out, with a mark if files were changed."""
    asked = ["git", "-C", str(ROOT), "describe", "--always", "--dirty", "--abbrev=7", "--exclude=*"]
    done = subprocess.run(asked, capture_output=True, text=True)
    return done.stdout.strip() or "unknown"


def conditions() -> dict[str, Any]:
    """What a figure of this run depends on, besides the program."""
    return {
        "commit": commit(),
        "date": time.strftime("%Y-%m-%d"),
        "processor": processor_model(),
        "cores": os.cpu_count() or 0,
        "load": round(os.getloadavg()[0], 1),
        "python": platform.python_version(),
        "sqlite": sqlite3.sqlite_version,
        "quick": SETTINGS.quick,
    }


@dataclass
class Report:
    """What a bench found. Each table is printed as soon as it is complete."""

    command: str
    tables: list[Table] = field(default_factory=list)
    plotted: list[Line] = field(default_factory=list)
    notes: list[str] = field(default_factory=list)

    def table(self, name: str, figures: str, heading: Sequence[str], rows: Iterable[Sequence[str]]) -> None:
        made = Table(name, figures, list(heading), [list(row) for row in rows])
        self.tables.append(made)
        print(f"\n{name}: {figures}", *made.lines(), sep="\n", flush=True)

    def line(self, plot: str, name: str, points: Iterable[tuple[float | str, float]]) -> None:
        self.plotted.append(Line(plot, name, [(place, height) for place, height in points]))

    def note(self, words: str) -> None:
        """A sentence that belongs to the figures, such as what was left out."""
        self.notes.append(words)
        print(words, flush=True)

    def finish(self) -> None:
        """Writes the report as JSON if the command line names a file."""
        if SETTINGS.json:
            SETTINGS.json.parent.mkdir(exist_ok=True)
            SETTINGS.json.write_text(json.dumps({"conditions": conditions(), **asdict(self)}, indent=1) + "\n")


def require(is_right: bool, what: str) -> None:
    """Ends the bench with status 1 if results differ."""
    if not is_right:
        sys.exit(f"answers differ: {what}")
