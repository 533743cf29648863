"""What the evidence shares: where the tree and its programs are, and progress of long work."""

import sys
import time
from collections import Counter
from dataclasses import dataclass, field
from pathlib import Path

TOP = Path(__file__).resolve().parent.parent
MEGABYTE = 1_000_000
SECONDS_BETWEEN_LINES = 0.2


def built(crate: str) -> str:
    """The program that `rt run` builds in the folder of this crate."""
    program = TOP / "crates" / crate / "out" / crate
    if not program.exists():
        sys.exit(f"build {crate} first: rt run, in crates/{crate}")
    return str(program)


class Progress:
    """Progress of long work: one line on standard error that is overwritten, if that is a terminal."""

    def __init__(self, name: str, total: int) -> None:
        self.name, self.total, self.done = name, total, 0
        self.began, self.shown = time.monotonic(), 0.0
        self.shows = sys.stderr.isatty()

    def step(self, note: str = "") -> None:
        """One more piece of the work is done."""
        self.done += 1
        now = time.monotonic()
        if self.shows and (now - self.shown > SECONDS_BETWEEN_LINES or self.done == self.total):
            self.shown = now
            left = (now - self.began) / self.done * (self.total - self.done)
            line = f"{self.name}: {self.done:,} of {self.total:,}, {left:,.0f} s left{', ' * bool(note)}{note}"
            print(f"\r{line[:119]}\x1b[K", end="", file=sys.stderr, flush=True)

    def clear(self) -> None:
        """Removes the line, so that something else can be printed."""
        if self.shows:
            print("\r\x1b[K", end="", file=sys.stderr, flush=True)


@dataclass
class Told:
    """The result of a piece of the work: how many checks, how many replies of each kind, and the differences."""

    count: int = 0
    replies: Counter[str] = field(default_factory=Counter)
    differences: list[str] = field(default_factory=list)

    def add(self, other: "Told") -> None:
        """Adds the result of another piece."""
        self.count += other.count
        self.replies.update(other.replies)
        self.differences += other.differences
