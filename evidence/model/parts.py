"""Where a script is cut: at each `;` outside of texts and comments."""

import re
from collections.abc import Iterator
from dataclasses import dataclass

# A text runs to the next quote and a comment to the line's end, or to the script's where there is none.
PIECE = re.compile(rb"'[^']*(?:'|\Z)|--[^\n]*|;|-|[^';-]+")
BLANK = re.compile(rb"(?:[\t\n\r ]++|--[^\n]*+\n?)*+")


@dataclass(frozen=True, slots=True)
class Part:
    """The bytes between two cuts, and whether a `;` closes them."""

    text: bytes
    is_closed: bool


def parts_of(script: bytes) -> Iterator[Part]:
    """The parts of a script that get a reply: those of more than blanks and comments."""
    start = 0
    for piece in PIECE.finditer(script):
        if piece[0] == b";":
            if not is_blank(part := script[start : piece.start()]):
                yield Part(part, True)
            start = piece.end()
    if not is_blank(last := script[start:]):
        yield Part(last, False)


def is_blank(text: bytes) -> bool:
    """Whether these are blanks and comments alone."""
    return BLANK.fullmatch(text) is not None
