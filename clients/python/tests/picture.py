"""Draws a terminal's text as SVG: bold, faint and red like the shell's colours."""

from __future__ import annotations

import re
from collections.abc import Iterator
from xml.sax.saxutils import escape

_COLOUR = re.compile(r"\x1b\[(\d*)m")
_STYLES = {"1": "font-weight: bold", "2": "opacity: 0.6", "31": "fill: #e5534b"}
_LETTER, _LINE, _ROOM = 8.43, 19, 16
_BACKGROUND, _TEXT = "#14171c", "#d7dbe0"


def svg_of(text: str, title: str) -> str:
    """Returns the picture of some lines with their colours."""
    lines = text.rstrip("\n").split("\n")
    width = round(2 * _ROOM + _LETTER * max(len(_COLOUR.sub("", line)) for line in lines))
    height = 2 * _ROOM + _LINE * len(lines)
    drawn = "\n".join(_drawn(line, _ROOM + _LINE * (place + 0.75)) for place, line in enumerate(lines) if line)
    return (
        f'<svg xmlns="http://www.w3.org/2000/svg" width="{width}" height="{height}" role="img">\n'
        f"<title>{escape(title)}</title>\n"
        f'<rect width="100%" height="100%" rx="8" fill="{_BACKGROUND}"/>\n'
        f'<g font-family="ui-monospace, DejaVu Sans Mono, Menlo, Consolas, monospace" font-size="14" fill="{_TEXT}">\n'
        f"{drawn}\n</g>\n</svg>\n"
    )


def _drawn(line: str, height: float) -> str:
    """Draws a line with a width that depends only on its number of letters, in whatever font."""
    shown = "".join(
        f'<tspan style="{_STYLES[style]}">{escape(piece)}</tspan>' if style in _STYLES else escape(piece)
        for style, piece in _pieces(line)
    )
    length = _LETTER * len(_COLOUR.sub("", line))
    return f'<text x="{_ROOM}" y="{height:g}" textLength="{length:.1f}" xml:space="preserve">{shown}</text>'


def _pieces(line: str) -> Iterator[tuple[str, str]]:
    """Yields the pieces of a line, each with the number of its style, if it has one."""
    parts = ["", *_COLOUR.split(line)]
    for style, piece in zip(parts[::2], parts[1::2]):
        if piece:
            yield style, piece
