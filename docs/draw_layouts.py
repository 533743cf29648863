#!/usr/bin/env python3
"""Draws docs/layouts.svg: a segment in each layout, units, a scan that stops early, two columns added plane by plane.

    python3 docs/draw_layouts.py [SVG]      docs/layouts.svg if not given

Bits, masks and units are computed from the codes below, so the drawing can't disagree with itself.
"""

import sys
from pathlib import Path
from xml.sax.saxutils import escape

WIDE = 920
INK, FAINT, LINE = "#1f2430", "#6b7280", "#9aa3b2"
PAPER, PANEL = "#ffffff", "#f6f7f9"
BLUE, GREEN, ORANGE, GREY = "#cfe2f7", "#d3edda", "#e07b1a", "#e3e5ea"
DARK_BLUE = "#7fb0e3"


class Drawing:
    """Marks, one after the other."""

    def __init__(self):
        self.marks = []

    def box(self, x, y, width, height, fill=PAPER, stroke=LINE, thick=1.0):
        self.marks.append(
            f'<rect x="{x:.1f}" y="{y:.1f}" width="{width:.1f}" height="{height:.1f}" '
            f'fill="{fill}" stroke="{stroke}" stroke-width="{thick}"/>'
        )

    def words(self, x, y, text, size=13, anchor="start", colour=INK, bold=False, mono=False):
        family = "monospace" if mono else "sans-serif"
        weight = "bold" if bold else "normal"
        self.marks.append(
            f'<text x="{x:.1f}" y="{y:.1f}" font-size="{size}" font-family="{family}" font-weight="{weight}" '
            f'text-anchor="{anchor}" fill="{colour}">{escape(text)}</text>'
        )

    def cell(self, x, y, width, height, text, fill=PAPER, size=12, colour=INK, mono=True):
        self.box(x, y, width, height, fill)
        self.words(x + width / 2, y + height / 2 + size * 0.36, text, size, "middle", colour, mono=mono)

    def line(self, x1, y1, x2, y2, colour=LINE, thick=1.0):
        self.marks.append(
            f'<line x1="{x1:.1f}" y1="{y1:.1f}" x2="{x2:.1f}" y2="{y2:.1f}" stroke="{colour}" stroke-width="{thick}"/>'
        )

    def panel(self, y, height, title):
        self.box(10, y, WIDE - 20, height, PANEL, LINE)
        self.words(26, y + 26, title, 16, bold=True)

    def svg(self, high):
        head = f'<svg xmlns="http://www.w3.org/2000/svg" viewBox="0 0 {WIDE} {high}" width="{WIDE}" height="{high}">'
        # The background is opaque, so that the drawing reads the same on a white and on a dark page.
        paper = f'<rect x="0" y="0" width="{WIDE}" height="{high}" fill="{PAPER}"/>'
        return "\n".join([head, "<title>The layouts of bitcol</title>", paper, *self.marks, "</svg>"]) + "\n"


def bits_of(code, k):
    """The bits of a code, the highest first."""
    return [code >> (k - 1 - i) & 1 for i in range(k)]


def draw_segments(d, top):
    """One segment in each layout, of codes of ten bits; one unit of each is framed."""
    k, first = 10, 515
    d.panel(top, 486, f"A segment in each layout: codes of {k} bits; row 0 has the code {first}")
    d.box(666, top + 15, 14, 14, PAPER, ORANGE, 2.5)
    d.words(688, top + 27, "one unit: what one read takes")

    x, y = 214, top + 54
    d.words(26, y + 12, "V  BitWeaving/V", bold=True)
    d.words(26, y + 30, "256 rows", colour=FAINT)
    d.words(26, y + 48, "10 planes of", colour=FAINT)
    d.words(26, y + 64, "four words", colour=FAINT)
    word = 140
    for plane, bit in enumerate(bits_of(first, k)):
        line = y + plane * 17 + (plane // 4) * 5
        for j in range(4):
            d.box(x + j * word, line, word, 15, BLUE)
            d.words(x + j * word + word / 2, line + 12, f"rows {64 * j} to {64 * j + 63}", 10, "middle", FAINT)
        d.cell(x, line, 15, 15, str(bit), DARK_BLUE, 11)
        d.words(x - 6, line + 12, f"plane {plane}", 10, "end", FAINT)
    d.box(x - 2, y - 2, 4 * word + 4, 19, "none", ORANGE, 2.5)
    for group, (planes, at) in enumerate(((4, 0), (4, 73), (2, 146))):
        d.line(x + 4 * word + 8, y + at, x + 4 * word + 8, y + at + planes * 17 - 2, INK, 2)
        d.words(x + 4 * word + 14, y + at + planes * 8.5 + 3, f"group {group}", 12)

    y += 204
    d.words(26, y + 12, "S  ByteSlice", bold=True)
    d.words(26, y + 30, "32 rows", colour=FAINT)
    shifted = first << 6
    for j in range(2):
        for row in range(32):
            d.box(x + row * 17.5, y + j * 22, 17.5, 18, GREEN)
        d.cell(x, y + j * 22, 17.5, 18, f"{shifted >> 8 * (1 - j) & 255:02x}", "#8fcf9f", 11)
        d.words(x - 6, y + j * 22 + 13, f"slice {j}", 10, "end", FAINT)
    d.box(x - 2, y - 2, 564, 22, "none", ORANGE, 2.5)
    note = "a byte for each row; the code is shifted up by 6 bits, so that slice 0 has its highest 8 bits"
    d.words(x, y + 60, note, 12, colour=FAINT)

    y += 84
    d.words(26, y + 12, "H  BitWeaving/H", bold=True)
    d.words(26, y + 30, "55 rows", colour=FAINT)
    d.words(26, y + 48, "11 words of five", colour=FAINT)
    d.words(26, y + 64, "11-bit sections", colour=FAINT)
    section = 560 * 11 / 64
    spare = 560 - 5 * section
    for line, i in enumerate((0, 1, None, 10)):
        at = y + line * 21
        if i is None:
            d.words(x + 280, at + 13, ". . .", 13, "middle", FAINT)
            continue
        d.words(x - 6, at + 13, f"word {i}", 10, "end", FAINT)
        d.box(x, at, spare, 18, GREY)
        d.words(x + spare / 2, at + 13, "9 spare", 10, "middle", FAINT)
        for t in range(5):
            left = x + spare + (4 - t) * section
            d.box(left, at, section, 18, "#fbe6cf")
            d.box(left, at, section / 11, 18, "#b98a52")
            d.words(left + section / 11 + section * 5 / 11, at + 13, f"row {i + 11 * t}", 11, "middle")
    d.box(x - 2, y - 2, 564, 22, "none", ORANGE, 2.5)
    d.words(x + 574, y + 14, "brown:", 12, colour=FAINT)
    d.words(x + 574, y + 30, "delimiter, 0", 12, colour=FAINT)

    y += 102
    d.words(26, y + 13, "P  plain", bold=True)
    d.words(26, y + 29, "1 row", colour=FAINT)
    for row in range(8):
        d.cell(x + row * 70, y, 70, 18, f"row {row}" if row else str(first), "#ece3f5", 11, mono=False)
    d.box(x - 2, y - 2, 74, 22, "none", ORANGE, 2.5)
    d.words(x + 574, y + 14, "4 bytes a code", 12, colour=FAINT)
    return top + 486


def draw_units(d, top):
    """How much a unit of each layout is, to scale."""
    d.panel(top, 150, "A unit, to scale in bits")
    units = (
        ("V", 256, BLUE, "one plane of a segment: 1 bit of 256 rows"),
        ("S", 256, GREEN, "one slice of a segment: 8 bits of 32 rows"),
        ("H", 64, "#fbe6cf", "one word: all bits of floor(64 / (k + 1)) rows"),
        ("P", 32, "#ece3f5", "one code: all bits of 1 row"),
    )
    for i, (layout, bits, fill, text) in enumerate(units):
        y = top + 42 + i * 25
        d.words(30, y + 14, layout, bold=True)
        d.box(56, y, bits * 1.6, 18, fill)
        d.words(56 + bits * 0.8, y + 13, f"{bits}", 11, "middle", mono=True)
        d.words(484, y + 14, text)
    return top + 150


def draw_scan(d, top):
    """A scan of planes: the masks of the rows below and of the rows equal so far, plane by plane."""
    k, constant = 8, 88
    codes = (3, 200, 70, 16, 120, 255, 32, 64)
    d.panel(top, 318, f"A scan that stops early: code < {constant} in V, codes of {k} bits, eight rows of a segment")
    left, y, cell = 180, top + 64, 26
    mask_lt, mask_eq = left + 8 * cell + 40, left + 16 * cell + 80
    d.words(left - 12, y - 6, f"bit of {constant}", 12, "end", FAINT)
    for row, code in enumerate(codes):
        d.words(left + row * cell + cell / 2, y - 6, str(code), 11, "middle", mono=True)
    d.words(mask_lt + 4 * cell, y - 6, "below so far", 12, "middle")
    d.words(mask_eq + 4 * cell, y - 6, "equal so far", 12, "middle")
    lt, eq, stopped = [0] * 8, [1] * 8, False
    at = y
    for plane in range(k):
        bit = bits_of(constant, k)[plane]
        column = [bits_of(code, k)[plane] for code in codes]
        ink = LINE if stopped else INK
        d.words(26, at + 16, f"plane {plane}", 12, colour=FAINT if not stopped else LINE)
        d.words(left - 40, at + 16, str(bit), 13, "middle", ink, mono=True)
        for row, value in enumerate(column):
            d.cell(left + row * cell, at, cell, 21, str(value), GREY if stopped else BLUE, 12, ink)
        if not stopped:
            lt = [low or (same and bit and not value) for low, same, value in zip(lt, eq, column)]
            eq = [same and value == bit for same, value in zip(eq, column)]
            for row in range(8):
                d.cell(mask_lt + row * cell, at, cell, 21, str(int(lt[row])), GREEN if lt[row] else PAPER, 12)
                d.cell(mask_eq + row * cell, at, cell, 21, str(int(eq[row])), "#fbe6cf" if eq[row] else PAPER, 12)
        at += 23
        if plane == 3:
            assert not any(eq)
            stopped = True
            d.line(22, at + 3, WIDE - 24, at + 3, ORANGE, 2.5)
            at += 8
    assert [int(value) for value in lt] == [int(code < constant) for code in codes]
    agreement = max(next((i for i in range(k) if bits_of(code, k)[i] != bits_of(constant, k)[i]), k) for code in codes)
    units = min(k, 4 * (agreement // 4 + 1))
    assert units == 4
    below = y + 4 * 23 + 30
    for i, text in enumerate(
        (
            "End of a group of four planes, and no row is equal so far:",
            "no further bit can change the answer, and the segment is left.",
            f"Read: {units} of {k} units. By the formula: the greatest agreement of a",
            f"row with {constant} is {agreement} bits, so min({k}, 4 * (floor({agreement} / 4) + 1)) = {units}.",
        )
    ):
        d.words(mask_lt, below + i * 19, text, 13)
    note = "S does the same with bytes in place of bits, and may leave a segment of 32 rows after any slice."
    d.words(26, top + 300, note, 13, colour=FAINT)
    return top + 318


def draw_addition(d, top):
    """Two columns of different bases: one side is lifted by the difference, and compared from the lowest plane up."""
    base_a, base_b, k = 5, 3, 3
    a, b = (5, 6, 9, 12), (3, 8, 7, 10)
    lift = base_a - base_b
    bases = f"a has base {base_a} and b base {base_b}, so {lift} is added to the codes of a"
    d.panel(top, 320, f"a < b, plane by plane: {bases}")
    left, cell, y = 128, 32, top + 120
    blocks = [
        ("code of a", BLUE),
        (f"code of a + {lift}", BLUE),
        ("carry", "#fbe6cf"),
        ("code of b", GREEN),
        ("a < b so far", "#8fcf9f"),
    ]
    starts = [left + i * (4 * cell + 22) for i in range(5)]
    d.words(26, top + 52, "values of a", 12, colour=FAINT)
    d.words(26, top + 72, "values of b", 12, colour=FAINT)
    for row in range(4):
        d.words(left + row * cell + cell / 2, top + 52, str(a[row]), 12, "middle", mono=True)
        d.words(left + row * cell + cell / 2, top + 72, str(b[row]), 12, "middle", mono=True)
    for (name, _), start in zip(blocks, starts):
        d.words(start + 2 * cell, y - 12, name, 12, "middle", bold=True)
    code_a, code_b = [value - base_a for value in a], [value - base_b for value in b]
    carry, lt = [0] * 4, [0] * 4
    for plane, name in enumerate(("ones", "twos", "fours", "eights")):
        at = y + plane * 30
        d.words(26, at + 17, name, 13)
        d.words(84, at + 17, f"+{lift >> plane & 1}", 13, "middle", FAINT, mono=True)
        bit = lift >> plane & 1
        bits_a = [code >> plane & 1 for code in code_a]
        bits_b = [code >> plane & 1 for code in code_b]
        sums = [x ^ bit ^ c for x, c in zip(bits_a, carry)]
        carry = [x + bit + c >> 1 for x, c in zip(bits_a, carry)]
        lt = [int(x < z) if x != z else low for x, z, low in zip(sums, bits_b, lt)]
        for start, (_, fill), values in zip(starts, blocks, (bits_a, sums, carry, bits_b, lt)):
            read = plane < k or fill not in (BLUE, GREEN) or values is sums
            for row in range(4):
                if read:
                    shown = fill if values[row] or fill in (BLUE, GREEN) else PAPER
                    d.cell(start + row * cell, at, cell, 22, str(values[row]), shown, 12)
                else:
                    d.cell(start + row * cell, at, cell, 22, "", GREY)
    assert lt == [int(x < z) for x, z in zip(a, b)]
    for i, text in enumerate(
        (
            "Each plane adds a bit of the difference and the carry, and decides anew where its two bits differ; where",
            "they are equal, what the planes below decided stays. The highest plane of a sum is made from the carry alone.",
            f"Read: all {k} planes of both, {2 * k} units for each 256 rows. There is no early stop: the highest plane is last.",
        )
    ):
        d.words(26, y + 144 + i * 20, text, 13)
    return top + 320


def main():
    path = Path(sys.argv[1]) if len(sys.argv) > 1 else Path(__file__).resolve().parent / "layouts.svg"
    drawing, top = Drawing(), 10
    for draw in (draw_segments, draw_units, draw_scan, draw_addition):
        top = draw(drawing, top) + 10
    path.write_text(drawing.svg(top))


if __name__ == "__main__":
    main()
