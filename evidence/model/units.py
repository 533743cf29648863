"""What a condition reads (docs/STATS.md and docs/LAYOUTS.md), in units, at the slots where it is needed."""

from collections.abc import Iterable

from model import tree
from model.conditions import truth
from model.encodings import Ends, Offset
from model.store import Column, Table
from model.tree import Layout

MOST_UNITS = 2**64 - 1
GROUP = 4  # planes of V that are stored together
PLANE_ROWS = 256
FLIPPED = {"=": "=", "<>": "<>", "<": ">", "<=": ">=", ">": "<", ">=": "<="}

Slots = list[int]


def units_of(table: Table, where: tree.Condition | None) -> int:
    """The units that a WHERE reads: it is needed at the live slots."""
    live = [place for place, slot in enumerate(table.slots) if slot.is_live]
    return min(MOST_UNITS, condition_units(table, where, live)) if where else 0


def condition_units(table: Table, condition: tree.Condition, needed: Slots) -> int:
    """The units that a condition reads at these slots."""
    match condition:
        case tree.Comparison(left, relation, right):
            return comparison_units(table, left, relation, right, needed)
        case tree.Between(operand, low, high):
            return between_units(table, operand, low, high, needed)
        case tree.In(tree.Name(name), entries):
            return list_units(table, table.column(name), entries, needed)
        case tree.Not(inner) | tree.Is(inner, _):
            return condition_units(table, inner, needed)
        case tree.And(parts):
            return run_units(table, parts, needed, False)
        case tree.Or(parts):
            return run_units(table, parts, needed, True)
    return 0


def run_units(table: Table, parts: Iterable[tree.Condition], needed: Slots, settled: bool) -> int:
    """The units of parts in order: each is needed where none before it has the truth that settles the run."""
    units = 0
    for part in parts:
        units += condition_units(table, part, needed)
        needed = [place for place in needed if truth(part, table.slots[place].cells) is not settled]
    return units


def comparison_units(
    table: Table, left: tree.Operand, relation: str, right: tree.Operand, needed: Slots
) -> int:
    """The units of a comparison, which reads nothing without a column or with NULL."""
    match left, right:
        case tree.Name(name), tree.Name(other):
            return pair_units(table, table.column(name), table.column(other), needed)
        case tree.Name(name), int(constant):
            column = table.column(name)
            return scan_units(table, column, column.encoding.ends(relation, constant), needed)
        case int(constant), tree.Name(name):
            column = table.column(name)
            return scan_units(table, column, column.encoding.ends(FLIPPED[relation], constant), needed)
    return 0


def between_units(
    table: Table, operand: tree.Operand, low: tree.Operand, high: tree.Operand, needed: Slots
) -> int:
    """The units of a BETWEEN: one scan between two numbers, and else its two comparisons as in a run of AND."""
    match operand, low, high:
        case tree.Name(name), int(), int():
            column = table.column(name)
            return scan_units(table, column, column.encoding.range_ends(low, high), needed)
    parts = tree.Comparison(operand, ">=", low), tree.Comparison(operand, "<=", high)
    return run_units(table, parts, needed, False)


def list_units(table: Table, column: Column, entries: Iterable[tree.Value], needed: Slots) -> int:
    """The units of an IN: a scan for each number, where no number before it was equal."""
    units = 0
    for entry in entries:
        if entry is not None:
            units += scan_units(table, column, column.encoding.ends("=", entry), needed)
            needed = [place for place in needed if table.cell(column, place) != entry]
    return units


def scan_units(table: Table, column: Column, ends: Ends, needed: Slots) -> int:
    """The units of one scan: by segment the greatest agreement of a needed code with an end."""
    pairs = []
    if ends:
        for place in needed:
            if (value := table.cell(column, place)) is not None:
                code = column.encoding.code(value)
                pairs.append((place, max(agreement(column, code, end) for end in ends)))
    return segment_units(column, pairs)


def pair_units(table: Table, column: Column, other: Column, needed: Slots) -> int:
    """The units of a comparison of two columns, where neither is NULL."""
    cells = [(place, table.cell(column, place), table.cell(other, place)) for place in needed]
    cells = [(place, one, two) for place, one, two in cells if one is not None and two is not None]
    if not cells:
        return 0
    if column.layout is other.layout and column.encoding == other.encoding:
        code = column.encoding.code
        pairs = [(place, agreement(column, code(one), code(two))) for place, one, two in cells]
        return 2 * segment_units(column, pairs)
    encodings = column.encoding, other.encoding
    if Layout.P not in (column.layout, other.layout) and all(isinstance(it, Offset) for it in encodings):
        return (column.encoding.width + other.encoding.width) * ceiling(len(table.slots), PLANE_ROWS)
    return 2 * len(cells)


def agreement(column: Column, code: int, other: int) -> int:
    """The number of leading digits in which two codes are equal: bytes of the shifted codes in S, and else bits."""
    width = column.encoding.width
    if column.layout is Layout.S:
        slices = ceiling(width, 8)
        shifted = (code ^ other) << (8 * slices - width)
        return slices - ceiling(shifted.bit_length(), 8)
    return width - (code ^ other).bit_length()


def segment_units(column: Column, pairs: Iterable[tuple[int, int]]) -> int:
    """The units of all segments with a needed slot, where each needed slot comes with its agreement."""
    width, greatest = column.encoding.width, {}
    rows = rows_of_segment(column)
    for place, agreed in pairs:
        segment = place // rows
        greatest[segment] = max(agreed, greatest.get(segment, 0))
    match column.layout:
        case Layout.V:
            return sum(min(width, GROUP * (agreed // GROUP + 1)) for agreed in greatest.values())
        case Layout.S:
            return sum(min(ceiling(width, 8), agreed + 1) for agreed in greatest.values())
        case Layout.H:
            return len(greatest) * (width + 1)
        case _:
            return len(greatest)


def rows_of_segment(column: Column) -> int:
    """How many rows a segment of the column's layout has."""
    sections = column.encoding.width + 1
    return {Layout.P: 1, Layout.V: 256, Layout.H: sections * (64 // sections), Layout.S: 32}[column.layout]


def ceiling(number: int, divisor: int) -> int:
    """The quotient, rounded up."""
    return -(-number // divisor)
