"""What holds for the replies of any correct store, over tables that span several segments of each layout.

    parts      a condition is true, false or unknown at each row, and at no row two of these; NOT exchanges two of them
    folds      set functions, and groups, are those of the rows that are shown
    kept       an UPDATE to itself, a REBUILD in any layout, and a SAVE and an OPEN change no reply
    gone       after a DELETE the other rows are left, in their order
"""

import itertools
from collections.abc import Callable, Iterator
from dataclasses import dataclass
from random import Random

from answers import Line, Unanswered, ask, lines_of
from common import Progress, Told
from made_files import cell_of
from model.tree import Coding, ColumnDef, Layout, Type, Value
from program import Program
from writer import Tokens, Writer

SIZES = (1, 63, 64, 65, 255, 256, 257, 513, 1_023, 1_024, 1_025, 4_097)
LARGE = 100_000
CONDITIONS = 6
CONDITIONS_OF_LARGE = 3
FOLDS = "COUNT(*), COUNT(a), SUM(a), MIN(a), MAX(a), MEDIAN(a), COUNT(b), SUM(b), MIN(b), MAX(b), MEDIAN(b)"
GROUP_FOLDS = "a, COUNT(*), COUNT(b), SUM(b), MIN(b), MAX(b), MEDIAN(b)"


@dataclass(frozen=True)
class Shape:
    """A table by the layout, kind and type of its column A and its number of rows."""

    layout: Layout
    coding: Coding
    type: Type
    rows: int

    def __str__(self) -> str:
        return f"{self.rows} rows of {self.type.name} in {self.layout.name}, {self.coding.name}"


class Asker(Writer):
    """A writer of conditions that names only existing columns."""

    def column(self, columns: list[ColumnDef]) -> str:
        """One of these columns."""
        return self.one(*columns).name

    def literal(self, value: Value) -> Tokens:
        """The tokens of a value, which is one of 64 bits."""
        return super().literal(value if value is None else max(-(2**63), min(2**63 - 1, value)))


def shapes() -> list[Shape]:
    """All shapes: each layout, kind and type that go together, in all sizes, and some large ones."""
    columns = [it for it in itertools.product(Layout, Coding, Type) if it[0].holds(it[2])]
    return [Shape(*column, rows) for rows in SIZES for column in columns] + [
        Shape(layout, coding, Type.INTEGER, LARGE) for layout in Layout for coding in Coding
    ]


@dataclass
class Filled:
    """A table with rows: the statements that fill it, the file that they load, and conditions over its columns."""

    shape: Shape
    statements: list[str]
    files: dict[str, bytes]
    conditions: list[str]


def filled(shape: Shape, generator: Random) -> Filled:
    """A table T of this shape: columns A and B, and the number of each row in C. Some rows are deleted again."""
    asker = Asker(generator, 0)
    asker.values = asker.some_values()
    other = generator.choice([shape.layout, shape.layout, Layout.S, Layout.V])
    columns = [
        ColumnDef("A", shape.type, shape.layout, shape.coding),
        ColumnDef("B", shape.type, other, generator.choice([*Coding, shape.coding])),
    ]
    definitions = ", ".join(" ".join(asker.column_def(column)) for column in columns)
    cells = [[cell_of(generator, shape.type, asker.values) for _ in columns] for _ in range(shape.rows)]
    lines = [",".join("" if cell is None else str(cell) for cell in [*row, place]) for place, row in enumerate(cells)]
    first = generator.randrange(shape.rows + 1)
    statements = [
        f"CREATE TABLE t ({definitions}, c INTEGER)",
        "LOAD t FROM 'rows.csv'",
        f"DELETE FROM t WHERE c BETWEEN {first} AND {first + generator.randrange(1, 300)}",
    ]
    count = CONDITIONS if shape.rows < LARGE else CONDITIONS_OF_LARGE
    conditions = [" ".join(asker.condition(columns, generator.choice([0, 1, 2]))) for _ in range(count)]
    return Filled(shape, statements, {"rows.csv": "\n".join(lines).encode() + b"\n"}, conditions)


def in_turn(replies: list[str], size: int) -> list[list[str]]:
    """The replies, this number at a time."""
    return [replies[at : at + size] for at in range(0, len(replies), size)]


def parts(program: Program, table: Filled) -> Iterator[str]:
    """Faults of the rows at which conditions are true, false and unknown."""
    tests = ("({})", "({}) IS TRUE", "NOT ({})", "({}) IS FALSE", "({}) IS UNKNOWN", "({}) IS NOT UNKNOWN")
    questions = [f"SELECT c FROM t WHERE {test.format(it)}" for it in table.conditions for test in tests]
    replies = ask(program, [*table.statements, "SELECT c FROM t", *questions], table.files)[len(table.statements) :]
    whole = lines_of(replies[0])
    for condition, said in zip(table.conditions, in_turn(replies[1:], len(tests)), strict=True):
        plain, true, negated, false, unknown, known = map(lines_of, said)
        others = set(unknown)
        if sorted(true + false + unknown) != whole:
            yield f"the rows where {condition} is true, false and unknown are not all rows, once each"
        if plain != true or negated != false:
            yield f"the rows of {condition} or of its NOT are others than those where it is true or false"
        if known != [row for row in whole if row not in others]:
            yield f"the rows where {condition} is not unknown are others"


def folded(rows: list[Line], place: int) -> Line:
    """COUNT, SUM, MIN, MAX and MEDIAN of a column of the rows."""
    values = sorted(row[place] for row in rows if row[place] is not None)
    if not values:
        return 0, None, None, None, None
    return len(values), sum(values), values[0], values[-1], values[(len(values) - 1) // 2]


def folds(program: Program, table: Filled) -> Iterator[str]:
    """Faults of set functions, and of groups."""
    lists = ("a, b", FOLDS, GROUP_FOLDS)
    tails = ("", "", " GROUP BY a")
    questions = [
        f"SELECT {items} FROM t WHERE {condition}{tail}"
        for condition in table.conditions
        for items, tail in zip(lists, tails, strict=True)
    ]
    replies = ask(program, [*table.statements, *questions], table.files)[len(table.statements) :]
    for condition, said in zip(table.conditions, in_turn(replies, len(lists)), strict=True):
        rows, functions, groups = map(lines_of, said)
        if functions != [(len(rows), *folded(rows, 0), *folded(rows, 1))]:
            yield f"set functions over {condition} are others than those of the rows shown"
        if groups != list(group_lines(rows)):
            yield f"groups over {condition} are others than those of the rows shown"


def group_lines(rows: list[Line]) -> Iterator[Line]:
    """The lines of the groups of rows by their first column."""
    groups: dict[Value, list[Line]] = {}
    for row in rows:
        groups.setdefault(row[0], []).append(row)
    for value in sorted(groups, key=lambda value: (value is None, value or 0)):
        yield value, len(groups[value]), *folded(groups[value], 1)


def kept(program: Program, table: Filled) -> Iterator[str]:
    """Faults of statements that should change no reply."""
    changes = {
        "an UPDATE to itself": ["UPDATE t SET a = a, b = b"],
        "an UPDATE to itself where a condition is true": [f"UPDATE t SET b = b WHERE {table.conditions[0]}"],
        "an UPDATE to and fro": ["UPDATE t SET a = b, b = a", "UPDATE t SET a = b, b = a"],
        "a REBUILD": ["REBUILD t"],
        "a SAVE and an OPEN": ["SAVE t TO 'f'", "DROP TABLE t", "OPEN t FROM 'f'"],
    }
    for layout, coding in itertools.product(Layout, Coding):
        if layout.holds(table.shape.type):
            changes[f"a REBUILD in {layout.name}"] = [f"REBUILD t (a USING {layout.name} {coding.name})"]
    questions = [f"SELECT * FROM t WHERE {condition}" for condition in table.conditions]
    questions += [f"SELECT {FOLDS} FROM t WHERE {condition}" for condition in table.conditions]
    statements = [*table.statements, *questions]
    for change in changes.values():
        statements += [*change, *questions]
    replies = ask(program, statements, table.files)[len(table.statements) :]
    first, rest = replies[: len(questions)], replies[len(questions) :]
    for name, change in changes.items():
        if rest[len(change) : len(change) + len(questions)] != first:
            yield f"{name} changes answers"
        rest = rest[len(change) + len(questions) :]


def gone(program: Program, table: Filled) -> Iterator[str]:
    """Faults of the rows that a DELETE leaves."""
    for condition in table.conditions[:2]:
        changes = [f"DELETE FROM t WHERE {condition}", "SELECT c FROM t", "TABLES"]
        asked = [*table.statements, "SELECT c FROM t", f"SELECT c FROM t WHERE {condition}", *changes]
        whole, found, deleted, rest, listed = ask(program, asked, table.files)[len(table.statements) :]
        rows = set(lines_of(found))
        if lines_of(rest) != [row for row in lines_of(whole) if row not in rows] or deleted != f"ok {len(rows)}":
            yield f"DELETE WHERE {condition} leaves other rows than those where it isn't true"
        if f"\nT,3,{len(lines_of(rest))}\n" not in listed:
            yield f"after DELETE WHERE {condition} TABLES counts other rows"


Relation = Callable[[Program, Filled], Iterator[str]]
RELATIONS: tuple[Relation, ...] = (parts, folds, kept, gone)


def faults_of(relation: Relation, program: Program, table: Filled) -> Iterator[str]:
    """The faults of a relation, or that there are no replies to check it on."""
    try:
        yield from relation(program, table)
    except Unanswered as fault:
        yield f"{relation.__name__}: {fault}"


def run(path: str, seed: int) -> Told:
    """Checks all relations over tables of all shapes."""
    every = shapes()
    told, program, progress = Told(), Program.at(path), Progress("relations", len(every))
    for number, shape in enumerate(every):
        table = filled(shape, Random(f"relations {seed}:{number}"))
        for relation in RELATIONS:
            told.count += 1
            for fault in faults_of(relation, program, table):
                progress.clear()
                told.differences.append(f"seed {seed}, table {number} ({shape}): {fault}")
                print(told.differences[-1], flush=True)
        progress.step(str(shape))
    progress.clear()
    program.close()
    return told
