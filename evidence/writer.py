"""Random scripts: every statement, type, layout and kind, over tables that the writer keeps track of."""

from dataclasses import dataclass, field
from random import Random
from typing import TypeVar

from made_files import csv_file, definition, table_file
from model.tree import Coding, ColumnDef, Layout, Type, Value
from spelling import broken, joined, last_part, odd_parts

TABLE_NAMES = ["t", "u", "v", "tables", "stats"]
COLUMN_NAMES = ["a", "b", "c", "d", "v", "h", "header", "x_1"]
MISSING = ["nowhere", "z"]
FILE_NAMES = ["'{}.table'", "'{}''s.table'", "'é;{}.table'", "'folder/{}.table'"]
BAD_PATHS = ["'missing.csv'", "'no_folder/f.table'", "'folder'"]
RELATIONS = ["=", "<>", "!=", "<", "<=", ">", ">="]
FUNCTIONS = ["COUNT", "SUM", "MIN", "MAX", "MEDIAN"]
ENDS = [-(2**31), 2**31 - 1, -(2**63), 2**63 - 1, 2**31, -(2**31) - 1, 2**32, -1, 0, 1]

Tokens = list[str]
Choice = TypeVar("Choice")


@dataclass(frozen=True)
class Script:
    """A script as its statements, each with its `;`, and the files that it finds.

    Some have to be run on their own: those with --stop, and those with a last part that no `;` closes.
    """

    statements: list[bytes]
    files: dict[str, bytes]
    stops: bool = False
    is_alone: bool = False

    @property
    def text(self) -> bytes:
        """The script's bytes."""
        return b"".join(self.statements)


@dataclass
class Writer:
    """Writes a random script. It keeps track of which tables and columns exist if nothing is refused."""

    generator: Random
    number: int  # which begins the names of its files, so that no two scripts share one
    tables: dict[str, list[ColumnDef]] = field(default_factory=dict)
    saved: dict[str, list[ColumnDef]] = field(default_factory=dict)
    files: dict[str, bytes] = field(default_factory=dict)
    values: list[Value] = field(default_factory=list)

    def script(self) -> Script:
        """A script of some statements."""
        self.values = self.some_values()
        count = self.generator.choice([3, 5, 8, 12, 16, 24])
        statements = [self.create() for _ in range(self.generator.choice([1, 1, 2]))]
        statements += [self.insert()]
        while len(statements) < count:
            statements.append(self.statement())
        ends_open, stops = self.chance(0.01), self.chance(0.01)
        if ends_open:
            statements.append(last_part(self.generator))
        return Script(statements, self.files, stops, ends_open or stops)

    def chance(self, share: float) -> bool:
        """Whether something happens that happens in this share of cases."""
        return self.generator.random() < share

    def one(self, *choices: Choice) -> Choice:
        """One of these."""
        return self.generator.choice(choices)

    def some_values(self) -> list[Value]:
        """The values that tables and conditions of one script use: few, so that they coincide."""
        spread = self.one(1, 3, 15, 16, 200, 1000, 70_000, 2**31, 2**40)
        middle = self.one(0, 0, 0, 5, -7, 1000, 2**31 - 10, -(2**31) + 3, 2**62)
        count = self.one(2, 4, 10, 40)
        values: list[Value] = [middle + self.generator.randint(-spread // 2, spread) for _ in range(count)]
        values = [value if -(2**63) <= value < 2**63 else 0 for value in values]
        nulls = [None] * self.one(0, 1, count // 3)
        return values + nulls + (self.generator.sample(ENDS, 2) if self.chance(0.2) else [])

    def statement(self) -> bytes:
        """A statement of any kind, or something that is none."""
        if self.chance(0.02):
            return odd_parts(self.generator)
        if not self.tables and self.chance(0.7):
            return self.create()
        kinds = {
            self.select: 26,
            self.insert: 16,
            self.stats: 12,
            self.update: 12,
            self.delete: 6,
            self.rebuild: 7,
            self.load: 6,
            self.save: 5,
            self.open: 5,
            self.create: 5,
            self.tables_listed: 2,
            self.drop: 2,
        }
        (write,) = self.generator.choices(list(kinds), list(kinds.values()))
        return write()

    def spelled(self, tokens: Tokens) -> bytes:
        """The statement of these tokens, which now and then is broken."""
        return broken(self.generator, tokens) if self.chance(0.04) else joined(self.generator, tokens)

    def table(self) -> tuple[str, list[ColumnDef]]:
        """A table and its columns; now and then a table that doesn't exist."""
        if not self.tables or self.chance(0.01):
            return self.one(*MISSING, *TABLE_NAMES), [ColumnDef("A", Type.INTEGER, Layout.V, Coding.OFFSET)]
        name = self.one(*self.tables)
        return name, self.tables[name]

    def column(self, columns: list[ColumnDef]) -> str:
        """A column's name, which now and then isn't one of the table's."""
        return self.one(*MISSING, *COLUMN_NAMES) if self.chance(0.01) else self.one(*columns).name

    def value(self, column_type: Type = Type.BIGINT) -> Value:
        """A value that the type takes, but now and then one that it doesn't take."""
        for _ in range(4):
            value = self.one(*self.values)
            if column_type.takes(value):
                return value
        return self.one(*ENDS) if self.chance(0.03) else None

    def literal(self, value: Value) -> Tokens:
        """The tokens of a value."""
        if value is None:
            return ["NULL"]
        sign = ["-"] if value < 0 else ["+"] if self.chance(0.03) else []
        return [*sign, "00" * self.chance(0.02) + str(abs(value))]

    def listed(self, lists: list[Tokens]) -> Tokens:
        """Lists of tokens with commas between them."""
        return [token for tokens in lists for token in [",", *tokens]][1:]

    def create(self) -> bytes:
        """A CREATE TABLE, rarely with too many columns, a column twice, or a BIGINT in layout H."""
        name = self.one(*TABLE_NAMES)
        wide = self.one(64, 65, 65) if self.chance(0.004) else 0
        names = [f"w{place}" for place in range(wide)] or self.generator.sample(COLUMN_NAMES, self.one(1, 2, 2, 3, 4))
        columns = [definition(self.generator, name.upper(), 2) for name in names]
        if self.chance(0.02):
            columns.append(self.one(*columns))
        if self.chance(0.03):
            columns[0] = ColumnDef(columns[0].name, Type.BIGINT, Layout.H, columns[0].coding)
        elif name not in self.tables and len({column.name for column in columns}) == len(columns) <= 64:
            self.tables[name] = columns
        defs = [self.column_def(column) for column in columns]
        return self.spelled(["CREATE", "TABLE", name, "(", *self.listed(defs), ")"])

    def column_def(self, column: ColumnDef) -> Tokens:
        """The tokens of a column's definition, some of which may be left out."""
        word = "INT" if column.type is Type.INTEGER and self.chance(0.5) else column.type.name
        is_usual = column.layout is Layout.V and self.chance(0.5)
        using = [] if is_usual else ["USING", column.layout.name]
        kind = [] if column.coding is Coding.OFFSET and self.chance(0.5) else [column.coding.name]
        return [column.name, word, *using, *kind]

    def drop(self) -> bytes:
        """A DROP TABLE."""
        name, _ = self.table()
        self.tables.pop(name, None)
        return self.spelled(["DROP", "TABLE", name])

    def tables_listed(self) -> bytes:
        """A TABLES."""
        return self.spelled(["TABLES"])

    def insert(self) -> bytes:
        """An INSERT of a few rows, now and then of some hundred, with a list of columns or without."""
        name, columns = self.table()
        named = columns
        tokens = ["INSERT", "INTO", name]
        if self.chance(0.2):
            named = self.generator.sample(columns, self.generator.randint(1, len(columns)))
            names = [[self.column([column])] for column in named] + [[named[0].name]] * self.chance(0.03)
            tokens += ["(", *self.listed(names), ")"]
        count = self.one(1, 2, 3, 5, 9, self.one(31, 33, 64, 65, 250, 300, 520) if self.chance(0.08) else 7)
        rows = [self.tuple(named) for _ in range(count)]
        return self.spelled([*tokens, "VALUES", *self.listed(rows)])

    def tuple(self, columns: list[ColumnDef]) -> Tokens:
        """A row of VALUES, which rarely has a value too few, too many or out of range."""
        cells = [self.literal(self.value(column.type)) for column in columns]
        if self.chance(0.003):
            cells = self.one(cells[1:] or [["1"], ["1"]], [*cells, ["NULL"]], [["9223372036854775807"]] * len(cells))
        return ["(", *self.listed(cells), ")"]

    def update(self) -> bytes:
        """An UPDATE of one column or two."""
        name, columns = self.table()
        targets = self.generator.sample(columns, self.one(1, 1, min(2, len(columns))))
        targets += targets[:1] * self.chance(0.02)
        sets = [[self.column([target]), "=", *self.source(target, columns)] for target in targets]
        return self.spelled(["UPDATE", name, "SET", *self.listed(sets), *self.where(columns)])

    def source(self, target: ColumnDef, columns: list[ColumnDef]) -> Tokens:
        """A right side of SET."""
        if self.chance(0.45):
            return [self.column(columns)]
        return self.literal(self.one(*ENDS) if self.chance(0.08) else self.value(target.type))

    def delete(self) -> bytes:
        """A DELETE, nearly always with a condition."""
        name, columns = self.table()
        where = self.where(columns) if self.chance(0.95) else []
        return self.spelled(["DELETE", "FROM", name, *where])

    def select(self) -> bytes:
        """A SELECT."""
        return self.spelled(self.select_tokens())

    def stats(self) -> bytes:
        """A STATS."""
        return self.spelled(["STATS", *self.select_tokens()])

    def select_tokens(self) -> Tokens:
        """A SELECT of columns, of set functions or of groups, which now and then mixes what can't be mixed."""
        name, columns = self.table()
        grouping = self.column(columns)
        tail = ["FROM", name, *self.where(columns)]
        if self.chance(0.3):
            one_of = [self.function(columns), self.function(columns), [grouping]]
            items = [self.one(*one_of) for _ in range(self.one(1, 2, 3))]
            items = [["*"]] if self.chance(0.02) else items
            items += [[self.column(columns)]] * self.chance(0.03)
            return ["SELECT", *self.listed(items), *tail, "GROUP", "BY", grouping]
        if self.chance(0.35):
            items = [self.function(columns) for _ in range(self.one(1, 2, 6))] + [[grouping]] * self.chance(0.03)
            return ["SELECT", *self.listed(items), *tail]
        items = [["*"]] if self.chance(0.4) else [[self.column(columns)] for _ in range(self.one(1, 2, 3))]
        return ["SELECT", *self.listed(items), *tail]

    def function(self, columns: list[ColumnDef]) -> Tokens:
        """A set function."""
        return ["COUNT", "(", "*", ")"] if self.chance(0.2) else [self.one(*FUNCTIONS), "(", self.column(columns), ")"]

    def rebuild(self) -> bytes:
        """A REBUILD with choices for some columns."""
        name, columns = self.table()
        choices = []
        for place in self.generator.sample(range(len(columns)), self.one(0, 0, 1, min(2, len(columns)))):
            column = columns[place]
            layout, coding = self.one(*Layout), self.one(None, *Coding)
            choices.append([self.column([column]), "USING", layout.name, *([coding.name] if coding else [])])
        choices += choices[:1] * self.chance(0.02)
        return self.spelled(["REBUILD", name, *(["(", *self.listed(choices), ")"] if choices else [])])

    def load(self) -> bytes:
        """A LOAD of a file that is generated for it, or of none."""
        name, columns = self.table()
        if self.chance(0.06):
            file = self.one(*BAD_PATHS)
        else:
            file = f"'{self.number}_{len(self.files)}.csv'"
            fitting = [value for value in self.values if all(column.type.takes(value) for column in columns)]
            values = self.values if self.chance(0.05) else fitting or [None]
            self.files[file[1:-1]] = csv_file(self.generator, len(columns), values)
        return self.spelled(["LOAD", name, "FROM", file, *(["WITH", "HEADER"] if self.chance(0.4) else [])])

    def save(self) -> bytes:
        """A SAVE to one of the script's files, or to where none can be created."""
        name, columns = self.table()
        if self.chance(0.06):
            return self.spelled(["SAVE", name, "TO", self.one(*BAD_PATHS[1:])])
        file = self.one(*FILE_NAMES).format(self.number)
        self.saved[file] = columns
        return self.spelled(["SAVE", name, "TO", file])

    def open(self) -> bytes:
        """An OPEN of a table that was saved, of a file that is generated for it, or of none."""
        name = self.one(*[it for it in TABLE_NAMES if it not in self.tables] or TABLE_NAMES)
        if self.chance(0.05):
            name, file = self.one(*TABLE_NAMES), self.one(*BAD_PATHS, *(f"'{file}'" for file in self.files))
            return self.spelled(["OPEN", name, "FROM", file])
        if self.saved and self.chance(0.6):
            file = self.one(*self.saved)
        else:
            file = f"'{self.number}_{len(self.files)}.table'"
            columns, self.files[file[1:-1]] = table_file(self.generator, self.values)
            if columns:
                self.saved[file] = columns
        if file in self.saved:
            self.tables.setdefault(name, self.saved[file])
        return self.spelled(["OPEN", name, "FROM", file])

    def where(self, columns: list[ColumnDef]) -> Tokens:
        """A WHERE, or none."""
        return ["WHERE", *self.condition(columns, self.one(0, 0, 1, 2, 3))] if self.chance(0.85) else []

    def condition(self, columns: list[ColumnDef], depth: int) -> Tokens:
        """A condition of at most this depth."""
        if depth == 0:
            return self.predicate(columns)
        match self.generator.randrange(6):
            case 0 | 1:
                return self.run("AND", columns, depth)
            case 2:
                return self.run("OR", columns, depth)
            case 3:
                return ["NOT", "(", *self.condition(columns, depth - 1), ")"]
            case 4:
                truth = [*["NOT"] * self.chance(0.3), self.one("TRUE", "FALSE", "UNKNOWN")]
                return ["(", *self.condition(columns, depth - 1), ")", "IS", *truth]
        return self.predicate(columns)

    def run(self, word: str, columns: list[ColumnDef], depth: int) -> Tokens:
        """Two or more parts with the word between them, in parentheses or not; without them AND binds closer."""
        tokens: Tokens = []
        for _ in range(self.one(2, 2, 3)):
            part = self.condition(columns, depth - 1)
            tokens += [word, *(["(", *part, ")"] if self.chance(0.4) else part)]
        return tokens[1:]

    def operand(self, columns: list[ColumnDef]) -> Tokens:
        """An operand of a predicate: most often a column."""
        return [self.column(columns)] if self.chance(0.85) else self.constant()

    def constant(self) -> Tokens:
        """A constant of a condition: a value that is in the tables, one next to it, or one at the end of a type."""
        if self.chance(0.05):
            return self.literal(self.one(*ENDS))
        value = self.one(*self.values)
        return self.literal(value if value is None else value + self.one(0, 0, 0, 0, 1, -1, 7))

    def predicate(self, columns: list[ColumnDef]) -> Tokens:
        """A predicate, now and then with NOT before it or an IS test after it."""
        operand, other = self.operand(columns), self.constant() if self.chance(0.7) else self.operand(columns)
        negation = ["NOT"] * self.chance(0.2)
        match self.generator.randrange(9):
            case 0 | 1:
                tokens = [*operand, *negation, "BETWEEN", *other, "AND", *self.constant()]
            case 2:
                entries = [self.constant() for _ in range(self.one(1, 2, 3, 8))]
                tokens = [*operand, *negation, "IN", "(", *self.listed(entries), ")"]
            case 3:
                tokens = [*operand, "IS", *negation, "NULL"]
            case 4:
                tokens = [*other, self.one(*RELATIONS), *operand]
            case _:
                tokens = [*operand, self.one(*RELATIONS), *other]
        if self.chance(0.06):
            tokens = [*tokens, "IS", *["NOT"] * self.chance(0.3), self.one("TRUE", "FALSE", "UNKNOWN")]
        return ["NOT", *tokens] if self.chance(0.08) else tokens
