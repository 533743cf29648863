"""What a statement is: its words are gone, and its names, numbers and conditions are left."""

from dataclasses import dataclass
from enum import Enum

Value = int | None  # of a row or a statement; None is NULL
Truth = bool | None  # None is unknown


class Type(Enum):
    """Which integers a column takes, by their number of bits."""

    INTEGER = 32
    BIGINT = 64

    def takes(self, value: Value) -> bool:
        """Whether the value is NULL or an integer of the type."""
        return value is None or -(2 ** (self.value - 1)) <= value < 2 ** (self.value - 1)


class Layout(Enum):
    """How a column's codes lie in memory, by the number that stands for it in a table file."""

    P = 0
    V = 1
    H = 2
    S = 3

    def holds(self, column_type: Type) -> bool:
        """Whether a column of the type can have the layout."""
        return not (self is Layout.H and column_type is Type.BIGINT)


class Coding(Enum):
    """A column's kind: how its values become codes, by the number that stands for it in a table file."""

    OFFSET = 0
    DICTIONARY = 1


class Function(Enum):
    """A set function."""

    COUNT = "COUNT"
    SUM = "SUM"
    MIN = "MIN"
    MAX = "MAX"
    MEDIAN = "MEDIAN"


@dataclass(frozen=True, slots=True)
class Name:
    """A column, as an operand of a condition or the right side of a SET."""

    name: str


Operand = Name | Value


@dataclass(frozen=True, slots=True)
class Comparison:
    """`left relation right`."""

    left: Operand
    relation: str
    right: Operand


@dataclass(frozen=True, slots=True)
class Between:
    """`operand BETWEEN low AND high`."""

    operand: Operand
    low: Operand
    high: Operand


@dataclass(frozen=True, slots=True)
class In:
    """`operand IN (entries)`."""

    operand: Operand
    entries: tuple[Value, ...]


@dataclass(frozen=True, slots=True)
class IsNull:
    """`operand IS NULL`."""

    operand: Operand


@dataclass(frozen=True, slots=True)
class Is:
    """`condition IS truth`."""

    condition: "Condition"
    truth: Truth


@dataclass(frozen=True, slots=True)
class Not:
    """`NOT condition`, and what the forms with NOT inside stand for."""

    condition: "Condition"


@dataclass(frozen=True, slots=True)
class And:
    """Two or more parts with AND between them."""

    parts: tuple["Condition", ...]


@dataclass(frozen=True, slots=True)
class Or:
    """Two or more parts with OR between them."""

    parts: tuple["Condition", ...]


Condition = Comparison | Between | In | IsNull | Is | Not | And | Or


@dataclass(frozen=True, slots=True)
class ColumnDef:
    """A column that a CREATE TABLE makes."""

    name: str
    type: Type
    layout: Layout
    coding: Coding


@dataclass(frozen=True, slots=True)
class Choice:
    """The layout that a REBUILD gives a column, and its kind where one is named."""

    name: str
    layout: Layout
    coding: Coding | None


@dataclass(frozen=True, slots=True)
class Item:
    """What a SELECT shows: a column, or a set function of a column, or of none for `COUNT(*)`."""

    column: str | None
    function: Function | None = None


@dataclass(frozen=True, slots=True)
class CreateTable:
    """A CREATE TABLE, and the columns that it makes."""

    table: str
    columns: tuple[ColumnDef, ...]


@dataclass(frozen=True, slots=True)
class DropTable:
    """A DROP TABLE."""

    table: str


@dataclass(frozen=True, slots=True)
class Tables:
    """A TABLES."""


@dataclass(frozen=True, slots=True)
class Insert:
    """An INSERT. Its columns are None where it has no list of them."""

    table: str
    columns: tuple[str, ...] | None
    tuples: tuple[tuple[Value, ...], ...]


@dataclass(frozen=True, slots=True)
class Update:
    """An UPDATE: of each column that it sets, the name and the right side."""

    table: str
    sets: tuple[tuple[str, Operand], ...]
    where: Condition | None


@dataclass(frozen=True, slots=True)
class Delete:
    """A DELETE."""

    table: str
    where: Condition | None


@dataclass(frozen=True, slots=True)
class Select:
    """A SELECT. Its items are None for `*`. With STATS before it, it counts in place of being carried out."""

    table: str
    items: tuple[Item, ...] | None
    where: Condition | None
    group_by: str | None
    counts: bool


@dataclass(frozen=True, slots=True)
class Rebuild:
    """A REBUILD."""

    table: str
    choices: tuple[Choice, ...]


@dataclass(frozen=True, slots=True)
class Load:
    """A LOAD."""

    table: str
    file: str
    has_header: bool


@dataclass(frozen=True, slots=True)
class Save:
    """A SAVE."""

    table: str
    file: str


@dataclass(frozen=True, slots=True)
class Open:
    """An OPEN."""

    table: str
    file: str


Statement = (
    CreateTable | DropTable | Tables | Insert | Update | Delete | Select | Rebuild | Load | Save | Open
)
