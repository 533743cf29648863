"""Tables, columns and rows, and the files of a folder."""

from collections.abc import Iterable
from dataclasses import dataclass, field

from model.encodings import Encoding, encoding_of
from model.refusals import Refusal, refuse_if
from model.tree import Coding, ColumnDef, Layout, Type, Value

MOST_TABLES = 64
MOST_COLUMNS = 64
MOST_ROWS = 16_777_216
MOST_FILE_BYTES = 268_435_456

Cells = dict[str, Value]


@dataclass(slots=True)
class Column:
    """A column, without its cells. Layout, kind and encoding show in table files and in what STATS counts."""

    name: str
    type: Type
    layout: Layout
    coding: Coding
    encoding: Encoding

    @classmethod
    def of(cls, definition: ColumnDef, cells: Iterable[Value] = ()) -> "Column":
        """The column of this definition, with the encoding that fits the cells."""
        encoding = encoding_of(definition.coding, cells)
        return cls(definition.name, definition.type, definition.layout, definition.coding, encoding)


@dataclass(slots=True)
class Slot:
    """The place of a row: a deleted row's place stays until the table is stored anew."""

    cells: Cells
    is_live: bool = True


@dataclass(slots=True)
class Table:
    """A table: its columns, and the slots of its rows in the order in which they were inserted."""

    columns: list[Column]
    slots: list[Slot] = field(default_factory=list)

    @property
    def names(self) -> list[str]:
        """The names of the columns, in order."""
        return [column.name for column in self.columns]

    def rows(self) -> list[Cells]:
        """The rows: deleted ones are none."""
        return [slot.cells for slot in self.slots if slot.is_live]

    def column(self, name: str) -> Column:
        """The column of this name; error 22 if there is none."""
        for column in self.columns:
            if column.name == name:
                return column
        raise Refusal(22)

    def require(self, names: Iterable[str]) -> None:
        """Error 22 unless all these columns are there."""
        refuse_if(not set(names) <= set(self.names), 22)

    def cell(self, column: Column, place: int) -> Value:
        """The cell of a column in a slot."""
        return self.slots[place].cells[column.name]

    def make_codes(self, column: Column, values: Iterable[Value]) -> None:
        """Encodes the column anew where one of the new values has no code: for all slots as they are, and these."""
        new = {value for value in values if value is not None}
        if not all(map(column.encoding.has_code, new)):
            there = {slot.cells[column.name] for slot in self.slots}
            column.encoding = encoding_of(column.coding, there | new)

    def append(self, rows: list[Cells]) -> None:
        """Puts rows last."""
        for column in self.columns:
            self.make_codes(column, [row[column.name] for row in rows])
        self.slots += [Slot(dict(row)) for row in rows]

    def rebuild(self) -> None:
        """Stores the table anew: its rows alone, and each column with the encoding that fits its values."""
        rows = self.rows()
        for column in self.columns:
            column.encoding = encoding_of(column.coding, [row[column.name] for row in rows])
        self.slots = [Slot(row) for row in rows]


@dataclass(slots=True)
class Folder:
    """The files and folders that scripts can name, by their paths."""

    files: dict[str, bytes] = field(default_factory=dict)
    folders: set[str] = field(default_factory=set)

    def read(self, path: str) -> bytes:
        """The bytes of a file; error 40 if there is none, and 46 if it is too large."""
        refuse_if(path not in self.files, 40)
        refuse_if(len(self.files[path]) > MOST_FILE_BYTES, 46)
        return self.files[path]

    def write(self, path: str, data: bytes) -> None:
        """Makes or overwrites a file; error 41 for a folder, or in a folder that isn't there."""
        parent, slash, name = path.rpartition("/")
        refuse_if(path in self.folders or not name or bool(slash) and parent not in self.folders, 41)
        self.files[path] = data


@dataclass(slots=True)
class Store:
    """The tables by their names, in the order in which they were made, and the folder of their files."""

    folder: Folder = field(default_factory=Folder)
    tables: dict[str, Table] = field(default_factory=dict)

    def table(self, name: str) -> Table:
        """The table of this name; error 20 if there is none."""
        refuse_if(name not in self.tables, 20)
        return self.tables[name]
