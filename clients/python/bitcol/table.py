"""A whole table in this process, as it is written to a store at once or read from it."""

from __future__ import annotations

import array
from collections.abc import Iterable, Iterator, Mapping, Sequence
from enum import IntEnum
from typing import Any, TypeVar

from .cells import cells_of, columns_of_rows
from .column_type import ColumnType
from .door import Bytes
from .errors import DataError, ProgrammingError
from .optional import pandas_module
from .rows_by_c import Numbers, rows_of
from .table_file import Column, Kind, Layout, decode, encode

Choice = TypeVar("Choice", bound=IntEnum)


class Table:
    """Columns of the same length. Rows and lists are made when they are asked for."""

    def __init__(self, stored: list[Column]) -> None:
        self.stored = stored

    @classmethod
    def of(
        cls,
        columns: Mapping[str, Iterable[Any]] | Any,
        layout: Layout = Layout.V,
        kind: Kind = Kind.OFFSET,
        column_type: ColumnType | None = None,
    ) -> Table:
        """Makes a table from named columns: a mapping of names to columns, or a pandas data frame. All columns get this
        layout, kind and type; if no type is given, a column is BIGINT if one of its values has more than 32 bits, else
        INTEGER. Raises what cells_of raises, with the name of the column."""
        if not hasattr(columns, "items"):
            raise ProgrammingError(f"the columns are to be a mapping of names, not a {type(columns).__name__}")
        return cls([_column(name, cells, layout, kind, column_type) for name, cells in columns.items()])

    @classmethod
    def of_rows(
        cls,
        names: Sequence[str],
        rows: Iterable[Sequence[Any]],
        layout: Layout = Layout.V,
        kind: Kind = Kind.OFFSET,
        column_type: ColumnType | None = None,
    ) -> Table:
        """Makes a table from rows, each with one value for each name; see `of` for the other arguments. Raises
        ProgrammingError if a row has another number of values, and what `of` raises."""
        listed = rows if isinstance(rows, (list, tuple)) else list(rows)
        columns = columns_of_rows(listed, len(names))
        return cls([_column(name, column, layout, kind, column_type) for name, column in zip(names, columns)])

    @classmethod
    def of_file(cls, data: bytes) -> Table:
        """Makes a table from the bytes of a table file. Raises DataError if they aren't a table file."""
        return cls(decode(data))

    def file_pieces(self) -> list[Bytes]:
        """Returns the bytes of a table file with this table, in pieces. Raises what encode raises."""
        return encode(self.stored)

    @property
    def names(self) -> list[str]:
        """The names of the columns, in upper case if they come from a store."""
        return [column.name for column in self.stored]

    def types(self) -> dict[str, ColumnType]:
        """Returns the type of each column, by its name."""
        return {column.name: column.cells.column_type for column in self.stored}

    def columns(self) -> dict[str, list[int | None]]:
        """Returns a list for each column, by its name, with None where a row is NULL."""
        return {column.name: column.cells.to_list() for column in self.stored}

    def rows(self) -> Iterator[tuple[int | None, ...]]:
        """Iterates over the rows in the order of insertion."""
        all_cells = [column.cells for column in self.stored]
        if len({cells.rows for cells in all_cells}) == 1:
            made = rows_of([(cells.presence, cells.words, cells.column_type.bits // 8) for cells in all_cells])
            if made is not None:
                return made
        return zip(*(cells.to_list() for cells in all_cells))

    def arrays(self) -> dict[str, tuple[array.array[int], bytes]]:
        """Returns two things for each column, by its name: an array of integers of 32 bits, or of 64 if it is BIGINT,
        with 0 where a row is NULL; and a byte for each row: 1 where it isn't NULL, else 0."""
        return {column.name: (column.cells.numbers(), column.cells.presence_bytes()) for column in self.stored}

    def to_numpy(self) -> dict[str, Any]:
        """Returns a masked array for each column, by its name: of 32-bit integers, or 64-bit ones if it is BIGINT."""
        return {column.name: column.cells.to_numpy() for column in self.stored}

    def to_pandas(self) -> Any:
        """Returns a pandas data frame of Int32 columns, or Int64 for BIGINT columns, with NA for NULL."""
        pandas = pandas_module()
        arrays = self.to_numpy()
        columns = {name: pandas.arrays.IntegerArray(cells.data, cells.mask) for name, cells in arrays.items()}
        return pandas.DataFrame(columns)

    def __len__(self) -> int:
        """The number of rows."""
        return self.stored[0].cells.rows if self.stored else 0

    def __iter__(self) -> Iterator[tuple[int | None, ...]]:
        return self.rows()

    def __repr__(self) -> str:
        return f"<Table {', '.join(self.names)}: {len(self)} rows>"


def _column(
    name: str, cells: Iterable[Any] | Numbers, layout: Layout, kind: Kind, column_type: ColumnType | None
) -> Column:
    try:
        chosen = None if column_type is None else _chosen(ColumnType, column_type)
        return Column(name, cells_of(cells, chosen), _chosen(Layout, layout), _chosen(Kind, kind))
    except (DataError, ProgrammingError) as fault:
        raise type(fault)(f"column {name}: {fault}") from None


def _chosen(choices: type[Choice], value: Any) -> Choice:
    """Converts a value to one of the choices. Raises ProgrammingError if it isn't one."""
    try:
        return choices(value)
    except ValueError:
        words = ", ".join(f"{choices.__name__}.{choice.name}" for choice in choices)
        raise ProgrammingError(f"{value!r} is none of {words}") from None
