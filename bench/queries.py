"""What the stores execute, and over which tables: queries with their texts, tables of integers, and results."""

import zlib
from collections.abc import Iterable, Iterator
from dataclasses import dataclass
from pathlib import Path
from typing import Protocol

Answer = list[tuple[str, ...]]


@dataclass(frozen=True)
class Range:
    """Whether a column is between two values, both included; an end that is None isn't tested."""

    column: str
    least: int | None = None
    greatest: int | None = None

    def sql(self) -> str:
        if self.least is None:
            return f"{self.column} <= {self.greatest}"
        if self.greatest is None:
            return f"{self.column} >= {self.least}"
        if self.least == self.greatest:
            return f"{self.column} = {self.least}"
        return f"{self.column} BETWEEN {self.least} AND {self.greatest}"


@dataclass(frozen=True)
class Query:
    """Set functions, COUNT(*) and SUM of columns, over the rows within ranges and orders, optionally by groups."""

    title: str
    ranges: tuple[Range, ...] = ()
    # Pairs of columns of which the first is less.
    orders: tuple[tuple[str, str], ...] = ()
    sums: tuple[str, ...] = ()
    group: str | None = None

    def sql(self, ordered: bool = False) -> str:
        """The query's text. bitcol's groups come in order; `ordered` asks other stores for that order."""
        items = [*([self.group] if self.group else []), *(f"SUM({column})" for column in self.sums), "COUNT(*)"]
        tests = [*(test.sql() for test in self.ranges), *(f"{less} < {more}" for less, more in self.orders)]
        words = f"SELECT {', '.join(items)} FROM t" + (" WHERE " + " AND ".join(tests) if tests else "")
        if self.group:
            words += f" GROUP BY {self.group}" + (f" ORDER BY {self.group}" if ordered else "")
        return words


@dataclass(frozen=True)
class Written(Query):
    """A query given by its text, which all SQL stores understand."""

    text: str = ""
    # Whether it returns so many rows that only a checksum of them is compared.
    is_long: bool = False
    # Whether its result depends on NULL AND FALSE being FALSE, which old versions of ClickHouse evaluate to NULL.
    is_three_valued: bool = False

    def sql(self, ordered: bool = False) -> str:
        return self.text


@dataclass(frozen=True)
class Columns:
    """A table: its CSV files, and its columns with their types, INT or BIGINT."""

    files: tuple[Path, ...]
    types: dict[str, str]
    rows: int

    def records(self) -> Iterator[tuple[int | None, ...]]:
        for path in self.files:
            with path.open() as file:
                for line in file:
                    yield tuple(int(cell) if cell else None for cell in line.rstrip("\n").split(","))


@dataclass(frozen=True)
class Taken:
    seconds: float
    answer: Answer


class Store(Protocol):
    """A store with a table in it. `loading` is how long loading it took, if that can be compared."""

    name: str
    loading: float | None

    def round(self, queries: Iterable[Query]) -> dict[str, Taken]:
        """Each query once, by its title."""

    def close(self) -> None:
        """Releases the table."""


def shortened(query: Query, rows: Iterable[tuple[str, ...]]) -> Answer:
    """The rows; for a long result their number and a checksum."""
    if not getattr(query, "is_long", False):
        return list(rows)
    count = checksum = 0
    for row in rows:
        count, checksum = count + 1, zlib.crc32((",".join(row) + "\n").encode(), checksum)
    return [(str(count), str(checksum))]


def texts(rows: Iterable[Iterable[object]]) -> Iterator[tuple[str, ...]]:
    """Rows as bitcol writes them."""
    return (tuple("NULL" if cell is None else str(cell) for cell in row) for row in rows)
