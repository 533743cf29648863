"""Random tables and statements, generated from a seed."""

from __future__ import annotations

import random
from collections.abc import Callable
from typing import Optional

Cell = Optional[int]
# The type, layout and kind of a column.
Form = tuple[str, str, str]
FORMS: list[Form] = [
    (column_type, layout, kind)
    for column_type in ("INTEGER", "BIGINT")
    for layout in "VHSP"
    for kind in ("OFFSET", "DICTIONARY")
    if (column_type, layout) != ("BIGINT", "H")
]


class Chance(random.Random):
    """Makes a table, and then statements about it. `forms` are those of its columns."""

    forms: list[Form]

    def table(self, most_rows: int = 2000) -> tuple[str, list[list[Cell]]]:
        """Returns columns as given to CREATE TABLE, and rows."""
        self.names = self.sample(["a", "b", "c_1", "Day"], self.randrange(1, 5))
        self.forms = [self.choice(FORMS) for _ in self.names]
        definition = ", ".join(f"{name} {self._column(*form)}" for name, form in zip(self.names, self.forms))
        self._pools = [self._pool(column_type) for column_type, _, _ in self.forms]
        rows = min(most_rows, self.choice([0, 1, 2, 5, 40, 40, 300, 300, 2000]))
        return definition, [[pool() for pool in self._pools] for _ in range(rows)]

    def _column(self, column_type: str, layout: str, kind: str) -> str:
        """Returns a column as given to CREATE TABLE. V and OFFSET may be omitted."""
        words = [self.choice(["INTEGER", "INT"]) if column_type == "INTEGER" else column_type]
        if layout != "V" or self.random() < 0.5:
            words.append(f"USING {layout}")
        if kind != "OFFSET" or self.random() < 0.5:
            words.append(kind)
        return " ".join(words)

    def _pool(self, column_type: str) -> Callable[[], Cell]:
        bits = 63 if column_type == "BIGINT" else 31
        least, greatest = -(1 << bits), (1 << bits) - 1
        spans = [(0, 3), (-5, 5), (-1000, 1000), (least, greatest), (least, least + 9), (greatest - 9, greatest)]
        span = self.choice(spans)
        nulls = self.choice([0, 0, 0.1, 0.5, 1])

        def pool() -> Cell:
            if self.random() < nulls:
                return None
            return self.choice((least, greatest)) if self.random() < 0.01 else self.randint(*span)

        return pool

    def literal(self) -> str:
        cell = self.choice(self._pools)()
        if self.random() < 0.05:
            cell = self.choice([2**40, -(2**40), 2**63 - 1, -(2**63)])
        if cell is None:
            return "NULL"
        return str(cell + self.choice([0, 0, 0, 1, -1])) if abs(cell) < 2**62 else str(cell)

    def name(self) -> str:
        name = self.choice(self.names)
        return self.choice([name, name.upper(), name.lower()])

    def operand(self) -> str:
        return self.name() if self.random() < 0.7 else self.literal()

    def condition(self, depth: int) -> str:
        roll = self.random()
        if depth and roll < 0.45:
            word = self.choice([" AND ", " OR ", "\nOR -- or; '\n", " and "])
            forms = [self.choice(["{}", "({})", "NOT ({})"]) for _ in range(self.randrange(2, 4))]
            return word.join(form.format(self.condition(depth - 1)) for form in forms)
        if depth and roll < 0.55:
            truth = self.choice(["TRUE", "FALSE", "UNKNOWN"])
            return f"({self.condition(depth - 1)}) IS {self.choice(['', 'NOT '])}{truth}"
        return self._predicate(roll, self.choice(["", "NOT "]))

    def _predicate(self, roll: float, turned: str) -> str:
        if roll < 0.65:
            return f"{self.operand()} IS {turned}NULL"
        if roll < 0.75:
            return f"{self.operand()} {turned}BETWEEN {self.operand()} AND {self.operand()}"
        if roll < 0.82:
            return f"{self.operand()} {turned}IN ({', '.join(self.literal() for _ in range(self.randrange(1, 6)))})"
        return f"{self.operand()} {self.choice(['=', '<>', '!=', '<', '<=', '>', '>='])} {self.operand()}"

    def where(self) -> str:
        return f" WHERE {self.condition(self.randrange(3))}" if self.random() < 0.8 else ""

    def select(self) -> str:
        words = ["COUNT", "SUM", "MIN", "MAX", "MEDIAN", "median"]
        functions = [f"{self.choice(words)}({self.name()})" for _ in range(self.randrange(4))]
        functions += ["COUNT(*)"] * self.randrange(2)
        key = self.choice(self.names) if self.random() < 0.3 else None
        roll = self.random()
        if roll < 0.15:
            items = "*"
        elif roll < 0.35 or not functions:
            items = ", ".join(self.name() for _ in range(self.randrange(1, 4)))
        else:
            more = [] if key is None else [key] * self.randrange(2)
            items = ", ".join(self.sample(functions + more, len(functions)))
        text = f"SELECT {items} FROM t{self.where()}{f' GROUP BY {key}' if key else ''}"
        if self.random() < 0.06:
            text = self._spoiled(text)
        return text + self.choice(["", ";", " -- end", "\n"])

    def _spoiled(self, text: str) -> str:
        return self.choice(
            [
                text.replace("FROM t", "FROM u"),
                text.replace("SELECT ", "SELECT z, "),
                text[: self.randrange(8, len(text))].partition("--")[0] or "SELECT",
                text.replace("(", " ", 1),
                text + " )",
                text.replace("SELECT", "SELECT COUNT(*), "),
            ]
        )

    def stats(self) -> str:
        """Returns a STATS of a SELECT."""
        return f"STATS {self.select()}"

    def change(self) -> str:
        """Returns an INSERT, an UPDATE or a DELETE."""
        sets = ", ".join(
            f"{name} = {self.operand()}" for name in self.sample(self.names, self.randrange(1, len(self.names) + 1))
        )
        rows = ", ".join(
            f"({', '.join(self.literal() for _ in self.names)})" for _ in range(self.randrange(1, 4))
        )
        return self.choice(
            [
                f"UPDATE t SET {sets}{self.where()}",
                f"UPDATE t SET {sets} WHERE {self.condition(1)}",
                f"DELETE FROM t WHERE {self.condition(2)}",
                f"INSERT INTO t VALUES {rows}",
            ]
        )
