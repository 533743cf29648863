"""The same SELECTs in sqlite3, and in PostgreSQL if `psql` reaches a server.

Rows, set functions and groups have to agree. Conditions are written for the other programs with parentheses around each
part, and rows and groups are sorted there. Values are so small that no sum exceeds 64 bits. sqlite3 has no MEDIAN, and
PostgreSQL's is percentile_disc(0.5).
"""

import shutil
import sqlite3
import subprocess
from collections.abc import Sequence
from dataclasses import dataclass
from random import Random

from answers import Line, Unanswered, ask, lines_of
from common import Progress, Told
from model import tree
from model.grammar import Parser
from model.tokens import tokens_of
from model.tree import Coding, ColumnDef, Layout, Type, Value
from program import Program
from relations import Asker

TABLES = 60
QUESTIONS = 40
ROWS = (0, 1, 5, 40, 300, 700)
GREATEST = 2**50
BETWEEN_ANSWERS = "-- the next answer"
TRUTHS = {True: "TRUE", False: "FALSE", None: "UNKNOWN"}


@dataclass(frozen=True)
class Question:
    """A SELECT: its items, its condition and its grouping column, if any."""

    items: tuple[str, ...]
    condition: str
    group_by: str | None

    def here(self) -> str:
        """The statement as bitcol reads it."""
        tail = f" GROUP BY {self.group_by}" if self.group_by else ""
        return f"SELECT {', '.join(self.items)} FROM t WHERE {self.condition}{tail}"

    def there(self, peer: "Peer") -> str:
        """The statement as another program reads it."""
        items = [peer.median.format(item[7:-1]) if item.startswith("MEDIAN") else item for item in self.items]
        where = peer.written(Parser(tokens_of(self.condition.encode())).condition())
        order = "n" if not any("(" in item for item in items) else None
        tail = f"GROUP BY {self.group_by} ORDER BY {self.group_by} NULLS LAST" if self.group_by else ""
        tail = tail or (f"ORDER BY {order}" if order else "")
        return f"SELECT {', '.join(items)} FROM t WHERE {where} {tail}"


class Peer:
    """Another program that executes SELECTs."""

    name = "sqlite3"
    median = ""
    is_unknown = "NULL"  # what follows IS if the truth is unknown

    def written(self, it: tree.Condition) -> str:
        """A condition with parentheses around each part."""
        match it:
            case tree.Comparison(left, relation, right):
                text = f"{operand(left)} {relation} {operand(right)}"
            case tree.Between(inner, low, high):
                text = f"{operand(inner)} BETWEEN {operand(low)} AND {operand(high)}"
            case tree.In(inner, entries):
                text = f"{operand(inner)} IN ({', '.join(map(operand, entries))})"
            case tree.IsNull(inner):
                text = f"{operand(inner)} IS NULL"
            case tree.Is(inner, truth):
                text = f"{self.written(inner)} IS {self.is_unknown if truth is None else TRUTHS[truth]}"
            case tree.Not(inner):
                text = f"NOT {self.written(inner)}"
            case tree.And(parts):
                text = " AND ".join(map(self.written, parts))
            case tree.Or(parts):
                text = " OR ".join(map(self.written, parts))
        return f"({text})"

    def answers(self, rows: Sequence[Line], questions: Sequence[str]) -> list[list[Line]]:
        """The lines of each result over a table of these rows."""
        with sqlite3.connect(":memory:") as base:
            base.execute("CREATE TABLE t (a INTEGER, b INTEGER, n INTEGER)")
            base.executemany("INSERT INTO t VALUES (?, ?, ?)", rows)
            return [base.execute(question).fetchall() for question in questions]


class PostgreSQL(Peer):
    """PostgreSQL, by psql and a server that it reaches without a password."""

    name = "PostgreSQL"
    median = "percentile_disc(0.5) WITHIN GROUP (ORDER BY {})"
    is_unknown = "UNKNOWN"
    command = ("psql", "-X", "-q", "-A", "-t", "-w", "-F,", "-P", "null=NULL", "-v", "ON_ERROR_STOP=1")

    @classmethod
    def is_there(cls) -> bool:
        """Whether psql reaches a server."""
        if shutil.which("psql") is None:
            return False
        asked = subprocess.run([*cls.command, "-c", "SELECT 1"], capture_output=True, check=False)
        return asked.returncode == 0

    def answers(self, rows: Sequence[Line], questions: Sequence[str]) -> list[list[Line]]:
        """The lines of each result over a table of these rows, which lives as long as the connection."""
        script = ["CREATE TEMPORARY TABLE t (a BIGINT, b BIGINT, n BIGINT);"]
        script += [f"INSERT INTO t VALUES ({', '.join(map(operand, row))});" for row in rows]
        for question in questions:
            script += [f"\\echo {BETWEEN_ANSWERS}", question + ";"]
        asked = subprocess.run(self.command, input="\n".join(script), capture_output=True, text=True, check=True)
        texts = asked.stdout.split(BETWEEN_ANSWERS + "\n")[1:]
        return [
            [tuple(None if word == "NULL" else int(word) for word in line.split(",")) for line in text.splitlines()]
            for text in texts
        ]


def operand(it: tree.Operand) -> str:
    """An operand as the others read it. A negative number is in parentheses, and NULL is an integer."""
    if isinstance(it, tree.Name):
        return it.name
    return "CAST(NULL AS BIGINT)" if it is None else f"({it})"


class SmallAsker(Asker):
    """A writer of SELECTs over values whose sums stay below 2^63."""

    def some_values(self) -> list[Value]:
        """Values whose sums stay below 2^63."""
        return [value if value is None else max(-GREATEST, min(GREATEST, value)) for value in super().some_values()]

    def question(self, columns: list[ColumnDef], has_median: bool) -> Question:
        """A SELECT of columns, of set functions or of groups."""
        condition = " ".join(self.condition(columns, self.one(0, 1, 1, 2, 3)))
        functions = [f"{function}({name})" for function in ("COUNT", "SUM", "MIN", "MAX") for name in "ab"]
        functions += ["COUNT(*)"]
        functions += ["MEDIAN(a)", "MEDIAN(b)"] if has_median else []
        match self.generator.randrange(3):
            case 0:
                return Question(tuple(self.generator.sample(["n", "a", "b"], self.one(1, 2, 3))), condition, None)
            case 1:
                return Question(tuple(self.generator.sample(functions, self.one(1, 3, 5))), condition, None)
        name = self.one("a", "b")
        return Question((name, "COUNT(*)", *self.generator.sample(functions, self.one(1, 3))), condition, name)


def compare(program: Program, peer: Peer, generator: Random) -> tuple[int, list[str]]:
    """How many SELECTs ran over one table, and what differs."""
    asker = SmallAsker(generator, 0)
    asker.values = asker.some_values()
    layouts = [generator.choice(list(Layout)) for _ in range(2)]
    kinds = [(layout, Type.INTEGER if layout is Layout.H else Type.BIGINT) for layout in layouts]
    codings = [generator.choice(list(Coding)) for _ in kinds]
    columns = [ColumnDef(name, *it) for name, it in zip("AB", zip((kind for _, kind in kinds), layouts, codings))]
    rows = []
    for number in range(generator.choice(ROWS)):
        cells = [generator.choice(asker.values) for _ in columns]
        rows.append((*(cell if it.type.takes(cell) else None for it, cell in zip(columns, cells)), number))
    questions = [asker.question(columns, bool(peer.median)) for _ in range(QUESTIONS)]
    definitions = ", ".join(" ".join(asker.column_def(column)) for column in columns)
    file = "".join(",".join("NULL" if cell is None else str(cell) for cell in row) + "\n" for row in rows)
    statements = [f"CREATE TABLE t ({definitions}, n INT)", "LOAD t FROM 'rows.csv'"]
    asked = [*statements, *(question.here() for question in questions)]
    replies = ask(program, asked, {"rows.csv": file.encode()})[len(statements) :]
    there = [question.there(peer) for question in questions]
    answers = peer.answers(rows, there)
    pairs = zip(asked[len(statements) :], there, map(lines_of, replies), answers, strict=True)
    return len(questions), [f"{one}\n{two}" for one, two, mine, theirs in pairs if mine != theirs]


def run(path: str, seed: int) -> Told:
    """The same SELECTs, over random tables, in each program that is available."""
    peers = [Peer()] + [PostgreSQL()] * PostgreSQL.is_there()
    if len(peers) == 1:
        print("no PostgreSQL: psql comes to no server")
    told, program, progress = Told(), Program.at(path), Progress("peers", TABLES * len(peers))
    for peer in peers:
        for number in range(TABLES):
            try:
                count, differences = compare(program, peer, Random(f"peers {seed}:{number}"))
            except Unanswered as fault:
                count, differences = QUESTIONS, [str(fault)]
            told.count += count
            for difference in differences:
                progress.clear()
                told.differences.append(f"seed {seed}, {peer.name}, table {number}:\n{difference}")
                print(told.differences[-1], flush=True)
            progress.step(peer.name)
    progress.clear()
    program.close()
    return told
