"""What has to be known about a statement so that it can be sent to parts: its pieces, each as it was written.

Only the program judges statements, and refuses them. A SELECT that it accepts and this reader can't parse is an error,
never a wrong answer.
"""

from __future__ import annotations

import re
from dataclasses import dataclass

from ..script import NAME

_TOKEN = re.compile(r"(--[^\n]*|[\t\n\r ]+)|'[^']*'|[A-Za-z0-9_]+|<>|!=|<=|>=|.", re.DOTALL)
FUNCTIONS = ("COUNT", "SUM", "MIN", "MAX", "MEDIAN")


@dataclass(frozen=True)
class Item:
    """An item of a select list: a set function of a column, or of `*` for COUNT; or a column, whose function is
    None."""

    function: str | None
    column: str

    @property
    def heading(self) -> str:
        """The heading that the program writes for it, which is also valid in a statement."""
        return self.column if self.function is None else f"{self.function}({self.column})"


class Tokens:
    """The tokens of a statement without blanks and comments: `words` in upper case, and slices of the text."""

    def __init__(self, statement: str) -> None:
        self._statement = statement
        self._found = [found for found in _TOKEN.finditer(statement) if found[1] is None]
        self.words = [_upper(found[0]) for found in self._found]

    def between(self, first: int, end: int) -> str:
        """Returns the text from one token up to another, without the blanks before the latter."""
        inside = self._found[first:end]
        return self._statement[inside[0].start() : inside[-1].end()] if inside else ""


class Select:
    """The pieces of a SELECT, also after STATS. `items` is None if the list is `*` or can't be parsed."""

    def __init__(self, statement: str) -> None:
        tokens = Tokens(statement)
        words = tokens.words
        self.verb = words[0] if words else ""
        self.is_grouped = "GROUP" in words
        self.list = self.source = self.table = ""
        self.condition: str | None = None
        self.key: str | None = None
        self.items: list[Item] | None = None
        first = 1 if self.verb == "STATS" else 0
        if words[first : first + 1] != ["SELECT"] or "FROM" not in words:
            return
        start = words.index("FROM")
        self.list, self.items = tokens.between(first + 1, start), _items(words[first + 1 : start])
        self.source, self.table = tokens.between(start, len(words)), tokens.between(start, start + 2)
        end = words.index("GROUP") if self.is_grouped else len(words)
        if words[start + 2 : start + 3] == ["WHERE"]:
            self.condition = tokens.between(start + 3, end)
        if words[end : end + 2] == ["GROUP", "BY"] and len(words) == end + 3:
            self.key = words[end + 2]

    @property
    def folds(self) -> bool:
        """Whether it has set functions or groups, so that the answers of parts can't just be concatenated."""
        return self.items is not None and (self.key is not None or any(item.function for item in self.items))

    def narrowed(self, item: str, *terms: str) -> str:
        """Returns a query of the found rows that also meet some further terms."""
        front = [f"({self.condition})"] if self.condition else []
        return f"SELECT {item} {self.table} WHERE {' AND '.join([*front, *terms])}"


@dataclass(frozen=True)
class Change:
    """An UPDATE or a DELETE: its verb, the table as it is written, and the condition, or None."""

    verb: str
    table: str
    condition: str | None


def change_of(statement: str) -> Change | None:
    """Returns the pieces of an UPDATE or a DELETE, or None if it isn't one that can be parsed."""
    tokens = Tokens(statement)
    words = tokens.words
    place = {"UPDATE": 1, "DELETE": 2}.get(words[0] if words else "")
    if place is None or len(words) <= place:
        return None
    end = words.index("WHERE") if "WHERE" in words else len(words)
    condition = tokens.between(end + 1, len(words)) if end < len(words) else None
    return Change(words[0], words[place], condition)


def around_table(statement: str) -> tuple[str, str, str]:
    """Splits a SELECT, also after STATS, into three: the text before the name of its table; the name, in upper case;
    and the text after it. If there is no table, all of the text is in the first."""
    is_next = False
    for found in _TOKEN.finditer(statement):
        if found[1] is None:
            if is_next:
                return statement[: found.start()], _upper(found[0]), statement[found.end() :]
            is_next = found[0].upper() == "FROM"
    return statement, "", ""


def verb_of(statement: str) -> str:
    """Returns the first word of a statement, in upper case."""
    words = Tokens(statement).words
    return words[0] if words else ""


def _upper(token: str) -> str:
    # Some letters outside ASCII have an ASCII letter as their upper case.
    return token.upper() if token.isascii() else token


def _items(words: list[str]) -> list[Item] | None:
    items: list[Item] = []
    item: list[str] = []
    for word in [*words, ","]:
        if word != ",":
            item.append(word)
            continue
        if len(item) == 1 and NAME.fullmatch(item[0]):
            items.append(Item(None, item[0]))
        elif len(item) == 4 and item[0] in FUNCTIONS and item[1] == "(" and item[3] == ")":
            items.append(Item(item[0], item[2]))
        else:
            return None
        item = []
    return items
