"""Completion of a word that is being typed: to a word of the language, a table, a column, a command, or a file."""

from __future__ import annotations

import glob
import os
import re
from collections.abc import Iterable, Mapping, Sequence
from dataclasses import dataclass, field
from itertools import chain

from ..script import RESERVED
from .commands import Argument, Command, chosen_words, command_of, command_words, words_of

# Reserved words, and words of statements that aren't reserved.
WORDS = sorted(RESERVED | {"DICTIONARY", "HEADER", "LOAD", "OFFSET", "REBUILD", "SAVE", "STATS", "TABLES"})
# These words are followed by the name of a table.
_BEFORE_TABLES = {"FROM", "INTO", "LOAD", "REBUILD", "SAVE", "TABLE", "UPDATE"}
_WORD = re.compile(r"[A-Za-z]\w*")
# The characters that delimit words in statements. A dot and a slash are parts of commands and files.
DELIMITERS = " \t\n,;()=<>!+*'\""
_COMMENT = re.compile(r"--[^\n]*")
_TEXT = re.compile(r"'[^']*'")


@dataclass(frozen=True)
class Catalog:
    """The existing tables, and the columns of each, all in upper case."""

    columns: Mapping[str, Sequence[str]] = field(default_factory=dict)


def completions(before: str, word: str, catalog: Catalog) -> list[str]:
    """Returns the completions of a word after `before`, the statement's lines so far and the start of this line."""
    if before.lstrip().startswith("."):
        return _of_command(before, word, catalog)
    if not before.strip() and word.startswith("."):
        return [name for name in command_words() if name.startswith(word)]
    return statement_completions(before, word, catalog)


def _of_command(before: str, word: str, catalog: Catalog) -> list[str]:
    words = words_of(before)
    command = command_of(words[0]) if words else None
    return [] if command is None else _of_argument(command, len(words) - 1, word, catalog)


def _of_argument(command: Command, place: int, word: str, catalog: Catalog) -> list[str]:
    """Returns the completions of an argument of a command, by its position."""
    if place >= len(command.arguments):
        return []
    argument = command.arguments[place]
    if argument is Argument.FILE:
        return files(word)
    if argument is Argument.WORK:
        return [*(choice for choice in chosen_words(argument) if choice.startswith(word)), *files(word)]
    if argument is Argument.TABLE:
        return _matching(word, catalog.columns)
    if argument is Argument.COLUMN:
        return _matching(word, chain.from_iterable(catalog.columns.values()))
    return [choice for choice in chosen_words(argument) if choice.startswith(word)]


def statement_completions(before: str, word: str, catalog: Catalog) -> list[str]:
    """Returns the completions of a word after `before`, the start of a statement."""
    code = _TEXT.sub(" ", _COMMENT.sub(" ", before))
    if "'" in code:
        return files(word)
    words = [found.upper() for found in _WORD.findall(code)]
    if words and words[-1] in _BEFORE_TABLES:
        return _matching(word, catalog.columns)
    named = [table for table in catalog.columns if table in words] or list(catalog.columns)
    columns = [column for table in named for column in catalog.columns[table]]
    return _matching(word, [*WORDS, *columns])


def _matching(word: str, candidates: Iterable[str]) -> list[str]:
    """Returns the candidates that begin with the word, each once, in lower case if the word has lower-case letters."""
    found = sorted({candidate for candidate in candidates if candidate.startswith(word.upper())})
    return [candidate.lower() for candidate in found] if word != word.upper() else found


def files(word: str) -> list[str]:
    """Returns the paths of files and folders that begin with the word, a folder's with a slash appended."""
    pattern = glob.escape(os.path.expanduser(word)) + "*"
    return sorted(path + "/" if os.path.isdir(path) else path for path in glob.glob(pattern))
