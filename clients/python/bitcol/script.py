"""Statements as text: splitting a script as the program does, inserting values, and quoting file names.

The program reads a script up to the `;` that ends a statement. So the client has to know where statements end: what is
sent must be complete, and each statement that is sent gets one reply.
"""

from __future__ import annotations

import os
import re
from collections.abc import Mapping, Sequence, Set
from functools import lru_cache
from operator import index
from typing import Any, Union

from .errors import DataError, ProgrammingError

PathLike = Union[str, "os.PathLike[str]"]

LEAST_NUMBER, GREATEST_NUMBER = -(2**63), 2**63 - 1
FILE_NAME_BYTES = 255
# Types that have a length and can be iterated over, but aren't lists of values: texts, and types without an order.
UNLISTED = (str, bytes, bytearray, Mapping, Set)
NAME = re.compile(r"[A-Za-z][A-Za-z0-9_]{0,127}")
RESERVED = frozenset(
    """AND BETWEEN BIGINT BY COUNT CREATE DELETE DROP FALSE FROM GROUP IN INSERT INT INTEGER INTO IS MAX MEDIAN MIN NOT
    NULL OPEN OR SELECT SET SUM TABLE TO TRUE UNKNOWN UPDATE USING VALUES WHERE WITH""".split()
)

_BLANKS = b"\t\n\r "
_PIECE = re.compile(rb"'[^']*'|--[^\n]*|[;']|[^';-]+|-")
_BLANK_PART = re.compile(rb"(?:[\t\n\r ]|--[^\n]*(?:\n|\Z))*")
_PLACE = re.compile(r"'[^']*'|--[^\n]*|(\?)")
# Longer statements contain their values themselves, and are rarely sent twice.
_LONGEST_REMEMBERED = 4096


def statements_of(script: str) -> list[bytes]:
    """Splits a script into statements, each with the `;` that ends it. Blank ones are left out, as they get no reply.

    If the last statement has no `;`, one is added. Raises ProgrammingError if a quoted text isn't closed, since the
    program would wait for its end.
    """
    data = _encoded(script)
    if b"'" not in data and b"--" not in data:
        return [part + b";" for part in data.split(b";") if part.strip(_BLANKS)]
    parts = _parts(data)
    # A comment extends to the end of its line, so it would swallow a `;` appended to it.
    end = b"\n;" if b"--" in parts[-1] else b";"
    ends = [b";"] * (len(parts) - 1) + [end]
    return [part + end for part, end in zip(parts, ends) if not _BLANK_PART.fullmatch(part)]


def statement_of(text: str) -> bytes:
    """Returns the only statement of a text, with its `;`. Raises ProgrammingError if there is none or more than one."""
    return _remembered_statement(text) if len(text) <= _LONGEST_REMEMBERED else _one_statement(text)


def bound(statement: str, values: Sequence[Any]) -> str:
    """Returns the statement with each `?` outside quoted texts and comments replaced by a value.

    A value is None or an integer. Raises ProgrammingError if one is neither, or if the number of values isn't the
    number of `?`, and DataError if an integer has more than 64 bits.
    """
    return _woven(_remembered_pieces(statement), values)


def bound_statement(text: str, values: Sequence[Any]) -> bytes:
    """Returns the only statement of a text, with its `;` and its values. Raises what bound and statement_of raise.

    Values move neither the end of a statement nor its places, so a text is searched for these only when it is new.
    """
    try:
        pieces = _pieces_of_statement(text)
    except ProgrammingError:
        # A fault of the values is reported first, and one of the text as it is with its values.
        return statement_of(bound(text, values))
    return _woven(pieces, values).encode() + b";"


def literal(value: Any) -> str:
    """Returns None or an integer as a statement spells it, with a blank on both sides.

    The blanks keep it a separate token: otherwise `-?` with -1 would begin a comment.
    """
    if value is None:
        return " NULL "
    number = integer(value)
    if not LEAST_NUMBER <= number <= GREATEST_NUMBER:
        raise DataError("an integer of more than 64 bits: a statement has none")
    return f" {number} "


def integer(value: Any) -> int:
    """Converts the value to an int, if that loses nothing, as for numpy's integers. Else raises ProgrammingError."""
    try:
        return index(value)
    except TypeError:
        raise ProgrammingError(
            f"a value is to be an integer or None, not a {type(value).__name__}: {value!r}"
        ) from None


def path_of(path: PathLike) -> str:
    """Returns a file's name as a str. Raises ProgrammingError if it isn't a str or path of str, or has a zero byte."""
    if not isinstance(path, (str, os.PathLike)) or not isinstance(name := os.fspath(path), str):
        raise ProgrammingError(f"a file's name is to be a str or a path of str, not a {type(path).__name__}")
    if "\0" in name:
        raise ProgrammingError("a file's name has no zero byte")
    return name


def quoted(path: PathLike) -> str:
    """Returns a file's name quoted for use in a statement.

    Raises ProgrammingError if no statement can name the file: if path_of does, or if the name is empty, has more than
    255 bytes, or isn't UTF-8.
    """
    name = path_of(path)
    if not 1 <= len(_encoded(name)) <= FILE_NAME_BYTES:
        raise ProgrammingError(f"a file's name has 1 to {FILE_NAME_BYTES} bytes, not {len(_encoded(name))}: {name!r}")
    return "'" + name.replace("'", "''") + "'"


def checked_name(word: str) -> str:
    """Returns the name of a table or column in upper case. Raises ProgrammingError if the word isn't a valid name."""
    if not isinstance(word, str) or not NAME.fullmatch(word) or word.upper() in RESERVED:
        raise ProgrammingError(
            f"not a name: {word!r}; a name is a letter, then letters, digits and _, at most 128, and no reserved word"
        )
    return word.upper()


def checked_text(statement: object) -> str:
    """Returns the statement or script if it is a str. Raises ProgrammingError otherwise."""
    if not isinstance(statement, str):
        raise ProgrammingError(f"a statement is to be a str, not a {type(statement).__name__}")
    return statement


def _encoded(text: str) -> bytes:
    try:
        return text.encode()
    except UnicodeEncodeError as fault:
        raise ProgrammingError(f"text that has no UTF-8: {fault}") from None


def _one_statement(text: str) -> bytes:
    statements = statements_of(text)
    if len(statements) != 1:
        raise ProgrammingError(f"one statement is to be given, and there are {len(statements)}")
    return statements[0]


_remembered_statement = lru_cache(maxsize=512)(_one_statement)


def _pieces_of(statement: str) -> tuple[str, ...]:
    """Returns the text before, between and after the `?` for values."""
    places = [found.span() for found in _PLACE.finditer(statement) if found[1]]
    starts = [0, *(end for _, end in places)]
    ends = [*(start for start, _ in places), len(statement)]
    return tuple(statement[start:end] for start, end in zip(starts, ends))


_remembered_pieces = lru_cache(maxsize=512)(_pieces_of)


@lru_cache(maxsize=512)
def _pieces_of_statement(text: str) -> tuple[str, ...]:
    """Returns the pieces of the only statement of a text, without its `;`. Raises what statement_of raises."""
    return _pieces_of(_one_statement(text)[:-1].decode())


def _woven(pieces: tuple[str, ...], values: Sequence[Any]) -> str:
    """Returns the statement of these pieces with the values between them. Raises what bound raises."""
    # The usual types come first: it takes long to find out that one is no Mapping and no Set.
    if type(values) not in (tuple, list) and (isinstance(values, UNLISTED) or not hasattr(values, "__len__")):
        raise ProgrammingError(f"the values are to be a list or a tuple, not a {type(values).__name__}")
    if len(values) != len(pieces) - 1:
        raise ProgrammingError(f"values given: {len(values)}; places for values in the statement: {len(pieces) - 1}")
    woven = [pieces[0]]
    for value, piece in zip(values, pieces[1:]):
        woven += (literal(value), piece)
    return "".join(woven)


def _parts(script: bytes) -> list[bytes]:
    """Returns the parts between the `;` that are outside quoted texts and comments, including blank ones."""
    parts: list[bytes] = []
    pieces: list[bytes] = []
    for found in _PIECE.finditer(script):
        piece = found[0]
        if piece == b"'":
            raise ProgrammingError(f"a text that begins at byte {found.start()} is not closed")
        if piece == b";":
            parts.append(b"".join(pieces))
            pieces = []
        else:
            pieces.append(piece)
    return [*parts, b"".join(pieces)]
