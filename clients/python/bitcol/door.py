"""The interface between a session and a store: any object that answers scripts and provides temporary files.

A session knows its store only by these calls, so the same session class works with a store in a separate process and
with one in this process.
"""

from __future__ import annotations

from collections.abc import Iterable, Iterator
from contextlib import AbstractContextManager
from typing import Protocol, Union

from .errors import ProgrammingError

Bytes = Union[bytes, bytearray, memoryview]


def pieces_of(pieces: Iterable[Bytes]) -> Iterator[Bytes]:
    """Iterates over the pieces. Raises ProgrammingError if one isn't bytes, or if bytes or a str are given instead of a
    list of pieces."""
    fault = ProgrammingError(f"the pieces are to be a list of bytes, not a {type(pieces).__name__}")
    if isinstance(pieces, (str, bytes, bytearray, memoryview)):
        raise fault
    try:
        return map(_piece, pieces)
    except TypeError:
        raise fault from None


def _piece(piece: Bytes) -> Bytes:
    try:
        return memoryview(piece)
    except TypeError:
        raise ProgrammingError(f"a piece is to be bytes, not a {type(piece).__name__}") from None


class File(Protocol):
    """A file that both a statement and this process can reach."""

    @property
    def name(self) -> str:
        """The name by which a statement refers to it."""

    def write(self, pieces: Iterable[Bytes]) -> None:
        """Replaces the content of the file by these pieces, one after the other."""

    def read(self) -> bytes:
        """Returns the whole content of the file."""


class Door(Protocol):
    """A store that answers scripts. Tables live until it is closed."""

    def answer(self, script: bytes, statements: int, seconds: float | None = None) -> list[bytes]:
        """Executes a script with this number of statements, and returns the bytes of the reply to each, in order.

        Each statement ends with its `;` and isn't blank. Raises InterfaceError if the door is closed, and ProgramEnded
        if the store is gone. If `seconds` is given and the call takes longer, the store is ended and OutOfTime is
        raised; a door that can't end its store raises NotSupportedError instead.
        """

    def scratch(self) -> AbstractContextManager[File]:
        """A file that is removed when the context ends."""

    def close(self) -> None:
        """Ends the store. Closing a closed door does nothing."""
