"""The parts of a request that routes use: the parameters after the `?`, and the body."""

from __future__ import annotations

from dataclasses import dataclass
from typing import BinaryIO
from urllib.parse import parse_qs

from ..shell.fault import Fault

# The bytes of a body that are read at a time.
PIECE_BYTES = 2**20
# The most digits of a meaningful number: the numbers of rows and answers have fewer.
NUMBER_DIGITS = 15


class BadRequest(Fault):
    """A request that the page never sends."""


class CutOff(Exception):
    """The sender of a request closed the connection in the middle of it."""


@dataclass(frozen=True)
class Query:
    """The parameters after the `?` of an address."""

    words: dict[str, list[str]]

    @classmethod
    def of(cls, text: str) -> Query:
        """Parses parameters. Raises BadRequest if the text isn't in this form."""
        try:
            return cls(parse_qs(text, keep_blank_values=True, strict_parsing=bool(text), errors="replace"))
        except ValueError as fault:
            raise BadRequest(f"the words after the ?: {fault}") from None

    def text(self, name: str) -> str:
        """Returns the parameter of this name. Raises BadRequest unless it is given exactly once."""
        found = self.words.get(name, [])
        if len(found) != 1:
            raise BadRequest(f"{name} is to be given once")
        return found[0]

    def number(self, name: str, greatest: int | None = None) -> int:
        """Returns the parameter as a number. Raises BadRequest if it isn't one, or is greater than `greatest`."""
        text = self.text(name)
        if not text.isascii() or not text.isdigit() or len(text) > NUMBER_DIGITS:
            raise BadRequest(f"{name} is to be a number")
        if greatest is not None and int(text) > greatest:
            raise BadRequest(f"{name} is at most {greatest}")
        return int(text)

    def numbers(self, name: str) -> list[int] | None:
        """Returns the parameter as numbers separated by commas, or None if it isn't given."""
        if name not in self.words:
            return None
        texts = self.text(name).split(",")
        return [Query({name: [text]}).number(name) for text in texts]


@dataclass
class Body:
    """The bytes that follow the headers of a request, of a known number."""

    stream: BinaryIO
    left: int

    def read(self) -> bytes:
        """Returns the next bytes, empty at the end. Raises CutOff if they don't arrive."""
        data = self.stream.read(min(self.left, PIECE_BYTES))
        if not data and self.left:
            raise CutOff
        self.left -= len(data)
        return data

    def text(self) -> str:
        """Returns the whole body as text. Raises BadRequest if it isn't UTF-8."""
        try:
            return b"".join(iter(self.read, b"")).decode()
        except UnicodeDecodeError:
            raise BadRequest("the text of a request is to be UTF-8") from None

    def copy_to(self, path: str) -> None:
        """Writes the body to a file. Raises OSError if the host can't."""
        with open(path, "wb") as file:
            for piece in iter(self.read, b""):
                file.write(piece)
