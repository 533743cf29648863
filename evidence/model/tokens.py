"""The tokens of a part, or the fault of its first token that is bad or over a limit."""

import re
from enum import Enum, auto
from typing import NamedTuple

from model.refusals import Refusal, refuse_if

LONGEST_WORD = 128
LONGEST_TEXT = 255
GREATEST_NUMBER = 9_223_372_036_854_775_807
DEEPEST = 63

RESERVED = frozenset(
    """AND BETWEEN BIGINT BY COUNT CREATE DELETE DROP FALSE FROM GROUP IN INSERT INT INTEGER INTO IS
    MAX MEDIAN MIN NOT NULL OPEN OR SELECT SET SUM TABLE TO TRUE UNKNOWN UPDATE USING VALUES WHERE WITH""".split()
)

NOTHING = re.compile(rb"(?:[\t\n\r ]++|--[^\n]*+)*+")
SPELLING = re.compile(
    rb"""(?P<WORD> [A-Za-z][A-Za-z0-9_]* )
    | (?P<NUMBER>  [0-9]+ (?![A-Za-z0-9_]) )
    | (?P<TEXT>    '[^']*(?:''[^']*)*' )
    | (?P<SYMBOL>  <> | != | <= | >= | [(),*+=<>-] )
    """,
    re.VERBOSE,
)


class Kind(Enum):
    """What a token is."""

    WORD = auto()
    NUMBER = auto()
    TEXT = auto()
    SYMBOL = auto()
    END = auto()


class Token(NamedTuple):
    """A token, of which the value tells the kind.

    The value of a word is in upper case, that of a number an integer, and that of a text the bytes between its quotes,
    with one quote for each doubled one.
    """

    kind: Kind
    value: str | int | bytes

    @property
    def is_name(self) -> bool:
        """Whether it is a word that isn't reserved."""
        return self.kind is Kind.WORD and self.value not in RESERVED


END = Token(Kind.END, "")


def tokens_of(text: bytes) -> list[Token]:
    """All tokens of a part; error 10, 12 or 13 by the first that is bad or over its limit."""
    tokens: list[Token] = []
    depth, at = 0, NOTHING.match(text).end()
    while at < len(text):
        found = SPELLING.match(text, at)
        if found is None:
            raise Refusal(10)
        token = READERS[found.lastgroup](found[0], tokens)
        if token.value == "(":
            refuse_if(depth > DEEPEST, 12)
            depth += 1
        elif token.value == ")":
            depth -= 1
        tokens.append(token)
        at = NOTHING.match(text, found.end()).end()
    return tokens


def word_of(spelling: bytes, _: list[Token]) -> Token:
    """The word of this spelling, of at most 128 bytes."""
    refuse_if(len(spelling) > LONGEST_WORD, 10)
    return Token(Kind.WORD, spelling.decode("ascii").upper())


def number_of(digits: bytes, before: list[Token]) -> Token:
    """The number of these digits, which may be greater by one behind a `-`."""
    limit = GREATEST_NUMBER + (bool(before) and before[-1].value == "-")
    digits = digits.lstrip(b"0") or b"0"
    refuse_if(len(digits) > len(str(limit)) or int(digits) > limit, 13)
    return Token(Kind.NUMBER, int(digits))


def text_of(spelling: bytes, _: list[Token]) -> Token:
    """The text of this spelling: UTF-8 of 1 to 255 bytes without the byte 0."""
    content = spelling[1:-1].replace(b"''", b"'")
    refuse_if(not 1 <= len(content) <= LONGEST_TEXT or b"\0" in content, 10)
    try:
        content.decode("utf-8")
    except UnicodeDecodeError:
        raise Refusal(10) from None
    return Token(Kind.TEXT, content)


def symbol_of(spelling: bytes, _: list[Token]) -> Token:
    """The symbol of this spelling."""
    return Token(Kind.SYMBOL, spelling.decode("ascii"))


READERS = {"WORD": word_of, "NUMBER": number_of, "TEXT": text_of, "SYMBOL": symbol_of}
