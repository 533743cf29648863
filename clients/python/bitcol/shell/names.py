"""Makes names of tables and columns from the names in a file."""

from __future__ import annotations

import re
import unicodedata
from collections.abc import Collection, Sequence

from ..script import NAME, RESERVED

NAME_BYTES = 128
_NO_NAME = re.compile(r"[^A-Z0-9_]+")


def is_name(word: str) -> bool:
    """Returns whether the word is a valid name as it is."""
    return NAME.fullmatch(word) is not None and word.upper() not in RESERVED


def name_of(word: str, prefix: str, taken: Collection[str] = ()) -> str:
    """Returns a name like this word, in upper case, that isn't taken: the word itself if it is a valid name.

    Otherwise accents are removed, characters that a name can't have become `_`, and `PREFIX_` is put before a word that
    doesn't begin with a letter or is reserved.
    """
    name = word.upper() if is_name(word) else _likeness(word, prefix)
    base, number = name, 1
    while name in taken:
        number += 1
        ending = f"_{number}"
        name = base[: NAME_BYTES - len(ending)] + ending
    return name


def column_names(words: Sequence[str]) -> tuple[list[str], list[str]]:
    """Returns a name for each of these words, all different, and a line for each word that had to be changed."""
    names: list[str] = []
    notes = []
    for place, word in enumerate(words, 1):
        name = name_of(word or str(place), "C", names)
        if name != word.upper():
            notes.append(f"column {place} {word!r} is called {name}")
        names.append(name)
    return names, notes


def _likeness(word: str, prefix: str) -> str:
    """Returns a name like a word that isn't a valid name."""
    without_accents = "".join(
        letter for letter in unicodedata.normalize("NFKD", word) if not unicodedata.combining(letter)
    )
    name = _NO_NAME.sub("_", without_accents.upper()).strip("_")[:NAME_BYTES]
    return name if is_name(name) else f"{prefix}_{name}"[:NAME_BYTES].rstrip("_")
