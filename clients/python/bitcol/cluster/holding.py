"""What dask keeps on a worker: parts, open in programs, and the queries that are sent to them."""

from __future__ import annotations

import hashlib
import time
import weakref
from collections.abc import Sequence
from typing import Any

from ..errors import Error, ErrorNumber, InternalError, NotSupportedError, OutOfTime, StoreRefused
from ..reply import Reply, reply_of
from .manifest import Part
from .merge import REFUSED, Folded, folded, groups_of, joined
from .programs import Place, ask, open_parts
from .select import Item

# The refusals of a statement that is too long or too deep. A query to parts may be longer and deeper than the original.
_TOO_MUCH = (ErrorNumber.STATEMENT_TOO_LONG, ErrorNumber.NESTED_TOO_DEEPLY)


class Holding:
    """Consecutive parts of a table, as dask keeps them among a worker's data: an object of the size of their files.
    When pickled it consists only of the names of the files. So what dask moves, recomputes after a loss, or spills
    because memory is short is opened again where it is queried next, and what is open is closed with the object."""

    def __init__(self, place: Place, parts: Sequence[Part]) -> None:
        self._place, self._parts = place, tuple(parts)
        self._open = open_parts(place, self._parts)
        _holdings[key_of(place, self._parts)] = self

    def __reduce__(self) -> tuple[type[Holding], tuple[Place, tuple[Part, ...]]]:
        return Holding, (self._place, self._parts)

    def __sizeof__(self) -> int:
        return sum(part.size for part in self._parts)

    def answers(self, which: Sequence[int], statements: Sequence[str], deadline: float | None) -> list[list[bytes]]:
        """Returns the replies of some of the parts, in order."""
        return ask([self._open[place] for place in which], statements, deadline)


# The holdings in this process, by their names in dask. It keeps none of them alive.
_holdings: weakref.WeakValueDictionary[str, Holding] = weakref.WeakValueDictionary()


def key_of(place: Place, parts: Sequence[Part]) -> str:
    """Returns the name in dask of the holding of these parts: the same for all clients that ask for them."""
    said = "\n".join([place.storage.where(""), place.table, *(part.digest for part in parts)])
    return f"bitcol-hold-{hashlib.sha256(said.encode()).hexdigest()}"


def held(key: str) -> Holding | None:
    """Returns the holding in this process with this name, or None."""
    return _holdings.get(key)


# The result of a query, or an error that a retry would not fix: dask retries what raises.
Told = Any


def hold(place: Place, parts: Sequence[Part]) -> Holding:
    """A task: opens parts."""
    holding = Holding(place, parts)
    holding.answers(range(len(parts)), [], None)
    return holding


def ask_rows(holding: Holding, which: Sequence[int], statement: str, seconds: float | None = None) -> Told:
    """A task: returns the bytes of the reply of some parts to a SELECT of columns, or of a refusal."""
    return _told(lambda: _rows(holding, which, statement, _deadline(seconds)))


def ask_each(holding: Holding, which: Sequence[int], statement: str, seconds: float | None = None) -> Told:
    """A task: returns the bytes of the reply of each of some parts."""
    return _told(lambda: [reply for (reply,) in holding.answers(which, [statement], _deadline(seconds))])


def ask_groups(
    holding: Holding,
    which: Sequence[int],
    statement: str,
    items: Sequence[Item],
    is_grouped: bool,
    seconds: float | None = None,
) -> Told:
    """A task: returns the combined results of set functions over some parts."""

    def ask() -> Folded:
        replies = holding.answers(which, [statement], _deadline(seconds))
        return folded((groups_of(reply, items, is_grouped) for (reply,) in replies), items)

    return _told(ask)


def ask_lists(holding: Holding, which: Sequence[int], statements: Sequence[str], seconds: float | None = None) -> Told:
    """A task: returns for each statement, a SELECT of columns, the bytes of the reply of some parts, which isn't a
    refusal."""

    def ask() -> list[bytes]:
        replies = holding.answers(which, statements, _deadline(seconds))
        for reply in replies[0]:
            read(reply)
        return [joined(each) for each in zip(*replies)]

    return _told(ask)


def ask_counts(holding: Holding, which: Sequence[int], statements: Sequence[str], seconds: float | None = None) -> Told:
    """A task: returns the sums over some parts of the counts that statements ask for."""

    def ask() -> list[int]:
        replies = holding.answers(which, statements, _deadline(seconds))
        return [sum(column) for column in zip(*([read(reply).scalar() for reply in part] for part in replies))]

    return _told(ask)


def merge_groups(found: Sequence[Told], items: Sequence[Item]) -> Told:
    """A task: combines results of ask_groups."""
    for told in found:
        if isinstance(told, Error):
            return told
    return folded(found, items)


def read(reply: bytes) -> Reply:
    """Parses the reply to a query about rows for which an earlier query was answered."""
    found = reply_of(reply)
    if found.refusal is None:
        return found
    if found.refusal.number in _TOO_MUCH:
        raise NotSupportedError("the condition is too long, or too deep, for a median over several parts")
    raise InternalError(f"a part refuses what it should answer: {found.refusal}")


def _rows(holding: Holding, which: Sequence[int], statement: str, deadline: float | None) -> bytes:
    replies = [reply for (reply,) in holding.answers(which, [statement], deadline)]
    return replies[0] if replies[0].startswith(REFUSED) else joined(replies)


def _deadline(seconds: float | None) -> float | None:
    return None if seconds is None else time.monotonic() + seconds


def _told(ask: Any) -> Told:
    """Returns the answer, or an error that a retry would not fix."""
    try:
        return ask()
    except (OutOfTime, StoreRefused, NotSupportedError, InternalError) as error:
        return error
