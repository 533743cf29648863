"""Queries to the parts of a version: what the parts are asked, and the one answer that theirs are combined into."""

from __future__ import annotations

import collections
from collections.abc import Callable, Iterator, Sequence
from typing import Any

from ..errors import InternalError, NotSupportedError
from ..reply import reply_of
from .condition import may_be_met
from .direct import Calls
from .groups import RETRIES, Group
from .holding import ask_counts, ask_each, ask_groups, ask_lists, ask_rows, merge_groups, read
from .limit import Limit, without_errors
from .median import FEW_VALUES, GROUP_LIMIT, Search
from .merge import REFUSED, Groups, folded, in_order, joined, reply_to
from .select import Item, Select

# A longer statement is refused, whatever it says. Blanks count.
STATEMENT_BYTES = 65_536
# How many answers are merged in one task.
FAN_IN = 32
# For how many conditions it is remembered which parts they are sent to.
CONDITIONS_REMEMBERED = 64


class Questions:
    """Answers SELECTs by the parts of a version on dask's workers."""

    def __init__(self, client: Any, groups: list[Group]) -> None:
        self._client = client
        self._calls = Calls(client)
        self.groups = groups
        self._asked_of: dict[str, list[tuple[Group, list[int]]]] = {}

    def answer(self, text: str, limit: Limit) -> bytes:
        """Returns the bytes of the reply to a SELECT, as one store with the rows of all parts would write them."""
        select = Select(text)
        if select.folds and len(text.encode()) <= STATEMENT_BYTES:
            return self._folded(select, text, limit)
        replies: list[bytes] = self._asked(select.condition, limit, ask_rows, text)
        return replies[0] if replies[0].startswith(REFUSED) else _shown(select, joined(replies))

    def units(self, text: str, limit: Limit) -> bytes:
        """Returns the bytes of the reply to a STATS: the sum of the units read by the parts that its SELECT is sent
        to."""
        told = self._asked(Select(text).condition, limit, ask_each, text)
        replies = [reply_of(reply) for replies in told for reply in replies]
        refused = replies[0].refusal is not None
        return bytes(told[0][0]) if refused else b"units %d\n" % sum(reply.count or 0 for reply in replies)

    def counts(self, statement: str, condition: str | None) -> list[int] | None:
        """Returns the count that a statement has for each part, 0 if the condition can't be met there, or None if the
        statement is refused."""
        asked = self._asked_groups(condition)
        told = iter(self._asked(condition, Limit(None), ask_each, statement))
        counts = []
        places = {id(group): which for group, which in asked}
        for group in self.groups:
            which = places.get(id(group), [])
            replies = dict(zip(which, next(told))) if which else {}
            if any(reply.startswith(REFUSED) for reply in replies.values()):
                return None
            told_of = {place: reply_of(reply).scalar() for place, reply in replies.items()}
            counts += [told_of.get(place, 0) for place in range(len(group.parts))]
        return counts

    def rows(self, text: str, ahead: int) -> Iterator[tuple[Any, ...]]:
        """Yields the rows of a SELECT of columns. The rows of at most `ahead` parts are here, or on their way."""
        select = Select(text)
        parts = iter(self.asked_parts(select))
        waiting: collections.deque[Any] = collections.deque()
        while True:
            while len(waiting) < ahead and (part := next(parts, None)) is not None:
                waiting.append(self.submit(ask_rows, part[0].holding, part[1], text))
            if not waiting:
                return
            (data,) = Limit(None).gathered(self._client, [waiting.popleft()])
            reply = reply_of(data if data.startswith(REFUSED) else _shown(select, data))
            if reply.refusal is not None:
                raise reply.refusal
            for batch in reply.batches():
                yield from batch

    def asked_parts(self, select: Select) -> list[tuple[Group, list[int]]]:
        """Returns the parts that a SELECT is sent to, each by itself: its group, and its place there."""
        return [(group, [place]) for group, which in self._asked_groups(select.condition) for place in which]

    def submit(self, call: Callable[..., Any], *arguments: Any) -> Any:
        """Submits a task whose result is computed again, even if there is one already."""
        return self._client.submit(call, *arguments, pure=False, retries=RETRIES)

    def _folded(self, select: Select, text: str, limit: Limit) -> bytes:
        """Returns the reply to a SELECT of set functions or groups. Parts are sent the same SELECT, with the grouping
        column, by which groups are merged, before its items, and the count of the values of each median after them."""
        asked = select.items or []
        front = [Item(None, select.key)] if select.key else []
        counts = [Item("COUNT", item.column) for item in asked if item.function == "MEDIAN"]
        items = [*front, *asked, *counts]
        words = [*(item.heading for item in front), select.list, *(item.heading for item in counts)]
        question = f"SELECT {', '.join(words)} {select.source}"
        groups = folded(self._folds(select, limit, question, items), items)
        if isinstance(groups, bytes):
            return self._refusal(text)
        shown = slice(len(front), len(front) + len(asked))
        self._find_medians(select, items[: shown.stop], groups, limit)
        return reply_to((item.heading for item in asked), (groups[value][shown] for value in in_order(groups)))

    def _folds(self, select: Select, limit: Limit, question: str, items: Sequence[Item]) -> list[Any]:
        """Returns the results of all parts for set functions or groups, partly combined. Workers merge many results of
        groups."""
        rest = {"items": items, "is_grouped": select.key is not None}
        if select.key is None or len(self.groups) <= FAN_IN:
            return self._asked(select.condition, limit, ask_groups, question, **rest)
        futures = self._tasks(self._asked_groups(select.condition), limit, ask_groups, question, **rest)
        while len(futures) > FAN_IN:
            some = [futures[start : start + FAN_IN] for start in range(0, len(futures), FAN_IN)]
            futures = [self.submit(merge_groups, each, items) for each in some]
        return limit.gathered(self._client, futures)

    def _refusal(self, text: str) -> bytes:
        """Returns the refusal of a statement as it was written, not as it was sent to parts."""
        asked = [self.submit(ask_each, self.groups[0].holding, [0], text)]
        ((reply,),) = Limit(None).gathered(self._client, asked)
        if not reply.startswith(REFUSED):
            raise NotSupportedError("a statement that is too long to be asked of several parts")
        return bytes(reply)

    def _find_medians(self, select: Select, items: Sequence[Item], groups: Groups, limit: Limit) -> None:
        """Replaces the ends of medians by the medians. After the cells of the items are the counts of their values."""
        searches = []
        for value, cells in groups.items():
            terms = [] if select.key is None else [_is_value(select.key, value)]
            counts = iter(cells[len(items) :])
            for place, item in enumerate(items):
                if item.function == "MEDIAN":
                    searches.append(Search(select, item.column, terms, next(counts), cells, place))
        searches = [search for search in searches if search.is_open]
        if len(searches) > GROUP_LIMIT:
            raise NotSupportedError(
                f"a MEDIAN of more than {GROUP_LIMIT} groups that lie in several parts: narrow the condition"
            )
        while searches:
            self._narrow(select, searches, limit)
            searches = [search for search in searches if search.is_open]

    def _narrow(self, select: Select, searches: Sequence[Search], limit: Limit) -> None:
        """One round: gets the counts that all searches need, and then the values of those that have few left."""
        probes = [probe for search in searches for probe in search.probes()]
        counts = iter([sum(column) for column in zip(*self._asked(select.condition, limit, ask_counts, probes))])
        for search in searches:
            search.narrow(counts)
        for some in _batches([search for search in searches if search.is_open and search.inside <= FEW_VALUES]):
            lists = self._asked(select.condition, limit, ask_lists, [search.fetch() for search in some])
            for search, replies in zip(some, zip(*lists)):
                search.pick([value for reply in replies for (value,) in read(reply).rows()])

    def _asked_groups(self, condition: str | None) -> list[tuple[Group, list[int]]]:
        """Returns the groups to query, and which parts of each: those in which a row may be found. The others don't
        change the answer (law unfound_rows_change_nothing). If there are none, one part is queried, since the program
        has to judge the statement."""
        words = condition or ""
        if words not in self._asked_of:
            if len(self._asked_of) >= CONDITIONS_REMEMBERED:
                self._asked_of.clear()
            asked = []
            for group in self.groups:
                which = [place for place, part in enumerate(group.parts) if may_be_met(condition, part.ends)]
                if which:
                    asked.append((group, which))
            self._asked_of[words] = asked or [(self.groups[0], [0])]
        return self._asked_of[words]

    def _asked(
        self, condition: str | None, limit: Limit, call: Callable[..., Any], asked: Any, **rest: Any
    ) -> list[Any]:
        """Returns the results of a call for all parts in which a row may be found, those of a group together."""
        groups = self._asked_groups(condition)
        if limit.left() is None:
            found = self._calls.asked(groups, call, asked, **rest)
            if found is not None:
                return without_errors(found)
        return limit.gathered(self._client, self._tasks(groups, limit, call, asked, **rest))

    def _tasks(
        self,
        groups: Sequence[tuple[Group, list[int]]],
        limit: Limit,
        call: Callable[..., Any],
        asked: Any,
        **rest: Any,
    ) -> list[Any]:
        """Submits tasks that query groups."""
        holdings, which = [group.holding for group, _ in groups], [places for _, places in groups]
        found: list[Any] = self._client.map(
            call, holdings, which, [asked] * len(groups), pure=False, retries=RETRIES, seconds=limit.left(), **rest
        )
        return found


def _batches(searches: Sequence[Search]) -> Iterator[list[Search]]:
    """Yields searches whose values are fetched together: few values in total, or one search."""
    batch: list[Search] = []
    for search in searches:
        if batch and sum(each.inside for each in batch) + search.inside > FEW_VALUES:
            yield batch
            batch = []
        batch.append(search)
    if batch:
        yield batch


def _is_value(column: str, value: int | None) -> str:
    """Returns the condition that finds the rows of a group."""
    return f"{column} IS NULL" if value is None else f"{column} = {value}"


def _shown(select: Select, reply: bytes) -> bytes:
    """Returns the reply to a SELECT of columns. Raises InternalError if it is one of set functions, whose answers can't
    just be concatenated."""
    if select.is_grouped or b"(" in reply[: reply.index(b"\n")]:
        raise InternalError("the program takes a SELECT that this module can't read")
    return reply
