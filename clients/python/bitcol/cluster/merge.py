"""Combines the answers of several parts into one.

Each merge relies on a law about the definitions of the language, which gives the result for the rows of two lists, one
after the other, from the results for each list. The laws are named where they are used, and are proved in the crate
bw_merge. That this code merges as they say is tested.
"""

from __future__ import annotations

import operator
from collections.abc import Callable, Iterable, Sequence
from typing import Any, Union

from ..errors import InternalError
from ..reply import reply_of
from .select import Item

REFUSED = b"error "
_LAST_LINE = b"rows "

# The results of set functions over parts: the cells of each group by the group's value, in the order of the items.
# Without grouping all rows are the group (). A median is a pair of ends between which it lies.
Groups = dict[Any, list[Any]]
# Either these, or the bytes of a refusal, which is the same for all parts (law selects_are_refused_alike).
Folded = Union[Groups, bytes]


def joined(replies: Sequence[bytes]) -> bytes:
    """Returns the reply to a SELECT of columns. Law found_rows_follow: the rows found in two lists, one after the
    other, are those of the first followed by those of the second, and so are the lines of an answer."""
    header = replies[0][: replies[0].index(b"\n") + 1]
    ends = [reply.rindex(_LAST_LINE) for reply in replies]
    count = sum(int(reply[end + len(_LAST_LINE) :]) for reply, end in zip(replies, ends))
    bodies = (reply[len(header) : end] for reply, end in zip(replies, ends))
    return b"".join([header, *bodies, b"rows %d\n" % count])


def groups_of(reply: bytes, items: Sequence[Item], is_grouped: bool) -> Folded:
    """Parses a part's reply with set functions. The first item is the grouping column if there is one."""
    if reply.startswith(REFUSED):
        return reply
    found = reply_of(reply)
    wanted = tuple(item.heading for item in items)
    if found.headings != wanted:
        raise InternalError(f"asked for {wanted}, and answered {found.headings}")
    groups: Groups = {row[0] if is_grouped else (): list(row) for row in found.rows()}
    for place in (place for place, item in enumerate(items) if item.function == "MEDIAN"):
        for cells in groups.values():
            if cells[place] is not None:
                cells[place] = (cells[place], cells[place])
    return groups


def folded(found: Iterable[Folded], items: Sequence[Item]) -> Folded:
    """Combines the results of several parts, or of folds of parts. Laws groups_merge and lines_of_groups_merge: a group
    of two lists, one after the other, consists of the groups with its value in each list, and its line is the merge of
    both lines. Law groups_of_one_list_stay: if only one list has a group with the value, it is the group of both."""
    merges = [_MERGES[item.function] for item in items]
    together: Groups = {}
    for groups in found:
        if isinstance(groups, bytes):
            return groups
        for value, cells in groups.items():
            there = together.get(value)
            together[value] = cells if there is None else _both(merges, there, cells)
    return together


def _both(merges: Sequence[Callable[[Any, Any], Any]], line: Sequence[Any], other: Sequence[Any]) -> list[Any]:
    """Returns the line of two lists of rows, from the line of each. Law set_functions_merge: if a cell is NULL in one
    of them, that of the other is taken."""
    return [
        merge(one, two) if one is not None and two is not None else two if one is None else one
        for merge, one, two in zip(merges, line, other)
    ]


def _wider(one: tuple[int, int], other: tuple[int, int]) -> tuple[int, int]:
    return min(one[0], other[0]), max(one[1], other[1])


# The result of a function for two lists of rows, from its results for each, if these aren't NULL. Law
# set_functions_merge: COUNT and SUM of two lists are the sums of those of each, MIN and MAX the lesser and the greater.
# Law medians_bound_the_median: the lower median of two lists lies between the lower medians of each; so it lies between
# the ends of what contains those. A column is that of the group, whose value is the same in each list.
_MERGES: dict[str | None, Callable[[Any, Any], Any]] = {
    "COUNT": operator.add,
    "SUM": operator.add,
    "MIN": min,
    "MAX": max,
    "MEDIAN": _wider,
    None: min,
}


def in_order(groups: Groups) -> list[Any]:
    """Returns the values of groups in the order of an answer: ascending, NULL last (law groups_merge)."""
    return sorted(groups, key=lambda value: (value is None, 0 if value is None else value))


def reply_to(headings: Iterable[str], rows: Iterable[Sequence[Any]]) -> bytes:
    """Returns the bytes of a reply with these rows."""
    lines = [",".join("NULL" if cell is None else str(cell) for cell in row) for row in rows]
    return "\n".join([",".join(headings), *lines, f"rows {len(lines)}\n"]).encode()
