"""The bytes of the replies."""

from collections.abc import Iterable, Sequence

from model.refusals import Refusal
from model.tree import Item, Value

OK = b"ok\n"


def counted(number: int) -> bytes:
    """The reply of a statement that counts rows."""
    return b"ok %d\n" % number


def units(number: int) -> bytes:
    """The reply to a STATS."""
    return b"units %d\n" % number


def refused(refusal: Refusal) -> bytes:
    """The reply to a statement that is refused."""
    return f"{refusal}\n".encode("ascii")


def listed(header: Sequence[str], lines: Iterable[Sequence[Value | str]]) -> bytes:
    """A header, lines, and the number of lines."""
    texts = [",".join(map(written, line)) for line in lines]
    return "\n".join([",".join(header), *texts, f"rows {len(texts)}\n"]).encode("ascii")


def written(value: Value | str) -> str:
    """A value as it is shown."""
    return "NULL" if value is None else str(value)


def heading(item: Item) -> str:
    """The heading of an item of a select list."""
    return item.column if item.function is None else f"{item.function.value}({item.column or '*'})"
