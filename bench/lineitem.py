"""The rows of TPC-H's lineitem as integers, by the rules of its specification, as CSV files.

Money is in cents, discount and tax in hundredths, dates are days from 1992-01-01, return flags are A 0, N 1 and R
2, and line statuses F 0 and O 1. After the columns of the specification come four that the queries compute there:
a number for the pair of flag and status, the discounted price with and without tax, and the revenue of query 6.
Texts, keys and the ship mode are left out. The generator is Python's, with a seed of its own, and not that of
`dbgen`: the distributions are the same, and the rows are not.
"""

import datetime
import random
from collections.abc import Iterator
from pathlib import Path

from common import data_file
from queries import Columns

TYPES = {
    "quantity": "INT",
    "extendedprice": "INT",  # in cents
    "discount": "INT",  # in hundredths
    "tax": "INT",  # in hundredths
    "returnflag": "INT",
    "linestatus": "INT",
    "shipdate": "INT",
    "commitdate": "INT",
    "receiptdate": "INT",
    "flagstatus": "INT",  # 2 * returnflag + linestatus
    "discprice": "INT",  # extendedprice * (100 - discount)
    "charge": "BIGINT",  # extendedprice * (100 - discount) * (100 + tax)
    "revenue": "INT",  # extendedprice * discount
}
ORDERS, PARTS = 1_500_000, 200_000  # at scale factor 1
START = datetime.date(1992, 1, 1)
ROWS_A_FILE = 1 << 20
SEED = 19_920_101
RETURNED, NEITHER, ACCEPTED = 2, 1, 0


def day(year: int, month: int, date: int) -> int:
    """A date as days after the first."""
    return (datetime.date(year, month, date) - START).days


CURRENT = day(1995, 6, 17)
LAST_ORDER = day(1998, 12, 31) - 151


def retail_price(part: int) -> int:
    """A part's price in cents."""
    return 90_000 + part // 10 % 20_001 + 100 * (part % 1_000)


def items_of_order(draw: random.Random, parts: int) -> Iterator[tuple[int, ...]]:
    """The rows of one order: one to seven."""
    below = draw.random
    ordered = int(below() * (LAST_ORDER + 1))
    for _ in range(1 + int(below() * 7)):
        quantity = 1 + int(below() * 50)
        price = quantity * retail_price(1 + int(below() * parts))
        discount, tax = int(below() * 11), int(below() * 9)
        shipped = ordered + 1 + int(below() * 121)
        committed = ordered + 30 + int(below() * 61)
        received = shipped + 1 + int(below() * 30)
        flag = NEITHER if received > CURRENT else RETURNED if below() < 0.5 else ACCEPTED
        status = int(shipped > CURRENT)
        net = price * (100 - discount)
        first = quantity, price, discount, tax, flag, status, shipped, committed, received
        yield *first, 2 * flag + status, net, net * (100 + tax), price * discount


def lineitem(scale: float) -> Columns:
    """The table at a scale factor, written to files that a LOAD reads; files of an earlier run are reused if they are
    complete."""
    whole = data_file(f"lineitem-{scale:g}.rows")
    if whole.exists():
        written, *names = whole.read_text().split()
        if all(data_file(name).exists() for name in names):
            return Columns(tuple(data_file(name) for name in names), TYPES, int(written))
    draw = random.Random(SEED)
    parts = max(1, round(PARTS * scale))
    lines: list[str] = []
    paths: list[Path] = []
    count = 0
    for _ in range(max(1, round(ORDERS * scale))):
        lines += [",".join(map(str, row)) for row in items_of_order(draw, parts)]
        if len(lines) >= ROWS_A_FILE:
            count += written_file(scale, paths, lines)
    count += written_file(scale, paths, lines)
    whole.write_text(" ".join([str(count), *(path.name for path in paths)]))
    return Columns(tuple(paths), TYPES, count)


def written_file(scale: float, paths: list[Path], lines: list[str]) -> int:
    """Writes a file of these lines, and empties the list. Returns their number."""
    if not lines:
        return 0
    paths.append(data_file(f"lineitem-{scale:g}-{len(paths)}.csv"))
    paths[-1].write_text("\n".join(lines) + "\n")
    count = len(lines)
    lines.clear()
    return count
