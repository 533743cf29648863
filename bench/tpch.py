#!/usr/bin/env python3
"""Times scans and sums over TPC-H's lineitem in bitcol, each layout, and in sqlite3, ClickHouse, numpy and C++.

The table has the specification's distributions, as integers (bench/lineitem.py). The queries are scans of one column
by selectivity and conjunctions, as the papers of the layouts measured them, and the parts of queries 1, 4, 6 and 12
that the language supports. All stores execute the same queries in turns, in one run, one thread each, and their results
are compared: a difference ends the bench with status 1. Stores that aren't installed are left out. docs/WORKLOAD.md
says what was taken over. Build bitcol first, by `rt run` in crates/bitcol.

    python3 bench/tpch.py [--scale FACTOR]      scale factor 1 has six million rows; at most 2.7, which a table holds
"""

import argparse
import sys

from common import LAYOUTS, options, rounds
from lineitem import TYPES, day, lineitem
from queries import Columns, Query, Range, Taken
from report import Report, figure, times
from stores import compared, stores_of

PARTS = (0.001, 0.01, 0.1, 0.5, 0.9)
SCANNED = ("quantity", "discount", "shipdate", "extendedprice")
SAMPLE = 1 << 18
LARGEST = 2.7
ROUNDS = 5

YEAR = Range("shipdate", day(1994, 1, 1), day(1995, 1, 1) - 1)
DISCOUNTS = Range("discount", 5, 7)
FEW = Range("quantity", None, 23)
LATE = Range("receiptdate", day(1994, 1, 1), day(1995, 1, 1) - 1)
LAST = Range("shipdate", None, day(1998, 9, 2))
BEFORE = (("commitdate", "receiptdate"), ("shipdate", "commitdate"))
SUMS = ("quantity", "extendedprice", "discprice", "charge", "discount")

CONJUNCTIONS = [
    Query("a year of ship dates", (YEAR,)),
    Query("and discounts of 5 to 7", (YEAR, DISCOUNTS)),
    Query("and quantities below 24", (YEAR, DISCOUNTS, FEW)),
    Query("the three, quantity first", (FEW, DISCOUNTS, YEAR)),
    Query("received after promised (4)", (), BEFORE[:1]),
    Query("a year, and both orders (12)", (LATE,), BEFORE),
]
QUERIES = [
    Query("query 1: sums by flag and status", (LAST,), (), SUMS, "flagstatus"),
    Query("query 1, one sum", (LAST,), (), ("quantity",), "flagstatus"),
    Query("query 1, no WHERE", (), (), SUMS, "flagstatus"),
    Query("query 6: revenue", (YEAR, DISCOUNTS, FEW), (), ("revenue",)),
    Query("revenue of all rows", (), (), ("revenue",)),
    Query("rows by day of shipping", (), (), (), "shipdate"),
    Query("revenue by day of receipt", (DISCOUNTS,), (), ("revenue",), "receiptdate"),
]


def scans(columns: Columns) -> list[Query]:
    """Scans of one column that find about these fractions of the rows."""
    places = [list(TYPES).index(name) for name in SCANNED]
    records = columns.records()
    sample = sorted_columns([record for record, _ in zip(records, range(SAMPLE))], places)
    queries = []
    for name, values in zip(SCANNED, sample):
        ends = {part: values[min(int(part * len(values)), len(values) - 1)] for part in PARTS}
        told: set[int] = set()
        for part, end in ends.items():
            if end not in told:
                queries.append(Query(f"{name} <= {end}", (Range(name, None, end),)))
            told.add(end)
    return queries


def sorted_columns(records: list[tuple[int | None, ...]], places: list[int]) -> list[list[int]]:
    return [sorted(record[place] or 0 for record in records) for place in places]


def found_part(answer: list[tuple[str, ...]], rows: int) -> str:
    """The fraction of all rows that was found, from COUNT(*), the last item of each row."""
    return f"{figure(100 * sum(int(row[-1]) for row in answer) / rows, 2)} %"


def tell(report: Report, name: str, queries: list[Query], found: dict[str, dict[str, Taken]], rows: int,
         missing: list[str]) -> None:
    """A table: ns per row in bitcol, and the others as multiples of V's time."""
    ours = [f"bitcol {layout}" for layout in LAYOUTS]
    others = [store for store in found if store not in ours]
    base = {query.title: found[ours[0]][query.title].seconds for query in queries}
    lines = []
    for query in queries:
        title = query.title
        own = [figure(found[store][title].seconds / rows * 1e9) for store in ours]
        beside = [times(found[store][title].seconds, base[title]) for store in others]
        lines.append([title, found_part(found[ours[0]][title].answer, rows), *own, *beside])
    left = f"; not installed: {', '.join(missing)}" if missing else ""
    what = f"{rows:,} rows; ns a row in bitcol, the others as multiples of V's time{left}"
    report.table(name, what, ["Query", "rows found", *LAYOUTS, *others], lines)


def more(parser: argparse.ArgumentParser) -> None:
    parser.add_argument("--scale", type=float, help="the scale factor; 1 if not given, and 0.001 in a quick run")


def main() -> None:
    words = options(__doc__, more=more)
    scale = words.scale or (0.001 if words.quick else 1.0)
    if not 0 < scale <= LARGEST:
        sys.exit(f"a scale factor above 0, and at most {LARGEST}")
    columns = lineitem(scale)
    report = Report(f"python3 bench/tpch.py --scale {scale:g}")
    stores, missing = stores_of(columns, LAYOUTS)
    parts = {"workload-scans": scans(columns), "workload-conjunctions": CONJUNCTIONS, "workload-queries": QUERIES}
    try:
        found = compared(stores, [query for queries in parts.values() for query in queries], rounds(ROUNDS))
    finally:
        for store in stores:
            store.close()
    for name, queries in parts.items():
        tell(report, name, queries, found, columns.rows, missing)
    loads = {store.name: store.loading / columns.rows * 1e9 for store in stores if store.loading}
    report.table("workload-loads", "LOAD of all rows, ns a row", [*loads], [[figure(cost) for cost in loads.values()]])
    report.finish()


if __name__ == "__main__":
    main()
