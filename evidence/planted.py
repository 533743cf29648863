#!/usr/bin/env python3
"""Plants bugs in the model, one at a time, and reports after how many random scripts each is seen.

    python3 evidence/planted.py [CASES]     tries at most this number of scripts, 2,000 if none is named

After the random scripts come some over tables of more than a segment (counts.py). If a planted bug changes a reply
or a file, the same bug in the program would be a difference. So this shows what the scripts of check.py can see,
without the program. The exit status is 1 if a bug was never seen.
"""

import re
import sys
from collections.abc import Iterable
from contextlib import AbstractContextManager
from itertools import chain
from unittest.mock import patch

from common import Progress
from counts import script_over
from model import Ended, conditions, csvfile, encodings, parts, replies, script, statements, store, tokens, tree, units
from model.tree import Function, Layout
from relations import shapes
from scripts import by_model, script_of
from writer import Script

Run = tuple[Script, Ended]

CASES = 2_000
SEED = 1


def null_is_null(left: tree.Value, relation: str, right: tree.Value) -> tree.Truth:
    """Comparisons for which two NULLs are equal."""
    return RIGHT_COMPARED(left, relation, right) if (left, right) != (None, None) else relation in ("=", "<=", ">=")


def wrapped_sum(function: Function, values: list[int]) -> tree.Value:
    """Set functions whose sums exceed 64 bits."""
    value = RIGHT_FOLDS(function, values)
    return value if function is not Function.SUM or value is None else (value + 2**63) % 2**64 - 2**63


def upper_median(function: Function, values: list[int]) -> tree.Value:
    """Set functions whose median is the upper one."""
    return values[len(values) // 2] if function is Function.MEDIAN and values else RIGHT_FOLDS(function, values)


def null_first(rows: list[store.Cells], name: str) -> list[list[store.Cells]]:
    """Groups with the group of NULL first."""
    groups = RIGHT_GROUPS(rows, name)
    return sorted(groups, key=lambda group: group[0][name] is not None)


def live_codes(table: store.Table, column: store.Column, values: Iterable[tree.Value]) -> None:
    """Codes that are encoded again for the live rows alone."""
    new = {value for value in values if value is not None}
    if not all(map(column.encoding.has_code, new)):
        there = {row[column.name] for row in table.rows()}
        column.encoding = encodings.encoding_of(column.coding, there | new)


RIGHT_FOLDS = statements.folded
RIGHT_GROUPS = statements.groups_of
RIGHT_COMPARED = conditions.compared

BUGS: dict[str, tuple[object, str, object]] = {
    "NULL = NULL is true": (conditions, "compared", null_is_null),
    "NOT unknown is true": (conditions, "not_of", lambda inner: not inner),
    "false AND unknown is unknown": (conditions, "and_of", lambda p: None if None in (f := list(p)) else all(f)),
    "true OR unknown is unknown": (conditions, "or_of", lambda p: None if None in (f := list(p)) else any(f)),
    "< is <=": (conditions, "RELATIONS", {**conditions.RELATIONS, "<": conditions.RELATIONS["<="]}),
    "the upper median": (statements, "folded", upper_median),
    "sums wrap": (statements, "folded", wrapped_sum),
    "the group of NULL first": (statements, "groups_of", null_first),
    "lists of 1,001 entries": (statements, "LONGEST_LIST", 1_001),
    "parts of 65,537 bytes": (script, "LONGEST_PART", 65_537),
    "65 open parentheses": (tokens, "DEEPEST", 64),
    "words of 129 bytes": (tokens, "LONGEST_WORD", 129),
    "texts of 256 bytes": (tokens, "LONGEST_TEXT", 256),
    "numbers up to 2^63 without a sign": (tokens, "GREATEST_NUMBER", 2**63),
    "STATS is reserved": (tokens, "RESERVED", tokens.RESERVED | {"STATS"}),
    "comments are cut at ;": (parts, "PIECE", re.compile(rb"'[^']*(?:'|\Z)|;|-|[^';-]+")),
    "NULL is written as nothing": (replies, "written", lambda value: "" if value is None else str(value)),
    "no + in a file": (csvfile, "INTEGER", re.compile(rb"-?[0-9]+")),
    "CR ends no line": (csvfile, "LINE_ENDS", b"\n"),
    "a quote within a field ends it": (csvfile, "UNQUOTED", re.compile(rb'[^,\r\n"]*')),
    "H holds BIGINT": (Layout, "holds", lambda layout, column_type: True),
    "codes of live rows alone": (store.Table, "make_codes", live_codes),
    "folders are made": (store.Folder, "write", lambda self, path, data: self.files.update({path: data})),
    "V stops after each plane": (units, "GROUP", 1),
    "segments of 512 rows in an addition": (units, "PLANE_ROWS", 512),
    "a dictionary scans for what it has not": (encodings.Dictionary, "has_code", lambda self, value: True),
    "a range over all codes is scanned": (encodings.Offset, "range_ends", lambda self, low, high: (0, 0)),
}


def right_runs(cases: int) -> list[Run]:
    """Random scripts and scripts over large tables, and what the model returns for them."""
    large = [(number, shape) for number, shape in enumerate(shapes()) if 256 < shape.rows < 1_000]
    progress, runs = Progress("scripts", cases + len(large)), []
    scripts = (script_of(SEED, number) for number in range(cases))
    for case in chain(scripts, (script_over(shape, SEED, number) for number, shape in large)):
        runs.append((case, by_model(case)))
        progress.step()
    progress.clear()
    return runs


def seen_after(runs: list[Run], plant: AbstractContextManager) -> int | None:
    """How many scripts it takes to see a planted bug, if it is seen."""
    with plant:
        for number, (case, right) in enumerate(runs, 1):
            try:
                if by_model(case) != right:
                    return number
            except Exception:  # a model that breaks is seen, too  # noqa: BLE001
                return number
    return None


def main(words: list[str]) -> int:
    """Plants each bug, and returns the exit status."""
    cases = int(words[0]) if words else CASES
    runs, missed = right_runs(cases), 0
    for name, (place, attribute, wrong) in BUGS.items():
        number = seen_after(runs, patch.object(place, attribute, wrong))
        missed += number is None
        print(f"{name}: {f'seen by script {number}' if number else 'NOT SEEN'}", flush=True)
    print(f"{len(BUGS)} bugs, {len(BUGS) - missed} seen in {len(runs):,} scripts")
    return 1 if missed else 0


if __name__ == "__main__":
    sys.exit(main(sys.argv[1:]))
