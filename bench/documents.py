"""Writes what the benches found into the documents: tables between their markers, and plots beside them.

A table's place is between `<!-- figures: NAME -->` and `<!-- end of figures -->`. Above the table is what it was
measured on, and below it the plot of its name, if there is one.
"""

import json
import re
import sys
import textwrap
from pathlib import Path
from typing import Any

from common import DATA, ROOT
from plots import Plot, drawn
from report import Table

DOCUMENTS = ("PERFORMANCE.md", "WORKLOAD.md")
PLACE = re.compile(r"(<!-- figures: ([\w-]+) -->\n).*?(<!-- end of figures -->\n)", re.DOTALL)
LONGEST_LINE = 120
# The place that describes the machine, and has no table.
MACHINE = "machine"

PLOTS = {
    "scans-in-caches": Plot("Scans of codes that the caches hold", "bits of a code", "ns a row"),
    "scans-in-memory": Plot("Scans of 16,777,216 codes", "bits of a code", "ns a row"),
    "rows": Plot("Statements over more and more rows", "rows", "ns a row", is_log_across=True, is_log_up=True),
    "groups": Plot("GROUP BY", "groups, and how their numbers lie", "ns a row", is_log_up=True, has_bars=True),
    "groups-dictionary": Plot("GROUP BY a DICTIONARY", "groups, and how their numbers lie", "ns a row", is_log_up=True,
                              has_bars=True),
    "changes-offset": Plot("Changes of rows, kind OFFSET", "layout", "ns a value", has_bars=True),
    "changes-dictionary": Plot("Changes of rows, kind DICTIONARY", "layout", "ns a value", has_bars=True),
    "changes-bigint": Plot("Changes of rows, type BIGINT", "layout", "ns a value", has_bars=True),
    "files-save": Plot("SAVE", "layout", "MB a second", has_bars=True),
    "files-open": Plot("OPEN", "layout", "MB a second", has_bars=True),
}


def wrapped(words: str) -> str:
    return "\n".join(textwrap.wrap(words, LONGEST_LINE, break_long_words=False, break_on_hyphens=False))


def provenance(found: dict[str, Any], table: Table) -> str:
    """The command and commit that a table was measured with, and when."""
    told = found["conditions"]
    figures = table.figures[:1].upper() + table.figures[1:]
    words = f"`{found['command']}`, commit {told['commit']}, {told['date']}, load {told['load']} at the end. {figures}."
    return wrapped(words + "".join(f" {note[:1].upper()}{note[1:]}." for note in found["notes"]))


def machine(told: dict[str, Any]) -> str:
    """What all tables of a run were measured on."""
    versions = f"Python {told['python']}, SQLite {told['sqlite']}"
    words = f"Tables of {told['date']}: {told['processor']}, {told['cores']} cores, {versions}."
    return f"\n{wrapped(words)}\n\n"


def body(found: dict[str, Any], table: Table, plots: set[str]) -> str:
    """The text between a table's markers."""
    parts = [provenance(found, table), "\n".join(table.lines())]
    if table.name in plots:
        parts.append(f"![{PLOTS[table.name].title}](plots/{table.name}.svg)")
    return "\n" + "\n\n".join(parts) + "\n\n"


def write_plots(results: list[dict[str, Any]], folder: Path) -> set[str]:
    """Draws the plots of these results, and returns their names."""
    drawings: dict[str, dict[str, Any]] = {}
    for found in results:
        for line in found["plotted"]:
            drawings.setdefault(line["plot"], {})[line["name"]] = line["points"]
    folder.mkdir(exist_ok=True)
    for name, lines in drawings.items():
        (folder / f"{name}.svg").write_text(drawn(PLOTS[name], lines), encoding="utf-8")
    return set(drawings)


def write_documents(results: list[dict[str, Any]], is_quick: bool) -> list[Path]:
    """Writes the tables and plots of these results into docs, or into copies in bench/data after a quick run, whose
    figures don't count. Returns the files of the documents."""
    docs = ROOT / "docs"
    target = DATA if is_quick else docs
    plots = write_plots(results, target / "plots")
    tables = {table["name"]: (found, Table(**table)) for found in results for table in found["tables"]}
    placed: set[str] = set()

    def filled(match: re.Match[str]) -> str:
        placed.add(match[2])
        if match[2] == MACHINE and results:
            return match[1] + machine(results[-1]["conditions"]) + match[3]
        if match[2] not in tables:
            return match[0]
        return match[1] + body(*tables[match[2]], plots) + match[3]

    written = []
    for name in DOCUMENTS:
        path = target / (f"{name}.txt" if is_quick else name)
        path.write_text(PLACE.sub(filled, (docs / name).read_text(encoding="utf-8")), encoding="utf-8")
        written.append(path)
    for name in tables.keys() - placed:
        print(f"the table {name} has no place in the documents", file=sys.stderr)
    for path in written:
        for number, line in enumerate(path.read_text(encoding="utf-8").splitlines(), 1):
            if len(line) > LONGEST_LINE:
                print(f"{path}:{number}: a line of {len(line)} characters", file=sys.stderr)
    return written


def read_result(path: Path) -> dict[str, Any]:
    return json.loads(path.read_text(encoding="utf-8"))
