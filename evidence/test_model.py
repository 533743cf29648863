#!/usr/bin/env python3
"""Checks the model against the examples of the documents, without the program.

    python3 evidence/test_model.py

An example is a script and its output, as docs/check_examples.py finds them in the documents and in examples/. The
model has to write this output for this script, the numbers of STATS included. The worked table files of
docs/TABLE_FILE.md have to be written and read as they are there, and each change of them that the document calls
refused has to be refused.
"""

import re
import sys
from collections.abc import Iterator
from pathlib import Path

from common import TOP
from model import Folder, run_script
from model.refusals import Refusal
from model.tablefile import read_table, write_table
from model.tree import Coding, ColumnDef, Layout, Type

sys.path.append(str(TOP / "docs"))

from check_examples import EXAMPLES, Example, examples_of, scripts_with_output  # noqa: E402

DOCUMENTS = ("README.md", "docs/LANGUAGE.md", "docs/TABLE_FILE.md", "docs/STATS.md", "docs/LAYOUTS.md")
DUMP = re.compile(r"^ *\d+ +((?:[0-9a-f]{2} )+) {2,}\S.*$", re.MULTILINE)
COLUMN = ColumnDef("A", Type.INTEGER, Layout.V, Coding.OFFSET)
CELLS = [3, None, -1]

# For the worked file of each version: the byte that is changed, and its new value.
REFUSED_CHANGES = {
    2: [{15: 0x61}, {16: 2}, {17: 4}, {16: 1, 17: 2}, {19: 0x0D}, {27: 0}, {28: 4}, {29: 0}, {29: 3}, {31: 4}],
    1: [{18: 0x0D}, {23: 1}, {16: 4}, {15: 0x61}],
}


def is_right(example: Example) -> bool:
    """Whether the model writes the output of an example."""
    files = {path.name: path.read_bytes() for path in EXAMPLES.iterdir() if path.is_file()}
    files |= {name: text.encode() for name, text in example.files.items()}
    found = run_script(example.script.encode(), Folder(files)).output.decode()
    if found != example.output:
        print(f"{example.place}: the model writes\n{found}in place of\n{example.output}")
    return found == example.output


def is_refused(data: bytes) -> bool:
    """Whether the bytes are no table file."""
    try:
        read_table(data)
    except Refusal as refusal:
        return refusal.number == 44
    return False


def worked_files() -> Iterator[bool]:
    """What holds for the worked files of docs/TABLE_FILE.md."""
    fences = (TOP / "docs/TABLE_FILE.md").read_text(encoding="utf-8").split("```")[1::2]
    dumps = [bytes.fromhex("".join(DUMP.findall(fence))) for fence in fences]
    for version, data in zip((2, 1), filter(None, dumps), strict=True):
        yield write_table([COLUMN], [CELLS], version) == data
        yield read_table(data) == ([COLUMN], [CELLS])
        yield all(is_refused(data[:size]) for size in range(len(data)))
        yield is_refused(data + b"\0")
        for changes in REFUSED_CHANGES[version]:
            yield is_refused(bytes(changes.get(place, byte) for place, byte in enumerate(data)))


def main() -> int:
    """Runs all checks, and returns the exit status."""
    documents = [Path(TOP / name) for name in DOCUMENTS]
    examples = [example for document in documents for example in examples_of(document)]
    told = [is_right(example) for example in [*examples, *scripts_with_output()]]
    files = list(worked_files())
    print(f"{len(told)} examples, {told.count(False)} that the model answers otherwise")
    print(f"{len(files)} checks of the worked table files, {files.count(False)} that fail")
    return 0 if all(told) and all(files) else 1


if __name__ == "__main__":
    sys.exit(main())
