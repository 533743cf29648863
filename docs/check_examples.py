#!/usr/bin/env python3
"""Runs the examples of the documents through the program.

    check_examples.py [--take] [PROGRAM]    PROGRAM is crates/bitcol/out/bitcol if it isn't named

An example is a fence of SQL that is followed by a fence of text, with no other fence of SQL between them: the program
has to write this text for this script. Each is run by itself, in a copy of the folder examples/, to which a fence of
CSV adds the file whose name stands before it in italics. So is each script there that has its output next to it
(NAME.sql, NAME.out).

In a guide (docs/GUIDE.md) an example is instead a fence of commands after `$ `, whose outputs follow them, or of Python
with `>>>`. Commands are those of the system's shell, among them `bitcol` and `python3 -m bitcol`; what follows a prompt
of bitcol's shell is typed there. All examples of a guide are run in their order, in one folder, where a fence that has
a file's name before it in italics makes this file. Times aren't compared, and whatever the shell measures takes equally
long, so that what it advises doesn't depend on the machine. With --take the outputs are written into the guide as they
are now, with times that are measured, in place of being compared.

It prints file:line and the difference for each example that gets other replies, and exits with 1 if there is any.
"""

import difflib
import os
import re
import shutil
import subprocess
import sys
import tempfile
from dataclasses import dataclass, field
from pathlib import Path

ROOT = Path(__file__).resolve().parent.parent
EXAMPLES = ROOT / "examples"
GUIDES = [ROOT / "docs/GUIDE.md"]
# What runs the examples of guides is a part of the tests of the Python client, whose shell they use.
CLIENT = ROOT / "clients/python"
TAKE = "--take"
FENCE = re.compile(r"(?:\*(?P<file>[\w.]+)\*:\n\n)?^```(?P<language>\w*)\n(?P<body>.*?)^```$", re.MULTILINE | re.DOTALL)


@dataclass
class Example:
    """A script and its output, where it stands, and the files that it reads beside those of examples/."""

    place: str
    script: str
    output: str = ""
    files: dict = field(default_factory=dict)


def examples_of(document):
    """The examples of a document."""
    text = document.read_text(encoding="utf-8")
    files, example = {}, None
    for fence in FENCE.finditer(text):
        line = text.count("\n", 0, fence.start("body"))
        if fence["language"] == "csv" and fence["file"]:
            files[fence["file"]] = fence["body"]
        elif fence["language"] == "sql":
            example = Example(f"{document.relative_to(ROOT)}:{line}", fence["body"], files=files)
            files = {}
        elif fence["language"] == "text" and example:
            example.output = fence["body"]
            yield example
            example = None


def scripts_with_output():
    for script in sorted(EXAMPLES.glob("*.sql")):
        output = script.with_suffix(".out")
        if output.exists():
            yield Example(str(script.relative_to(ROOT)), script.read_text(), output.read_text())


def replies(program, example):
    """What the program writes for an example."""
    with tempfile.TemporaryDirectory(prefix="bitcol-examples-") as room:
        folder = Path(room) / "examples"
        shutil.copytree(EXAMPLES, folder)
        for name, text in example.files.items():
            (folder / name).write_text(text, encoding="utf-8")
        ended = subprocess.run([program], cwd=folder, input=example.script, capture_output=True, text=True, check=False)
        return ended.stdout + ended.stderr


def is_right(program, example):
    found = replies(program, example)
    if found != example.output:
        print(f"{example.place}: other replies")
        lines = example.output.splitlines(True), found.splitlines(True)
        print("".join(difflib.unified_diff(*lines, "document", "program")))
    return found == example.output


def guide_examples(guide, takes):
    """Of each example of a guide whether it is right, which is told where it isn't."""
    sys.path.insert(0, str(CLIENT))
    from tests.examples import Room, taken, without_times

    text = guide.read_text(encoding="utf-8")
    with tempfile.TemporaryDirectory(prefix="bitcol-guide-") as name:
        folder = Path(name).resolve() / "work"
        folder.mkdir()
        examples = list(Room(folder, measures=takes).examples(text))
    if takes:
        guide.write_text(taken(text, examples), encoding="utf-8")
        return [True] * len(examples)
    for example in examples:
        if not example.is_right:
            print(f"{guide.relative_to(ROOT)}:{example.line}: another output")
            lines = (without_times(output).splitlines(True) for output in (example.before, example.now))
            print("".join(difflib.unified_diff(*lines, "document", "now")))
    return [example.is_right for example in examples]


def main(words):
    takes = words[:1] == [TAKE]
    named = words[1:] if takes else words
    program = Path(named[0] if named else ROOT / "crates/bitcol/out/bitcol").resolve()
    if not program.exists():
        sys.exit(f"{program} isn't there: build it by rt run in crates/bitcol")
    os.environ["BITCOL"] = str(program)
    told = [right for guide in GUIDES for right in guide_examples(guide, takes)]
    if not takes:
        documents = {*ROOT.glob("*.md"), *ROOT.glob("docs/*.md"), *ROOT.glob("crates/*/README.md")} - {*GUIDES}
        examples = [example for document in sorted(documents) for example in examples_of(document)]
        told += [is_right(program, example) for example in [*examples, *scripts_with_output()]]
    print(f"{len(told)} examples, {told.count(False)} with other replies")
    return 0 if all(told) else 1


if __name__ == "__main__":
    sys.exit(main(sys.argv[1:]))
