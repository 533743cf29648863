#!/usr/bin/env python3
"""Tries the wrong bodies that are not in the gate: the prover has to refuse each.

    python3 evidence/edits.py [CRATE ..]      only those of these crates
    python3 evidence/edits.py --texts         proves nothing: whether each text that an edit replaces is there, once

`rt ci` tries the edits in `crates/NAME/must-fail/`. Those in `evidence/edits/NAME/` show what another edit shows,
change a getter, a constructor or a clone, or are of a crate that takes too long to prove for the gate; they have the
same form, and their `file:` is relative to the crate. Each is tried by `rt ci` itself, on a copy of the tree in which
they replace the gate's own. What the gate proved on this machine is not proved again, so run `rt ci` first: then all of
them take about half an hour on four processors.

The last line says how many were refused. The exit status is 0 if all were.
"""

import re
import shutil
import subprocess
import sys
import tempfile
from collections import Counter
from pathlib import Path

TOP = Path(__file__).resolve().parent.parent
EDITS = TOP / "evidence" / "edits"

# What the kit says of a try, from the most informative outcome to the least. The first that fits counts.
OUTCOMES = {
    "not refused": re.compile(r"must-fail \S+: NOT REFUSED"),
    "not tried": re.compile(r"must-fail \S+: (NOT TRIED|BAD EDIT)"),
    "refused at a name that the edit took away": re.compile(r"must-fail \S+: refused, .*only because a proof file"),
    "refused at a limit of the prover": re.compile(r"must-fail \S+: refused, .*only by a limit"),
    "refused": re.compile(r"must-fail \S+: refused"),
}
FAILURES = ("not refused", "not tried")


def crates_with_edits():
    return sorted(folder.name for folder in EDITS.iterdir() if folder.is_dir())


def edits_of(crate):
    return sorted((EDITS / crate).glob("*.edit"))


def copy_tree(crates, to):
    """Copies what `rt ci` reads, with these crates' own edits instead of the gate's."""
    skipped = shutil.ignore_patterns("out", "must-fail")
    shutil.copytree(TOP / "crates", to / "crates", ignore=skipped)
    for name in ("crates.txt", "HANDLES"):
        shutil.copy(TOP / name, to / name)
    for crate in crates:
        shutil.copytree(EDITS / crate, to / "crates" / crate / "must-fail")


def stale_texts():
    """Texts that edits replace, including the gate's, and that don't occur exactly once in their file. The texts of an
    edit are replaced one after the other."""
    own = ((path, TOP / "crates" / path.parent.name) for path in EDITS.glob("*/*.edit"))
    gate = ((path, path.parent.parent) for path in TOP.glob("crates/*/must-fail/*.edit"))
    for path, crate in (*own, *gate):
        texts, file, old = {}, "", ""
        for line in path.read_text(encoding="utf-8").splitlines():
            word, _, text = line.partition(": ")
            if word == "file":
                file = text
                texts.setdefault(file, (crate / file).read_text(encoding="utf-8"))
            elif word == "old":
                old = text
                if texts[file].count(old) != 1:
                    yield f"{path.relative_to(TOP)}: {texts[file].count(old)} times: {old}"
            elif word == "new":
                texts[file] = texts[file].replace(old, text)


def outcome_of(line):
    return next((name for name, words in OUTCOMES.items() if words.search(line)), None)


def try_all(crates):
    """Prints what the kit says of each edit, and returns the number of each outcome."""
    told = Counter()
    with tempfile.TemporaryDirectory(prefix="bitcol-edits-") as room:
        copy_tree(crates, Path(room))
        command = ["rt", "ci", *crates]
        with subprocess.Popen(command, cwd=room, stdout=subprocess.PIPE, stderr=subprocess.STDOUT, text=True) as child:
            for line in child.stdout:
                outcome = outcome_of(line)
                if outcome or line.startswith("rt: "):
                    print(line, end="", flush=True)
                told[outcome] += 1
    return told


def main(words):
    if words == ["--texts"]:
        stale = list(stale_texts())
        print("\n".join([*stale, f"{len(stale)} texts of edits not there once"]))
        return 1 if stale else 0
    unknown = sorted(set(words) - set(crates_with_edits()))
    if unknown:
        sys.exit(f"no edits in evidence/edits/{unknown[0]}")
    crates = words or crates_with_edits()
    told = try_all(crates)
    wanted = sum(len(edits_of(crate)) for crate in crates)
    refused = sum(told[name] for name in OUTCOMES if name not in FAILURES)
    print(", ".join(f"{told[name]} {name}" for name in OUTCOMES if told[name]))
    print(f"{refused} of {wanted} edits refused")
    return 0 if refused == wanted else 1


if __name__ == "__main__":
    sys.exit(main(sys.argv[1:]))
