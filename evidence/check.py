#!/usr/bin/env python3
"""Compares the program with things outside it: one command for all evidence that needs no prover.

    python3 evidence/check.py [--program PATH] [--cases N] [--seed S] [--jobs J] [--only PART ..]

    scripts     N random scripts (2,000 if none are named), through the program and through the model of evidence/model
    limits      what a random script rarely reaches: command-line arguments, and limits on tables, rows and files
    counts      large tables, through the program and the model: what STATS counts at the boundaries of segments
    relations   what holds for the replies of any correct store, over tables that span several segments of each layout
    peers       the same SELECTs in sqlite3, and in PostgreSQL if `psql` reaches a server

PATH is crates/bitcol/out/bitcol if it isn't named. A difference is printed with the seed and the number of its script,
and with as few statements as still show it. The last line has counts; the exit status is 1 if anything differs.
"""

import argparse
import sys
from collections.abc import Callable
from pathlib import Path

import counts
import limits
import peers
import relations
from common import TOP, Told
from scripts import run_scripts

CASES = 2_000
USUAL = TOP / "crates" / "bitcol" / "out" / "bitcol"


def run_random(options: argparse.Namespace) -> Told:
    """Runs the random scripts, and reports which replies there were."""
    told = run_scripts(options.program, options.seed, options.cases, options.jobs)
    print("replies: " + ", ".join(f"{count:,} {kind}" for kind, count in sorted(told.replies.items())))
    return told


PARTS: dict[str, tuple[str, Callable[[argparse.Namespace], Told]]] = {
    "scripts": ("random scripts", run_random),
    "limits": ("scripts at limits", lambda options: limits.run(options.program)),
    "counts": ("scripts over large tables", lambda options: counts.run(options.program, options.seed)),
    "relations": ("relations", lambda options: relations.run(options.program, options.seed)),
    "peers": ("SELECTs beside others", lambda options: peers.run(options.program, options.seed)),
}


def options_of(words: list[str]) -> argparse.Namespace:
    """The arguments of the command line."""
    parser = argparse.ArgumentParser(description="Holds the program against what stands outside of it.")
    parser.add_argument("--program", default=str(USUAL), help="the program, if it is not the built one")
    parser.add_argument("--cases", type=int, default=CASES, help="how many random scripts")
    parser.add_argument("--seed", type=int, default=1, help="what the random scripts and tables begin with")
    parser.add_argument("--jobs", type=int, default=1, help="how many random scripts at once")
    parser.add_argument("--only", nargs="+", choices=list(PARTS), default=list(PARTS), help="these parts alone")
    return parser.parse_args(words)


def main(words: list[str]) -> int:
    """Runs the selected parts, and returns the exit status."""
    options = options_of(words)
    if not Path(options.program).exists():
        sys.exit(f"{options.program} isn't there: build it by rt run in crates/bitcol, or name another by --program")
    told_of, differences = [], 0
    for part in options.only:
        name, run = PARTS[part]
        told = run(options)
        differences += len(told.differences)
        told_of.append(f"{told.count:,} {name}")
        print(f"{told_of[-1]}, {len(told.differences)} differences", flush=True)
    print(f"seed {options.seed}: {', '.join(told_of)}; {differences} differences")
    return 1 if differences else 0


if __name__ == "__main__":
    sys.exit(main(sys.argv[1:]))
