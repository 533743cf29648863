#!/usr/bin/env python3
"""Runs all benches one after the other, and writes their tables and plots into the documents.

Each bench writes what it prints to bench/data/NAME.txt and its tables as JSON to bench/data/NAME.json. When all have
ended, their tables replace those between the markers in docs/PERFORMANCE.md and docs/WORKLOAD.md, and the plots those
in docs/plots. A quick run has little data and one round: it shows that all benches work and that the results agree,
and leaves the documents alone; what it would have written goes to bench/data. Do a full run on a machine that does
nothing else; it takes some hours. If a bench fails the others still run, and the exit status is 1.

    python3 bench/all.py [--quick] [--only NAME[,NAME]] [--program PATH] [--timing-program PATH]
"""

import argparse
import subprocess
import sys
import time
from dataclasses import dataclass
from pathlib import Path

from common import DATA, HERE, ROOT
from documents import read_result, write_documents


@dataclass(frozen=True)
class Bench:
    """A script of this folder, with its arguments in a full run, and the crate whose program it runs."""

    name: str
    script: str
    words: tuple[str, ...] = ()
    crate: str = "bitcol"


BENCHES = (
    Bench("scripts", "scripts.py"),
    Bench("pieces", "pieces.py"),
    Bench("parsing", "parsing.py", crate="bw_bench"),
    Bench("codes", "codes.py", crate="bw_bench"),
    Bench("layouts-in-caches", "layouts.py", ("32", "1048576"), "bw_bench"),
    Bench("layouts-in-memory", "layouts.py", ("4", "16777216"), "bw_bench"),
    Bench("statements", "statements.py"),
    Bench("rows", "rows.py"),
    Bench("conditions", "conditions.py"),
    Bench("pairs", "pairs.py"),
    Bench("functions", "functions.py"),
    Bench("groups", "groups.py"),
    Bench("groups-dictionary", "groups.py", ("2097152", "2", "--kind", "DICTIONARY")),
    Bench("changes", "changes.py"),
    Bench("growth", "growth.py"),
    Bench("dictionaries", "dictionaries.py"),
    Bench("files", "files.py"),
    Bench("memory", "memory.py"),
    Bench("matrix", "matrix.py"),
    Bench("peers", "peers.py"),
    Bench("tpch", "tpch.py"),
    Bench("from_python", "from_python.py"),
)
SHOWN_OF_A_FAULT = 5


def progress(words: str) -> None:
    """A progress line that the next one overwrites, if somebody is watching."""
    if sys.stderr.isatty():
        print(f"\r\033[K{words}", end="", file=sys.stderr, flush=True)


def clock(seconds: float) -> str:
    return f"{int(seconds) // 60}:{int(seconds) % 60:02}"


def run(bench: Bench, place: str, program: Path, is_quick: bool) -> bool:
    """Runs one bench, and returns whether it succeeded."""
    result, output = DATA / f"{bench.name}.json", DATA / f"{bench.name}.txt"
    result.unlink(missing_ok=True)
    words = ["--quick"] if is_quick else list(bench.words)
    command = [sys.executable, str(HERE / bench.script), *words, "--json", str(result), "--program", str(program)]
    start = time.monotonic()
    with output.open("w") as out:
        child = subprocess.Popen(command, stdin=subprocess.DEVNULL, stdout=out, stderr=subprocess.STDOUT)
        while child.poll() is None:
            progress(f"{place} {bench.name} {clock(time.monotonic() - start)}")
            try:
                child.wait(1)
            except subprocess.TimeoutExpired:
                continue
    progress("")
    is_well = child.returncode == 0
    print(f"{bench.name}: {'done' if is_well else 'failed'} in {clock(time.monotonic() - start)}", flush=True)
    if not is_well:
        print(*output.read_text().splitlines()[-SHOWN_OF_A_FAULT:], sep="\n", flush=True)
    return is_well


def chosen(only: str | None) -> list[Bench]:
    """The named benches, or all if none is named."""
    names = only.split(",") if only else [bench.name for bench in BENCHES]
    known = {bench.name for bench in BENCHES}
    if unknown := [name for name in names if name not in known]:
        sys.exit(f"no bench {', '.join(unknown)}; there are {', '.join(sorted(known))}")
    return [bench for bench in BENCHES if bench.name in names]


def arguments() -> argparse.Namespace:
    parser = argparse.ArgumentParser(description=__doc__, formatter_class=argparse.RawDescriptionHelpFormatter)
    out = ROOT / "crates"
    parser.add_argument("--quick", action="store_true", help="little data, one round, and the documents left alone")
    parser.add_argument("--only", metavar="NAME", help="only these benches, with commas between")
    parser.add_argument("--program", type=Path, default=out / "bitcol/out/bitcol", help="the built bitcol")
    timing = out / "bw_bench/out/bw_bench"
    parser.add_argument("--timing-program", type=Path, default=timing, help="the built bw_bench")
    return parser.parse_args()


def main() -> None:
    words = arguments()
    programs = {"bitcol": words.program.resolve(), "bw_bench": words.timing_program.resolve()}
    DATA.mkdir(exist_ok=True)
    benches = chosen(words.only)
    failed: list[Bench] = []
    ended: list[Bench] = []
    for number, bench in enumerate(benches, 1):
        program = programs[bench.crate]
        if not program.exists():
            print(f"{bench.name}: left out, since {program} is not there", flush=True)
            failed += [bench] if bench.crate == "bitcol" else []
            continue
        is_well = run(bench, f"[{number:2}/{len(benches)}]", program, words.quick)
        (ended if is_well else failed).append(bench)
    results = [read_result(DATA / f"{bench.name}.json") for bench in ended]
    for path in write_documents(results, words.quick):
        print(f"written: {path}")
    sys.exit(1 if failed else 0)


if __name__ == "__main__":
    main()
