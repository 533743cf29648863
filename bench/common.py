"""What the benches share: where programs and data are, how a script is run, and the statements that fill a table."""

import argparse
import functools
import os
import shutil
import subprocess
import sys
from collections.abc import Callable, Iterable
from dataclasses import dataclass, field
from pathlib import Path
from random import Random
from typing import IO, Any

HERE = Path(__file__).resolve().parent
ROOT = HERE.parent
DATA = HERE / "data"
KERNELS = HERE / "kernels"

LAYOUTS = "VHSP"
STATEMENT_BYTES = 60_000
ROUNDS = 7
MEGABYTE = 1_000_000
LEAST, MOST = -(2**31), 2**31 - 1


@dataclass
class Settings:
    """The options of a bench's command line, for everything that it calls."""

    quick: bool = False
    json: Path | None = None
    # Programs used instead of those that `rt run` builds, by crate.
    programs: dict[str, str] = field(default_factory=dict)


SETTINGS = Settings()


@dataclass(frozen=True)
class Number:
    """A numeric argument of the command line: its default, and its value in a quick run."""

    name: str
    usual: int
    quick: int
    meaning: str


def options(document: str | None, *numbers: Number, crate: str = "bitcol",
            more: Callable[[argparse.ArgumentParser], Any] | None = None) -> argparse.Namespace:
    """The arguments of the command line. Each bench takes --program, --quick and --json, its numbers in order, and
    what `more` adds."""
    parser = argparse.ArgumentParser(description=document, formatter_class=argparse.RawDescriptionHelpFormatter)
    for number in numbers:
        parser.add_argument(number.name, nargs="?", type=int, help=f"{number.meaning}; {number.usual:,} if not given")
    parser.add_argument("--program", metavar="PATH", help=f"the built program; crates/{crate}/out/{crate} if not given")
    parser.add_argument("--quick", action="store_true", help="little data and one round, to see that it works")
    parser.add_argument("--json", type=Path, metavar="FILE", help="where the tables are written as JSON, too")
    if more:
        more(parser)
    words = parser.parse_args()
    SETTINGS.quick, SETTINGS.json = words.quick, words.json
    if words.program:
        SETTINGS.programs[crate] = str(Path(words.program).resolve())
    for number in numbers:
        if getattr(words, number.name) is None:
            setattr(words, number.name, number.quick if words.quick else number.usual)
    return words


def rounds(usual: int = ROUNDS) -> int:
    """The number of rounds: one in a quick run."""
    return 1 if SETTINGS.quick else usual


def built(crate: str) -> str:
    """The program of this crate: the one that the command line names, or the one that `rt run` builds in its folder."""
    program = Path(SETTINGS.programs.get(crate) or ROOT / "crates" / crate / "out" / crate)
    if not program.exists():
        sys.exit(f"{program} is not there: build {crate} first by rt run in crates/{crate}, or name it by --program")
    return str(program)


@functools.cache
def sqlite3() -> str | None:
    """The sqlite3 of this machine, or None."""
    program = shutil.which("sqlite3")
    if program is None:
        print("sqlite3 is not there: left out", file=sys.stderr)
    return program


@functools.cache
def kernel(name: str) -> str | None:
    """The program of bench/kernels/NAME.cpp, compiled for x86-64-v2 as the products are; None without g++."""
    compiler = shutil.which("g++")
    if compiler is None:
        print("g++ is not there: the loops in C++ are left out", file=sys.stderr)
        return None
    program = data_file(f"kernel_{name}")
    flags = ["-O3", "-std=c++17", "-march=x86-64-v2"]
    subprocess.run([compiler, *flags, "-o", str(program), str(KERNELS / f"{name}.cpp")], check=True)
    return str(program)


def data_file(name: str) -> Path:
    DATA.mkdir(exist_ok=True)
    return DATA / name


def random_value(generator: Random) -> int:
    return generator.randint(LEAST, MOST)


def random_row(generator: Random) -> tuple[int, int]:
    return random_value(generator), random_value(generator)


def written(row: Iterable[object]) -> str:
    return "(" + ",".join(map(str, row)) + ")"


def insert(rows: Iterable[str], table: str = "t") -> str:
    """One statement that inserts these rows, given as text."""
    return f"INSERT INTO {table} VALUES " + ",".join(rows) + ";\n"


def rows_of_a_statement(next_row: Callable[[], str]) -> list[str]:
    """As many rows, as text, as fill a statement of STATEMENT_BYTES."""
    rows: list[str] = []
    length = 0
    while length < STATEMENT_BYTES:
        rows.append(next_row())
        length += len(rows[-1]) + 1
    return rows


def processor_seconds(command: list[str], source: Path,
                      answers: int | IO[bytes] = subprocess.DEVNULL) -> tuple[float, float]:
    """The processor time that the command takes for the file, and its peak memory in megabytes."""
    with source.open("rb") as stdin:
        child = subprocess.Popen(command, stdin=stdin, stdout=answers)
        _, status, usage = os.wait4(child.pid, 0)
    child.returncode = os.waitstatus_to_exitcode(status)
    if child.returncode != 0:
        sys.exit(f"{command[0]} ended with status {child.returncode}")
    return usage.ru_utime + usage.ru_stime, usage.ru_maxrss * 1024 / MEGABYTE
