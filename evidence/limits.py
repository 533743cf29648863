"""What random scripts rarely reach: the arguments of the command line, and the limits on tables, rows and files.

Each check expects what docs/LANGUAGE.md says that the program writes; for whole scripts the model computes it.
"""

import subprocess
from collections.abc import Iterator
from dataclasses import dataclass
from pathlib import Path

from common import Progress, Told
from model import Folder, run_script
from model.store import MOST_COLUMNS, MOST_FILE_BYTES, MOST_ROWS, MOST_TABLES
from program import Program

SECONDS = 900
SCRIPT = b"TABLES;\nx;\nTABLES;\n"
NO_TABLES = "TABLE,COLUMNS,ROWS\nrows 0\n"
ANSWERED = f"{NO_TABLES}error 10: syntax error\n{NO_TABLES}"
STOPPED = f"{NO_TABLES}error 10: syntax error\n"
USAGE = (64, "", "usage: bitcol [--stop] [SCRIPT]\n")
NOT_OPENED = (2, "", "bitcol: cannot open the script\n")
ENDS = "-9223372036854775808,-9223372036854775808\n9223372036854775807,9223372036854775807\n"

# The arguments, and the exit status, the output and the standard error that they give. The script is in each of three
# files and on standard input.
WORDS: list[tuple[list[str], tuple[int, str, str]]] = [
    ([], (0, ANSWERED, "")),
    (["--"], (0, ANSWERED, "")),
    (["s.sql"], (0, ANSWERED, "")),
    (["--", "s.sql"], (0, ANSWERED, "")),
    (["-"], (0, ANSWERED, "")),
    (["--", "--stop"], (0, ANSWERED, "")),
    (["--stop"], (1, STOPPED, "")),
    (["--stop", "s.sql"], (1, STOPPED, "")),
    (["s.sql", "--stop"], (1, STOPPED, "")),
    (["--stop", "--", "s.sql"], (1, STOPPED, "")),
    (["--stop", "--", "--stop"], (1, STOPPED, "")),
    (["--stop", "--stop"], USAGE),
    (["s.sql", "s.sql"], USAGE),
    (["--", "s.sql", "-"], USAGE),
    (["-s"], USAGE),
    (["--sto"], USAGE),
    (["--stop=1"], USAGE),
    (["--help"], USAGE),
    (["--version", "s.sql"], USAGE),
    (["--STOP"], USAGE),
    (["missing.sql"], NOT_OPENED),
    (["no_folder/s.sql"], NOT_OPENED),
    (["--stop", "missing.sql"], NOT_OPENED),
]


@dataclass(frozen=True)
class Large:
    """A script over files that are too large for the model: what each file repeats, and the replies."""

    name: str
    statements: tuple[str, ...]
    replies: tuple[str, ...]
    files: tuple[tuple[str, str, str, int], ...] = ()  # its name, what it begins with, what follows, and how many times


LARGE = [
    Large(
        "a table that is full",
        (
            "CREATE TABLE t (a INT)",
            "LOAD t FROM 'full.csv'",
            "INSERT INTO t VALUES (1)",
            "LOAD t FROM 'one.csv'",
            "SELECT COUNT(*), SUM(a) FROM t",
            "DELETE FROM t WHERE a = 2",
            "INSERT INTO t VALUES (1), (1)",
            "INSERT INTO t VALUES (5)",
            "SELECT COUNT(*), SUM(a) FROM t",
            "LOAD t FROM 'full.csv'",
        ),
        (
            "ok",
            f"ok {MOST_ROWS}",
            "error 28: table full",
            "error 28: table full",
            f"COUNT(*),SUM(A)\n{MOST_ROWS},{MOST_ROWS + 1}\nrows 1",
            "ok 1",
            "error 28: table full",
            "ok 1",
            f"COUNT(*),SUM(A)\n{MOST_ROWS},{MOST_ROWS + 4}\nrows 1",
            "error 28: table full",
        ),
        (("full.csv", "2\n", "1\n", MOST_ROWS - 1), ("one.csv", "1\n", "", 0)),
    ),
    Large(
        "files that are too large to be read",
        (
            "CREATE TABLE t (a INT)",
            "LOAD t FROM 'large'",
            "LOAD t FROM 'largest'",
            "OPEN u FROM 'large'",
            "OPEN u FROM 'largest'",
            "OPEN t FROM 'large'",
        ),
        (
            "ok",
            "error 46: file too large",
            "error 43: record 1 field 1 is not an integer",
            "error 46: file too large",
            "error 44: not a table file",
            "error 21: table exists",
        ),
        (("large", "", "x", MOST_FILE_BYTES + 1), ("largest", "", "x", MOST_FILE_BYTES)),
    ),
    Large(
        "a table that is too large to be saved",
        (
            "CREATE TABLE t (a BIGINT, b BIGINT)",
            "LOAD t FROM 'full.csv'",
            "SAVE t TO 'f'",
            "SAVE t TO 'no_folder/f'",
            "UPDATE t SET b = 1",
            "SAVE t TO 'f'",
            "OPEN u FROM 'f'",
            "SELECT COUNT(*), MIN(a), MEDIAN(a), MAX(a), SUM(b) FROM u",
        ),
        (
            "ok",
            f"ok {MOST_ROWS}",
            "error 46: file too large",
            "error 46: file too large",
            f"ok {MOST_ROWS}",
            f"ok {MOST_ROWS}",
            f"ok {MOST_ROWS}",
            f"COUNT(*),MIN(A),MEDIAN(A),MAX(A),SUM(B)\n{MOST_ROWS},{-(2**63)},1,{2**63 - 1},{MOST_ROWS}\nrows 1",
        ),
        (("full.csv", ENDS, "1,1\n", MOST_ROWS - 2),),
    ),
]


def scripts() -> Iterator[tuple[str, str]]:
    """Scripts at a limit, and their names."""
    makes = [f"CREATE TABLE t{place} (a INT);" for place in range(MOST_TABLES)]
    rest = "CREATE TABLE u (a BIGINT USING H); CREATE TABLE t0 (a INT); SAVE t0 TO 'f'; OPEN u FROM 'f';"
    last = "OPEN u FROM 'none'; DROP TABLE t0; OPEN u FROM 'f'; CREATE TABLE v (a INT); TABLES;"
    yield "the most tables", "".join([*makes, rest, last])
    for width in (MOST_COLUMNS, MOST_COLUMNS + 1):
        names = [f"c{place}" for place in range(width)]
        values = f"({', '.join(map(str, range(width)))})"
        yield (
            f"{width} columns",
            f"CREATE TABLE t ({', '.join(name + ' INT' for name in names)}); INSERT INTO t VALUES {values};"
            f"INSERT INTO t ({', '.join(reversed(names))}) VALUES {values}; SELECT * FROM t; UPDATE t SET"
            f" {', '.join(f'{one} = {two}' for one, two in zip(names, names[1:]))}; SELECT * FROM t; SAVE t TO 'f';"
            " OPEN u FROM 'f'; SELECT SUM(c0), MAX(c63), MEDIAN(c9) FROM u;",
        )
    row = "(2147483647, -9223372036854775808)"
    tuples = ", ".join([row] * 1_700)
    create = "CREATE TABLE t (a INT, b BIGINT);"
    yield "a long statement", f"{create} INSERT INTO t VALUES {tuples}; SELECT SUM(a), SUM(b) FROM t;"
    for size in (65_535, 65_536, 65_537):
        start = "CREATE TABLE t (a INT) --"
        yield f"a part of {size} bytes", f"{start}{'x' * (size - len(start) - 1)}\n; TABLES;"


def check_words(program: Program, words: list[str], wanted: tuple[int, str, str]) -> str | None:
    """The differences if the program is called with these arguments."""
    for name in ("s.sql", "-", "--stop"):
        (program.room / name).write_bytes(SCRIPT)
    ended = subprocess.run([program.path, *words], cwd=program.room, input=SCRIPT, capture_output=True, check=False)
    found = (ended.returncode, ended.stdout.decode(), ended.stderr.decode())
    return None if found == wanted else f"words {words}: {found} in place of {wanted}"


def check_script(program: Program, name: str, script: str) -> str | None:
    """The differences from the model's output."""
    wanted = run_script(script.encode(), Folder())
    found = program.run(script.encode(), {}, set())
    return None if found == wanted else f"{name}: other replies or files than the model's"


def check_large(program: Program, it: Large) -> str | None:
    """The differences over large files."""
    for name, start, piece, times in it.files:
        Path(program.room / name).write_text(start + piece * times)
    script = "".join(f"{statement};\n" for statement in it.statements).encode()
    try:
        ended = subprocess.run(
            [program.path], cwd=program.room, input=script, capture_output=True, check=False, timeout=SECONDS
        )
        found = (ended.stdout + ended.stderr).decode()
    except subprocess.TimeoutExpired:
        found = f"no end within {SECONDS} seconds"
    for path in program.room.iterdir():
        path.unlink()
    wanted = "".join(f"{reply}\n" for reply in it.replies)
    return None if found == wanted else f"{it.name}: {found!r} in place of {wanted!r}"


def run(path: str) -> Told:
    """Runs all checks."""
    program = Program.at(path)
    checks = [lambda it=it: check_words(program, *it) for it in WORDS]
    checks.append(lambda: [file.unlink() for file in program.room.iterdir()] and None)
    checks += [lambda it=it: check_script(program, *it) for it in scripts()]
    checks += [lambda it=it: check_large(program, it) for it in LARGE]
    told, progress = Told(len(checks) - 1), Progress("limits", len(checks))
    for check in checks:
        if fault := check():
            progress.clear()
            print(fault, flush=True)
            told.differences.append(fault)
        progress.step()
    progress.clear()
    program.close()
    return told
