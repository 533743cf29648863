#!/usr/bin/env python3
"""Times the Python client (clients/python), Python's module sqlite3, in memory, and numpy if that is installed.

It reports small statements one by one, rows of two columns of random 32-bit values in and out, of which one in ten of
the second is NULL, and a COUNT. Times are wall times, since two processes take part: the least of some rounds, in which
all take turns. The program is what --program or the environment variable BITCOL names, or the one that `rt run` builds
in crates/bitcol. Small statements are also timed through the library, if BITCOL_LIBRARY names it. Ways in which the
client's module in C takes part are timed with it, if it was built (make -C clients rows), and without it.

    python3 bench/from_python.py [ROWS [COUNTED]]      how many rows go in and out, and are counted
"""

import array
import contextlib
import gc
import os
import random
import sqlite3
import sys
import time
from collections.abc import Callable, Iterable
from pathlib import Path
from typing import Any, TypeVar
from unittest import mock

from common import LEAST, ROUNDS, SETTINGS, Number, built, data_file, options, processor_seconds, random_value, rounds
from report import Report, figure, require, times

sys.path.insert(0, str(Path(__file__).resolve().parent.parent / "clients/python"))
sys.dont_write_bytecode = True

import bitcol  # noqa: E402 - from the folder above
from bitcol.optional import rows_module  # noqa: E402

try:
    import numpy
except ImportError:
    numpy = None

# Statements in a round: few, so that some round runs with nothing else on its processor.
STATEMENTS = 300
STATEMENT_ROUNDS = 60
# Statements in the script that measures the program's own time.
SCRIPT_STATEMENTS = 20_000
SMALL_ROWS = 100


Call = Callable[[], Any]
Pairs = list[tuple[int, int | None]]
# Calls by what goes in or out, and whether the module in C takes part: yes, no, or nothing where there is no choice.
Ways = dict[tuple[str, str], Call]
SQLITE = ("sqlite3", "")
Key = TypeVar("Key")


def program() -> str:
    return built("bitcol") if "bitcol" in SETTINGS.programs else os.environ.get("BITCOL") or built("bitcol")


def quickest(calls: dict[Key, Call], usual: int = ROUNDS) -> dict[Key, float]:
    """The least seconds of some rounds of each call. They take turns."""
    least = dict.fromkeys(calls, float("inf"))
    for _ in range(rounds(usual)):
        for name, call in calls.items():
            gc.collect()
            begin = time.perf_counter()
            call()
            least[name] = min(least[name], time.perf_counter() - begin)
    return least


def without_c(call: Call) -> Any:
    """What the call returns, as where the module in C isn't there."""
    with contextlib.ExitStack() as patches:
        for user in (bitcol.planes, bitcol.reply, bitcol.rows_by_c):
            patches.enter_context(mock.patch.object(user, "rows_module", lambda: None))
        return call()


def with_and_without_c(calls: dict[str, Call]) -> Ways:
    """Each call with the module in C, if it was built, and without it."""
    ways: Ways = {}
    for way, call in calls.items():
        if rows_module() is not None:
            ways[way, "yes"] = call
        ways[way, "no"] = lambda call=call: without_c(call)
    return ways


def sqlite(rows: Iterable[tuple] = ()) -> sqlite3.Connection:
    """A connection to tables in memory, without transactions of its own, and a table t with these rows."""
    connection = sqlite3.connect(":memory:", isolation_level=None)
    connection.execute("CREATE TABLE t (a INT, b INT)")
    connection.executemany("INSERT INTO t VALUES (?, ?)", rows)
    return connection


def own_seconds(statement: str) -> float:
    """The processor seconds per statement of a long script over the small table."""
    values = ",".join(f"({row},{-row})" for row in range(SMALL_ROWS))
    fill = f"CREATE TABLE t (a INT, b INT); INSERT INTO t VALUES {values};\n"
    count = 50 if SETTINGS.quick else SCRIPT_STATEMENTS
    filled, script = data_file("small.sql"), data_file("smalls.sql")
    filled.write_text(fill)
    script.write_text(fill + f"{statement};\n" * count)
    runs = [[processor_seconds([program()], path)[0] for path in (filled, script)] for _ in range(rounds())]
    return (min(each for _, each in runs) - min(each for each, _ in runs)) / count


def sessions() -> dict[str, Any]:
    """Sessions over the program, and over the library if there is one, by the names under which they are printed."""
    made = {"the program": bitcol.Session(program())}
    if "BITCOL_LIBRARY" in os.environ:
        made["the library"] = bitcol.Session(door=bitcol.Library())
    return made


def ask(session: Any, statement: str, values: tuple) -> Any:
    """Executes a statement, and fetches its rows if it has any."""
    reply = session.execute(statement, values)
    return reply.rows() if reply.headings else reply.count


def repeated(call: Callable, *arguments: Any) -> Call:
    """A call that repeats this one as many times as a round has statements."""
    return lambda: [call(*arguments) for _ in range(STATEMENTS)]


def time_statements(report: Report) -> None:
    rows = [(row, -row) for row in range(SMALL_ROWS)]
    other, lines = sqlite(rows), []
    with contextlib.ExitStack() as open_sessions:
        stores = {name: open_sessions.enter_context(session) for name, session in sessions().items()}
        for session in stores.values():
            session.write_table("t", dict(zip(["a", "b"], zip(*rows))))
            require(session.execute("SELECT b FROM t WHERE a = ?", (50,)).rows() == [(-50,)], "a row")
        for what, statement, values in (
            ("a SELECT of one row of 100", "SELECT b FROM t WHERE a = ?", (50,)),
            ("SUM of 100 rows", "SELECT SUM(b) FROM t", ()),
            ("an UPDATE of one row of 100", "UPDATE t SET b = ? WHERE a = ?", (-7, 7)),
        ):
            calls = {name: repeated(ask, session, statement, values) for name, session in stores.items()}
            calls["sqlite3"] = repeated(lambda: other.execute(statement, values).fetchall())
            took = {name: seconds / STATEMENTS for name, seconds in quickest(calls, STATEMENT_ROUNDS).items()}
            own = own_seconds(bitcol.script.bound(statement, values))
            for name in stores:
                beyond = figure((took[name] - own) * 1e6, 2)
                lines.append([what, name, times(took[name], took["sqlite3"]), beyond, figure(own * 1e6, 2)])
    heading = ["Statement", "through", "sqlite3 executes times as many", "us beyond the program's own", "its own"]
    report.table("python-statements", "one by one, each with its answer", heading, lines)


def tell(report: Report, name: str, what: str, took: dict[tuple[str, str], float], rows: int) -> None:
    """How long each way took, and how many times as long sqlite3."""
    lines = [
        [way, by_c, figure(seconds / rows * 1e9), times(took[SQLITE], seconds)]
        for (way, by_c), seconds in took.items()
        if (way, by_c) != SQLITE
    ]
    report.table(name, f"{rows:,} rows", [what, "by C", "ns a row", "sqlite3 takes times as long"], lines)


def columns_of(rows: int) -> tuple[list[int], list[int | None]]:
    generator = random.Random(1)
    first = [random_value(generator) for _ in range(rows)]
    second = [None if generator.random() < 0.1 else random_value(generator) for _ in range(rows)]
    return first, second


def inserted_there(pairs: Pairs) -> None:
    connection = sqlite()
    connection.execute("BEGIN")
    connection.executemany("INSERT INTO t VALUES (?, ?)", pairs)
    connection.execute("COMMIT")


def time_rows_in(session: Any, pairs: Pairs, columns: tuple, report: Report) -> None:
    arrays = {"a": array.array("i", columns[0]), "b": array.array("i", [cell or 0 for cell in columns[1]])}

    def made(table: Any) -> None:
        session.run("DROP TABLE t")
        session.write_table("t", table)

    def inserted() -> None:
        session.run("DROP TABLE t; CREATE TABLE t (a INT, b INT)")
        session.executemany("INSERT INTO t VALUES (?, ?)", pairs)

    by_c: dict[str, Call] = {
        "write_table of tuples": lambda: made(bitcol.Table.of_rows(["a", "b"], pairs)),
        "write_table of lists": lambda: made(dict(zip(["a", "b"], columns))),
    }
    calls: Ways = {
        SQLITE: lambda: inserted_there(pairs),
        ("executemany of tuples", ""): inserted,
        **with_and_without_c(by_c),
        ("write_table of arrays, without NULL", ""): lambda: made(arrays),
    }
    if numpy:
        mask = numpy.array([cell is None for cell in columns[1]])
        masked = {"a": numpy.array(arrays["a"]), "b": numpy.ma.array(arrays["b"], mask=mask)}
        calls["write_table of numpy's masked arrays", ""] = lambda: made(masked)
    tell(report, "python-in", "Way in", quickest(calls), len(pairs))


def time_rows_out(session: Any, pairs: Pairs, report: Report) -> None:
    other = sqlite(pairs)
    made = bitcol.Table.of_rows(["a", "b"], pairs)
    session.run("DROP TABLE t")
    session.write_table("t", made)
    require(session.execute("SELECT a, b FROM t").rows() == pairs, "rows of a SELECT")
    require(list(session.read_table("t").rows()) == pairs, "rows of a whole table")
    by_c: dict[str, Call] = {
        "tuples of a SELECT": lambda: session.execute("SELECT a, b FROM t").rows(),
        "tuples of read_table": lambda: list(session.read_table("t").rows()),
        "lists of read_table": lambda: session.read_table("t").columns(),
        "arrays of read_table": lambda: session.read_table("t").arrays(),
    }
    if numpy:
        by_c["numpy's masked arrays of read_table"] = lambda: session.read_table("t").to_numpy()
    calls: Ways = {
        SQLITE: lambda: other.execute("SELECT a, b FROM t").fetchall(),
        **with_and_without_c(by_c),
    }
    tell(report, "python-out", "Way out", quickest(calls), len(pairs))
    loop = {"a loop over the rows of read_table": lambda: sum(1 for _ in session.read_table("t").rows())}
    loops: Ways = {
        SQLITE: lambda: sum(1 for _ in other.execute("SELECT a, b FROM t")),
        **with_and_without_c(loop),
    }
    tell(report, "python-loop", "Way out", quickest(loops), len(pairs))


def time_count(session: Any, rows: int, report: Report) -> None:
    first, _ = columns_of(rows)
    bound = LEAST // 5 * 4
    other = sqlite(zip(first, first))
    session.write_table("counted", {"a": array.array("i", first)})
    asked = "SELECT COUNT(*) FROM {} WHERE a < ?"
    expected = sum(value < bound for value in first)
    require(session.execute(asked.format("counted"), (bound,)).scalar() == expected, "a COUNT")
    calls: dict[str, Call] = {
        "bitcol": lambda: session.execute(asked.format("counted"), (bound,)).scalar(),
        "sqlite3": lambda: other.execute(asked.format("t"), (bound,)).fetchone(),
    }
    if numpy:
        values = numpy.array(first, numpy.int32)
        calls["numpy"] = lambda: int(numpy.count_nonzero(values < bound))
    took = quickest(calls, 3 * ROUNDS)
    own = took["bitcol"]
    line = [figure(own / rows * 1e9), *(times(took.get(name), own) for name in ("sqlite3", "numpy"))]
    heading = ["ns a row", "sqlite3 takes times as long", "numpy takes times as long"]
    report.table("python-count", f"a COUNT that finds {expected:,} of {rows:,} rows", heading, [line])


def main() -> None:
    rows = Number("rows", 1_000_000, 200, "how many rows go in and out")
    words = options(__doc__, rows, Number("counted", 1 << 22, 1_000, "how many are counted"))
    report = Report("python3 bench/from_python.py")
    if numpy is None:
        report.note("numpy is not installed: left out")
    if rows_module() is None:
        report.note("the module in C is not built (make -C clients rows), or BITCOL_ROWS is 0: left out")
    time_statements(report)
    columns = columns_of(words.rows)
    pairs = list(zip(*columns))
    with bitcol.Session(program()) as session:
        time_rows_in(session, pairs, columns, report)
        time_rows_out(session, pairs, report)
        time_count(session, words.counted, report)
    report.finish()


if __name__ == "__main__":
    main()
