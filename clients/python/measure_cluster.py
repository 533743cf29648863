#!/usr/bin/env python3
"""Measures tables of parts on 1, 2 and 4 workers of this machine, beside one program with as many rows as it can hold.

    BITCOL=PROGRAM PYTHONPATH=clients/python /usr/bin/python3 measure_cluster.py FOLDER [PARTS] [ROWS] [ROUNDS]

Clusters of 1, 2 and 4 single-threaded workers run side by side and are queried in turns, so that ratios come from the
same run: over all parts, and over as many of the first parts as one program can hold. Each answer is compared with the
others. The plot is written to the file that PLOT names. It needs numpy, and Debian's python3-distributed.
"""

from __future__ import annotations

import os
import sys
import time
from collections.abc import Callable, Sequence
from pathlib import Path
from statistics import median
from typing import Any

import numpy
from distributed import Client, LocalCluster, wait

import bitcol
from bitcol import cluster

WORKERS = (1, 2, 4)
ROW_LIMIT = 16_777_216
DEFINITION = "a INT, b INT, day INT"
ONE = "one program"
QUESTIONS = {
    "COUNT": "SELECT COUNT(*) FROM t WHERE a < 7000000 AND b >= 500",
    "SUM": "SELECT SUM(a) FROM t WHERE b < 500",
    "SUM, MIN, MAX": "SELECT SUM(a), MIN(a), MAX(a) FROM t WHERE b < 500",
    "MEDIAN": "SELECT MEDIAN(a) FROM t",
    "MEDIAN, condition": "SELECT MEDIAN(a) FROM t WHERE b < 500",
    "0.1% of the rows": "SELECT a, b FROM t WHERE b = 7",
    "GROUP BY": "SELECT b, COUNT(*), SUM(a) FROM t GROUP BY b",
    "no row": "SELECT COUNT(*) FROM t WHERE b = 7 AND b = 8",
    "one part": "SELECT COUNT(*), SUM(b) FROM t WHERE day = 3",
}
# How long a query of a round took, by its name and by who was queried, in milliseconds.
Times = dict[tuple[str, str], list[float]]


def timed(call: Callable[[], Any]) -> tuple[float, Any]:
    """Returns how many milliseconds a call takes, and its result."""
    start = time.perf_counter()
    value = call()
    return (time.perf_counter() - start) * 1000, value


def make_files(folder: Path, parts: int, rows: int) -> tuple[list[Path], list[Path]]:
    """Makes CSV files with the rows of the first parts, as many as one program can hold, and table files of all parts.
    Existing files are kept."""
    csv_files = [folder / f"{number}.csv" for number in range(min(parts, ROW_LIMIT // rows))]
    tables = [folder / f"{number}.table" for number in range(parts)]
    with bitcol.Session() as session:
        for number, table in enumerate(tables):
            if table.exists():
                continue
            chance = numpy.random.default_rng(number)
            a = chance.integers(-(2**31), 2**31, rows).astype("<i4")
            b = chance.integers(0, 1000, rows).astype("<i4")
            session.write_table("t", {"a": a, "b": b, "day": numpy.full(rows, number, "<i4")})
            if number < len(csv_files):
                (reply,) = session.answers(["SELECT * FROM t"])
                csv_files[number].write_bytes(memoryview(reply)[reply.index(b"\n") + 1 : reply.rindex(b"rows ")])
            session.save("t", table)
            session.execute("DROP TABLE t")
    return csv_files, tables


def watch() -> None:
    """On a worker: from now on adds up how long its parts take to answer."""
    from bitcol.cluster import holding

    answers = holding.Holding.answers

    def watched(*arguments: Any) -> Any:
        start = time.perf_counter()
        try:
            return answers(*arguments)
        finally:
            holding.spent = getattr(holding, "spent", 0.0) + time.perf_counter() - start  # type: ignore[attr-defined]

    holding.Holding.answers = watched  # type: ignore[method-assign]


def spent() -> float:
    """On a worker: returns how many milliseconds its parts took since the last call."""
    from bitcol.cluster import holding

    took = getattr(holding, "spent", 0.0) * 1000
    holding.spent = 0.0  # type: ignore[attr-defined]
    return took


def load(one: bitcol.Session, clients: dict[int, Client], folder: Path, files: Sequence[Path]) -> None:
    """Measures LOAD of the same CSV files by one program, which keeps them, and by workers, in turns. Workers save what
    they load, so a SAVE of the one program is measured too."""
    took: dict[str, list[float]] = {}
    for number in range(3):
        if number:
            one.execute("DROP TABLE t")
        one.execute(f"CREATE TABLE t ({DEFINITION})")
        loading, _ = timed(lambda: [one.load("t", file) for file in files])
        took.setdefault(ONE, []).append(loading)
        saving, _ = timed(lambda: one.save("t", folder / "whole.table"))
        took.setdefault(f"{ONE}, and SAVE", []).append(loading + saving)
        for workers, client in clients.items():
            table = cluster.create(client, folder / f"load-{workers}-{number}", "t", DEFINITION)
            took.setdefault(f"{workers} workers", []).append(timed(lambda: table.load(files))[0])
            # Workers open the parts after the call. The next call must not be measured meanwhile.
            wait([group.holding for group in table._questions.groups])
            del table
    alone, saved = median(took[ONE]), median(took[f"{ONE}, and SAVE"])
    print(f"LOAD of {len(files)} CSV files, middle of 3:", flush=True)
    for who, found in took.items():
        each = median(found)
        print(f"  {who}: {each:.0f} ms; one program takes {alone / each:.2f} times that, {saved / each:.2f} with SAVE")


def opened(clients: dict[int, Client], folder: Path, files: Sequence[Path]) -> dict[int, cluster.Table]:
    """Opens a table of these table files on each cluster."""
    first = cluster.create(clients[4], folder, "t", DEFINITION)
    attaching, _ = timed(lambda: first.attach(files))
    del first
    print(f"attach() of {len(files)} table files on 4 workers: {attaching:.0f} ms", flush=True)
    tables = {}
    for workers, client in clients.items():
        opening, tables[workers] = timed(lambda: cluster.open(client, folder))
        groups = tables[workers]._questions.groups
        opening += timed(lambda: wait([group.holding for group in groups]))[0]
        print(f"  {workers} workers: open() {opening:.0f} ms, {len(groups)} objects of dask's", flush=True)
    return tables


def measure(
    one: bitcol.Session | None, tables: dict[int, cluster.Table], clients: dict[int, Client], rounds: int
) -> tuple[Times, Times]:
    """Queries in turns. Returns how long each query took, and how long of that the busiest worker's parts took."""
    times: Times = {}
    own: Times = {}
    for number in range(rounds + 1):
        for name, statement in QUESTIONS.items():
            asked: dict[str, Callable[[], bytes]] = {}
            if one is not None:
                asked[ONE] = lambda: one.answers([statement])[0]
            for workers, table in tables.items():
                asked[f"{workers} workers"] = lambda table=table: table.answer(statement)
            answers = set()
            for who, ask in asked.items():
                took, found = timed(ask)
                answers.add(found)
                busiest = 0.0 if who == ONE else max(clients[int(who.split()[0])].run(spent).values())
                if number:
                    times.setdefault((name, who), []).append(took)
                    own.setdefault((name, who), []).append(busiest)
            assert len(answers) == 1, (name, answers)
    return times, own


def tell(times: Times, own: Times, rounds: int) -> dict[str, dict[str, float]]:
    """Prints the middle of the rounds, and returns it."""
    print(f"  middle of {rounds} rounds, ms; all answers were equal; load of the machine: {os.getloadavg()}")
    rows: dict[str, dict[str, float]] = {}
    for name in QUESTIONS:
        rows[name] = {who: median(found) for (other, who), found in times.items() if other == name}
        beside = median(all_ - part for all_, part in zip(times[name, "4 workers"], own[name, "4 workers"]))
        told = "  ".join(f"{who}: {took:.1f}" for who, took in rows[name].items())
        ratio = rows[name]["1 workers"] / rows[name]["4 workers"]
        print(f"  {name:20}{told}  1 to 4: {ratio:.2f}  of 4 workers' beside the parts': {beside:.1f}", flush=True)
    return rows


def draw(path: Path, parts: int, rows: dict[str, dict[str, float]]) -> None:
    """Draws the speed of the others as a multiple of that of 1 worker."""
    sys.path.insert(0, str(Path(__file__).resolve().parents[2] / "bench"))
    from plots import Plot, drawn

    plot = Plot(f"Questions over {parts} parts", "question", "times as fast as 1 worker", has_bars=True)
    chosen = ("COUNT", "SUM", "MEDIAN", "MEDIAN, condition", "GROUP BY")
    lines = {
        f"{workers} workers": [(name, rows[name]["1 workers"] / rows[name][f"{workers} workers"]) for name in chosen]
        for workers in WORKERS[1:]
    }
    path.write_text(drawn(plot, lines))


def measure_calls(clients: dict[int, Client]) -> None:
    """Measures a call to workers that does nothing."""
    for workers, client in clients.items():
        took = median(timed(lambda client=client: client.run(os.getpid))[0] for _ in range(50))
        print(f"a call to {workers} workers: {took:.2f} ms", flush=True)


def main() -> None:
    folder = Path(sys.argv[1])
    parts, rows, rounds = (int(word) for word in [*sys.argv[2:5], *["128", "1048576", "5"][len(sys.argv) - 2 :]])
    folder.mkdir(parents=True, exist_ok=True)
    csv_files, files = make_files(folder, parts, rows)
    print(f"{parts} parts of {rows} rows; load of the machine: {os.getloadavg()}", flush=True)
    clusters = {
        workers: LocalCluster(n_workers=workers, threads_per_worker=1, memory_limit="4GB", dashboard_address=None)
        for workers in WORKERS
    }
    clients = {workers: Client(made) for workers, made in clusters.items()}
    one = bitcol.Session()
    load(one, clients, folder, csv_files)
    for client in clients.values():
        client.run(watch)
    measure_calls(clients)
    held = opened(clients, folder / "held", files[: len(csv_files)])
    print(f"over {len(csv_files)} parts, which one program holds:")
    tell(*measure(one, held, clients, rounds), rounds)
    del held
    whole = opened(clients, folder / "all", files)
    print(f"over {parts} parts:")
    shown = tell(*measure(None, whole, clients, rounds), rounds)
    if "PLOT" in os.environ:
        draw(Path(os.environ["PLOT"]), parts, shown)
    del whole
    for workers, client in clients.items():
        client.close()
        clusters[workers].close()


if __name__ == "__main__":
    main()
