"""Processes that end in the middle of what they do: workers, programs, clients; and memory and time that run out."""

from __future__ import annotations

import os
import random
import signal
import subprocess
import sys
import threading
import time
import unittest
from collections.abc import Iterator
from contextlib import contextmanager
from pathlib import Path
from unittest import mock

import bitcol
from bitcol import cluster
from bitcol.cluster.programs import Place

from .support import SEED, ClusterTestCase, PartsTestCase, say, write_csv

# How many seconds each test runs.
SECONDS = float(os.environ.get("BITCOL_SECONDS", "20"))
PACKAGE = Path(__file__).resolve().parent.parent


def programs() -> dict[int, int]:
    """Returns the processes of the program, with the process to which each belongs."""
    program, found = os.path.realpath(bitcol.find_program()), {}
    for path in Path("/proc").glob("[0-9]*"):
        try:
            if os.readlink(path / "exe") == program:
                found[int(path.name)] = int((path / "stat").read_text().rpartition(") ")[2].split()[1])
        except OSError:
            pass
    return found


def orphans() -> set[int]:
    """Returns the programs whose worker has ended."""
    return {pid for pid, parent in programs().items() if parent == 1}


def use_program(path: str) -> None:
    """On a worker: sets the program that is run from now on."""
    os.environ["BITCOL"] = path


def runs_in_little_memory(program: str) -> bool:
    """Returns whether the program answers with 200 megabytes of address space."""
    words = ["sh", "-c", 'ulimit -v 200000; exec "$0"', program]
    return subprocess.run(words, input=b"TABLES;", capture_output=True).stdout.endswith(b"rows 0\n")


class Losses(ClusterTestCase):
    IS_OWN = True

    def setUp(self) -> None:
        super().setUp()
        self.chance = random.Random(f"losses-{SEED}")

    def random_table(self, parts: int, rows: int) -> tuple[cluster.Table, bitcol.Session]:
        cells = [
            [(self.chance.randrange(-(2**31), 2**31), self.chance.choice([None, 1, 2, 3])) for _ in range(rows)]
            for _ in range(parts)
        ]
        return self.both("a INT, b INT", cells, together=2)

    @contextmanager
    def killing(self, counts: dict[str, int]) -> Iterator[None]:
        """Kills workers, and programs of parts, during the context."""
        ending = threading.Event()

        def kill() -> None:
            while not ending.wait(self.chance.uniform(0.5, 2.5)):
                if len(self.workers.scheduler.workers) < self.WORKERS:
                    # Dask gives up a worker that is killed before it is ready.
                    continue
                pids = [worker.pid for worker in self.workers.workers.values()]
                kind = self.chance.choice(["workers", "programs"])
                if kind == "programs":
                    pids = [pid for pid, parent in programs().items() if parent in pids]
                try:
                    os.kill(self.chance.choice(pids), signal.SIGKILL)
                    counts[kind] += 1
                except (OSError, IndexError, TypeError):
                    pass

        killer = threading.Thread(target=kill)
        killer.start()
        try:
            yield
        finally:
            ending.set()
            killer.join()

    def test_killed_workers_and_programs(self) -> None:
        """Each answer is right, or an error is reported; no program is left without a worker."""
        left_before = orphans()
        table, one = self.random_table(6, 20_000)
        statements = [
            "SELECT COUNT(*), SUM(a), MIN(a), MAX(a) FROM t WHERE b < 3",
            "SELECT MEDIAN(a), MEDIAN(b) FROM t WHERE b <> 2",
            "SELECT a FROM t WHERE a > 2140000000",
        ]
        wanted = dict(zip(statements, one.answers(statements)))
        counts, asked, told = {"workers": 0, "programs": 0}, 0, []
        end = time.monotonic() + SECONDS
        with self.killing(counts):
            while time.monotonic() < end:
                statement = self.chance.choice(statements)
                try:
                    found = table.answer(statement)
                except Exception as fault:
                    told.append(f"{type(fault).__name__}: {str(fault)[:120]}")
                    table = cluster.open(self.client, self.folder / "table", together=2)
                else:
                    self.assertEqual(found, wanted[statement])
                    asked += 1
        say(f"killed meanwhile: {counts}; answers, all right: {asked}; faults told: {told}")
        self.assertGreater(asked, 0)
        time.sleep(1)
        self.assertEqual(orphans() - left_before, set())

    def test_killed_workers_in_loads_and_changes(self) -> None:
        """A load, or a change, is executed or reported as failed, but never executed in part."""
        table, _ = self.random_table(4, 2_000)
        file = write_csv(self.folder / "more.csv", [(7, 7)] * 500)
        counts, told, value = {"workers": 0, "programs": 0}, [], 0
        end = time.monotonic() + SECONDS
        with self.killing(counts):
            while time.monotonic() < end:
                value += 1
                try:
                    table.sql("UPDATE t SET b = ?", [value])
                    table.load([file, file])
                except Exception as fault:
                    told.append(f"{type(fault).__name__}: {str(fault)[:120]}")
        table = cluster.open(self.client, self.folder / "table")
        rows = len(table)
        self.assertEqual((rows - 8_000) % 1_000, 0)
        found = table.sql("SELECT COUNT(*), COUNT(b), MAX(b) FROM t").rows()[0]
        self.assertEqual(found[:2], (rows, rows))
        say(f"killed in loads and changes: {counts}; versions made: {table.version}; faults told: {told}")
        versions = [version for version in range(1, table.version + 1)]
        for version in self.chance.sample(versions, min(4, len(versions))):
            whole = cluster.open(self.client, self.folder / "table", version)
            self.assertEqual(whole.sql("SELECT COUNT(*) FROM t").scalar(), len(whole))

    def test_killed_clients(self) -> None:
        """A client is killed in the middle of changes: the version before or after is there, complete."""
        table, _ = self.random_table(4, 500)
        script = (
            "import sys\nfrom bitcol import cluster\nfrom distributed import Client\n"
            "table = cluster.open(Client(sys.argv[1]), sys.argv[2])\nprint('go', flush=True)\n"
            "for number in range(int(sys.argv[3]), 10**9):\n"
            "    table.sql('UPDATE t SET b = ?', [number])\n    print(number, flush=True)\n"
        )
        killed, made = 0, 0
        end = time.monotonic() + SECONDS
        while time.monotonic() < end:
            killed += 1
            before = cluster.open(self.client, self.folder / "table").version
            words = [sys.executable, "-W", "ignore", "-c", script, self.workers.scheduler_address]
            child = subprocess.Popen(
                [*words, str(self.folder / "table"), str(1000 * killed)],
                stdout=subprocess.PIPE,
                env={**os.environ, "PYTHONPATH": str(PACKAGE)},
            )
            assert child.stdout
            child.stdout.readline()
            time.sleep(self.chance.uniform(0.0, 1.5))
            child.kill()
            told = len(child.stdout.read().split())
            child.wait()
            child.stdout.close()
            table = cluster.open(self.client, self.folder / "table")
            least, greatest, rows = table.sql("SELECT MIN(b), MAX(b), COUNT(*) FROM t").rows()[0]
            self.assertEqual(rows, 2_000)
            if table.version > 2:
                self.assertEqual(least, greatest)
            self.assertGreaterEqual(table.version - before, told)
            made += table.version - before
        say(f"clients killed in the middle of changes: {killed}; versions made: {made}; files left: {table.vacuum(0)}")
        self.assertEqual(cluster.open(self.client, self.folder / "table").sql("SELECT COUNT(*) FROM t").scalar(), 2_000)

    def test_out_of_memory(self) -> None:
        """A program that gets no memory: the error names the part, and the table stays as it was."""
        program, told = os.path.realpath(bitcol.find_program()), []
        if not runs_in_little_memory(program):
            self.skipTest("the program is one with checks, which needs more addresses than a limit leaves it")
        table, one = self.random_table(2, 50_000)
        (wanted,) = one.answers(["SELECT SUM(a), MEDIAN(a) FROM t"])
        for kilobytes in range(4_000, 24_000, 2_000):
            small = self.folder / f"small-{kilobytes}.sh"
            small.write_text(f'#!/bin/sh\nulimit -v {kilobytes}\nexec {program} "$@"\n')
            small.chmod(0o755)
            self.client.run(use_program, str(small))
            # Under another name the parts are opened again.
            name = f"T{kilobytes}"
            again = cluster.Table(self.client, Place(table._place.storage, name), table.manifest, 1)
            for statement in (f"SELECT SUM(a), MEDIAN(a) FROM {name}", f"UPDATE {name} SET a = b"):
                try:
                    again.answer(statement)
                    told.append("answered")
                except bitcol.Error as fault:
                    told.append(f"{type(fault).__name__} {getattr(fault, 'number', '')}".strip())
            if again.version != table.version:
                break
        self.client.run(use_program, program)
        say(f"little memory: { {kind: told.count(kind) for kind in sorted(set(told))} }")
        before = cluster.open(self.client, self.folder / "table", 2)
        self.assertEqual(before.answer("SELECT SUM(a), MEDIAN(a) FROM t"), wanted)


class ShortMemory(ClusterTestCase):
    WORKERS, IS_OWN = 1, True

    def setUp(self) -> None:
        import dask

        limits = {"target": 0.0004, "spill": False, "pause": False, "terminate": False}
        settings = {f"distributed.worker.memory.{name}": value for name, value in limits.items()}
        patch = dask.config.set(settings)
        patch.__enter__()
        self.addCleanup(patch.__exit__, None, None, None)
        super().setUp()

    def test_more_parts_than_memory(self) -> None:
        """A worker whose memory can hold only some of ten parts: dask spills the others, and their programs end."""
        chance = random.Random(f"short-{SEED}")
        parts = [[(chance.randrange(2**31), chance.choice([None, 1, 2])) for _ in range(30_000)] for _ in range(10)]
        table, one = self.both("a INT, b INT", parts, together=1)
        most = 0
        for number in range(4):
            self.same(table, one, f"SELECT COUNT(*), SUM(a) FROM t WHERE b < {number} OR a < 2000000")
            nanny = next(iter(self.workers.workers.values())).pid
            most = max(most, sum(parent == nanny for parent in programs().values()))
        room = 400_000 // table.manifest.parts[0].size
        say(f"short memory: 10 parts, room for {room}; programs seen: {most} at most")
        self.assertLessEqual(most, room + 2)


class SlowProgram(PartsTestCase):
    """A program that takes its time."""

    def test_a_limit_of_time(self) -> None:
        table, one = self.both("a INT", [[(1,)], [(2,)]])
        self.assertEqual(table.sql("SELECT SUM(a) FROM t", seconds=60).scalar(), 3)
        self.refused("only a SELECT", lambda: table.answer("DELETE FROM t", seconds=1), bitcol.NotSupportedError)
        slow = self.folder / "slow.sh"
        slow.write_text(
            "#!/usr/bin/env python3\nimport os, sys, time\n"
            f"child = os.popen({os.path.realpath(bitcol.find_program())!r}, 'w')\n"
            "while data := os.read(0, 65536):\n"
            "    if b'SELECT SUM' in data: time.sleep(30)\n"
            "    child.write(data.decode()); child.flush()\n"
        )
        slow.chmod(0o755)
        # Otherwise its parts would be shared.
        del table
        with mock.patch.dict(os.environ, {"BITCOL": str(slow)}):
            again = cluster.open(self.client, self.folder / "table")
            start = time.monotonic()
            for ask in ("SELECT SUM(a) FROM t", "SELECT SUM(a), MEDIAN(a) FROM t"):
                error = self.refused("longer than it may", lambda: again.sql(ask, seconds=0.7), bitcol.OutOfTime)
                self.assertIn(".table", str(error))
            self.assertLess(time.monotonic() - start, 15)
            del again
        self.same(cluster.open(self.client, self.folder / "table"), one, "SELECT SUM(a) FROM t")


if __name__ == "__main__":
    unittest.main()
