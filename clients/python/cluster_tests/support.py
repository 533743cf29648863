"""Shared by the tests: tables as one store and as parts, workers, and calls that are made in this process."""

from __future__ import annotations

import logging
import os
import pickle
import random
import sys
import tempfile
import unittest
from collections.abc import Callable, Iterable, Sequence
from pathlib import Path
from typing import Any, Optional

import bitcol
from bitcol import cluster

try:
    import distributed
except ImportError:
    distributed = None

SEED = int(os.environ.get("BITCOL_SEED") or "1")
# The number of random statements.
STATEMENTS = int(os.environ.get("BITCOL_STATEMENTS") or "1500")
Row = Sequence[Optional[int]]


def say(text: str) -> None:
    """Reports what a test counted, or what was left out."""
    print(text, file=sys.stderr, flush=True)


class Done:
    """A call that was made at once, as a future. Arguments and results are pickled, as on their way to a worker."""

    status = "finished"

    def __init__(self, call: Callable[[], Any]) -> None:
        self.fault: Exception | None = None
        try:
            self.value = pickle.loads(pickle.dumps(call()))
        except Exception as fault:
            self.fault = pickle.loads(pickle.dumps(fault))

    def result(self, timeout: float | None = None) -> Any:
        if self.fault is not None:
            raise self.fault
        return self.value


def _given(argument: Any) -> Any:
    if isinstance(argument, Done):
        return argument.result()
    return [_given(each) for each in argument] if isinstance(argument, list) else argument


class Inline:
    """A client without a cluster: calls are made in this process."""

    def scheduler_info(self) -> dict[str, Any]:
        return {"workers": {}}

    def submit(self, call: Any, *arguments: Any, **rest: Any) -> Done:
        for word in ("pure", "retries", "key", "workers", "allow_other_workers"):
            rest.pop(word, None)
        return Done(lambda: call(*map(_given, arguments), **rest))

    def map(self, call: Any, *lists: list[Any], **rest: Any) -> list[Done]:
        return [self.submit(call, *each, **rest) for each in zip(*lists)]

    def gather(self, futures: Any) -> Any:
        return _given(futures)


def write_csv(path: Path, rows: Iterable[Row]) -> Path:
    """Writes a CSV file with these rows."""
    path.write_text("".join(",".join("NULL" if cell is None else str(cell) for cell in row) + "\n" for row in rows))
    return path


def cut_rows(chance: random.Random, rows: Sequence[Row], most: int = 6) -> list[Sequence[Row]]:
    """Splits the rows into consecutive parts, some of which may be empty."""
    cuts = sorted(chance.randrange(len(rows) + 1) for _ in range(chance.randrange(most)))
    return [rows[start:end] for start, end in zip([0, *cuts], [*cuts, len(rows)])]


class PartsTestCase(unittest.TestCase):
    """A test with a folder of its own, and a client that makes calls in this process."""

    client: Any = None

    def setUp(self) -> None:
        scratch = tempfile.TemporaryDirectory(prefix="bitcol-cluster-")
        self.addCleanup(scratch.cleanup)
        self.folder = Path(scratch.name).resolve()
        if self.client is None:
            self.client = Inline()

    def one_store(self, definition: str, files: Iterable[Path]) -> bitcol.Session:
        """Makes one store with the rows of CSV files."""
        session = bitcol.Session()
        self.addCleanup(session.close)
        session.execute(f"CREATE TABLE t ({definition})")
        for file in files:
            session.load("t", file)
        return session

    def both(
        self, definition: str, parts: Sequence[Sequence[Row]], name: str = "table", together: int | None = None
    ) -> tuple[cluster.Table, bitcol.Session]:
        """Makes a table of parts and one store with the same rows."""
        files = [write_csv(self.folder / f"{name}-{number}.csv", rows) for number, rows in enumerate(parts)]
        table = cluster.create(self.client, self.folder / name, "t", definition, together).load(files)
        return table, self.one_store(definition, files)

    def same(self, table: cluster.Table, one: bitcol.Session, statement: str) -> bitcol.Reply:
        """Checks that both reply to a SELECT with the same bytes, and returns the reply."""
        (wanted,) = one.answers([statement])
        self.assertEqual(table.answer(statement), wanted, statement)
        return bitcol.reply_of(wanted)

    def refused(self, text: str, call: Callable[[], Any], kind: type[BaseException] = bitcol.Error) -> BaseException:
        """Checks that a call raises an error of this class with this text in it, and returns the error."""
        with self.assertRaises(kind) as caught:
            call()
        self.assertIn(text, str(caught.exception))
        return caught.exception


def start_cluster(workers: int, threads: int = 1, memory_limit: str = "1GB") -> tuple[Any, Any]:
    """Starts workers on this machine, and a client of them."""
    made = distributed.LocalCluster(
        n_workers=workers,
        threads_per_worker=threads,
        memory_limit=memory_limit,
        dashboard_address=None,
        silence_logs=logging.CRITICAL,
    )
    return made, distributed.Client(made)


@unittest.skipIf(distributed is None, "dask.distributed is not installed")
class ClusterTestCase(PartsTestCase):
    """A test with two workers on this machine: those of its class, or, if `IS_OWN`, its own."""

    WORKERS, THREADS, IS_OWN = 2, 1, False
    workers: Any = None

    @classmethod
    def setUpClass(cls) -> None:
        super().setUpClass()
        if not cls.IS_OWN and distributed is not None:
            cls.workers, cls.client = start_cluster(cls.WORKERS, cls.THREADS)
            cls.addClassCleanup(cls.workers.close)
            cls.addClassCleanup(cls.client.close)

    def setUp(self) -> None:
        if self.IS_OWN:
            self.workers, self.client = start_cluster(self.WORKERS, self.THREADS)
            self.addCleanup(self.workers.close)
            self.addCleanup(self.client.close)
        super().setUp()
