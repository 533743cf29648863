"""Queries that are sent directly to the workers that hold the parts, instead of as tasks.

The messages about tasks between dask's scheduler, workers and clients are sent in batches, up to 10 ms apart, so a
query by tasks waits for some of them. A query that the client itself sends to the workers doesn't. If that fails, for
whatever reason, the query is sent by tasks, which restore whatever was lost.
"""

from __future__ import annotations

import asyncio
import pickle
import weakref
from collections.abc import Callable, Mapping, Sequence
from functools import partial
from importlib import import_module
from typing import Any

from .groups import Group
from .holding import Told, held

# How many seconds a worker has to accept a connection. A worker that doesn't isn't called again.
CONNECT_SECONDS = 2.0
_unreached: weakref.WeakKeyDictionary[Any, set[str]] = weakref.WeakKeyDictionary()

# What a worker is asked: for each group its place among the queried groups, its key, and which of its parts.
Errand = list[tuple[int, str, Sequence[int]]]
# The answers of some groups, with their places.
Answers = list[tuple[int, Told]]


class Calls:
    """Calls of a client to the workers that hold the groups of a version. The locations of these are looked up once. If
    a worker doesn't hold one any more, it says so, and they are looked up again."""

    def __init__(self, client: Any) -> None:
        self._client = client
        self._addresses: dict[str, str] = {}

    def asked(
        self, groups: Sequence[tuple[Group, list[int]]], call: Callable[..., Told], asked: Any, **rest: Any
    ) -> list[Told] | None:
        """Returns the result of a call for each of some groups, or None if tasks have to be used instead."""
        if any(group.holding.status != "finished" for group, _ in groups):
            return None
        try:
            errands = self._errands(groups)
            if not _unreached.get(self._client, set()).isdisjoint(errands):
                return None
            found = self._client.sync(_called_all, self._client, errands, (call, asked, rest))
        except Exception:
            # A worker is lost, or can't be reached. Tasks find out which, and report it if it can't be fixed.
            self._addresses.clear()
            return None
        told = {place: each for of_worker in found for place, each in of_worker}
        if len(told) < len(groups):
            self._addresses.clear()
            return None
        return [told[place] for place in range(len(groups))]

    def _errands(self, groups: Sequence[tuple[Group, list[int]]]) -> dict[str, Errand]:
        """Returns what each worker is asked, by its address."""
        unknown = [group.holding for group, _ in groups if group.holding.key not in self._addresses]
        if unknown:
            self._addresses.update((key, where[0]) for key, where in self._client.who_has(unknown).items())
        errands: dict[str, Errand] = {}
        for place, (group, which) in enumerate(groups):
            key = group.holding.key
            errands.setdefault(self._addresses[key], []).append((place, key, which))
        return errands


async def _called_all(client: Any, errands: Mapping[str, Errand], question: tuple[Any, ...]) -> list[Answers]:
    calls = [_called(client, address, (errand, *question)) for address, errand in errands.items()]
    return await asyncio.gather(*calls)


async def _called(client: Any, address: str, arguments: tuple[Any, ...]) -> Answers:
    """Calls run_errand on a worker, as Client.run does, but over a connection that is kept. Returns its answer."""
    try:
        comm = await client.rpc.connect(address, timeout=CONNECT_SECONDS)
    except OSError:
        _unreached.setdefault(client, set()).add(address)
        raise
    call = {"function": pickle.dumps(run_errand), "args": pickle.dumps(arguments), "kwargs": None, "wait": True}
    try:
        reply = await import_module("distributed.core").send_recv(comm, op="run", **call)
    finally:
        client.rpc.reuse(address, comm)
    answers: Answers = reply["result"]
    return answers


async def run_errand(
    errand: Errand, call: Callable[..., Told], asked: Any, rest: Mapping[str, Any], dask_worker: Any
) -> Answers:
    """Runs on a worker: returns the result of a call, run by its threads, for each group, or nothing if one isn't held
    here."""
    mine = [(place, held(key), which) for place, key, which in errand]
    if any(holding is None for _, holding, _ in mine):
        return []
    loop, threads = asyncio.get_running_loop(), dask_worker.executors["default"]
    calls = [partial(call, holding, which, asked, **rest) for _, holding, which in mine]
    told = await asyncio.gather(*(loop.run_in_executor(threads, each) for each in calls))
    return [(place, each) for (place, _, _), each in zip(mine, told)]
