"""Distributes parts over dask's workers: several consecutive parts are one object, so that a query costs dask as many
tasks as there are threads, instead of as many as there are parts."""

from __future__ import annotations

from collections.abc import Sequence
from dataclasses import dataclass
from itertools import zip_longest
from typing import Any

from .holding import hold, key_of
from .manifest import Part
from .programs import Place

# How often dask retries a task that raised an error: a process may have been killed from outside.
RETRIES = 2
# The share of the workers' memory up to which parts are grouped. Beyond it dask will spill some, one by one.
ROOMY = 0.4


@dataclass(frozen=True)
class Group:
    """Consecutive parts, and dask's future of the object that holds them."""

    parts: tuple[Part, ...]
    holding: Any


def grouped(client: Any, place: Place, parts: Sequence[Part], together: int | None) -> list[Group]:
    """Has workers open parts, `together` in each object; None means as many as suits the workers."""
    workers = client.scheduler_info()["workers"]
    size = together or _together(parts, workers)
    slots = _slots(workers)
    groups = []
    for number, start in enumerate(range(0, len(parts), size)):
        some = tuple(parts[start : start + size])
        # Where a group was before a change, the parts that remain are open.
        near: dict[str, Any] = {"workers": [slots[number % len(slots)]], "allow_other_workers": True} if slots else {}
        future = client.submit(hold, place, some, key=key_of(place, some), retries=RETRIES, **near)
        if future.status == "error":
            # The error is kept as long as anybody holds the future; the file may have been repaired.
            future.retry()
        groups.append(Group(some, future))
    return groups


def _together(parts: Sequence[Part], workers: dict[str, Any]) -> int:
    """Returns how many parts to group: as many as leave each thread an object, and a power of two, so that a few more
    parts leave the other objects as they are. If memory is short, parts aren't grouped."""
    room = sum(worker.get("memory_limit") or 0 for worker in workers.values())
    if room and sum(part.size for part in parts) > ROOMY * room:
        return 1
    threads = sum(worker["nthreads"] for worker in workers.values()) or 1
    return int(2 ** ((len(parts) // threads) or 1).bit_length()) // 2


def _slots(workers: dict[str, Any]) -> list[str]:
    """Returns the workers' addresses, each once for each of its threads, interleaved."""
    rows = zip_longest(*([address] * worker["nthreads"] for address, worker in sorted(workers.items())))
    return [address for row in rows for address in row if address is not None]
