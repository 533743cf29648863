"""A time limit for a query, over all of its rounds, and waiting for answers within it."""

from __future__ import annotations

import time
from collections.abc import Sequence
from typing import Any

from ..errors import Error, OutOfTime

# How many seconds longer than a worker the client waits: the worker can say which part was slow.
GRACE = 2.0


class Limit:
    """The time by which a query has to be answered, if there is one."""

    def __init__(self, seconds: float | None) -> None:
        self._end = None if seconds is None else time.monotonic() + seconds

    def left(self) -> float | None:
        """Returns the seconds left, or None if there is no limit. Raises OutOfTime if there are none left."""
        if self._end is None:
            return None
        left = self._end - time.monotonic()
        if left <= 0:
            raise OutOfTime("the question took longer than it may")
        return left

    def gathered(self, client: Any, futures: Sequence[Any]) -> list[Any]:
        """Returns the results of tasks. An error among them is raised. If they take too long, they are cancelled."""
        if self._end is not None:
            self._wait(client, futures, max(0.0, self._end - time.monotonic()) + GRACE)
        return without_errors(client.gather(list(futures)))

    def _wait(self, client: Any, futures: Sequence[Any], seconds: float) -> None:
        end = time.monotonic() + seconds
        try:
            for future in futures:
                future.result(timeout=max(0.0, end - time.monotonic()))
        except Exception as fault:
            # Its class is defined in different modules, depending on the versions of Python and dask.
            if type(fault).__name__ != "TimeoutError":
                raise
            client.cancel(list(futures))
            raise OutOfTime("the question took longer than it may, and no worker answered it") from None


def without_errors(found: Sequence[Any]) -> list[Any]:
    """Returns the results. An error among them is raised."""
    for each in found:
        if isinstance(each, Error):
            raise each
    return list(found)
