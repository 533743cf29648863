"""A session whose calls can be abandoned.

A call is executed by a separate thread, and the main thread waits for it. An interrupt ends only the wait: the call
continues, its answer is dropped, and later calls wait for it to end. So an interrupt never comes in the middle of a
transfer, where it would end the program.
"""

from __future__ import annotations

import contextlib
import threading
from collections.abc import Callable, Iterator
from concurrent import futures
from queue import SimpleQueue
from typing import Any, TypeVar

from ..session import Session

Result = TypeVar("Result")

# How often a wait updates a progress line: often enough to look alive, and rarely enough to cost nothing.
TICK_SECONDS = 0.1


class Store:
    """A session that can be started again if its program ended."""

    def __init__(self, open_session: Callable[[], Session] = Session) -> None:
        """Starts the session. Raises OperationalError if it can't be started."""
        self._open_session = open_session
        self._session = open_session()
        # None ends the thread.
        self._jobs: SimpleQueue[tuple[futures.Future[Any], Callable[[Session], Any]] | None] = SimpleQueue()
        self._posted = self._done = 0
        self._closing: futures.Future[None] | None = None
        # The session ends with this process, and a call that hangs must not keep the process alive.
        threading.Thread(target=self._carry_out, name="bitcol store", daemon=True).start()
        self.on_wait: Callable[[], None] = _do_nothing

    @property
    def is_busy(self) -> bool:
        """Whether an abandoned call is still being executed."""
        return self._done < self._posted

    def call(self, job: Callable[[Session], Result]) -> Result:
        """Returns or raises what the job does. KeyboardInterrupt abandons the job, which is still executed then."""
        return self._result(self.post(job))

    @contextlib.contextmanager
    def making(self, table: str, make: Callable[[Session], Result]) -> Iterator[Result]:
        """Yields the result of a job that makes a table. The table is dropped again if the wait for it is interrupted,
        or the body of the context fails."""
        future = self.post(make)
        try:
            yield self._result(future)
        except BaseException:
            self.post(lambda session: None if future.exception() else session.execute(f"DROP TABLE {table}"))
            raise

    def post(self, job: Callable[[Session], Result]) -> futures.Future[Result]:
        """Queues a job, to be executed after those before it. Nobody needs to wait for it."""
        future: futures.Future[Result] = futures.Future()
        self._posted += 1
        self._jobs.put((future, job))
        return future

    def another(self) -> Store:
        """Returns another store beside this one, without tables. Raises what the constructor raises."""
        return Store(self._open_session)

    def restart(self) -> None:
        """Starts another session, without tables, if this one's program ended. Raises what the constructor raises."""
        self._session = self._open_session()

    def close(self, seconds: float | None = None) -> bool:
        """Ends the session after all earlier calls, and returns whether it ended within `seconds`. Later calls aren't
        executed, except that it may be closed again."""
        if self._closing is None:
            self._closing = self.post(lambda session: session.close())
            self._jobs.put(None)
        return bool(futures.wait([self._closing], seconds).done)

    def _result(self, future: futures.Future[Result]) -> Result:
        while not futures.wait([future], TICK_SECONDS).done:
            self.on_wait()
        return future.result()

    def _carry_out(self) -> None:
        """Executes jobs, one after the other."""
        while (posted := self._jobs.get()) is not None:
            future, job = posted
            try:
                result = job(self._session)
            except BaseException as fault:
                self._done += 1
                future.set_exception(fault)
            else:
                self._done += 1
                future.set_result(result)
                del result
            # Don't keep a large answer that nobody waits for any more until the next call.
            del posted, future, job


def _do_nothing() -> None:
    pass
