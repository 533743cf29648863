"""The door to the program: a child process with two pipes, one for scripts and one for replies.

The program answers a statement as soon as it has read it, and stops reading while its answer isn't read. So the client
reads replies while it is still writing: otherwise the two could block each other.
"""

from __future__ import annotations

import contextlib
import math
import os
import select
import signal
import subprocess
import tempfile
import threading
import time
import weakref
from collections.abc import Iterable, Iterator
from pathlib import Path
from typing import NoReturn

from .door import Bytes
from .errors import InterfaceError, OperationalError, OutOfTime, ProgramEnded
from .reply import ReplyBuffer
from .script import PathLike

# The number of bytes read at a time: what a pipe holds. A larger buffer costs more to allocate than a short reply
# takes.
PIPE_BYTES = 65_536
# Everything that is sent to one process is one script, whose length is limited. The reserve is only for SAVE.
SCRIPT_BYTES = 2**30
RESERVE_BYTES = 2**20
SECONDS_TO_END = 10


class Coprocess:
    """A store in a separate process, which ends with it. Calls from several threads take turns."""

    def __init__(self, program: PathLike, folder: PathLike | None = None) -> None:
        """Starts the program, given by a path relative to this process's working directory, or by a name on PATH. File
        names in statements are relative to `folder`, by default this process's working directory. Raises
        OperationalError if the program can't be started."""
        try:
            # In a process session of its own the program doesn't get the interrupts from the keyboard.
            self._child = subprocess.Popen(
                [_path_from_here(os.fspath(program))],
                stdin=subprocess.PIPE,
                stdout=subprocess.PIPE,
                stderr=subprocess.PIPE,
                bufsize=0,
                cwd=folder,
                start_new_session=True,
            )
        except (OSError, ValueError) as fault:
            raise OperationalError(f"the program can't be started: {fault}") from fault
        assert self._child.stdin and self._child.stdout and self._child.stderr
        self._scripts = self._child.stdin.fileno()
        self._answers = self._child.stdout.fileno()
        os.set_blocking(self._scripts, False)
        os.set_blocking(self._answers, False)
        self._for_answers = select.poll()
        self._for_answers.register(self._answers, select.POLLIN)
        self._for_both = select.poll()
        self._for_both.register(self._answers, select.POLLIN)
        self._for_both.register(self._scripts, select.POLLOUT)
        self._owner = os.getpid()
        self._finalizer = weakref.finalize(self, _drop, self._child, self._owner)
        self._lock = threading.Lock()
        self._buffer = ReplyBuffer()
        self._unsent: Bytes = b""
        # The number of replies to come: those of the current call, and those of calls that were interrupted.
        self._owed = 0
        self._sent = 0
        self._waits = False
        self._end: str | None = None
        self._deadline: float | None = None

    def answer(self, script: bytes, statements: int, seconds: float | None = None) -> list[bytes]:
        """See Door. The statements of an interrupted call may have been executed, or may still be executed; their
        replies are dropped. An interrupt in the middle of a transfer ends the program, since after it replies couldn't
        be told apart."""
        with self._lock:
            self._ensure_usable(script)
            self._deadline = None if seconds is None else time.monotonic() + seconds
            try:
                # First finish what an interrupted call left.
                self._finish()
                self._unsent, self._owed = script, statements
                self._send()
                if seconds is None:
                    # A short reply is often there by now, and then there is no need to wait. Where the time is limited,
                    # it is looked at before each transfer.
                    self._receive()
                return self._finish()
            except OperationalError:
                raise
            except BaseException as fault:
                if not self._waits:
                    self._abandon(fault)
                self._waits = False
                raise

    @contextlib.contextmanager
    def scratch(self) -> Iterator[HostFile]:
        """See Door: a file in a temporary folder of its own. Such folders are made where TMPDIR says."""
        try:
            room = tempfile.TemporaryDirectory(prefix="bitcol-")
        except OSError as fault:
            raise OperationalError(f"no temporary folder: {fault}") from fault
        with room as folder:
            yield HostFile(Path(folder).resolve() / "file")

    def close(self) -> None:
        """See Door. The program ends at the end of its script; if it hasn't ended after 10 seconds, it is killed."""
        with self._lock:
            if self._owner != os.getpid() or self._end is not None:
                return
            self._end = ""
            self._reap()

    def _ensure_usable(self, script: bytes) -> None:
        if self._end is not None:
            if self._end:
                raise ProgramEnded(f"{self._end}; its tables are gone")
            raise InterfaceError("the session is closed")
        if self._owner != os.getpid():
            raise InterfaceError("the session belongs to the process that opened it")
        sent = self._sent + len(script)
        if sent > SCRIPT_BYTES - RESERVE_BYTES and not script.startswith(b"SAVE "):
            raise OperationalError(
                f"the session has sent {self._sent} bytes of statements, and a program takes {SCRIPT_BYTES}:"
                " save its tables, and open them in another session"
            )
        self._sent = sent

    def _finish(self) -> list[bytes]:
        """Sends what is still unsent, and returns the replies to come."""
        replies = []
        while self._owed:
            reply = self._buffer.take()
            if reply is None:
                self._move()
            else:
                self._owed -= 1
                replies.append(reply)
        return replies

    def _move(self) -> None:
        """Waits until a pipe is ready, and writes or reads as much as it can."""
        pipes = self._for_both if self._unsent else self._for_answers
        left = None if self._deadline is None else max(0.0, self._deadline - time.monotonic())
        # No transfer is in progress here, so an interrupt loses nothing.
        self._waits = True
        ready = pipes.poll(None if left is None else math.ceil(left * 1000))
        self._waits = False
        # Past the time limit a program that is still writing is ended too.
        if not ready or left == 0.0:
            self._end_late()
        for pipe, _ in ready:
            if pipe == self._answers:
                self._receive()
            else:
                self._send()

    def _send(self) -> None:
        """Sends as much as the pipe accepts without blocking."""
        try:
            sent = os.write(self._scripts, self._unsent)
        except BlockingIOError:
            return
        except BrokenPipeError:
            # The program doesn't read any more. What it wrote before it ended can still be read.
            self._unsent = b""
            return
        self._unsent = memoryview(self._unsent)[sent:] if sent < len(self._unsent) else b""

    def _receive(self) -> None:
        """Reads what the pipe holds, if it holds anything."""
        try:
            data = os.read(self._answers, PIPE_BYTES)
        except BlockingIOError:
            return
        if not data:
            self._died()
        self._buffer.add(data)

    def _died(self) -> NoReturn:
        """Raises ProgramEnded with what is known about how a program ended by itself."""
        status, said = self._reap()
        how = f"was killed by {_signal_name(-status)}" if status < 0 else f"ended with status {status}"
        self._end = f"the program {how}{': ' + said if said else ''}"
        raise ProgramEnded(f"{self._end}; its tables are gone")

    def _end_late(self) -> NoReturn:
        """Ends a program that exceeded the time limit."""
        self._child.kill()
        self._reap()
        self._end = "a call took longer than it may, and the program was ended"
        raise OutOfTime(f"{self._end}; its tables are gone")

    def _abandon(self, fault: BaseException) -> None:
        """Ends a program whose replies can't be told apart any more."""
        self._child.kill()
        self._reap()
        self._end = f"{type(fault).__name__} came in the middle of a transfer, and the program was ended"

    def _reap(self) -> tuple[int, str]:
        """Returns the exit status of the program, which has nothing left to do, and what it wrote to standard error."""
        self._finalizer.detach()
        return _reaped(self._child)


def _path_from_here(program: str) -> str:
    """Returns the absolute path of a program. A name without a slash is looked up on PATH, and returned as it is."""
    return os.path.abspath(program) if os.sep in program else program


def _signal_name(number: int) -> str:
    """Returns the name of a signal. A real-time signal may have none."""
    try:
        return signal.Signals(number).name
    except ValueError:
        return f"signal {number}"


def _drop(child: subprocess.Popen[bytes], owner: int) -> None:
    """Ends the program of a session that isn't referenced any more. A forked process must not end its parent's."""
    if owner == os.getpid():
        _reaped(child)


def _reaped(child: subprocess.Popen[bytes]) -> tuple[int, str]:
    """Closes a program's pipes, waits for its end, and returns its exit status and what it wrote to standard error."""
    assert child.stdin and child.stdout and child.stderr
    child.stdin.close()
    child.stdout.close()
    try:
        status = child.wait(SECONDS_TO_END)
    except subprocess.TimeoutExpired:
        child.kill()
        status = child.wait()
    try:
        with child.stderr as stream:
            return status, stream.read().decode(errors="replace").strip()
    except ValueError:
        # Another thread has read and closed it: the interpreter is exiting during a call.
        return status, ""


class HostFile:
    """A file of the host, given by its path."""

    def __init__(self, path: Path) -> None:
        self._path = path

    @property
    def name(self) -> str:
        """See File."""
        return str(self._path)

    def write(self, pieces: Iterable[Bytes]) -> None:
        """See File. Raises OperationalError if the host can't write it."""
        try:
            with self._path.open("wb", buffering=0) as file:
                for piece in pieces:
                    rest = memoryview(piece).cast("B")
                    while rest:
                        rest = rest[file.write(rest) or 0 :]
        except OSError as fault:
            raise OperationalError(f"a temporary file can't be written: {fault}") from fault

    def read(self) -> bytes:
        """See File. Raises OperationalError if the host can't read it."""
        try:
            return self._path.read_bytes()
        except OSError as fault:
            raise OperationalError(f"a temporary file can't be read: {fault}") from fault
