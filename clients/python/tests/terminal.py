"""Runs the shell as people and scripts do: with a pseudo-terminal, and with pipes."""

from __future__ import annotations

import fcntl
import os
import pty
import re
import select
import signal
import stat
import struct
import subprocess
import sys
import tempfile
import termios
import time
import unittest
from pathlib import Path

import bitcol

PACKAGE = Path(__file__).resolve().parent.parent
SHELL = (sys.executable, "-B", "-m", "bitcol")
PROMPT = "bitcol> "
MORE = "   ...> "
IN_TEXT = "     '> "
COLUMNS = 100
SECONDS = 30
# A clock by which everything takes equally long, whatever the machine is doing: Python imports it when it starts.
EVEN_CLOCK = "import itertools, time\n\nticks = itertools.count()\ntime.perf_counter = lambda: next(ticks) / 1_000\n"
_ESCAPES = re.compile(r"\x1b\[[0-9;?]*[A-Za-z]")
_NO_ERASING = re.compile(r"\x1b\[(?!K)[0-9;?]*[A-Za-z]")
_NO_COLOURS = re.compile(r"\x1b\[[0-9;?]*[A-Za-ln-z]")
# How a line is erased, once carriage returns are left out.
_ERASING = "\x1b[K"


def erased(text: str, keeps_colours: bool = False) -> str:
    """Returns what remains visible of a terminal's text, without its escapes, or with those of colours: progress lines
    are erased from their start."""
    lines = "\n".join(line.rpartition(_ERASING)[2] for line in text.split("\n"))
    return (_NO_COLOURS if keeps_colours else _ESCAPES).sub("", lines)


def environment(folder: Path, **variables: str) -> dict[str, str]:
    """Returns the environment variables of a shell whose history and temporary files are in this folder."""
    named = {
        "BITCOL": os.path.abspath(bitcol.find_program()),
        "PYTHONPATH": str(PACKAGE),
        "XDG_STATE_HOME": str(folder / "state"),
        "TERM": "dumb",
        "COLUMNS": "",
        "NO_COLOR": "",
        "INPUTRC": os.devnull,
        "PYTHONUTF8": "1",
    }
    return {**os.environ, **named, **variables}


def even_clock(folder: Path) -> dict[str, str]:
    """Returns environment variables for shells that measure a millisecond for whatever they measure, so that what they
    advise doesn't depend on the machine. The clock is put into this folder."""
    clock = folder / "clock"
    clock.mkdir()
    (clock / "sitecustomize.py").write_text(EVEN_CLOCK)
    return {"PYTHONPATH": os.pathsep.join([str(clock), str(PACKAGE)])}


class ShellTestCase(unittest.TestCase):
    """A test with a folder of its own, in which its shells run."""

    def setUp(self) -> None:
        room = tempfile.TemporaryDirectory()
        self.addCleanup(room.cleanup)
        self.folder = Path(room.name).resolve() / "work"
        self.folder.mkdir()

    def write(self, name: str, content: str | bytes) -> Path:
        """Writes a file in the folder."""
        path = self.folder / name
        path.write_bytes(content.encode() if isinstance(content, str) else content)
        return path

    def run_shell(self, *words: object, typed: str = "", **variables: str) -> subprocess.CompletedProcess[str]:
        """Runs the shell with pipes, and with this on its standard input."""
        return subprocess.run(
            [*SHELL, *map(str, words)],
            input=typed,
            capture_output=True,
            text=True,
            cwd=self.folder,
            env=environment(self.folder.parent, **variables),
            timeout=SECONDS,
            check=False,
        )

    def assert_answers(self, words: tuple[object, ...], out: str, typed: str = "") -> None:
        """Runs the shell with pipes: it has to write exactly this, nothing to standard error, and exit with 0."""
        ended = self.run_shell(*words, typed=typed)
        self.assertEqual((ended.stdout, ended.stderr, ended.returncode), (out, "", 0))

    def assert_fails(
        self,
        words: tuple[object, ...],
        errors: str,
        out: str = "",
        status: int = 1,
        typed: str = "",
        **variables: str,
    ) -> None:
        """Runs the shell with pipes: it has to write exactly this to standard error, and exit with this status."""
        ended = self.run_shell(*words, typed=typed, **variables)
        self.assertEqual((ended.stderr, ended.stdout, ended.returncode), (errors, out, status))

    def terminal(self, *words: object, **variables: str) -> Terminal:
        """Starts a shell in a terminal, and waits for its first prompt. It ends with the test."""
        terminal = self.start_terminal(*words, **variables)
        terminal.wait_for(PROMPT)
        return terminal

    def start_terminal(self, *words: object, **variables: str) -> Terminal:
        """Starts a shell in a terminal, without waiting for output. It ends with the test."""
        terminal = Terminal(self.folder, list(map(str, words)), environment(self.folder.parent, **variables))
        self.addCleanup(terminal.kill)
        return terminal

    def observed_program(self) -> tuple[Path, Path]:
        """Returns a program for BITCOL that becomes the real one, and the file with its process number."""
        number = self.folder.parent / "number"
        program = self.folder.parent / "program"
        program.write_text(f"#!/bin/sh\necho $$ > '{number}'\nexec '{os.path.abspath(bitcol.find_program())}'\n")
        program.chmod(stat.S_IRWXU)
        return program, number


class Terminal:
    """A shell in a pseudo-terminal, and what it wrote."""

    def __init__(self, folder: Path, words: list[str], variables: dict[str, str]) -> None:
        self._pid, self._side = pty.fork()
        if self._pid == 0:
            try:
                fcntl.ioctl(0, termios.TIOCSWINSZ, struct.pack("HHHH", 40, COLUMNS, 0, 0))
                os.chdir(folder)
                os.execve(SHELL[0], [*SHELL, *words], variables)
            finally:
                os._exit(127)
        self.keeps_escapes = False
        self._unread = ""
        self._status: int | None = None

    def wait_for(self, text: str, seconds: float = SECONDS) -> str:
        """Waits for this text, and returns what was written up to it since the last wait, without the progress lines
        that were erased: a slow machine shows some. AssertionError if it doesn't come."""
        limit = time.monotonic() + seconds
        while text not in self._unread:
            if not self._read(limit - time.monotonic()):
                raise AssertionError(f"{text!r} doesn't come after {self._unread!r}")
        before, _, self._unread = self._unread.partition(text)
        return before if self.keeps_escapes else erased(before)

    def press(self, keys: str) -> None:
        """Types keys, without the end of a line."""
        self.press_bytes(keys.encode())

    def press_bytes(self, keys: bytes) -> None:
        """Types keys, given as the bytes that they send."""
        os.write(self._side, keys)

    def interrupt(self, prompt: str = PROMPT) -> None:
        """Presses Ctrl-C, and waits for the next prompt. It isn't pressed in the moment between a prompt and the wait
        for keys, when Python doesn't notice it before the next key."""
        self.wait_until_idle()
        self.press("\x03")
        self.wait_for(prompt)

    def wait_until_idle(self) -> None:
        """Waits until the shell's main thread sleeps, which waits for keys then, or for the program."""
        limit = time.monotonic() + SECONDS
        while self._state() != "S":
            if time.monotonic() > limit:
                raise AssertionError(f"the shell isn't idle after {self._unread!r}")
            time.sleep(0.005)

    def say(self, line: str, prompt: str = PROMPT) -> str:
        """Types a line at a prompt, and returns what is written up to the next prompt."""
        self.press(line + "\n")
        return self.wait_for(prompt).partition("\n")[2]

    def finish(self, line: str = ".quit") -> tuple[str, int]:
        """Types a last line, and returns what is written up to the end, and the exit status."""
        self.press(line + "\n" if line else "\x04")
        return self.rest(), self.status()

    def rest(self) -> str:
        """Returns what is written up to the end of the shell, which ends by itself."""
        while self._read(SECONDS):
            pass
        return self._unread if self.keeps_escapes else erased(self._unread)

    def status(self) -> int:
        """Waits for the end of the shell, and returns its exit status."""
        if self._status is None:
            _, status = os.waitpid(self._pid, 0)
            self._status = os.waitstatus_to_exitcode(status)
            os.close(self._side)
        return self._status

    def kill(self) -> None:
        """Kills the shell if it hasn't ended."""
        if self._status is None:
            os.kill(self._pid, signal.SIGKILL)
            self.status()

    def _read(self, seconds: float) -> bool:
        """Reads what was written. Returns False if nothing comes in time, or the shell has ended."""
        ready, _, _ = select.select([self._side], [], [], max(seconds, 0))
        try:
            data = os.read(self._side, 65_536) if ready else b""
        except OSError:  # raised by Linux when the other side is closed
            data = b""
        self._unread += data.decode(errors="replace").replace("\r", "")
        if not self.keeps_escapes:
            self._unread = _NO_ERASING.sub("", self._unread)
        return bool(data)

    def _state(self) -> str:
        """Returns the letter of Linux for the state of the shell's main thread."""
        return Path(f"/proc/{self._pid}/stat").read_text().rpartition(")")[2].split()[0]
