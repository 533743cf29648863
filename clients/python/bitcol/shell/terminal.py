"""Interactive input: prompts, history, completion, and interrupts."""

from __future__ import annotations

import contextlib
import importlib
import os
import signal
from collections.abc import Callable, Iterator
from pathlib import Path
from types import FrameType
from typing import Any

from ..errors import Error
from .completion import DELIMITERS, completions
from .shell import Shell
from .statements import Pending, StatementBuffer

PROMPTS = {Pending.NOTHING: "bitcol> ", Pending.STATEMENT: "   ...> ", Pending.TEXT: "     '> "}
HISTORY_LINES = 10_000


def interact(shell: Shell) -> None:
    """Executes lines until the user ends the shell. An interrupt drops the line, or abandons what is in progress."""
    shell.console.line("Statements end with ; and .help lists the commands.")
    typed = _Typed(shell)
    guard = _InterruptGuard()
    try:
        while not shell.is_ended:
            guard.run(typed.step, typed.drop)
    finally:
        guard.close()


class _Typed:
    """What has been typed so far."""

    def __init__(self, shell: Shell) -> None:
        self._shell = shell
        self._buffer = StatementBuffer()
        self._is_at_prompt = True
        self._editing = _line_editing(shell, self._buffer)

    def step(self) -> None:
        """Reads a line, and executes it."""
        self._is_at_prompt = True
        self._shell.console.out.flush()
        try:
            line = input(PROMPTS[self._buffer.pending])
        except EOFError:
            self._end()
            return
        except SystemError as fault:
            # If two interrupts come at once, Python's input mistakes the second, which is held back, for an error.
            raise KeyboardInterrupt from fault
        self._is_at_prompt = False
        if self._editing is not None:
            self._editing.remember()
        # Pasted text may have several lines.
        for part in line.split("\n"):
            self._shell.feed(self._buffer, part)

    def drop(self) -> None:
        """Handles an interrupt."""
        self._buffer.clear()
        console = self._shell.console
        console.line("" if self._is_at_prompt else "\ninterrupted: what was under way may yet be carried out")

    def _end(self) -> None:
        self._shell.is_ended = True
        self._shell.console.line("")
        if self._buffer.pending is not Pending.NOTHING:
            self._shell.console.line("the last statement has no ; and was not carried out")


class _InterruptGuard:
    """Lets one interrupt from the keyboard into an action that it runs, and none anywhere else, so that none comes in
    between and ends the shell."""

    def __init__(self) -> None:
        self._lets_in = False
        self._before = signal.signal(signal.SIGINT, self._interrupt)

    def run(self, action: Callable[[], None], when_interrupted: Callable[[], None]) -> None:
        """Performs the action, and then the other one if an interrupt ended it."""
        try:
            try:
                self._lets_in = True
                action()
            finally:
                self._lets_in = False
        except KeyboardInterrupt:
            when_interrupted()

    def close(self) -> None:
        """Lets interrupts in everywhere again, as before."""
        signal.signal(signal.SIGINT, self._before)

    def _interrupt(self, _: int, __: FrameType | None) -> None:
        if self._lets_in:
            self._lets_in = False
            raise KeyboardInterrupt


class _LineEditing:
    """readline: the history of all sessions in a file, and completion by the tab key."""

    def __init__(self, readline: Any, shell: Shell, buffer: StatementBuffer) -> None:
        self._readline = readline
        self._shell = shell
        self._buffer = buffer
        self._found: list[str] = []
        self._history = history_path()
        self._remembered = 0
        readline.set_completer_delims(DELIMITERS)
        readline.set_completer(self._complete)
        readline.parse_and_bind("tab: complete")
        readline.set_history_length(HISTORY_LINES)
        with self._kept_history() as path:
            path.parent.mkdir(mode=0o700, parents=True, exist_ok=True)
            os.close(os.open(path, os.O_CREAT | os.O_APPEND, 0o600))
            readline.read_history_file(path)
        self._remembered = readline.get_current_history_length()

    def remember(self) -> None:
        """Appends the last line typed to the file, at once, so that concurrent sessions keep each other's lines."""
        length = self._readline.get_current_history_length()
        if length > self._remembered:
            with self._kept_history() as path:
                self._readline.append_history_file(length - self._remembered, path)
        self._remembered = length

    @contextlib.contextmanager
    def _kept_history(self) -> Iterator[Path]:
        """Yields the history file. One that can't be read or written must not keep anybody from working."""
        with contextlib.suppress(OSError):
            yield self._history

    def _complete(self, word: str, state: int) -> str | None:
        """Returns the completion of this number: readline asks for them one after the other."""
        if state == 0:
            line = self._readline.get_line_buffer()[: self._readline.get_begidx()]
            try:
                self._found = completions(self._buffer.text + line, word, self._shell.catalog())
            except Error:
                self._found = []
        return self._found[state] if state < len(self._found) else None


def history_path() -> Path:
    """Returns the path of the history: in the folder that XDG_STATE_HOME names, or in ~/.local/state."""
    named = os.environ.get("XDG_STATE_HOME", "")
    return Path(named if os.path.isabs(named) else os.path.expanduser("~/.local/state"), "bitcol", "history")


def _line_editing(shell: Shell, buffer: StatementBuffer) -> _LineEditing | None:
    try:
        readline = importlib.import_module("readline")
    except ImportError:
        shell.console.line("Python's module readline is not installed: there is no history and no completion.")
        return None
    return _LineEditing(readline, shell, buffer)
