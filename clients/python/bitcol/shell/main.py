"""The command line arguments and the exit statuses of the shell."""

from __future__ import annotations

import argparse
import contextlib
import io
import os
import sys
from collections.abc import Callable, Sequence
from enum import IntEnum
from functools import partial
from typing import TextIO

from ..errors import OperationalError, ProgramEnded
from .console import Console
from .fault import Fault, reason_of
from .importing import split_word
from .render import Mode
from .shell import Settings, Shell
from .store import Store
from .terminal import interact

# The seconds that an interrupt waits for a call to end.
SECONDS_TO_LEAVE = 2


class Status(IntEnum):
    """The exit statuses. Wrong arguments are FAILED too. The last two are those of a program ended by such a signal."""

    DONE = 0
    REFUSED = 1
    FAILED = 2
    INTERRUPTED = 130
    BROKEN_PIPE = 141


def main(words: Sequence[str] | None = None) -> int:
    """Runs the shell with these arguments, or those of the command line, and returns its exit status."""
    options = _parser().parse_intermixed_args(words)
    if isinstance(sys.stdin, io.TextIOWrapper):
        # Input that isn't UTF-8 is refused where it is used. Lines end as in the language.
        sys.stdin.reconfigure(errors="surrogateescape", newline="\n")
    return run_on_store(partial(_run, options))


def run_on_store(run: Callable[[Store, Console], Status]) -> Status:
    """Runs `run` with a store and a console of the standard streams, and returns its status, or that of what ended it:
    a store that can't be started, which the console reports, an interrupt, or output that can't be written."""
    if sys.stdout is None or sys.stderr is None:
        # Whoever closes one of them doesn't want to be told.
        return Status.FAILED
    console = Console(_buffered(sys.stdout), _buffered(sys.stderr))
    try:
        status = _opened(run, console)
        console.out.flush()
        return status
    except KeyboardInterrupt:
        return Status.INTERRUPTED
    except BrokenPipeError:
        _drop_output()
        return Status.BROKEN_PIPE
    except OSError as fault:
        _drop_output()
        console.fault(f"error: writing failed: {reason_of(fault)}")
        return Status.FAILED


def _opened(run: Callable[[Store, Console], Status], console: Console) -> Status:
    """Runs `run` with a store, closes the store, and returns the status, or FAILED if there can be no store."""
    try:
        store = Store()
    except OperationalError as fault:
        console.fault(f"error: {fault}")
        return Status.FAILED
    return run(store, console)


def _buffered(stream: TextIO) -> TextIO:
    """Returns another stream to the same file. It is buffered even if Python was told not to buffer: without a buffer,
    the rest of a partial write is dropped silently."""
    return open(
        stream.fileno(), "w", encoding=stream.encoding, errors="backslashreplace", newline="\n", closefd=False
    )


def _parser() -> argparse.ArgumentParser:
    parser = argparse.ArgumentParser(
        prog="python3 -m bitcol",
        description="A shell over tables of nullable integers, whose answers are proved.",
        epilog="Without -c it reads statements and commands from standard input; .help lists the commands."
        " python3 -m bitcol web serves a page in place of it.",
    )
    parser.add_argument(
        "files",
        nargs="*",
        metavar="FILE",
        help="a CSV file with a header, a table file, or an SQLite file: it becomes a table, or tables, under its name;"
        " FILE:TABLE gives another name, or one table of an SQLite file",
    )
    parser.add_argument(
        "-c", "--command", metavar="STATEMENT", help="answer this statement and end; as CSV without --mode"
    )
    parser.add_argument("--mode", choices=[mode.value for mode in Mode], help="how answers are written")
    return parser


def _run(options: argparse.Namespace, store: Store, console: Console) -> Status:
    is_typed = options.command is None and sys.stdin is not None and sys.stdin.isatty() and console.is_terminal
    shell = Shell(store, console, Settings(_mode(options, console)), is_typed)
    try:
        for word in options.files:
            shell.attempt(partial(_import_word, shell, word))
        if is_typed:
            interact(shell)
        elif not shell.failures:
            # If some tables are missing, an answer would be wrong.
            _carry_out(options, shell)
        store.close()
    except ProgramEnded:
        return Status.FAILED
    except (KeyboardInterrupt, OSError):
        leave(store)
        raise
    if not shell.has_store:
        return Status.FAILED
    return Status.REFUSED if shell.failures and not is_typed else Status.DONE


def leave(store: Store) -> None:
    """Ends a store that may be in the middle of a call. If the call takes longer, the whole process exits, which ends
    the program too: the interpreter can't shut down in an orderly way during the call."""
    if not store.close(SECONDS_TO_LEAVE):
        os._exit(Status.INTERRUPTED)


def _mode(options: argparse.Namespace, console: Console) -> Mode:
    """Returns the mode that was asked for. By default a user at a terminal gets tables, and a program CSV."""
    if options.mode:
        return Mode(options.mode)
    return Mode.TABLE if console.is_terminal and options.command is None else Mode.CSV


def _import_word(shell: Shell, word: str) -> None:
    path, table = split_word(word)
    shell.import_file(path, table)


def _carry_out(options: argparse.Namespace, shell: Shell) -> None:
    """Executes the statement of -c, or the lines of standard input."""
    if options.command is not None:
        shell.attempt(partial(_answer, shell, options.command))
    elif sys.stdin is not None:
        shell.read_lines(sys.stdin)


def _answer(shell: Shell, statement: str) -> None:
    """Executes the statement of -c. Raises a Fault if it is a command, which isn't allowed there."""
    if statement.lstrip().startswith("."):
        raise Fault(f"{statement.split()[0]} is no statement, and -c takes one: commands come by standard input")
    shell.run(statement)


def _drop_output() -> None:
    """Discards the output that isn't written yet, so that the interpreter doesn't try to write it when it exits."""
    with contextlib.suppress(OSError, ValueError):
        os.dup2(os.open(os.devnull, os.O_WRONLY), sys.stdout.fileno())
