"""The command line arguments and the exit statuses of the page's server."""

from __future__ import annotations

import argparse
import contextlib
import errno
import signal
from collections.abc import Sequence
from functools import partial

from ..errors import ProgramEnded
from ..shell.console import Console
from ..shell.fault import Fault, reason_of
from ..shell.importing import split_word
from ..shell.main import Status, leave, run_on_store
from ..shell.render import counted
from ..shell.store import Store
from .server import PageServer
from .workspace import Workspace

GREATEST_PORT = 65_535


def main(words: Sequence[str]) -> int:
    """Serves the page with these arguments until an interrupt, and returns the exit status."""
    return run_on_store(partial(_run, _parser().parse_intermixed_args(words)))


def _parser() -> argparse.ArgumentParser:
    parser = argparse.ArgumentParser(
        prog="python3 -m bitcol web",
        description="Serves a page over tables of nullable integers to the browsers of this machine.",
        epilog="Ctrl-C ends it, and its tables with it.",
    )
    parser.add_argument(
        "files",
        nargs="*",
        metavar="FILE",
        help="a CSV file with a header, a table file, or an SQLite file, as python3 -m bitcol takes it",
    )
    parser.add_argument("--port", type=_port, default=0, help="the port of the page; by default a free one")
    return parser


def _port(word: str) -> int:
    """Parses a port. Raises ArgumentTypeError if it isn't one."""
    if not word.isascii() or not word.isdigit() or len(word) > 5 or int(word) > GREATEST_PORT:
        raise argparse.ArgumentTypeError(f"{word!r} is no port: a port is a number up to {GREATEST_PORT}")
    return int(word)


def _run(options: argparse.Namespace, store: Store, console: Console) -> Status:
    try:
        _serve(Workspace(store), options, console)
        return Status.DONE
    except (Fault, ProgramEnded) as fault:
        console.fault(f"error: {fault}")
        return Status.FAILED
    finally:
        # Ctrl-C is ignored from here on: only the end of the store is still waited for.
        signal.signal(signal.SIGINT, signal.SIG_IGN)
        leave(store)


def _serve(workspace: Workspace, options: argparse.Namespace, console: Console) -> None:
    """Serves until an interrupt. Raises a Fault if the port can't be used."""
    try:
        server = PageServer(workspace, options.port)
    except OSError as fault:
        reason = "is taken" if fault.errno == errno.EADDRINUSE else f"can't be had: {reason_of(fault)}"
        raise Fault(f"port {options.port} {reason}") from None
    with contextlib.closing(server.socket):
        for word in options.files:
            _import(workspace, word, console)
        with contextlib.suppress(KeyboardInterrupt):
            console.line(f"The page is at {server.guard.address}")
            console.line("Ctrl-C ends it, and its tables with it.")
            console.out.flush()
            server.serve_forever()


def _import(workspace: Workspace, word: str, console: Console) -> None:
    """Makes tables from a file that the command line names. What is reported here is shown on the page too."""
    path, table = split_word(word)
    with console.progress(path) as progress:
        outcome = workspace.import_file(path, path, table, progress.tell)
    for imported in outcome.imported:
        for line in [*imported.notes, f"{imported.table}: {counted(imported.rows, 'row')}"]:
            console.line(line)
            workspace.tell(line)
    for error in outcome.errors:
        console.fault(f"error: {error}")
        workspace.tell(error, is_error=True)
