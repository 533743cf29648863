"""Writes tables to files: CSV or a table file, by the suffix of the file's name.

A file is first written beside the one that it replaces, so a failure leaves that one as it was.
"""

from __future__ import annotations

import contextlib
import os
import shutil
from collections.abc import Callable
from pathlib import Path

from ..reply import Reply
from ..script import checked_name
from ..session import Session
from .fault import Fault, reason_of
from .lengths import cells_that_fit, check_length
from .render import Mode, rendered
from .store import Store


def export_table(store: Store, table: str, path: str) -> int:
    """Writes a table to a file, replacing an existing one, and returns the number of rows. Raises a Fault if the suffix
    is none of these, the file can't be written, or there is no memory for the rows of a CSV file; and what the session
    raises."""
    name = checked_name(table)
    write = _WRITERS.get(Path(path).suffix.lower())
    if write is None:
        raise Fault(f"{path}: the suffix says what is written, {' or '.join(_WRITERS)}")
    # The target of a symbolic link is replaced, not the link.
    target = Path(os.path.realpath(path) if os.path.islink(path) else path)
    if target.exists() and not target.is_file():
        raise Fault(f"{path}: this is no file")
    draft = target.with_name(f".{target.name}.{os.getpid()}")
    try:
        rows = write(store, name, draft)
        if target.exists():
            shutil.copymode(target, draft)
        os.replace(draft, target)
    except OSError as fault:
        raise Fault(f"{path}: {reason_of(fault)}") from None
    finally:
        # After an interrupt a SAVE may still be running: this is executed after it, and nobody waits for it.
        store.post(lambda _: _remove(draft))
    return rows


def _write_csv(store: Store, table: str, path: Path) -> int:
    def rows_of(session: Session) -> Reply:
        statement = f"SELECT * FROM {table}"
        check_length(session, statement, cells_that_fit())
        return session.execute(statement)

    reply = store.call(rows_of)
    with path.open("w", encoding="ascii", newline="") as file:
        file.writelines(rendered(reply, Mode.CSV))
    return len(reply)


def _write_table_file(store: Store, table: str, path: Path) -> int:
    return store.call(lambda session: session.save(table, path))


def _remove(path: Path) -> None:
    with contextlib.suppress(OSError):
        path.unlink()


_WRITERS: dict[str, Callable[[Store, str, Path], int]] = {".csv": _write_csv, ".table": _write_table_file}
