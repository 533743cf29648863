"""Changes: makes the parts of the next version. If a task of a change fails, nothing is changed."""

from __future__ import annotations

import os
from collections.abc import Callable, Iterable, Sequence
from typing import Any

from ..errors import Error, ProgrammingError, Refused
from ..reply import reply_of
from ..script import PathLike, path_of
from . import making
from .groups import RETRIES
from .limit import Limit
from .manifest import Manifest, Part
from .merge import REFUSED
from .programs import Place

# An INSERT goes to the last part as long as that has at most this many rows.
GATHERED_ROWS = 2**20


class Changes:
    """Makes the parts of the version that follows a version."""

    def __init__(self, client: Any, place: Place, manifest: Manifest) -> None:
        self._client, self._place = client, place
        self._definition, self._columns = manifest.definition, manifest.columns
        self._parts = manifest.parts

    def loaded(self, files: Iterable[PathLike], header: bool, most_bytes: int, most_rows: int) -> list[Part]:
        """Returns parts with the rows of CSV files, each file's in order. Raises an error that names the faulty
        files."""
        paths = _paths(files)
        limits: dict[str, Any] = {"header": header, "most_bytes": most_bytes, "most_rows": most_rows}
        found: list[making.Loaded] = self._map(
            making.load_csv, paths, place=self._place, definition=self._definition, **limits
        )
        # A file that one table can't hold is cut.
        long = [number for number, each in enumerate(found) if _is_too_long(each)]
        cuts = self._map(making.cut_csv, [paths[number] for number in long], is_forced=True, **limits)
        for number, cut in zip(long, cuts):
            found[number] = cut
        made = [_file_made(some, header) for some in self._with_pieces_loaded(found)]
        return [part for some in _without_faults(made) for part in some]

    def _with_pieces_loaded(self, found: Sequence[making.Loaded]) -> list[list[Part | Error]]:
        """Returns what became of each file: a part, what its pieces became, or an error."""
        pieces = [(number, piece) for number, some in enumerate(found) if isinstance(some, list) for piece in some]
        loaded = self._map(
            making.load_piece, [piece for _, piece in pieces], place=self._place, definition=self._definition
        )
        made: list[list[Part | Error]] = [[] if isinstance(some, list) else [some] for some in found]
        for (number, _), part in zip(pieces, loaded):
            made[number].append(part)
        return made

    def attached(self, files: Iterable[PathLike]) -> list[Part]:
        """Returns parts with the rows of table files. Raises an error that names the faulty files."""
        paths = _paths(files)
        found: list[Part | Error] = self._map(making.attach_file, paths, place=self._place, columns=self._columns)
        return _without_faults(found)

    def changed(self, statement: str, counts: Sequence[int] | None) -> tuple[bytes, list[Part]]:
        """Returns the reply to an UPDATE or DELETE, and the resulting parts. `counts` are the numbers of rows that it
        finds in each part, if known: only parts in which it finds one are changed."""
        if counts is None or not any(counts):
            # A table without rows refuses the statement as well, and is made quickly.
            ((reply, _),) = self._statement([None], statement)
            if counts is not None or reply.startswith(REFUSED):
                return reply, list(self._parts)
        found = [number for number in range(len(self._parts)) if counts is None or counts[number]]
        told = self._statement([self._parts[number] for number in found], statement)
        parts = list(self._parts)
        count = 0
        for number, (reply, part) in zip(found, told):
            if reply.startswith(REFUSED):
                return reply, list(self._parts)
            parts[number] = part
            count += reply_of(reply).count or 0
        return b"ok %d\n" % count, parts

    def inserted(self, statement: str) -> tuple[bytes, list[Part]]:
        """Returns the reply to an INSERT, and the resulting parts: few rows are gathered in the last part."""
        last = self._parts[-1] if self._parts[-1].rows <= GATHERED_ROWS else None
        ((reply, part),) = self._statement([last], statement)
        front = self._parts if last is None else self._parts[:-1]
        return reply, [*front, part] if part is not None else list(self._parts)

    def put_together(self, most_rows: int) -> list[Part]:
        """Returns the parts, with consecutive ones combined up to this many rows."""
        runs: list[list[Part]] = []
        for part in self._parts:
            if runs and sum(each.rows for each in runs[-1]) + part.rows <= most_rows:
                runs[-1].append(part)
            else:
                runs.append([part])
        long = [run for run in runs if len(run) > 1]
        made = iter(self._made(making.put_together, long, place=self._place, definition=self._definition))
        return [next(made) if len(run) > 1 else run[0] for run in runs]

    def _statement(self, parts: Sequence[Part | None], statement: str) -> list[tuple[bytes, Any]]:
        return self._made(
            making.change_part, parts, place=self._place, definition=self._definition, statement=statement
        )

    def _made(self, call: Callable[..., Any], each: Sequence[Any], **rest: Any) -> list[Any]:
        """Returns the results of tasks. The first error is raised."""
        found = self._map(call, each, **rest)
        for made in found:
            if isinstance(made, Error):
                raise made
        return found

    def _map(self, call: Callable[..., Any], each: Sequence[Any], **rest: Any) -> list[Any]:
        if not each:
            return []
        futures = self._client.map(call, list(each), pure=False, retries=RETRIES, **rest)
        found: list[Any] = self._client.gather(futures)
        return found


def _paths(files: Iterable[PathLike]) -> list[str]:
    """Returns the paths of files as workers reach them. Raises ProgrammingError if a single path is given, whose
    letters would be taken for files, or if one of them isn't a path."""
    if isinstance(files, (str, bytes, os.PathLike)):
        raise ProgrammingError(f"the files are to be a list of paths, not one path: {files!r}")
    return [os.path.abspath(path_of(file)) for file in files]


def _is_too_long(made: making.Loaded) -> bool:
    return isinstance(made, Refused) and made.number in making.CUT_FOR


def _file_made(made: Sequence[Part | Error], header: bool) -> list[Part] | Error:
    """Returns the parts of a file, or its first error, in which a record has its number in the file."""
    parts: list[Part] = []
    for each in made:
        if isinstance(each, Error):
            records = sum(part.rows for part in parts) + (1 if header and parts else 0)
            return making.counted_from(each, records)
        parts.append(each)
    return parts


def _without_faults(found: Sequence[Any]) -> list[Any]:
    """Returns what was made from files. If some are faulty, raises one error that names them, of the first's class."""
    faults = [made for made in found if isinstance(made, Error)]
    if faults:
        named = "; ".join(_text(fault) for fault in faults)
        raise making.with_text(faults[0], f"{named} ({len(faults)} of {len(found)} files at fault; nothing is changed)")
    return list(found)


def _text(fault: Error) -> str:
    return fault.text if isinstance(fault, Refused) else str(fault)
