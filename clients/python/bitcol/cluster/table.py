"""A table of parts: the interface for users."""

from __future__ import annotations

from collections.abc import Iterable, Iterator, Sequence
from importlib import import_module
from typing import Any

from ..errors import NotSupportedError, OperationalError
from ..reply import Reply, reply_of
from ..script import PathLike, bound, checked_name, checked_text, statement_of
from ..table_file import FILE_BYTES, ROW_LIMIT
from .changes import Changes
from .frames import ask_frame, frame_like
from .groups import grouped
from .limit import Limit
from .making import make_empty
from .manifest import Manifest, Part, read_manifest, versions, write_manifest
from .programs import Place
from .questions import Questions
from .select import Select, change_of, verb_of
from .storage import UNFINISHED, storage_of

# Parts are combined up to this many rows.
COMPACT_ROWS = 2**22
DAY = 86_400


def create(client: Any, folder: PathLike, table: str, definition: str, together: int | None = None) -> Table:
    """Makes a new table without rows, in a folder that has none. `definition` is what CREATE TABLE has between its
    parentheses; if it is refused, the refusal is raised."""
    place = Place(storage_of(folder), checked_name(table))
    statement_of(f"CREATE TABLE {place.table} ({definition})")
    place.storage.prepare()
    if versions(place.storage):
        raise OperationalError(f"there is a table in {place.storage.where('')}")
    made = client.submit(make_empty, place, definition, pure=False)
    ((part, columns),) = Limit(None).gathered(client, [made])
    manifest = Manifest(1, place.table, definition, tuple(columns), (part,))
    write_manifest(place.storage, manifest)
    return Table(client, place, manifest, together)


def open_table(client: Any, folder: PathLike, version: int | None = None, together: int | None = None) -> Table:
    """Opens the table of a folder, as it is or as it was in an older version. Workers open its parts meanwhile."""
    storage = storage_of(folder)
    manifest = read_manifest(storage, version)
    return Table(client, Place(storage, manifest.table), manifest, together)


class Table:
    """A version of a table, with its parts open on workers. A change through this object moves it to the next version;
    a change by another client is visible after `refresh`."""

    def __init__(self, client: Any, place: Place, manifest: Manifest, together: int | None = None) -> None:
        """See create and open. `together` is the number of parts in one object of dask's: by default as many as leave
        each thread of the workers one object."""
        self._client, self._place, self._together = client, place, together
        self.manifest = manifest
        self._questions = Questions(client, grouped(client, place, manifest.parts, together))
        self._before: Questions | None = None

    def _show(self, manifest: Manifest) -> None:
        # The version before is held until the next answer, so that parts that remain aren't opened again.
        self._before, self.manifest = self._questions, manifest
        self._questions = Questions(self._client, grouped(self._client, self._place, manifest.parts, self._together))

    @property
    def version(self) -> int:
        """The number of this version."""
        return self.manifest.version

    def __len__(self) -> int:
        """The number of rows."""
        return sum(part.rows for part in self.manifest.parts)

    def __bool__(self) -> bool:
        return True

    def __repr__(self) -> str:
        told = f"{self.manifest.table} ({self.manifest.definition}), version {self.version}"
        return f"<{told}: {len(self)} rows in {len(self.manifest.parts)} parts>"

    def sql(self, statement: str, values: Sequence[Any] = (), seconds: float | None = None) -> Reply:
        """Executes a SELECT, STATS, INSERT, UPDATE or DELETE, with these values in place of its `?`, and returns the
        reply. A refusal is raised. A SELECT that takes longer than `seconds` raises OutOfTime."""
        reply = reply_of(self.answer(_bound(statement, values), seconds))
        if reply.refusal is not None:
            raise reply.refusal
        return reply

    def answer(self, statement: str, seconds: float | None = None) -> bytes:
        """Executes a statement, and returns the bytes of the reply, also of a refusal, as one store with the rows of
        all parts would write them. But the answer to a STATS is the sum of what is read by the parts that its SELECT is
        sent to."""
        text = _one(statement)
        verb = verb_of(text)
        if verb in ("SELECT", "STATS"):
            ask = self._questions.answer if verb == "SELECT" else self._questions.units
            found = ask(text, Limit(seconds))
            self._before = None
            return found
        if seconds is not None:
            raise NotSupportedError("only a SELECT has a limit of time")
        if verb == "INSERT":
            return self._commit(*self._changes.inserted(text))
        if verb in ("UPDATE", "DELETE"):
            return self._commit(*self._changes.changed(text, self._found(text)))
        raise NotSupportedError(f"{verb} of a table of parts: it takes SELECT, STATS, INSERT, UPDATE and DELETE")

    def _found(self, text: str) -> list[int] | None:
        """Returns how many rows of each part an UPDATE or DELETE finds, if that can be queried."""
        change = change_of(text)
        if change is None or change.condition is None:
            return None
        return self._questions.counts(f"SELECT COUNT(*) FROM {change.table} WHERE {change.condition}", change.condition)

    def rows(self, statement: str, values: Sequence[Any] = (), ahead: int = 4) -> Iterator[tuple[Any, ...]]:
        """Yields the rows of a SELECT of columns. The rows of at most `ahead` parts are here, or on their way."""
        text = _one(_bound(statement, values))
        select = Select(text)
        if select.verb != "SELECT" or select.folds:
            raise NotSupportedError("only a SELECT of columns gives rows one by one")
        return self._questions.rows(text, ahead)

    def to_delayed(self, statement: str) -> list[Any]:
        """Returns for each part in which a row may be found a dask.delayed pandas data frame of its rows of a SELECT of
        columns."""
        text = _one(statement)
        names = self._names(text)
        ask = import_module("dask").delayed(ask_frame, pure=True)
        parts = self._questions.asked_parts(Select(text))
        return [ask(group.holding, which, text, names) for group, which in parts]

    def to_dask_dataframe(self, statement: str) -> Any:
        """Returns a dask data frame with a partition for each part: bitcol evaluates the condition, and pandas does
        what bitcol doesn't."""
        meta = frame_like(self._names(_one(statement)))
        return import_module("dask.dataframe").from_delayed(self.to_delayed(statement), meta=meta)

    def _names(self, text: str) -> list[str]:
        select = Select(text)
        names = [column.name for column in self.manifest.columns]
        if select.list != "*":
            names = [item.heading for item in select.items or []]
        if select.verb != "SELECT" or select.folds or not names or len(set(names)) < len(names):
            raise NotSupportedError("a frame is made of a SELECT of columns, each of them once")
        return names

    def load(
        self,
        files: Iterable[PathLike],
        header: bool = False,
        most_bytes: int = FILE_BYTES,
        most_rows: int = ROW_LIMIT,
    ) -> Table:
        """Adds the rows of CSV files, a part for each file: all of them or none, and then the error names each faulty
        file. A file with more than `most_bytes` bytes or `most_rows` rows is cut between records into several parts."""
        return self._add(self._changes.loaded(files, header, most_bytes, most_rows))

    def attach(self, files: Iterable[PathLike]) -> Table:
        """Adds the rows of table files with the same columns, as `load` does: the files that SAVE of a store wrote."""
        return self._add(self._changes.attached(files))

    def compact(self, most_rows: int = COMPACT_ROWS) -> Table:
        """Combines consecutive parts, as long as they have at most `most_rows` rows. No answer but that of a STATS
        changes."""
        parts = self._changes.put_together(most_rows)
        if len(parts) < len(self.manifest.parts):
            self._go_to(parts)
        return self

    def refresh(self) -> Table:
        """Moves to the last version, whoever made it."""
        self._show(read_manifest(self._place.storage))
        return self

    def vacuum(self, older_than: float = DAY) -> int:
        """Removes all versions except this one and the newest, the files that neither of these names, and what failed
        changes left: only files older than `older_than` seconds, since a newer one may be about to be named. Returns
        the number of files removed."""
        storage = self._place.storage
        kept = set()
        for manifest in (self.manifest, read_manifest(storage)):
            kept.add(manifest.file)
            kept.update(part.file for part in manifest.parts)
        old = [name for name in storage.names() if name not in kept and name.endswith((".table", ".json", UNFINISHED))]
        old = [name for name in old if storage.age(name) >= older_than]
        for name in old:
            storage.remove(name)
        return len(old)

    @property
    def _changes(self) -> Changes:
        return Changes(self._client, self._place, self.manifest)

    def _add(self, parts: Sequence[Part]) -> Table:
        if parts:
            self._go_to([*self.manifest.parts, *parts])
        return self

    def _commit(self, reply: bytes, parts: Sequence[Part]) -> bytes:
        """Makes the next version from these parts, unless they are those of this version. Returns the reply."""
        if tuple(parts) != self.manifest.parts:
            self._go_to(parts)
        return reply

    def _go_to(self, parts: Sequence[Part]) -> None:
        manifest = self.manifest.following(parts)
        write_manifest(self._place.storage, manifest)
        self._show(manifest)


def _bound(statement: str, values: Sequence[Any]) -> str:
    text = checked_text(statement)
    return bound(text, values) if "?" in text or not isinstance(values, tuple) or values else text


def _one(statement: str) -> str:
    """Returns the only statement of a text, without its `;`."""
    return statement_of(checked_text(statement)).decode()[:-1]
