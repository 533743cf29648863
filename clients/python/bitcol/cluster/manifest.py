"""What a table consists of: parts, each a table file that is named by the digest of its bytes, and for each version a
manifest, which lists its parts in order."""

from __future__ import annotations

import hashlib
import json
import re
from collections.abc import Iterable, Mapping
from dataclasses import asdict, dataclass, replace
from typing import Any

from ..column_type import ColumnType
from ..door import Bytes
from ..errors import DataError, OperationalError
from .storage import Storage

FORMAT = 1
_MANIFEST_NAME = re.compile(r"v(\d{8,})\.json")


@dataclass(frozen=True)
class Ends:
    """The least and the greatest value of a column of a part, None if there is none, and the number of NULLs."""

    least: int | None
    greatest: int | None
    nulls: int


@dataclass(frozen=True)
class Part:
    """What a manifest says about a part: the digest of its file, its rows and bytes, what it was made from, and the
    ends of each column."""

    digest: str
    rows: int
    size: int
    source: str
    ends: Mapping[str, Ends]

    @property
    def file(self) -> str:
        """The name of its file."""
        return part_file(self.digest)


@dataclass(frozen=True)
class Column:
    """The name and the type of a table's column."""

    name: str
    type: ColumnType


@dataclass(frozen=True)
class Manifest:
    """A version of a table: its name, its columns as given to CREATE TABLE and as they were made, and its parts in
    order."""

    version: int
    table: str
    definition: str
    columns: tuple[Column, ...]
    parts: tuple[Part, ...]

    @property
    def file(self) -> str:
        """The name of its file."""
        return manifest_file(self.version)

    def following(self, parts: Iterable[Part]) -> Manifest:
        """Returns the next version, with these parts. Those without rows are left out, unless there are no others: then
        one is kept."""
        found = tuple(parts)
        return replace(self, version=self.version + 1, parts=tuple(part for part in found if part.rows) or found[:1])


def manifest_file(version: int) -> str:
    """Returns the name of the file of a version."""
    return f"v{version:08}.json"


def part_file(digest: str) -> str:
    """Returns the name of the file of a part."""
    return f"{digest}.table"


def digest_of(data: Bytes) -> str:
    """Returns the name of a part with these bytes. A table has exactly one encoding, so equal rows stored alike have
    one name."""
    return hashlib.sha256(data).hexdigest()


def read_part(storage: Storage, part: Part) -> bytes:
    """Returns the bytes of a part. Raises OperationalError if the file can't be read, and DataError if it isn't what
    was written: damage is noticed even if the file is still a valid table file."""
    data = storage.read(part.file)
    if digest_of(data) != part.digest:
        raise DataError(f"part {storage.where(part.file)} is damaged: its bytes aren't those that were written")
    return data


def versions(storage: Storage) -> list[int]:
    """Returns the numbers of the existing versions, ascending."""
    found = (_MANIFEST_NAME.fullmatch(name) for name in storage.names())
    return sorted(int(name[1]) for name in found if name)


def write_manifest(storage: Storage, manifest: Manifest) -> None:
    """Makes a version visible, atomically. Raises OperationalError if another client has made it."""
    told = _told(manifest)
    data = json.dumps({"manifest": told, "sha256": _seal(told)}, indent=1).encode()
    try:
        storage.write_new(manifest.file, data)
    except FileExistsError:
        raise OperationalError(
            "the table was changed by another client, and not by this call: refresh() and try again"
        ) from None


def read_manifest(storage: Storage, version: int | None = None) -> Manifest:
    """Returns a version, by default the last. Raises OperationalError if it doesn't exist, DataError if it is
    damaged."""
    there = versions(storage)
    if not there:
        raise OperationalError(f"no table in {storage.where('')}")
    wanted = there[-1] if version is None else version
    if wanted not in there:
        raise OperationalError(f"no version {wanted} in {storage.where('')}")
    try:
        found = json.loads(storage.read(manifest_file(wanted)))
        if found["sha256"] == _seal(found["manifest"]) and found["manifest"]["format"] == FORMAT:
            return _manifest_of(found["manifest"])
    except (ValueError, TypeError, LookupError):
        pass
    others = ", ".join(str(number) for number in there if number != wanted)
    left = f"other versions can be opened by number: {others}" if others else "there is no other version"
    raise DataError(f"{storage.where(manifest_file(wanted))} is damaged; {left}")


def _told(manifest: Manifest) -> dict[str, Any]:
    """Returns the manifest in the form in which it is written as JSON."""
    parts = [
        {**asdict(part), "ends": {name: [ends.least, ends.greatest, ends.nulls] for name, ends in part.ends.items()}}
        for part in manifest.parts
    ]
    return {
        "format": FORMAT,
        "version": manifest.version,
        "table": manifest.table,
        "definition": manifest.definition,
        "columns": {column.name: column.type.name for column in manifest.columns},
        "parts": parts,
    }


def _manifest_of(told: dict[str, Any]) -> Manifest:
    parts = tuple(
        Part(
            part["digest"],
            part["rows"],
            part["size"],
            part["source"],
            {name: Ends(*ends) for name, ends in part["ends"].items()},
        )
        for part in told["parts"]
    )
    columns = tuple(Column(name, ColumnType[word]) for name, word in told["columns"].items())
    return Manifest(told["version"], told["table"], told["definition"], columns, parts)


def _seal(told: dict[str, Any]) -> str:
    return hashlib.sha256(json.dumps(told).encode()).hexdigest()
