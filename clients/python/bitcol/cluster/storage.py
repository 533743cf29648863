"""The storage of a table's files: a folder that the client and all workers reach by the same name.

A storage writes a file completely or not at all, and can create one only if there is none of that name. That is all
that a table needs: its parts are named by their content, and each version has a number that is taken once.
"""

from __future__ import annotations

import contextlib
import inspect
import os
import secrets
import time
from collections.abc import Callable, Iterator
from importlib import import_module
from pathlib import Path
from typing import Any, Protocol

from ..errors import NotSupportedError, OperationalError
from ..script import PathLike, path_of

# The suffix of the name of a file that isn't in place yet.
UNFINISHED = ".new"


class Storage(Protocol):
    """A folder of files. It can be pickled, and is the same folder in another process."""

    def where(self, name: str) -> str:
        """Returns the name of a file of the folder for people."""

    def prepare(self) -> None:
        """Makes the folder, if it doesn't exist. Raises OperationalError if it can't be made."""

    def names(self) -> list[str]:
        """Returns the names of the existing files."""

    def read(self, name: str) -> bytes:
        """Returns the whole content of a file. Raises OperationalError if it can't be read."""

    def write(self, name: Callable[[], str], data: bytes) -> None:
        """Puts a file in place, completely or not at all, replacing an existing one. Its name is asked for when all
        bytes are written, so it may be computed meanwhile. Raises OperationalError if the host can't."""

    def write_new(self, name: str, data: bytes) -> None:
        """Puts a file in place, completely or not at all. Raises FileExistsError if one of this name exists: if two are
        written at once, one of them is put in place. Raises OperationalError if the host can't."""

    def age(self, name: str) -> float:
        """Returns the seconds since a file was last changed."""

    def remove(self, name: str) -> None:
        """Removes a file."""


def storage_of(folder: PathLike) -> Storage:
    """Returns the folder with this path, or this address, which contains `://`. Raises ProgrammingError if it is
    neither."""
    name = path_of(folder)
    if "://" in name:
        return RemoteFolder(name)
    return HostFolder(os.path.abspath(name))


class HostFolder:
    """A folder of the host, or of a shared file system that is mounted on all hosts and has hard links."""

    def __init__(self, path: str) -> None:
        self._path = Path(path)

    def __eq__(self, other: object) -> bool:
        return isinstance(other, HostFolder) and self._path == other._path

    def __hash__(self) -> int:
        return hash(self._path)

    def where(self, name: str) -> str:
        """See Storage."""
        return str(self._path / name)

    def prepare(self) -> None:
        """See Storage."""
        try:
            self._path.mkdir(parents=True, exist_ok=True)
        except OSError as fault:
            raise OperationalError(f"{self.where('')}: the folder can't be made: {fault.strerror}") from None

    def names(self) -> list[str]:
        """See Storage."""
        with self._telling(lambda: ""):
            return os.listdir(self._path) if self._path.is_dir() else []

    def read(self, name: str) -> bytes:
        """See Storage."""
        with self._telling(lambda: name):
            return (self._path / name).read_bytes()

    def write(self, name: Callable[[], str], data: bytes) -> None:
        """See Storage. The file survives a power failure."""
        self._place(name, data, os.replace)

    def write_new(self, name: str, data: bytes) -> None:
        """See Storage. A hard link never replaces another file, as a rename would."""
        self._place(lambda: name, data, os.link)

    def _place(self, name: Callable[[], str], data: bytes, put: Callable[[Path, Path], None]) -> None:
        unfinished = self._path / f"{secrets.token_hex(8)}{UNFINISHED}"
        with self._telling(name):
            try:
                with open(unfinished, "xb") as file:
                    file.write(data)
                    file.flush()
                    os.fsync(file.fileno())
                put(unfinished, self._path / name())
            finally:
                unfinished.unlink(missing_ok=True)
            folder = os.open(self._path, os.O_RDONLY)
            try:
                os.fsync(folder)
            finally:
                os.close(folder)

    @contextlib.contextmanager
    def _telling(self, name: Callable[[], str]) -> Iterator[None]:
        """Raises OperationalError, with the name of a file, if the host can't do what is done with it. FileExistsError
        for a new name is raised as it is."""
        try:
            yield
        except FileExistsError:
            raise
        except OSError as fault:
            raise OperationalError(f"{self.where(name())}: {fault.strerror}") from None

    def age(self, name: str) -> float:
        """See Storage."""
        try:
            return time.time() - (self._path / name).stat().st_mtime
        except FileNotFoundError:
            # Another client has removed it meanwhile.
            return 0.0

    def remove(self, name: str) -> None:
        """See Storage."""
        with self._telling(lambda: name):
            (self._path / name).unlink(missing_ok=True)


class RemoteFolder:
    """A folder of a storage that fsspec supports, such as `s3://bucket/visits`. It has to be able to create a file only
    if there is none (the mode "create" of fsspec's `pipe_file`); else NotSupportedError is raised."""

    def __init__(self, address: str) -> None:
        self._address = address.rstrip("/")
        self._opened: tuple[Any, str] | None = None

    def __reduce__(self) -> tuple[type[RemoteFolder], tuple[str]]:
        return RemoteFolder, (self._address,)

    def __eq__(self, other: object) -> bool:
        return isinstance(other, RemoteFolder) and self._address == other._address

    def __hash__(self) -> int:
        return hash(self._address)

    def _system(self) -> tuple[Any, str]:
        """Returns the file system, and the folder's path in it."""
        if self._opened is None:
            try:
                fsspec = import_module("fsspec")
            except ImportError:
                raise NotSupportedError(f"{self._address}: fsspec is not installed") from None
            self._opened = fsspec.core.url_to_fs(self._address)
        return self._opened

    def where(self, name: str) -> str:
        """See Storage."""
        return f"{self._address}/{name}"

    def prepare(self) -> None:
        """See Storage."""
        system, path = self._system()
        if "mode" not in inspect.signature(system.pipe_file).parameters:
            raise NotSupportedError(f"{self._address}: this storage can't put a file only where there is none")
        system.makedirs(path, exist_ok=True)

    def names(self) -> list[str]:
        """See Storage."""
        system, path = self._system()
        system.invalidate_cache(path)
        try:
            return [found.rpartition("/")[2] for found in system.ls(path, detail=False)]
        except FileNotFoundError:
            return []

    def read(self, name: str) -> bytes:
        """See Storage."""
        system, path = self._system()
        try:
            data: bytes = system.cat_file(f"{path}/{name}")
        except OSError as fault:
            raise OperationalError(f"{self.where(name)}: {fault}") from None
        return data

    def write(self, name: Callable[[], str], data: bytes) -> None:
        """See Storage."""
        system, path = self._system()
        system.pipe_file(f"{path}/{name()}", data)

    def write_new(self, name: str, data: bytes) -> None:
        """See Storage."""
        system, path = self._system()
        system.pipe_file(f"{path}/{name}", data, mode="create")

    def age(self, name: str) -> float:
        """See Storage."""
        system, path = self._system()
        return time.time() - float(system.modified(f"{path}/{name}").timestamp())

    def remove(self, name: str) -> None:
        """See Storage."""
        system, path = self._system()
        system.rm_file(f"{path}/{name}")
