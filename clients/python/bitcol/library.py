"""The door to the library: a store in this process, used by the calls of `clients/c/bitcol.h`, with files in memory."""

from __future__ import annotations

import contextlib
import ctypes
import os
import threading
import weakref
from collections.abc import Iterable, Iterator
from enum import IntEnum
from pathlib import Path

from .door import Bytes, pieces_of
from .errors import InterfaceError, NotSupportedError, OperationalError
from .reply import ReplyBuffer
from .script import PathLike, quoted

VARIABLE = "BITCOL_LIBRARY"
# A wheel may contain the library, beside this module.
INSTALLED = Path(__file__).resolve().parent / "lib" / "libbitcol.so"
# Replies shorter than this are fetched by one call.
ROOM_BYTES = 65_536

_Size = ctypes.c_size_t
_Number = ctypes.c_uint32
_Pointer = ctypes.c_void_p
_CALLS = (
    ("bitcol_open", _Number, (_Number, _Pointer)),
    ("bitcol_answer", _Number, (_Pointer, ctypes.c_char_p, _Size)),
    ("bitcol_reply_length", _Size, (_Pointer,)),
    ("bitcol_reply", _Size, (_Pointer, _Size, _Pointer, _Size)),
    ("bitcol_put_file", _Number, (_Pointer, ctypes.c_char_p, _Size, ctypes.c_char_p, _Size)),
    ("bitcol_file", _Number, (_Pointer, ctypes.c_char_p, _Size, _Pointer, _Size, _Pointer)),
    ("bitcol_close", None, (_Pointer,)),
)


class Status(IntEnum):
    """What a call returns: the numbers of bitcol.h."""

    DONE = 0
    NO_FILE = 40
    NO_ROOM = 46
    NO_MEMORY = 90


def find_library() -> str:
    """Returns the path of the shared library: the one that the environment variable BITCOL_LIBRARY names, else the one
    that was installed with this package. Raises OperationalError if there is none."""
    named = os.environ.get(VARIABLE)
    if named:
        return named
    if INSTALLED.exists():
        return str(INSTALLED)
    raise OperationalError(f"no library: name it, or set {VARIABLE}")


class Library:
    """A store in this process. Calls from several threads take turns.

    Statements can reach only the store's own files, which are in memory: `put_file` and `file` write and read them.
    """

    def __init__(self, library: PathLike | None = None) -> None:
        """Opens a store in the shared library at this path, or in the one that find_library finds. Raises
        OperationalError if the library can't be loaded, or when out of memory."""
        self._calls = _loaded(find_library() if library is None else os.fspath(library))
        # The C struct with one pointer. Calls take its address.
        self._store = _Pointer()
        if self._calls.bitcol_open(0, ctypes.byref(self._store)) != Status.DONE:
            raise OperationalError("no memory for a store")
        self._address = ctypes.addressof(self._store)
        self._owner = os.getpid()
        self._finalizer = weakref.finalize(self, _close, self._calls, self._store, self._owner)
        self._lock = threading.Lock()
        self._room = ctypes.create_string_buffer(ROOM_BYTES)
        self._scratch_files: list[StoreFile] = []
        self._files_made = 0

    def answer(self, script: bytes, statements: int, seconds: float | None = None) -> list[bytes]:
        """See Door. An interrupt takes effect when the library has answered; the statements were executed, and the
        replies are dropped. Raises OperationalError if there is no memory for a reply: its statement was executed, and
        those after it were not. A call can't be ended, so it takes no time limit."""
        if seconds is not None:
            raise NotSupportedError("a call of the library can't be ended: it has no limit of time")
        with self._lock:
            self._ensure_usable()
            end = self._calls.bitcol_answer(self._address, script, len(script))
            if end != Status.DONE:
                said = "there is no memory for a reply: its statement was carried out, and none after it"
                raise OperationalError(said)
            data = self._replies()
        if statements == 1:
            return [data]
        buffer = ReplyBuffer()
        buffer.add(data)
        return [buffer.take() or b"" for _ in range(statements)]

    def put_file(self, name: str, data: Bytes) -> None:
        """Writes one of the store's own files, replacing one of that name. Raises OperationalError if there is no
        memory for it, and ProgrammingError if no statement can have the name, or the data isn't bytes."""
        held = data if isinstance(data, bytes) else b"".join(pieces_of([data]))
        path = _name_bytes(name)
        with self._lock:
            self._ensure_usable()
            if self._calls.bitcol_put_file(self._address, path, len(path), held, len(held)) != Status.DONE:
                raise OperationalError(f"no memory for the file {name!r}")

    def file(self, name: str) -> bytes:
        """Returns one of the store's own files. Raises OperationalError if there is no such file, and ProgrammingError
        if no statement can have the name."""
        path = _name_bytes(name)
        with self._lock:
            self._ensure_usable()
            length = _Size()
            room = ctypes.create_string_buffer(1)
            arguments = (self._address, path, len(path))
            status = self._calls.bitcol_file(*arguments, room, 0, ctypes.byref(length))
            if status == Status.NO_ROOM:
                room = ctypes.create_string_buffer(length.value)
                status = self._calls.bitcol_file(*arguments, room, length.value, ctypes.byref(length))
        if status != Status.DONE:
            raise OperationalError(f"the store has no file {name!r}")
        return ctypes.string_at(room, length.value)

    @contextlib.contextmanager
    def scratch(self) -> Iterator[StoreFile]:
        """See Door: a file of the store. It is emptied afterwards, and its name is reused."""
        with self._lock:
            file = self._scratch_files.pop() if self._scratch_files else self._new_scratch_file()
        try:
            yield file
        finally:
            with contextlib.suppress(InterfaceError, OperationalError):
                file.write(())
            self._scratch_files.append(file)

    def close(self) -> None:
        """See Door."""
        with self._lock:
            self._finalizer()

    def _new_scratch_file(self) -> StoreFile:
        self._files_made += 1
        return StoreFile(self, f"bitcol-scratch-{self._files_made}")

    def _ensure_usable(self) -> None:
        if not self._finalizer.alive:
            raise InterfaceError("the session is closed")
        if self._owner != os.getpid():
            raise InterfaceError("the session belongs to the process that opened it")

    def _replies(self) -> bytes:
        """Returns all replies to the last script."""
        length = self._calls.bitcol_reply(self._address, 0, self._room, ROOM_BYTES)
        if length < ROOM_BYTES:
            return ctypes.string_at(self._room, length)
        length = self._calls.bitcol_reply_length(self._address)
        room = ctypes.create_string_buffer(length)
        self._calls.bitcol_reply(self._address, 0, room, length)
        return room.raw


class StoreFile:
    """A file of a store in this process, given by its name in the store."""

    def __init__(self, library: Library, name: str) -> None:
        self._library = library
        self._name = name

    @property
    def name(self) -> str:
        """See File."""
        return self._name

    def write(self, pieces: Iterable[Bytes]) -> None:
        """See File. Raises OperationalError if there is no memory for it."""
        self._library.put_file(self._name, b"".join(pieces_of(pieces)))

    def read(self) -> bytes:
        """See File."""
        return self._library.file(self._name)


def _name_bytes(name: str) -> bytes:
    """Returns the bytes of a file's name. Raises ProgrammingError if no statement can have the name."""
    quoted(name)
    return os.fspath(name).encode()


def _loaded(path: str) -> ctypes.CDLL:
    """Loads the library, and sets the types of its calls. Raises OperationalError if it isn't one."""
    try:
        library = ctypes.CDLL(path)
        for name, result, arguments in _CALLS:
            call = getattr(library, name)
            call.restype, call.argtypes = result, arguments
    except (OSError, AttributeError, ValueError) as fault:
        raise OperationalError(f"the library can't be loaded: {fault}") from fault
    return library


def _close(calls: ctypes.CDLL, store: _Pointer, owner: int) -> None:
    """Closes the store of a door that isn't referenced any more. A forked process must not close its parent's."""
    if owner == os.getpid():
        calls.bitcol_close(store)
