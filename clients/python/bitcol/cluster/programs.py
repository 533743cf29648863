"""The programs in which a worker's parts are open, several in each, so that one script queries all of these.

In its program a part is a table with a name of its own, which is as long as the name of the table in statements. In the
statements that are sent to the part the two names are exchanged. So the program's answers stay the same, refusals
included: a statement keeps its number of bytes, and no other name becomes that of a table.
"""

from __future__ import annotations

import contextlib
import string
import threading
import time
import weakref
from collections import deque
from collections.abc import Callable, Iterator, Sequence
from dataclasses import dataclass
from functools import lru_cache
from itertools import islice, product

from ..errors import ErrorNumber, OutOfTime, ProgramEnded, Refused, StoreRefused
from ..script import RESERVED
from ..session import Session
from .manifest import Part, read_part
from .select import around_table
from .storage import Storage

# The most parts of a program. There are 25 other names of one letter; and all parts of a program that ended have to be
# opened again.
PARTS = 24
# The length from which a script is cut, between two parts.
SCRIPT_LENGTH = 2**20
_NO_MEMORY = b"error %d:" % ErrorNumber.OUT_OF_MEMORY


@dataclass(frozen=True)
class Place:
    """Where a table is: its folder and its name in statements."""

    storage: Storage
    table: str


def opened(place: Place, part: Part) -> Session:
    """Starts a separate process in which a part is open under the table's name, so that statements can be sent to it as
    they were written. It opens the bytes that were checked."""
    data = read_part(place.storage, part)
    session = Session()
    try:
        _put(session, place.table, data, place.storage.where(part.file))
    except BaseException:
        session.close()
        raise
    return session


def _put(session: Session, table: str, data: bytes, where: str) -> None:
    """Opens the bytes of a part under a name. A refusal names the part's file."""
    try:
        session.put_table(table, data)
    except Refused as refusal:
        raise named(refusal, where) from None


def named(refusal: Refused, where: str) -> Refused:
    """Returns the refusal with what it is about before its text."""
    return type(refusal)(refusal.number, f"{where}: {refusal.text}")


class OpenPart:
    """A part that is open in a program, under a name there, as long as this object is referenced."""

    def __init__(self, place: Place, part: Part, program: Program) -> None:
        self._place, self._part = place, part
        self.program, self.name = program, program.take_name()
        weakref.finalize(self, program.leave_name, self.name).atexit = False

    @property
    def where(self) -> str:
        """The name of its file for people."""
        return self._place.storage.where(self._part.file)

    def read(self) -> bytes:
        """Returns the bytes of its file, checked."""
        return read_part(self._place.storage, self._part)


class Program:
    """A process with a table for each of its parts. It is started when it is first queried, and each part is opened
    when that part is. If the process was killed from outside, it is started again, once for each query."""

    def __init__(self, place: Place) -> None:
        self._table = place.table
        self._names = _names_like(place.table)
        self._free = list(reversed(self._names))
        # The names of parts that aren't referenced any more. Their tables are dropped at the program's next query.
        self._left: deque[str] = deque()
        self._session: Session | None = None
        self._tables: set[str] = set()
        self._lock = threading.Lock()

    @property
    def has_room(self) -> bool:
        """Whether one more part can be open in it."""
        return bool(self._free)

    def take_name(self) -> str:
        """Returns a name for one more part."""
        return self._free.pop()

    def leave_name(self, name: str) -> None:
        """Called when the part of this name isn't referenced any more, at any time, even in the middle of other
        calls."""
        self._left.append(name)

    def answers(
        self, parts: Sequence[OpenPart], statements: Sequence[str], deadline: float | None
    ) -> list[list[bytes]]:
        """Returns the bytes of the replies of some of its parts to statements that change nothing. Raises StoreRefused
        if there was no memory, and OutOfTime, with the part's name."""
        renamed = [_renamed(statement, self._table, self._names) for statement in statements]
        found: list[list[bytes]] = []
        for some in _runs(parts, sum(map(len, statements)), deadline is not None):
            replies = iter(self._replies(some, [each(part.name) for part in some for each in renamed], deadline))
            found += [list(islice(replies, len(statements))) for _ in some]
        for part, each in zip(parts, found):
            if any(reply.startswith(_NO_MEMORY) for reply in each):
                raise StoreRefused(ErrorNumber.OUT_OF_MEMORY, f"part {part.where}: out of memory")
        return found

    def _replies(self, parts: Sequence[OpenPart], script: Sequence[str], deadline: float | None) -> list[bytes]:
        """Returns the replies to a script about some parts."""
        try:
            with self._turn(deadline):
                try:
                    return self._asked(parts, script, deadline)
                except OutOfTime:
                    raise
                except ProgramEnded:
                    return self._asked(parts, script, deadline)
        except OutOfTime:
            raise OutOfTime(f"part {parts[0].where}: the question took longer than it may") from None

    @contextlib.contextmanager
    def _turn(self, deadline: float | None) -> Iterator[None]:
        """Makes the queries of several threads take turns."""
        if not self._lock.acquire(timeout=-1 if deadline is None else _left(deadline)):
            raise OutOfTime("those before it took too long")
        try:
            yield
        finally:
            self._lock.release()

    def _asked(self, parts: Sequence[OpenPart], script: Sequence[str], deadline: float | None) -> list[bytes]:
        """Returns the replies to a script about some parts, which are opened if they aren't open."""
        self._drop_left()
        for part in parts:
            if part.name not in self._tables:
                data = part.read()
                with self._process() as session:
                    _put(session, part.name, data, part.where)
                    self._tables.add(part.name)
        with self._process() as session:
            return session.answers(script, None if deadline is None else _left(deadline))

    def _drop_left(self) -> None:
        """Drops the tables of parts that aren't referenced any more."""
        left = [self._left.popleft() for _ in range(len(self._left))]
        there = self._tables.intersection(left)
        try:
            if there:
                with self._process() as session:
                    replies = session.answers([f"DROP TABLE {name}" for name in there])
                    if any(reply != b"ok\n" for reply in replies):
                        raise ProgramEnded("it keeps the table of a part that nobody has")
            self._tables -= there
        finally:
            self._free += left

    @contextlib.contextmanager
    def _process(self) -> Iterator[Session]:
        """Yields the process for a call. The process is ended if the call neither returns an answer nor is refused."""
        session = self._session = self._session or Session()
        try:
            yield session
        except Refused:
            raise
        except BaseException:
            self._session = None
            self._tables.clear()
            session.close()
            raise


def _left(deadline: float) -> float:
    """Returns the seconds that are left."""
    return max(0.001, deadline - time.monotonic())


def _runs(parts: Sequence[OpenPart], length: int, is_limited: bool) -> Iterator[Sequence[OpenPart]]:
    """Yields the parts to query by one script, with statements of `length` letters for each. If there is a time limit,
    each part is queried by itself, so that it is known which part took longer."""
    size = 1 if is_limited else max(1, SCRIPT_LENGTH // (length or 1))
    for start in range(0, len(parts), size):
        yield parts[start : start + size]


@lru_cache(maxsize=64)
def _names_like(name: str) -> tuple[str, ...]:
    """Returns other names of the same length, as many as a program has parts."""
    fronts = map("".join, product(string.ascii_uppercase, repeat=min(2, len(name))))
    words = (front.ljust(len(name), "_") for front in fronts)
    return tuple(islice((word for word in words if word != name and word not in RESERVED), PARTS))


def _renamed(statement: str, table: str, names: Sequence[str]) -> Callable[[str], str]:
    """Returns a function that rewrites a statement about a table for the part with one of these names. If its table is
    another of them, it is sent to a table that doesn't exist."""
    front, name, back = around_table(statement)
    if name == table:
        return lambda part: f"{front}{part}{back}"
    unnamed = f"{front}{table}{back}" if name in names else statement
    return lambda _: unnamed


# The parts that are open in this process. A version that shares parts with another shares the programs in which they
# are open; this mapping keeps nothing open.
_open_parts: weakref.WeakValueDictionary[tuple[Place, str], OpenPart] = weakref.WeakValueDictionary()
_opening = threading.Lock()


def open_parts(place: Place, parts: Sequence[Part]) -> list[OpenPart]:
    """Opens parts in as few programs as possible. Parts that are open already stay where they are."""
    with _opening:
        found = {part.digest: _open_parts.get((place, part.digest)) for part in parts}
        programs = list(dict.fromkeys(each.program for each in found.values() if each is not None))
        for part in parts:
            if found[part.digest] is None:
                program = next((each for each in programs if each.has_room), None)
                if program is None:
                    programs.append(program := Program(place))
                found[part.digest] = _open_parts[place, part.digest] = OpenPart(place, part, program)
        return [open_part for part in parts if (open_part := found[part.digest]) is not None]


def ask(parts: Sequence[OpenPart], statements: Sequence[str], deadline: float | None) -> list[list[bytes]]:
    """Returns the replies of each of some parts, one program after the other."""
    programs: dict[Program, list[int]] = {}
    for number, part in enumerate(parts):
        programs.setdefault(part.program, []).append(number)
    replies: dict[int, list[bytes]] = {}
    for program, numbers in programs.items():
        replies.update(zip(numbers, program.answers([parts[number] for number in numbers], statements, deadline)))
    return [replies[number] for number in range(len(parts))]
