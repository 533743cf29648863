"""The answers that are kept for the windows of a page, as long as there is room."""

from __future__ import annotations

import threading

from ..reply import Reply
from ..shell.fault import Fault

# The longest answer that is accepted: four columns of a full table. A cell has at most twelve bytes.
ANSWER_CELLS = 2**26
# The limit for all answers together. The last one is kept whatever its length.
KEPT_CELLS = 2**26
KEPT_ANSWERS = 200


class Answers:
    """Answers with rows, numbered from 1. Those that haven't been looked at for longest are dropped first."""

    def __init__(self, cells: int = KEPT_CELLS, answers: int = KEPT_ANSWERS) -> None:
        """Keeps at most this many cells, and this many answers."""
        self._room, self._most = cells, answers
        # In the order in which they were last looked at.
        self._kept: dict[int, Reply] = {}
        self._last = 0
        self._lock = threading.Lock()

    def keep(self, reply: Reply) -> int:
        """Keeps an answer, and returns its number."""
        with self._lock:
            self._last += 1
            self._kept[self._last] = reply
            while len(self._kept) > 1 and self._is_full():
                del self._kept[next(iter(self._kept))]
            return self._last

    def get(self, number: int) -> Reply:
        """Returns the answer with this number. Raises a Fault if it isn't kept."""
        with self._lock:
            reply = self._kept.pop(number, None)
            if reply is None:
                raise Fault("this answer isn't kept any more: run its statement again")
            self._kept[number] = reply
            return reply

    def _is_full(self) -> bool:
        return len(self._kept) > self._most or sum(map(cells_of, self._kept.values())) > self._room


def cells_of(reply: Reply) -> int:
    """Returns the number of cells of an answer."""
    return len(reply) * len(reply.headings)
