"""How much the condition of a SELECT reads, as reported by STATS."""

from __future__ import annotations

from ..errors import Refused
from ..session import Session
from .lengths import selection_of


def units_of(session: Session, statement: str) -> int | None:
    """Returns the units that the condition of a SELECT reads, or None if the statement isn't a SELECT, or the program
    refuses the STATS."""
    if selection_of(statement) is None:
        return None
    try:
        # What comes before the statement's first word isn't part of it.
        return session.execute(f"STATS {statement}").count
    except Refused:
        return None
