"""Pandas data frames with the rows of parts."""

from __future__ import annotations

from collections.abc import Sequence
from typing import Any

from ..optional import pandas_module
from ..reply import reply_of
from .holding import Holding


def ask_frame(holding: Holding, which: Sequence[int], statement: str, names: Sequence[str]) -> Any:
    """A task: returns a frame with a part's rows of a SELECT of columns. 64-bit values are exact, and NULL is NA."""
    ((data,),) = holding.answers(which, [statement], None)
    reply = reply_of(data)
    if reply.refusal is not None:
        raise reply.refusal
    return reply.to_pandas() if reply.count else frame_like(names)


def frame_like(names: Sequence[str]) -> Any:
    """Returns a frame of the same types without rows."""
    pandas = pandas_module()
    return pandas.DataFrame({name: pandas.array([], dtype="Int64") for name in names})
