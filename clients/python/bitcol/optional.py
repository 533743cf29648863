"""Packages, and a module in C of this one, that are used if they are there, but never required."""

from __future__ import annotations

import importlib
import os
import sys
from functools import lru_cache
from typing import Any

from .errors import NotSupportedError

ROWS_VARIABLE = "BITCOL_ROWS"


def numpy_module() -> Any:
    """Returns numpy. Raises NotSupportedError if it isn't installed."""
    return _installed("numpy")


def pandas_module() -> Any:
    """Returns pandas. Raises NotSupportedError if it isn't installed."""
    return _installed("pandas")


def imported(name: str) -> Any:
    """Returns the package of this name if it has already been imported, else None."""
    return sys.modules.get(name)


@lru_cache(maxsize=1)
def rows_module() -> Any:
    """Returns the module in C that converts columns and rows (clients/python/rows), or None if it wasn't built, doesn't
    fit this Python, or the environment variable BITCOL_ROWS was 0 when it was first wanted."""
    if os.environ.get(ROWS_VARIABLE) == "0":
        return None
    try:
        return importlib.import_module("bitcol._rows")
    except ImportError:
        return None


def is_numpy_array(value: object) -> bool:
    """Returns whether the value is a numpy array. It can't be one if numpy hasn't been imported."""
    numpy = imported("numpy")
    return numpy is not None and isinstance(value, numpy.ndarray)


def is_pandas_series(value: object) -> bool:
    """Returns whether the value is a pandas series, a column of a data frame."""
    pandas = imported("pandas")
    return pandas is not None and isinstance(value, pandas.Series)


def _installed(name: str) -> Any:
    try:
        return importlib.import_module(name)
    except ImportError:
        raise NotSupportedError(f"{name} is not installed") from None
