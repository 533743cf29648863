"""Errors of the shell itself."""

from __future__ import annotations

from ..errors import Error


class Fault(Error):
    """Something that the shell was asked for can't be done. The text says what and why."""


def reason_of(fault: OSError) -> str:
    """Returns the host's error message for a file, without the file's name."""
    return fault.strerror or str(fault)
