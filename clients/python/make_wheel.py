#!/usr/bin/env python3
"""Makes a wheel of the package with the program in it, using only the standard library.

    make_wheel.py [FOLDER]      writes it to this folder, which is made if needed; by default the working directory

The program is the one that the environment variable BITCOL names, or crates/bitcol/out/bitcol. The shared library that
BITCOL_LIBRARY names is included too; without that variable the wheel has none. So is the module in C, bitcol/_rows, if
it was built (make -C clients rows). It is optional, so the wheel's tag is that of a wheel without it: any Python 3. pip
calls build_wheel when it builds this folder. The same files always make the same bytes.
"""

from __future__ import annotations

import base64
import hashlib
import os
import sys
import sysconfig
import zipfile
from collections.abc import Iterator
from dataclasses import dataclass
from pathlib import Path

HERE = Path(__file__).resolve().parent
TOP = HERE.parent.parent
PROGRAM, FILE = 0o755, 0o644
# The suffixes of the package's files that are included in the wheel: modules, and the parts of the page.
SUFFIXES = (".py", ".pyi", ".typed", ".html", ".css", ".js", ".svg")
# The suffix of the module in C, which is for any Python from 3.10 on.
MODULE_SUFFIX = ".abi3.so"
# A wheel's files need a time, which nobody reads: the earliest that a zip can hold.
TIME = (1980, 1, 1, 0, 0, 0)


@dataclass(frozen=True)
class Member:
    """A file of the wheel: its path there, its bytes, and its permissions."""

    path: str
    data: bytes
    mode: int = FILE

    def record(self) -> str:
        """Returns its line of RECORD."""
        digest = base64.urlsafe_b64encode(hashlib.sha256(self.data).digest()).rstrip(b"=").decode()
        return f"{self.path},sha256={digest},{len(self.data)}\n"


def program() -> Path:
    """Returns the program for the wheel. Exits if it isn't there."""
    path = Path(os.environ.get("BITCOL") or TOP / "crates/bitcol/out/bitcol")
    if not path.is_file():
        sys.exit(f"{path} isn't there: build it by rt run in crates/bitcol, or name another by BITCOL")
    return path


def library() -> Path | None:
    """Returns the shared library for the wheel, if one is named. Exits if it is named but isn't there."""
    named = os.environ.get("BITCOL_LIBRARY")
    if named and not Path(named).is_file():
        sys.exit(f"{named} isn't there: build it by make -C clients library, or unset BITCOL_LIBRARY")
    return Path(named) if named else None


def members(version: str, tag: str) -> Iterator[Member]:
    """Yields all files of the wheel except RECORD."""
    for path in sorted((HERE / "bitcol").rglob("*")):
        if path.suffix in SUFFIXES or path.name.endswith(MODULE_SUFFIX):
            yield Member(path.relative_to(HERE).as_posix(), path.read_bytes())
    yield Member("bitcol/bin/bitcol", program().read_bytes(), PROGRAM)
    shared = library()
    if shared is not None:
        yield Member("bitcol/lib/libbitcol.so", shared.read_bytes(), PROGRAM)
    about = f"bitcol-{version}.dist-info"
    metadata = (
        f"Metadata-Version: 2.1\nName: bitcol\nVersion: {version}\n"
        "Summary: Tables of nullable integers in main memory, whose answers are proved\n"
        "License: MIT OR Apache-2.0\nRequires-Python: >=3.10\nDescription-Content-Type: text/markdown\n\n"
    )
    yield Member(f"{about}/METADATA", metadata.encode() + (HERE / "README.md").read_bytes())
    wheel = f"Wheel-Version: 1.0\nGenerator: make_wheel\nRoot-Is-Purelib: false\nTag: {tag}\n"
    yield Member(f"{about}/WHEEL", wheel.encode())
    yield Member(f"{about}/entry_points.txt", b"[console_scripts]\nbitcol = bitcol.program:main\n")
    for name in ("LICENSE-APACHE", "LICENSE-MIT"):
        yield Member(f"{about}/{name}", (TOP / name).read_bytes())


def make(folder: Path) -> Path:
    """Makes the wheel in this folder, and returns its path."""
    version = (TOP / "VERSION").read_text().strip()
    tag = f"py3-none-{sysconfig.get_platform().replace('-', '_').replace('.', '_')}"
    files = list(members(version, tag))
    record = f"bitcol-{version}.dist-info/RECORD"
    lines = "".join(file.record() for file in files) + f"{record},,\n"
    folder.mkdir(parents=True, exist_ok=True)
    path = folder / f"bitcol-{version}-{tag}.whl"
    with zipfile.ZipFile(path, "w", zipfile.ZIP_DEFLATED) as wheel:
        for file in [*files, Member(record, lines.encode())]:
            entry = zipfile.ZipInfo(file.path, TIME)
            entry.external_attr = (0o100000 | file.mode) << 16
            wheel.writestr(entry, file.data, zipfile.ZIP_DEFLATED)
    return path


def build_wheel(wheel_directory: str, config_settings: object = None, metadata_directory: str | None = None) -> str:
    """The hook that pip calls (PEP 517): makes the wheel in the folder, and returns its name."""
    return make(Path(wheel_directory)).name


if __name__ == "__main__":
    print(make(Path(sys.argv[1] if len(sys.argv) > 1 else ".")))
