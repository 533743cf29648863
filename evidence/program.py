"""Runs of the program under test: a script, in a folder of its own."""

import shutil
import subprocess
import tempfile
from dataclasses import dataclass
from pathlib import Path

from model import Ended

SECONDS = 600


@dataclass
class Program:
    """The program at this path, and the folder in which it runs."""

    path: str
    room: Path

    @classmethod
    def at(cls, path: str) -> "Program":
        """The program, with a new folder."""
        return cls(str(Path(path).resolve()), Path(tempfile.mkdtemp(prefix="bitcol-evidence-")))

    def close(self) -> None:
        """Deletes the folder."""
        shutil.rmtree(self.room, ignore_errors=True)

    def run(self, script: bytes, files: dict[str, bytes], folders: set[str], stops: bool = False) -> Ended:
        """What a run over the script leaves. Standard error should be empty, so what is there counts as output."""
        for folder in folders:
            (self.room / folder).mkdir()
        for name, data in files.items():
            (self.room / name).write_bytes(data)
        words = [self.path, "--stop"] if stops else [self.path]
        try:
            ended = subprocess.run(
                words, cwd=self.room, input=script, capture_output=True, timeout=SECONDS, check=False
            )
            output, status = ended.stdout + ended.stderr, ended.returncode
        except subprocess.TimeoutExpired:
            output, status = b"no end in time\n", -1
        left = {str(path.relative_to(self.room)): path.read_bytes() for path in self.room.rglob("*") if path.is_file()}
        for path in self.room.iterdir():
            shutil.rmtree(path) if path.is_dir() else path.unlink()
        return Ended(output, status, left)
