"""One running bitcol that gets statements one by one: the processor time and memory of each, and its reply."""

import os
import re
import subprocess
import sys
import time
from collections.abc import Iterator, Sequence
from pathlib import Path
from types import TracebackType

from common import DATA, built

# The last line of a reply. A heading is in upper case, and a row of numbers and NULL.
ENDS = re.compile(rb"^(?:ok|error |rows |units )[^\n]*\n", re.MULTILINE)
# Freed blocks of more bytes than this go back to the kernel at once.
RETURNING = "glibc.malloc.mmap_threshold=65536:glibc.malloc.trim_threshold=65536"
FAULT = re.compile(rb"^error [^\n]*", re.MULTILINE)


class Program:
    """A process of bitcol, which ends with the block that it is opened for. A process that returns freed memory shows
    more exactly how much memory a statement takes, and takes longer."""

    def __init__(self, folder: Path = DATA, returns_memory: bool = False) -> None:
        folder.mkdir(exist_ok=True)
        pipe, environment = subprocess.PIPE, os.environ | ({"GLIBC_TUNABLES": RETURNING} if returns_memory else {})
        command = [built("bitcol")]
        self.child = subprocess.Popen(command, cwd=folder, stdin=pipe, stdout=pipe, bufsize=0, env=environment)
        # The clock of another process's processor time.
        self.clock = (~self.child.pid << 3) | 2

    def __enter__(self) -> "Program":
        return self

    def __exit__(self, kind: type[BaseException] | None, fault: BaseException | None,
                 trace: TracebackType | None) -> None:
        self.close()

    def close(self) -> None:
        assert self.child.stdin
        self.child.stdin.close()
        self.child.kill()
        self.child.wait()

    def replies(self, count: int) -> bytes:
        """This number of replies, as they are written."""
        assert self.child.stdout
        lines: list[bytes] = []
        rest, found = b"", 0
        while found < count:
            piece = os.read(self.child.stdout.fileno(), 1 << 18)
            if not piece:
                sys.exit("bitcol ended")
            rest += piece
            whole = rest.rfind(b"\n") + 1
            found += len(ENDS.findall(rest[:whole]))
            lines.append(rest[:whole])
            rest = rest[whole:]
        return b"".join(lines)

    def ask(self, statement: str, times: int = 1) -> tuple[float, str]:
        """The processor seconds of a statement that is executed this many times, per time, and the last of its
        replies."""
        return self.ask_each([statement] * times)

    def ask_each(self, statements: Sequence[str]) -> tuple[float, str]:
        """The processor seconds of statements that are sent at once, for each of them, and the last of their
        replies."""
        assert self.child.stdin
        before = self.seconds()
        self.child.stdin.write("".join(f"{statement};\n" for statement in statements).encode())
        answered = self.replies(len(statements))
        took = (self.seconds() - before) / len(statements)
        if fault := FAULT.search(answered):
            refused = statements[len(ENDS.findall(answered[: fault.start()]))]
            sys.exit(f"bitcol refuses {refused[:200]}: {fault[0].decode()}")
        begins = [0, *(match.end() for match in ENDS.finditer(answered))]
        return took, answered[begins[-2] :].decode()

    def seconds(self) -> float:
        """The processor time so far. It is read while the process waits: while a process leaves its processor the clock
        lags."""
        status = Path(f"/proc/{self.child.pid}/stat")
        while status.read_text().rsplit(")", 1)[1].split()[0] == "R":
            time.sleep(1e-5)
        return time.clock_gettime(self.clock)

    def do(self, *statements: str) -> None:
        """Statements that are not timed."""
        for statement in statements:
            self.ask(statement)

    def least(self, statement: str, rounds: int, times: int = 1) -> tuple[float, str]:
        """The least processor time of a statement in some rounds, and its reply."""
        asked = [self.ask(statement, times) for _ in range(rounds)]
        return min(took for took, _ in asked), asked[-1][1]

    def memory(self, line: str) -> int:
        """Bytes of memory that the kernel reports in this line of the process's status."""
        status = Path(f"/proc/{self.child.pid}/status").read_text()
        found = re.search(rf"^{line}:\s+(\d+) kB$", status, re.MULTILINE)
        return int(found[1]) * 1024 if found else 0

    def peak(self, statement: str) -> int:
        """The bytes that a statement takes at its peak, beyond what the process held before it."""
        Path(f"/proc/{self.child.pid}/clear_refs").write_text("5")
        before = self.memory("VmRSS")
        self.ask(statement)
        return max(self.memory("VmHWM") - before, 0)


def each_row(reply: str) -> Iterator[tuple[str, ...]]:
    """The rows of a reply to a SELECT, one by one."""
    return (tuple(line.split(",")) for line in reply.splitlines()[1:-1])


def rows_of(reply: str) -> list[tuple[str, ...]]:
    """The rows of a reply to a SELECT."""
    return list(each_row(reply))
