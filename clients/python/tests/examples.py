"""The examples of documents: runs the commands in their fences, and compares or takes over what they write."""

from __future__ import annotations

import doctest
import os
import re
import shlex
import subprocess
import sys
from collections.abc import Iterable, Iterator
from dataclasses import dataclass
from pathlib import Path
from typing import Any

import bitcol
from tests.terminal import IN_TEXT, MORE, PROMPT, SECONDS, Terminal, environment, erased, even_clock

FENCE = re.compile(
    r"(?:\*(?P<file>[\w. ]+)\*:\n\n)?^```(?P<kind>csv|sql|console|python)\n(?P<body>.*?)^```$",
    re.MULTILINE | re.DOTALL,
)
PROMPTS = (PROMPT, MORE, IN_TEXT)
COLUMNS = 72
# Measured times differ from run to run: seconds, and microseconds in sentences and in columns.
MICROSECONDS = re.compile(r"\b(\d+) microseconds\b")
_SECONDS = re.compile(r"^\d+\.\d{3} s$", re.MULTILINE)
_HEADING = "MICROSECONDS"
_CELL = re.compile(r" *\d+")


def taken(text: str, examples: Iterable[Example]) -> str:
    """Returns the text of a document with its examples as they are now."""
    for example in examples:
        text = text.replace(example.before, example.now)
    return text


def runs_of(body: str) -> Iterator[tuple[str, str]]:
    """Yields the commands of a fence, and what each writes."""
    for run in re.split(r"^\$ ", body, flags=re.MULTILINE)[1:]:
        command, _, output = run.partition("\n")
        yield command, output


def without_times(text: str) -> str:
    """Returns the text with an N in the place of each measured time."""
    lines, place = [], None
    for line in MICROSECONDS.sub("N microseconds", _SECONDS.sub("N s", text)).split("\n"):
        cell = "" if place is None else line[place : place + len(_HEADING)]
        if _HEADING in line:
            place = line.index(_HEADING)
        elif _CELL.fullmatch(cell):
            line = f"{line[:place]}N{line[place + len(_HEADING) :]}"
        elif cell != "-" * len(_HEADING):
            place = None
        lines.append(line)
    return "\n".join(lines)


@dataclass(frozen=True)
class Example:
    """A fence of a document: the line on which it begins, its commands with their outputs, and these as they are now.
    For a faulty Python example, `now` is a description of what is wrong."""

    line: int
    before: str
    now: str

    @property
    def is_right(self) -> bool:
        """Whether it is as before, except for times."""
        return without_times(self.before) == without_times(self.now)


class Room:
    """A folder in which the examples of a document are run, in their order."""

    def __init__(self, folder: Path, measures: bool = False) -> None:
        """The folder exists. The program and the histories of its shells are beside it. Its shells measure times only
        if this is asked for: otherwise whatever they measure takes equally long, and sizes decide what they advise."""
        self._folder = folder
        self._clock = {} if measures else even_clock(folder.parent)
        self._names: dict[str, Any] = {}
        programs = folder.parent / "bin"
        programs.mkdir()
        (programs / "bitcol").symlink_to(os.path.abspath(bitcol.find_program()))
        self._path = f"{programs}{os.pathsep}{os.environ.get('PATH', '')}"

    def examples(self, text: str) -> Iterator[Example]:
        """Runs the examples of a document. The files that it shows with their names are created."""
        for fence in FENCE.finditer(text):
            line, body = text.count("\n", 0, fence.start("body")), fence["body"]
            if fence["file"]:
                (self._folder / fence["file"]).write_text(body, encoding="utf-8")
            elif fence["kind"] == "console":
                yield Example(line, body, self._rerun(body))
            elif fence["kind"] == "python":
                yield Example(line, body, self._python_faults(body, f"line {line}") or body)

    def _rerun(self, body: str) -> str:
        """Returns a fence of commands of the system's shell, with what they write now instead of what they wrote."""
        return "".join(f"$ {command}\n{self._output(command, output)}" for command, output in runs_of(body))

    def _output(self, command: str, output: str) -> str:
        """Returns what a command writes. If its output has prompts, lines are typed into it."""
        is_typed = any(line.startswith(PROMPT) for line in output.splitlines())
        return self._typed(command, output) if is_typed else self._piped(command)

    def _python_faults(self, body: str, place: str) -> str:
        """Returns what is wrong with the examples in a Python fence, which share their names with those before."""
        test = doctest.DocTestParser().get_doctest(body, self._names, place, place, 0)
        told: list[str] = []
        before = os.getcwd()
        os.chdir(self._folder)
        try:
            doctest.DocTestRunner(verbose=False).run(test, out=told.append, clear_globs=False)
        finally:
            os.chdir(before)
        self._names = test.globs
        return "".join(told)

    def _piped(self, command: str) -> str:
        """Returns what a command of the system's shell writes to standard output and standard error."""
        ended = subprocess.run(
            ["sh", "-c", command.replace("python3", shlex.quote(sys.executable))],
            stdout=subprocess.PIPE,
            stderr=subprocess.STDOUT,
            stdin=subprocess.DEVNULL,
            text=True,
            cwd=self._folder,
            env=environment(self._folder.parent, PATH=self._path, **self._clock),
            timeout=SECONDS,
            check=False,
        )
        return ended.stdout

    def _typed(self, command: str, output: str) -> str:
        """Returns what a terminal shows when the lines after the prompts in the output are typed."""
        words = shlex.split(command)
        if words[:3] != ["python3", "-m", "bitcol"]:
            raise ValueError(f"no shell to type into: {command}")
        variables = environment(self._folder.parent, COLUMNS=str(COLUMNS), **self._clock)
        terminal = Terminal(self._folder, words[3:], variables)
        try:
            terminal.keeps_escapes = True
            shown = ""
            for line in output.splitlines():
                prompt = next(filter(line.startswith, PROMPTS), None)
                if prompt is not None:
                    shown += terminal.wait_for(prompt) + prompt
                    terminal.press(line[len(prompt) :] + "\n")
            return erased(shown + terminal.rest())
        finally:
            terminal.kill()
