"""The commands of the shell, which begin with a dot: their arguments, their texts in `.help`, and what they do."""

from __future__ import annotations

import os
import shlex
from collections.abc import Callable, Sequence
from dataclasses import dataclass
from enum import Enum
from typing import TYPE_CHECKING

from .advisor import APPLY, advise
from .exporting import export_table
from .fault import Fault
from .plot import Chart
from .render import Mode, counted

if TYPE_CHECKING:
    from .shell import Shell


class Argument(Enum):
    """The kind of an argument of a command, as `.help` calls it."""

    FILE = "FILE"
    TABLE = "TABLE"
    COLUMN = "COLUMN"
    ROWS = "ROWS"
    MODE = "|".join(mode.value for mode in Mode)
    CHART = "|".join(chart.value for chart in Chart)
    SWITCH = "on|off"
    WORK = f"FILE|{APPLY}"


@dataclass(frozen=True)
class Command:
    """A command: its arguments, how many of them are required, and what it does with them."""

    name: str
    arguments: tuple[Argument, ...]
    needed: int
    help: str
    run: Callable[[Shell, Sequence[str]], None]

    @property
    def usage(self) -> str:
        """The command as it is typed, with optional arguments in brackets."""
        words = [argument.value for argument in self.arguments]
        return " ".join([self.name, *words[: self.needed], *(f"[{word}]" for word in words[self.needed :])])


def words_of(line: str) -> list[str]:
    """Splits a line into words; one with a blank is quoted. A last quote that isn't closed extends to the end."""
    try:
        return shlex.split(line)
    except ValueError:
        return line.split()


def command_of(word: str) -> Command | None:
    """Returns the command of this name, else the only one that begins like this, else None."""
    found = [command for name, command in COMMANDS.items() if name.startswith(word)]
    return COMMANDS.get(word) or (found[0] if len(found) == 1 and len(word) > 1 else None)


def command_words() -> list[str]:
    """Returns the names of all commands."""
    return list(COMMANDS)


def chosen_words(argument: Argument) -> list[str]:
    """Returns the words that this argument may be, or none if it may be any. Words in capitals are placeholders."""
    return [word for word in argument.value.split("|") if word.islower()] if "|" in argument.value else []


def perform(shell: Shell, line: str) -> None:
    """Executes the command of a line. Raises a Fault if there is no such command, or its arguments are wrong."""
    try:
        words = shlex.split(line.strip().removesuffix(";"))
    except ValueError as fault:
        raise Fault(f"{line.strip()}: {str(fault).lower()}") from None
    command = command_of(words[0])
    if command is None:
        raise Fault(f"no command {words[0]}: .help lists them")
    arguments = words[1:]
    if not command.needed <= len(arguments) <= len(command.arguments):
        raise Fault(f"usage: {command.usage}")
    command.run(shell, arguments)


def _choice(argument: Argument, word: str) -> str:
    """Returns the word if it is one that the argument may be."""
    if word not in chosen_words(argument):
        raise Fault(f"{word!r} is none of {', '.join(chosen_words(argument))}")
    return word


def _advise(shell: Shell, words: Sequence[str]) -> None:
    advise(shell, words[0], os.path.expanduser(words[1]) if len(words) > 1 else None)


def _export(shell: Shell, words: Sequence[str]) -> None:
    rows = export_table(shell.store, words[0], os.path.expanduser(words[1]))
    shell.console.remark(f"{counted(rows, 'row')} to {words[1]}")


def _help(shell: Shell, _: Sequence[str]) -> None:
    width = max(len(command.usage) for command in COMMANDS.values())
    for command in COMMANDS.values():
        shell.console.line(f"{command.usage.ljust(width)}  {command.help}")
    shell.console.line("Anything else is a statement, which ends with ; and may go over several lines.")


def _import(shell: Shell, words: Sequence[str]) -> None:
    shell.import_file(os.path.expanduser(words[0]), words[1] if len(words) > 1 else None)


def _limit(shell: Shell, words: Sequence[str]) -> None:
    if words:
        if not words[0].isascii() or not words[0].isdigit():
            raise Fault(f"{words[0]!r} is no number of rows")
        shell.settings.limit = int(words[0]) or None
    else:
        shell.console.line(str(shell.settings.limit or 0))


def _mode(shell: Shell, words: Sequence[str]) -> None:
    if words:
        shell.settings.mode = Mode(_choice(Argument.MODE, words[0]))
    else:
        shell.console.line(shell.settings.mode.value)


def _plot(shell: Shell, words: Sequence[str]) -> None:
    charts = chosen_words(Argument.CHART)
    chart = Chart(words[0]) if words and words[0] in charts else None
    rest = words[1:] if chart else words
    if len(rest) > 1:
        raise Fault(f"{words[0]!r} is none of {', '.join(charts)}")
    shell.plot(chart, rest[0] if rest else None)


def _quit(shell: Shell, _: Sequence[str]) -> None:
    shell.is_ended = True


def _read(shell: Shell, words: Sequence[str]) -> None:
    shell.read_file(os.path.expanduser(words[0]))


def _schema(shell: Shell, words: Sequence[str]) -> None:
    shell.show_schema(words[0] if words else None)


def _tables(shell: Shell, _: Sequence[str]) -> None:
    shell.run("TABLES")


def _timer(shell: Shell, words: Sequence[str]) -> None:
    if words:
        shell.settings.timer = _choice(Argument.SWITCH, words[0]) == "on"
    else:
        shell.console.line("on" if shell.settings.timer else "off")


_ALL = [
    Command(
        ".advise",
        (Argument.TABLE, Argument.WORK),
        1,
        "advise on layouts, by the SELECTs so far or in a file; apply sends it",
        _advise,
    ),
    Command(
        ".export",
        (Argument.TABLE, Argument.FILE),
        2,
        "write a table: .csv as CSV, .table as a table file",
        _export,
    ),
    Command(".help", (), 0, "show this", _help),
    Command(
        ".import",
        (Argument.FILE, Argument.TABLE),
        1,
        "make a table of a CSV file or a table file, or tables of an SQLite file",
        _import,
    ),
    Command(".limit", (Argument.ROWS,), 0, "how many rows a terminal shows; 0 is all", _limit),
    Command(".mode", (Argument.MODE,), 0, "how answers are written", _mode),
    Command(".plot", (Argument.CHART, Argument.COLUMN), 0, "draw the last answer", _plot),
    Command(".quit", (), 0, "end", _quit),
    Command(".read", (Argument.FILE,), 1, "carry out the lines of a file", _read),
    Command(".schema", (Argument.TABLE,), 0, "show how tables are made", _schema),
    Command(".tables", (), 0, "list the tables", _tables),
    Command(".timer", (Argument.SWITCH,), 0, "tell how long each statement takes", _timer),
]
COMMANDS = {command.name: command for command in _ALL}
