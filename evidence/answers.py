"""The program's replies, one by one, and the lines that a SELECT shows."""

from collections.abc import Iterator, Sequence

from program import Program

Line = tuple[int | None, ...]


class Unanswered(Exception):
    """The program didn't end with a correct reply to each statement."""


def replies_of(output: str) -> Iterator[str]:
    """The replies in an output. A reply of several lines ends with `rows n`."""
    lines: list[str] = []
    for line in output.splitlines():
        lines.append(line)
        word = line.partition(" ")[0]
        if word == "rows" or len(lines) == 1 and word in ("ok", "units", "error"):
            yield "\n".join(lines)
            lines = []
    if lines:
        yield "\n".join(lines)


def ask(program: Program, statements: Sequence[str], files: dict[str, bytes] | None = None) -> list[str]:
    """The reply to each of these statements, none of which should be refused."""
    script = "".join(f"{statement};\n" for statement in statements)
    ended = program.run(script.encode(), files or {}, set())
    replies = list(replies_of(ended.output.decode()))
    if ended.status != 0 or len(replies) != len(statements):
        raise Unanswered(f"status {ended.status}, {len(replies)} replies to {len(statements)} statements")
    for statement, reply in zip(statements, replies, strict=True):
        if reply.startswith("error"):
            raise Unanswered(f"{reply}: {statement}")
    return replies


def lines_of(reply: str) -> list[Line]:
    """The lines that a SELECT shows, as numbers and None."""
    lines = reply.split("\n")[1:-1]
    return [tuple(None if word == "NULL" else int(word) for word in line.split(",")) for line in lines]
