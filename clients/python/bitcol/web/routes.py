"""What each address of the page, after its word, returns: the page's parts, and results of the workspace."""

from __future__ import annotations

import json
from collections.abc import Callable, Iterable, Iterator
from dataclasses import dataclass
from http import HTTPStatus
from importlib import resources
from typing import Any, BinaryIO

from ..errors import ProgramEnded
from ..shell.fault import Fault, reason_of
from ..shell.render import Mode, rendered
from .requests import BadRequest, Body, Query
from .workspace import FileOutcome, Outcome, TableShape, Workspace

# The longest text of the editor: enough for several statements of the greatest length.
TEXT_BYTES = 2**20
# The longest file that can be imported here: more than the CSV of most tables, and less than most disks have free.
FILE_BYTES = 2**32
# The most rows that are returned at once.
WINDOW_ROWS = 2**16
NAME_LETTERS = 255
JSON = "application/json"
PLAIN = "text/plain; charset=utf-8"
PIECE_BYTES = 2**20

_KINDS = {
    "html": "text/html; charset=utf-8",
    "css": "text/css; charset=utf-8",
    "js": "text/javascript; charset=utf-8",
    "svg": "image/svg+xml",
}
_TABLE_FORMS = {"csv": "text/csv; charset=utf-8", "table": "application/octet-stream"}


@dataclass(frozen=True)
class Response:
    """A body of this kind: bytes, or pieces that are made while they are sent. A download has a file name."""

    kind: str
    body: bytes = b""
    pieces: Iterable[bytes] | None = None
    file_name: str | None = None
    status: HTTPStatus = HTTPStatus.OK


@dataclass(frozen=True)
class Route:
    """The handler of an address, and the most bytes that the body of a request may have."""

    answer: Callable[[Workspace, Query, Body], Response]
    limit: int = 0


def as_json(value: Any, status: HTTPStatus = HTTPStatus.OK) -> Response:
    """Returns a JSON response."""
    return Response(JSON, json.dumps(value).encode(), status=status)


def as_error(text: str, status: HTTPStatus) -> Response:
    """Returns a response that reports an error."""
    return as_json({"error": text}, status)


def _page_parts() -> dict[str, Route]:
    """Returns the routes of the page's files, by their names. The address itself is the page's HTML."""
    parts = {}
    for file in resources.files(__package__).joinpath("page").iterdir():
        kind = _KINDS.get(file.name.rpartition(".")[2])
        if kind is not None:
            parts[file.name] = _part(Response(kind, file.read_bytes()))
    parts[""] = parts.pop("page.html")
    return parts


def _part(response: Response) -> Route:
    return Route(lambda *_: response)


def _state(workspace: Workspace, query: Query, _: Body) -> Response:
    """Returns the tables, the messages that the window doesn't know yet, and the limits of files and of the editor."""
    try:
        tables = list(map(_table, workspace.tables()))
    except ProgramEnded:
        # The messages say so, and the next program has no tables.
        tables = []
    messages = [
        {"number": message.number, "text": message.text, "isError": message.is_error}
        for message in workspace.messages(query.number("after"))
    ]
    return as_json({"tables": tables, "messages": messages, "fileBytes": FILE_BYTES, "textBytes": TEXT_BYTES})


def _table(shape: TableShape) -> dict[str, Any]:
    columns = [{"name": column, "type": column_type.name} for column, column_type in shape.columns.items()]
    return {"name": shape.name, "rows": shape.rows, "columns": columns}


def _layouts(workspace: Workspace, query: Query, _: Body) -> Response:
    """Returns the layout and the kind of each column of a table."""
    headers = workspace.headers(query.text("table"))
    return as_json([{"layout": header.layout.name, "kind": header.kind.name} for header in headers])


def _run(workspace: Workspace, _: Query, body: Body) -> Response:
    """Executes the script in the body, and returns the outcome of each statement."""
    return as_json(list(map(_outcome, workspace.run(body.text()))))


def _outcome(outcome: Outcome) -> dict[str, Any]:
    found: dict[str, Any] = {"statement": outcome.statement.text.rstrip(), "line": outcome.statement.line}
    if outcome.reply is None:
        return {**found, "error": outcome.error}
    return {
        **found,
        "rows": None if outcome.reply.is_units else outcome.reply.count,
        "headings": outcome.reply.headings,
        "answer": outcome.answer,
        "seconds": outcome.seconds,
        "units": outcome.units,
    }


def _complete(workspace: Workspace, _: Query, body: Body) -> Response:
    """Returns the completions of the word at the end of the body."""
    word, words = workspace.completions(body.text())
    return as_json({"word": word, "words": words})


def _import(workspace: Workspace, query: Query, body: Body) -> Response:
    """Makes tables from the file in the body."""
    name = query.text("name").replace("\\", "/").rpartition("/")[2][:NAME_LETTERS] or "file"
    table = query.text("table") if "table" in query.words else None
    with workspace.folder() as folder:
        path = str(folder / "file")
        try:
            body.copy_to(path)
        except OSError as fault:
            raise Fault(f"{name}: the file can't be kept: {reason_of(fault)}") from None
        return as_json(_file_outcome(workspace.import_file(path, name, table)))


def _file_outcome(outcome: FileOutcome) -> dict[str, Any]:
    imported = [{"table": made.table, "rows": made.rows, "notes": made.notes} for made in outcome.imported]
    return {"imported": imported, "errors": outcome.errors}


def _rows(workspace: Workspace, query: Query, _: Body) -> Response:
    """Returns some rows of an answer, as the program wrote them, or only the given columns of these."""
    reply = workspace.answers.get(query.number("answer"))
    lines = reply.lines_at(query.number("first"), query.number("count", WINDOW_ROWS))
    places = query.numbers("columns")
    if places is not None:
        if any(place >= len(reply.headings) for place in places):
            raise BadRequest("the answer has no such column")
        rows = (line.split(",") for line in lines.splitlines())
        lines = "".join(",".join([row[place] for place in places]) + "\n" for row in rows)
    return Response(PLAIN, lines.encode())


def _answer_file(workspace: Workspace, query: Query, _: Body) -> Response:
    """Returns an answer as a CSV download."""
    number = query.number("answer")
    pieces = (piece.encode() for piece in rendered(workspace.answers.get(number), Mode.CSV))
    return Response(_TABLE_FORMS["csv"], pieces=pieces, file_name=f"answer-{number}.csv")


def _table_file(workspace: Workspace, query: Query, _: Body) -> Response:
    """Returns a table as a download: a table file or CSV."""
    table, form = query.text("table"), query.text("form")
    if form not in _TABLE_FORMS:
        raise BadRequest(f"form is one of {', '.join(_TABLE_FORMS)}")
    with workspace.folder() as folder:
        path = folder / f"file.{form}"
        workspace.export(table, path)
        # The file's name is removed with its folder, but its bytes exist until it is closed.
        pieces = _pieces_of(path.open("rb"))
    return Response(_TABLE_FORMS[form], pieces=pieces, file_name=f"{table.upper()}.{form}")


def _pieces_of(file: BinaryIO) -> Iterator[bytes]:
    with file:
        yield from iter(lambda: file.read(PIECE_BYTES), b"")


GETS = {
    **_page_parts(),
    "state": Route(_state),
    "layouts": Route(_layouts),
    "rows": Route(_rows),
    "answer.csv": Route(_answer_file),
    "table": Route(_table_file),
}
POSTS = {
    "run": Route(_run, TEXT_BYTES),
    "complete": Route(_complete, TEXT_BYTES),
    "import": Route(_import, FILE_BYTES),
}
