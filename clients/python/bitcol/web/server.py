"""The page's server: accepts requests on the loopback address, and answers those that the guard lets through."""

from __future__ import annotations

import secrets
import sys
import traceback
from collections.abc import Iterable, Iterator
from http import HTTPStatus
from http.server import BaseHTTPRequestHandler, ThreadingHTTPServer
from socketserver import TCPServer
from typing import Any

from ..errors import Error, OperationalError, Refused
from .guard import HEADERS, LOOPBACK, Guard
from .requests import BadRequest, Body, CutOff, Query
from .routes import GETS, POSTS, Response, Route, as_error
from .workspace import TOO_LONG, Workspace

# The seconds within which a request, and each part of it, has to arrive.
SECONDS = 60
WORD_BYTES = 24


class PageServer(ThreadingHTTPServer):
    """Serves a workspace. Each connection has a thread, and no thread keeps the process from exiting."""

    daemon_threads = True

    def __init__(self, workspace: Workspace, port: int = 0) -> None:
        """Uses this port, or a free one if it is 0. Raises OSError if the port can't be used."""
        self.workspace = workspace
        super().__init__((LOOPBACK, port), Handler)
        self.guard = Guard(secrets.token_urlsafe(WORD_BYTES), self.server_address[1])

    def server_bind(self) -> None:
        """Binds the port, without looking up the host name of the address."""
        TCPServer.server_bind(self)
        self.server_name, self.server_port = LOOPBACK, self.server_address[1]

    def handle_error(self, request: Any, client_address: Any) -> None:
        """Reports an error of a request, unless its connection was lost."""
        if not isinstance(sys.exc_info()[1], (OSError, CutOff)):
            traceback.print_exc()


class Handler(BaseHTTPRequestHandler):
    """Answers the requests of a connection."""

    server: PageServer
    protocol_version = "HTTP/1.1"
    timeout = SECONDS

    def do_GET(self) -> None:  # noqa: N802 - the standard library gives the name
        """Answers a GET."""
        self._answer_by(GETS)

    def do_POST(self) -> None:  # noqa: N802 - the standard library gives the name
        """Answers a POST."""
        self._answer_by(POSTS)

    def send_error(self, code: int, message: str | None = None, explain: str | None = None) -> None:
        """Answers a malformed request, or one with a method that no address supports. The latter is told so if it would
        be answered with another method, and else why it wouldn't."""
        status = HTTPStatus(code)
        fault = self.server.guard.fault(self.path, self.headers) if status is HTTPStatus.NOT_IMPLEMENTED else None
        if fault is not None:
            status, message = HTTPStatus.FORBIDDEN, fault
        self.close_connection = True
        self._send(as_error(message or status.phrase, status))

    def version_string(self) -> str:
        """Returns the value of the header Server."""
        return "bitcol"

    def log_message(self, *_: Any) -> None:
        """Writes nothing: the address contains the word."""

    def _answer_by(self, routes: dict[str, Route]) -> None:
        fault = self.server.guard.fault(self.path, self.headers)
        if fault is not None:
            self.send_error(HTTPStatus.FORBIDDEN, fault)
            return
        name, words = self.server.guard.rest(self.path)
        route = routes.get(name)
        if route is None:
            self.send_error(HTTPStatus.NOT_FOUND, "there is nothing at this address")
            return
        body = self._body(route.limit)
        if body is not None:
            response = self._response(route, words, body)
            # What is left of a refused request would be taken for the next request.
            self.close_connection = self.close_connection or body.left > 0
            self._send(response)

    def _body(self, limit: int) -> Body | None:
        """Returns the body of a request, or None if the request was refused for its form or its length."""
        lengths = self.headers.get_all("Content-Length", ["0"])
        is_number = len(lengths) == 1 and lengths[0].isascii() and lengths[0].isdigit()
        if "Transfer-Encoding" in self.headers or not is_number:
            self.send_error(HTTPStatus.LENGTH_REQUIRED, "a request tells the length of its body")
            return None
        if len(lengths[0]) > len(str(limit)) or int(lengths[0]) > limit:
            self.send_error(HTTPStatus.REQUEST_ENTITY_TOO_LARGE, f"the body of this request has at most {limit} bytes")
            return None
        return Body(self.rfile, int(lengths[0]))

    def _response(self, route: Route, words: str, body: Body) -> Response:
        """Returns the response of a route, or an error."""
        try:
            return route.answer(self.server.workspace, Query.of(words), body)
        except BadRequest as fault:
            return as_error(str(fault), HTTPStatus.BAD_REQUEST)
        except Refused as fault:
            return as_error(str(fault), HTTPStatus.UNPROCESSABLE_ENTITY)
        except OperationalError as fault:
            return as_error(str(fault), HTTPStatus.SERVICE_UNAVAILABLE)
        except Error as fault:
            return as_error(str(fault), HTTPStatus.UNPROCESSABLE_ENTITY)
        except MemoryError:
            return as_error(TOO_LONG, HTTPStatus.INSUFFICIENT_STORAGE)
        except (ConnectionError, TimeoutError, CutOff):
            raise
        except Exception as fault:
            # An internal error of the server must not cost its users their tables.
            traceback.print_exc()
            return as_error(f"a fault of the server: {type(fault).__name__}: {fault}", HTTPStatus.INTERNAL_SERVER_ERROR)

    def _send(self, response: Response) -> None:
        """Writes a response. If a piece of a body can't be made, the body is cut off, so that it isn't taken for
        complete."""
        self.send_response(response.status)
        for name, value in HEADERS.items():
            self.send_header(name, value)
        self.send_header("Content-Type", response.kind)
        if response.file_name is not None:
            self.send_header("Content-Disposition", f'attachment; filename="{response.file_name}"')
        if response.pieces is None:
            self.send_header("Content-Length", str(len(response.body)))
        else:
            self.send_header("Transfer-Encoding", "chunked")
        if self.close_connection:
            self.send_header("Connection", "close")
        self.end_headers()
        for piece in [response.body] if response.pieces is None else _chunks(response.pieces):
            self.wfile.write(piece)


def _chunks(pieces: Iterable[bytes]) -> Iterator[bytes]:
    """Yields the pieces in chunked encoding, in which HTTP sends a body of unknown length."""
    for piece in pieces:
        if piece:
            yield b"%x\r\n%b\r\n" % (len(piece), piece)
    yield b"0\r\n\r\n"
