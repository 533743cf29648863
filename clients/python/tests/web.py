"""Runs the page's server as people do, and sends requests to it."""

from __future__ import annotations

import json
import os
import signal
import subprocess
import threading
import time
from dataclasses import dataclass
from email.message import Message
from http.client import HTTPConnection, HTTPResponse
from pathlib import Path
from typing import Any
from urllib.parse import urlencode, urlsplit

from tests.terminal import SECONDS, SHELL, ShellTestCase, environment

ADDRESS = "The page is at "


@dataclass(frozen=True)
class Reply:
    """A response of the server."""

    status: int
    headers: Message
    body: bytes

    @property
    def text(self) -> str:
        return self.body.decode()

    @property
    def json(self) -> Any:
        return json.loads(self.body)


class Server:
    """A server in a separate process, and what it wrote."""

    def __init__(self, folder: Path, words: list[str], variables: dict[str, str]) -> None:
        self.process = subprocess.Popen(
            [*SHELL, "web", *words],
            stdin=subprocess.DEVNULL,
            stdout=subprocess.PIPE,
            stderr=subprocess.PIPE,
            text=True,
            cwd=folder,
            env=variables,
        )
        self.lines: list[str] = []
        self.address = self._wait_for_address()
        self.host = urlsplit(self.address).netloc
        self.word = urlsplit(self.address).path.strip("/")

    def send(
        self, method: str, target: str, body: bytes | str | None = None, headers: dict[str, str] | None = None
    ) -> Reply:
        """Returns the response to a request with these headers besides the usual ones. The target is a whole path."""
        connection = HTTPConnection(self.host, timeout=SECONDS)
        try:
            sent = body.encode() if isinstance(body, str) else body
            connection.request(method, target, sent, headers or {})
            return _reply(connection.getresponse())
        finally:
            connection.close()

    def get(self, name: str, /, **words: object) -> Reply:
        """Returns the response to the page's GET of this name."""
        return self.send("GET", self.target(name, words))

    def post(self, name: str, body: bytes | str, /, **words: object) -> Reply:
        """Returns the response to the page's POST of this name."""
        return self.send("POST", self.target(name, words), body)

    def target(self, name: str, words: dict[str, object] | None = None) -> str:
        """Returns the path and the query of a request that has the word."""
        query = f"?{urlencode(words)}" if words else ""
        return f"/{self.word}/{name}{query}"

    def run(self, script: str) -> Any:
        """Runs a script, and returns the outcomes of its statements."""
        return self.post("run", script).json

    def state(self, after: int = 0) -> Any:
        """Returns the tables, and the messages after this one."""
        return self.get("state", after=after).json

    def end(self, by: signal.Signals = signal.SIGINT) -> tuple[str, int]:
        """Ends the server, and returns what it wrote to standard error, and its exit status."""
        self.process.send_signal(by)
        _, errors = self.process.communicate(timeout=SECONDS)
        return errors, self.process.returncode

    def kill(self) -> None:
        """Kills the server if it hasn't ended."""
        if self.process.poll() is None:
            self.process.kill()
            self.process.communicate()

    def _wait_for_address(self) -> str:
        timer = threading.Timer(SECONDS, self.process.kill)
        timer.start()
        assert self.process.stdout is not None
        try:
            for line in self.process.stdout:
                if line.startswith(ADDRESS):
                    return line.removeprefix(ADDRESS).rstrip("\n")
                self.lines.append(line.rstrip("\n"))
        finally:
            timer.cancel()
        raise AssertionError(f"no address; instead: {self.lines} {self.process.communicate()}")


def _reply(response: HTTPResponse) -> Reply:
    return Reply(response.status, response.headers, response.read())


class WebTestCase(ShellTestCase):
    """A test with a folder of its own, in which its servers run."""

    def start(self, *words: object, **variables: str) -> Server:
        """Starts a server with these arguments, which ends with the test."""
        server = Server(self.folder, list(map(str, words)), environment(self.folder.parent, **variables))
        self.addCleanup(server.kill)
        return server

    def kill_program(self, number: Path) -> None:
        """Kills the program whose process number is in this file."""
        os.kill(self.started_program(number), signal.SIGKILL)

    def started_program(self, number: Path) -> int:
        """The number of the program's process. The program writes it into this file as it starts, so it may come
        late."""
        end = time.monotonic() + SECONDS
        while not (number.exists() and number.read_text().strip()):
            self.assertLess(time.monotonic(), end, "the program doesn't start")
            time.sleep(0.01)
        return int(number.read_text())
