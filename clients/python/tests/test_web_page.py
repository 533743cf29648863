"""The page's document: runs its examples, and checks that its limits are those of the server."""

from __future__ import annotations

import contextlib
import re
import shlex
import socket
import subprocess
import sys
import threading
import unittest
from pathlib import Path

from bitcol.web import answers, routes, server
from tests.examples import FENCE, runs_of
from tests.terminal import SECONDS, ShellTestCase, environment

PAGE = Path(__file__).resolve().parent.parent / "WEB.md"
ADDRESS = re.compile(r"http://127\.0\.0\.1:\d+/[\w-]{32}/")
LAST_LINE = "Ctrl-C ends it"
TAKEN = 8000


class Page(ShellTestCase):
    def test_examples(self) -> None:
        # If somebody uses the port already, it is taken as well.
        with contextlib.suppress(OSError):
            self.addCleanup(socket.create_server(("127.0.0.1", TAKEN)).close)
        commands = 0
        for fence in FENCE.finditer(PAGE.read_text(encoding="utf-8")):
            if fence["kind"] == "csv":
                self.write(fence["file"], fence["body"])
                continue
            for command, output in runs_of(fence["body"]):
                self.assertEqual(self.output(command), ADDRESS.sub("ADDRESS", output), command)
                commands += 1
        self.assertEqual(commands, 3)

    def output(self, command: str) -> str:
        """Returns what a command writes up to its end, or until it serves the page. Addresses are left out."""
        process = subprocess.Popen(
            # A single command replaces the system's shell, so that killing the shell's process kills the command.
            ["sh", "-c", ("" if ";" in command else "exec ") + command.replace("python3", shlex.quote(sys.executable))],
            stdout=subprocess.PIPE,
            stderr=subprocess.STDOUT,
            stdin=subprocess.DEVNULL,
            text=True,
            cwd=self.folder,
            env=environment(self.folder.parent),
        )
        timer = threading.Timer(SECONDS, process.kill)
        timer.start()
        assert process.stdout is not None
        written = ""
        for line in process.stdout:
            written += line
            if line.startswith(LAST_LINE):
                break
        process.kill()
        process.wait()
        timer.cancel()
        process.stdout.close()
        return ADDRESS.sub("ADDRESS", written)

    def test_limits(self) -> None:
        text = PAGE.read_text(encoding="utf-8")
        for what, limit in (
            ("text of the editor, when it is run", f"{routes.TEXT_BYTES:,} bytes"),
            ("file that is dropped or chosen", f"{routes.FILE_BYTES:,} bytes"),
            ("cells of an answer", f"{answers.ANSWER_CELLS:,}: four columns of a full table"),
            ("cells of all answers that are kept, if it is more than one answer", f"{answers.KEPT_CELLS:,}"),
            ("answers that are kept", f"{answers.KEPT_ANSWERS:,}"),
            ("rows that are sent to the page at once", f"{routes.WINDOW_ROWS:,}"),
        ):
            self.assertIn(f"| {what} | {limit} |\n", text)
        self.assertIn(f"a random word of {8 * server.WORD_BYTES} bits", text)

    def test_limits_of_charts(self) -> None:
        text = " ".join(PAGE.read_text(encoding="utf-8").split())
        module = (Path(routes.__file__).parent / "page/plot.js").read_text(encoding="utf-8")
        bars, rows, series = (
            int(re.search(rf"const {name} = ([\d_]+);", module)[1])  # type: ignore[index]
            for name in ("BARS", "MOST_ROWS", "MOST_SERIES")
        )
        self.assertEqual(series, 6)
        self.assertIn("Bars, lines or points are drawn of up to six columns", text)
        self.assertIn(f"Bars are drawn of the first {bars} rows, and lines and points of the first {rows:,};", text)


if __name__ == "__main__":
    unittest.main()
