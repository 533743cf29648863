"""The picture of the shell that its page shows. The variable BITCOL_SHELL_PICTURE names a file for it."""

from __future__ import annotations

import os
import unittest
from pathlib import Path
from xml.etree import ElementTree

from tests.picture import svg_of
from tests.terminal import PROMPT, ShellTestCase, erased

ROWS = 2_000
SITES = (40, 70_000, 12_000_000)
LINES = (
    "SELECT * FROM visits WHERE day IS NULL;",
    "SELECT day, COUNT(*) FROM visits WHERE site = 70000 GROUP BY day;",
    ".plot",
    "SELECT dya FROM visits;",
    ".advise visits",
    ".advise visits apply",
)


def rows() -> list[str]:
    """Returns rows with more visits on some days than on others, and two whose day is not known."""
    days = [1 + (row * row // 50) % 7 if row % 7 < 4 else 1 + row % 3 for row in range(ROWS)]
    return [f"{'' if row % 900 == 899 else day},{SITES[row % 3]},{row * 91 % 571}" for row, day in enumerate(days)]


class Picture(ShellTestCase):
    def test_picture(self) -> None:
        self.write("visits.csv", "\n".join(["day,site,seconds", *rows()]))
        terminal = self.start_terminal("visits.csv", TERM="xterm", COLUMNS="80")
        terminal.keeps_escapes = True
        shown = terminal.wait_for(PROMPT) + PROMPT
        for line in LINES:
            terminal.press(line + "\n")
            shown += terminal.wait_for(PROMPT) + PROMPT
        picture = svg_of(erased(shown, keeps_colours=True), "The shell: statements, answers, a chart, and an advice")
        texts = ["".join(element.itertext()) for element in ElementTree.fromstring(picture).iter()]
        for text in ("bitcol> .advise visits", "error 22: no such column", "COLUMN  LAYOUT  KIND"):
            self.assertTrue(any(each.startswith(text) for each in texts), text)
        self.assertIn("font-weight: bold", picture)
        path = os.environ.get("BITCOL_SHELL_PICTURE")
        if path:
            Path(path).write_text(picture, encoding="utf-8")


if __name__ == "__main__":
    unittest.main()
