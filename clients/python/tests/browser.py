"""A browser for tests of the page: chromium with its driver, by selenium, if they are installed."""

from __future__ import annotations

import array
import os
import shutil
import tempfile
import time
from collections.abc import Callable
from pathlib import Path
from typing import Any

from bitcol import Table
from tests.terminal import SECONDS
from tests.web import Server, WebTestCase

try:
    from selenium import webdriver
    from selenium.webdriver.chrome.service import Service
    from selenium.webdriver.common.keys import Keys
except ImportError:
    webdriver = Keys = None  # type: ignore[assignment,misc]

# What these tests need but isn't installed.
MISSING = [
    name
    for name, found in (
        ("chromium", shutil.which("chromium")),
        ("chromedriver", shutil.which("chromedriver")),
        ("selenium", webdriver),
    )
    if found is None
]
LONG = 1_000_000
# A file dropped on the page, as a browser reports it.
DROP = """
const files = new DataTransfer();
files.items.add(new File([arguments[1]], arguments[0]));
for (const kind of ["dragover", "drop"])
  document.body.dispatchEvent(new DragEvent(kind, {dataTransfer: files, bubbles: true, cancelable: true}));
"""
# The number of pixels of the chart, or between two positions of it, that have this colour.
PIXELS = """
const canvas = document.getElementById("canvas");
const pen = document.createElement("canvas").getContext("2d");
pen.fillStyle = getComputedStyle(document.documentElement).getPropertyValue(arguments[0]).trim();
pen.fillRect(0, 0, 1, 1);
const [red, green, blue] = pen.getImageData(0, 0, 1, 1).data;
const data = canvas.getContext("2d", {willReadFrequently: true}).getImageData(0, 0, canvas.width, canvas.height).data;
const [from, to] = [arguments[1] ?? 0, arguments[2] ?? canvas.width];
let found = 0;
for (let at = 0; at < data.length; at += 4) {
  const place = (at / 4) % canvas.width;
  if (place < from || place >= to) continue;
  if (data[at] === red && data[at + 1] === green && data[at + 2] === blue && data[at + 3] === 255) found++;
}
return found;
"""


class BrowserTestCase(WebTestCase):
    """Tests that share one browser."""

    browser: Any

    @classmethod
    def setUpClass(cls) -> None:
        cls.room = tempfile.TemporaryDirectory()
        cls.addClassCleanup(cls.room.cleanup)
        options = webdriver.ChromeOptions()
        options.binary_location = shutil.which("chromium")
        for word in ("--headless=new", "--window-size=1200,1000", "--disable-gpu", "--disable-dev-shm-usage"):
            options.add_argument(word)
        # A foreign host name that leads here.
        options.add_argument("--host-resolver-rules=MAP evil.example 127.0.0.1")
        if os.geteuid() == 0:
            # The browser's sandbox can't be used by root.
            options.add_argument("--no-sandbox")
        options.set_capability("goog:loggingPrefs", {"browser": "ALL"})
        options.add_experimental_option("prefs", {"download.default_directory": cls.room.name})
        cls.browser = webdriver.Chrome(service=Service(shutil.which("chromedriver")), options=options)
        cls.addClassCleanup(cls.browser.quit)
        cls.browser.set_script_timeout(SECONDS)

    def open(self, *words: object, **variables: str) -> Server:
        """Starts a server, and opens its page in the browser. Returns once its tables are listed."""
        server = self.start(*words, **variables)
        self.browser.get_log("browser")
        self.browser.get(server.address)
        self.wait(lambda: self.loaded("state?"))
        self.addCleanup(self.assert_quiet)
        return server

    def assert_quiet(self) -> None:
        """Checks that no part of the page had an error, and that no request was forbidden by its policy."""
        said = [entry["message"] for entry in self.browser.get_log("browser")]
        # The browser's warning about these tests, which read the chart.
        self.assertEqual([text for text in said if "getImageData" not in text], [])

    def js(self, script: str, *arguments: object) -> Any:
        return self.browser.execute_script(script, *arguments)

    def loaded(self, name: str) -> list[str]:
        """Returns the addresses that the page loaded and that contain this name."""
        names: list[str] = self.js("return performance.getEntriesByType('resource').map((part) => part.name)")
        return [each for each in names if name in each]

    def find(self, selector: str) -> Any:
        return self.browser.find_element("css selector", selector)

    def text(self, selector: str) -> str:
        found: str = self.js("return document.querySelector(arguments[0])?.innerText ?? ''", selector)
        return found

    def wait(self, holds: Callable[[], Any]) -> Any:
        """Waits until this returns something true, and returns that."""
        limit = time.monotonic() + SECONDS
        while not (found := holds()):
            if time.monotonic() > limit:
                self.fail(f"this doesn't come: {self.text('main')!r}")
            time.sleep(0.05)
        return found

    def wait_for(self, selector: str, text: str) -> None:
        self.wait(lambda: text in self.text(selector))

    def press(self, *keys: str) -> None:
        """Presses keys at the focus, one after the other."""
        webdriver.ActionChains(self.browser).send_keys(*keys).perform()

    def press_with(self, holding: str, key: str) -> None:
        webdriver.ActionChains(self.browser).key_down(holding).send_keys(key).key_up(holding).perform()

    def run_script(self, script: str) -> None:
        """Replaces the text of the editor by a script, and runs it, using only the keyboard."""
        self.js("document.getElementById('script').focus()")
        self.press_with(Keys.CONTROL, "a")
        before = self.js("return document.querySelectorAll('#replies li').length")
        # No list of completions must come between the keys.
        self.press(script + " ")
        self.press_with(Keys.CONTROL, Keys.ENTER)
        self.wait(lambda: self.js("return document.querySelectorAll('#replies li').length") > before)
        self.wait(lambda: not self.find("#run").get_attribute("disabled"))

    def cells(self) -> list[list[str]]:
        """Returns the cells of the rows that the grid shows, once all have been loaded."""
        self.wait(lambda: self.find("#grid").get_attribute("aria-busy") == "false")
        found: list[list[str]] = self.js(
            "return [...document.querySelectorAll('#grid .seen .row')].map("
            "(row) => [...row.querySelectorAll('[role=gridcell]')].map((cell) => cell.textContent))"
        )
        return found

    def drop(self, name: str, content: str) -> None:
        self.js(DROP, name, content)

    def long_table(self) -> Path:
        """Returns a table file whose column A has the values 0 to 999,999, and B their negatives."""
        table = Table.of({"a": array.array("i", range(LONG)), "b": array.array("i", range(0, -LONG, -1))})
        return self.write("long.table", b"".join(table.file_pieces()))

    def current_row(self) -> int:
        return int(self.js("return document.getElementById('current-cell').dataset.row"))

    def shown_cell(self) -> str:
        """Returns the current cell. Checks that it is completely visible, and not hidden by the row numbers."""
        text, is_shown = self.js(
            "const cell = document.getElementById('current-cell'), box = document.getElementById('grid');"
            "const at = cell.getBoundingClientRect(), around = box.getBoundingClientRect();"
            "const numbers = cell.parentElement.firstChild.getBoundingClientRect();"
            "return [cell.textContent, at.left >= numbers.right - 1 && at.right <= around.right + 1"
            "  && at.top >= around.top && at.bottom <= around.bottom]"
        )
        self.assertTrue(is_shown, text)
        return str(text)
