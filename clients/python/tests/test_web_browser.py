"""The page in a real browser, if chromium, its driver and selenium are installed. Otherwise the tests are skipped, and
the run says so.

The variable BITCOL_PICTURE names a file for a picture of the page.
"""

from __future__ import annotations

import os
import sys
import time
import unittest
from pathlib import Path

from bitcol import Table
from tests.browser import LONG, MISSING, PIXELS, BrowserTestCase, Keys

VISITS = "day,seconds\n1,30\n1,\n2,45\n3,20\n"


def setUpModule() -> None:
    for name in MISSING:
        print(f"{name} is not installed: the page is not tried in a browser", file=sys.stderr)


@unittest.skipIf(MISSING, f"{', '.join(MISSING)} not installed")
class Page(BrowserTestCase):
    def test_from_a_file_to_a_chart(self) -> None:
        server = self.open()
        self.assertIn("There are no tables yet", self.text("nav"))
        self.drop("visits.csv", VISITS)
        self.wait_for("#tables", "VISITS 4 rows")
        self.assertIn("VISITS: 4 rows of visits.csv", self.text("#replies"))
        self.run_script("SELECT day, seconds FROM visits WHERE seconds > 20 OR seconds IS NULL")
        self.assertEqual(self.cells(), [["1", "30"], ["1", "NULL"], ["2", "45"]])
        self.assertIn("3 rows", self.text("#answer-size"))
        self.assertRegex(self.text("#replies li"), r"SELECT day, seconds FROM .*\n+3 rows \d+\.\d\d ms 5 units Show$")
        self.run_script("STATS SELECT day FROM visits WHERE seconds > 20")
        self.assertRegex(self.text("#replies li"), r"^STATS SELECT .*\n+5 units \d+\.\d\d ms$")
        self.run_script("SELECT nothing FROM visits")
        self.assertRegex(self.text("#replies li"), r"^SELECT nothing FROM visits\n+error 22: no such column$")
        # The error left the answer as it was.
        self.assertEqual(len(self.cells()), 3)
        self.find("#show-plot").click()
        for form in ("bars", "lines", "points"):
            self.js(
                "const chart = document.getElementById('chart'); chart.value = arguments[0];"
                "chart.dispatchEvent(new Event('change', {bubbles: true}))",
                form,
            )
            self.wait_for("#plot-caption", f"{form} by DAY, 3 rows")
            # Of the three values one is NULL, so the line is two dots.
            self.assertGreater(self.js(PIXELS, "--series-1"), 4, form)
        self.assertIn("SECONDS: 30 to 45", self.text("#plot-caption"))
        self.assertEqual([name for name in self.loaded("") if not name.startswith(server.address)], [])

    def test_bars_are_as_tall_as_their_values(self) -> None:
        """Four bars: 100, no bar for NULL, 50 and 25, so their areas are as 4 to 2 to 1."""
        self.open(self.write("t.csv", "x,y\n1,100\n2,\n3,50\n4,25\n"))
        self.run_script("SELECT x, y FROM t")
        self.find("#show-plot").click()
        self.wait_for("#plot-caption", "bars by X, 4 rows")
        left, right, width = 76, 14, self.js("return document.getElementById('canvas').clientWidth")
        room = (width - left - right) / 4
        areas = [self.js(PIXELS, "--series-1", left + place * room, left + (place + 1) * room) for place in range(4)]
        self.assertEqual(areas[1], 0)
        self.assertAlmostEqual(areas[0] / areas[2], 2, delta=0.05)
        self.assertAlmostEqual(areas[0] / areas[3], 4, delta=0.1)

    def test_what_is_selected_is_run(self) -> None:
        self.open(self.write("visits.csv", VISITS))
        self.run_script("SELECT day FROM visits; SELECT COUNT(*) FROM visits")
        self.assertEqual(self.cells(), [["4"]])
        self.js("document.getElementById('script').setSelectionRange(0, 22)")
        self.press_with(Keys.CONTROL, Keys.ENTER)
        self.wait(lambda: self.text("#answer-size") == "4 rows, 1 column")
        self.assertEqual(self.cells(), [["1"], ["1"], ["2"], ["3"]])
        # The previous answer is brought back from the replies, where it is the last but for the file's message.
        self.js("[...document.querySelectorAll('#replies button')].at(-1).click()")
        self.wait(lambda: self.text("#answer-title") == "Answer to SELECT COUNT(*) FROM visits")
        self.assertEqual(self.cells(), [["4"]])

    def test_files_that_are_refused_or_renamed(self) -> None:
        self.open()
        self.drop("broken.csv", "day,seconds\n1,30\n2,half\n")
        self.wait_for("#replies", "broken.csv: line 3, column 'seconds': 'half' is no integer")
        self.drop("picture.png", "\x89PNG\0\0")
        self.wait_for("#replies", "picture.png: no CSV file: line 1 has a zero byte")
        self.drop("2024 visits.csv", "day,Day\n1,2\n")
        self.wait_for("#replies", "2024 visits.csv: column 2 'Day' is called DAY_2")
        self.wait_for("#tables", "T_2024_VISITS 1 row")
        self.drop("2024 visits.csv", "day\n1\n")
        self.wait_for("#replies", "there is a table T_2024_VISITS already")
        self.assertEqual(self.text("#tables").count("\n"), 0)

    def test_a_long_answer_is_scrolled(self) -> None:
        self.open(self.long_table())
        self.run_script("SELECT b, a FROM long")
        self.assertEqual(self.cells()[:2], [["0", "0"], ["-1", "1"]])
        self.find("#grid").click()
        self.press_with(Keys.CONTROL, Keys.END)
        self.wait(lambda: self.cells()[-1] == ["-999999", "999999"])
        self.press_with(Keys.CONTROL, Keys.HOME)
        self.press(Keys.PAGE_DOWN, Keys.ARROW_DOWN)
        shown = len(self.cells())
        self.assertLess(shown, 60)
        self.js("document.getElementById('go-to').focus()")
        self.press("500000", Keys.ENTER)
        self.wait(lambda: ["-499999", "499999"] in self.cells())
        # The middle of the scroll bar is the middle of the answer.
        grid = "const grid = document.getElementById('grid');"
        self.js(grid + "grid.scrollTop = (grid.scrollHeight - grid.clientHeight) / 2")
        self.wait(lambda: abs(int(self.cells()[0][1]) - LONG // 2) < 100)
        # A wheel moves by rows: of 24 pixels each, however long the answer is.
        first = int(self.cells()[0][1])
        self.js(grid + "grid.dispatchEvent(new WheelEvent('wheel', {deltaY: 240, cancelable: true}))")
        self.wait(lambda: int(self.cells()[0][1]) == first + 10)
        self.assertLess(len(self.loaded("rows?")), 40)
        # At the end the page scrolls instead.
        wheel = "return grid.dispatchEvent(new WheelEvent('wheel', {deltaY: arguments[0], cancelable: true}))"
        self.assertFalse(self.js(grid + wheel, 100))
        self.press_with(Keys.CONTROL, Keys.END)
        self.assertEqual([self.js(grid + wheel, turn) for turn in (100, -10, 10)], [True, False, True])
        self.find("#show-plot").click()
        self.wait_for("#plot-caption", "lines by B, 1,000,000 rows")
        self.assertIn("A: 0 to 999999", self.text("#plot-caption"))
        self.assertGreater(self.js(PIXELS, "--series-1"), 50)

    def test_many_columns(self) -> None:
        names = [f"c{place}" for place in range(64)]
        rows = [",".join(str(100 * row + place) for place in range(64)) for row in range(100)]
        self.open(self.write("wide.csv", "\n".join([",".join(names), *rows])))
        self.run_script("SELECT * FROM wide")
        self.find("#grid").click()
        self.press(Keys.END)
        self.press(*[Keys.ARROW_DOWN] * 50)
        self.press(Keys.ARROW_LEFT)
        self.assertEqual(self.shown_cell(), str(100 * self.current_row() + 62))
        self.press(Keys.HOME, Keys.ARROW_DOWN)
        self.assertEqual(self.shown_cell(), str(100 * self.current_row()))
        self.press_with(Keys.CONTROL, Keys.END)
        self.assertEqual((self.current_row(), self.shown_cell()), (99, "9963"))

    def test_a_file_is_chosen(self) -> None:
        self.open()
        self.find("#import-name").send_keys("first one")
        self.find("#import-file").send_keys(str(self.write("visits.csv", VISITS)))
        self.wait_for("#tables", "FIRST_ONE 4 rows")
        self.assertIn("visits.csv: table 'first one' is called FIRST_ONE", self.text("#replies"))
        self.assertEqual(self.find("#import-name").get_attribute("value"), "")
        self.find("#import-file").send_keys(str(self.write("visits.csv", VISITS)))
        self.wait_for("#tables", "VISITS 4 rows")

    def test_words_are_completed_by_keys(self) -> None:
        self.open(self.write("visits.csv", VISITS))
        self.js("document.getElementById('script').focus()")
        self.press("SELECT sec")
        self.press_with(Keys.CONTROL, " ")
        self.wait(lambda: self.find("#script").get_attribute("value") == "SELECT seconds")
        self.press(" FROM ")
        self.press_with(Keys.CONTROL, " ")
        self.wait(lambda: self.find("#script").get_attribute("value") == "SELECT seconds FROM VISITS")
        self.press(" w")
        self.wait(lambda: not self.find("#completions").get_attribute("hidden"))
        self.assertEqual(self.text("#completions").split("\n"), ["where", "with"])
        self.press(Keys.ARROW_DOWN, Keys.ENTER, " ")
        self.press_with(Keys.CONTROL, " ")
        self.wait(lambda: not self.find("#completions").get_attribute("hidden"))
        # A step back from the first of all words selects the last, which is visible.
        self.press(Keys.ARROW_UP)
        chosen = self.js(
            "const list = document.getElementById('completions');"
            "const word = list.querySelector('[aria-selected=true]');"
            "return [word.textContent, word.offsetTop + word.offsetHeight <= list.scrollTop + list.clientHeight]"
        )
        self.assertEqual(chosen, ["WITH", True])
        self.press(Keys.ESCAPE, "seconds > 20")
        self.press(Keys.ESCAPE)
        self.press_with(Keys.CONTROL, Keys.ENTER)
        self.wait(lambda: self.text("#answer-size").startswith("2 rows"))
        self.assertEqual(self.cells(), [["30"], ["45"]])
        # If no word is being completed, the tab key moves to the next control.
        self.press(Keys.TAB)
        self.assertEqual(self.js("return document.activeElement.id"), "run")

    def test_every_control_is_reached_by_the_tab_key(self) -> None:
        self.open(self.write("visits.csv", VISITS))
        self.run_script("SELECT * FROM visits")
        self.press(Keys.TAB)
        reached: list[str] = []
        for _ in range(40):
            reached.append(self.js("const at = document.activeElement; return at.id || at.textContent.trim()"))
            self.press(Keys.TAB)
        answer = {"Show", "go-to", "save-answer", "show-plot", "grid"}
        self.assertLessEqual({"run", "script", "VISITS 4 rows", "import-file", "import-name", *answer}, set(reached))

    def test_layouts_are_told(self) -> None:
        server = self.open()
        self.run_script("CREATE TABLE t (a INT USING H DICTIONARY, b INT USING S)")
        self.wait_for("#tables", "T 0 rows")
        self.find("#tables summary").click()
        self.wait_for("#tables table", "DICTIONARY")
        self.assertEqual(
            self.text("#tables tbody").replace("\t", " ").split("\n"),
            ["A INTEGER H DICTIONARY", "B INTEGER S OFFSET"],
        )
        server.run("REBUILD t (a USING P OFFSET)")
        self.js("dispatchEvent(new Event('focus'))")
        self.wait(lambda: "A INTEGER P OFFSET" in self.text("#tables tbody").replace("\t", " "))

    def test_answers_and_tables_are_saved(self) -> None:
        self.open(self.write("visits.csv", VISITS))
        folder = Path(self.room.name)
        self.run_script("SELECT seconds FROM visits WHERE day < 3")
        self.find("#save-answer").click()
        self.wait(lambda: (folder / "answer-1.csv").exists())
        self.assertEqual((folder / "answer-1.csv").read_text(), 'SECONDS\n30\n""\n45\n')
        self.find("#tables summary").click()
        buttons = self.browser.find_elements("css selector", "#tables .tools button")
        for button, name in zip(buttons[1:], ("VISITS.csv", "VISITS.table")):
            button.click()
            self.wait(lambda path=folder / name: path.exists())
        self.assertEqual((folder / "VISITS.csv").read_text(), "DAY,SECONDS\n1,30\n1,\n2,45\n3,20\n")
        saved = Table.of_file((folder / "VISITS.table").read_bytes())
        self.assertEqual(saved.columns(), {"DAY": [1, 1, 2, 3], "SECONDS": [30, None, 45, 20]})

    def test_rows_of_a_table_are_shown(self) -> None:
        self.open(self.write("visits.csv", VISITS))
        self.find("#tables summary").click()
        self.find("#tables .tools button").click()
        self.wait(lambda: self.text("#answer-size") == "4 rows, 2 columns")
        self.assertEqual(self.cells(), [["1", "30"], ["1", "NULL"], ["2", "45"], ["3", "20"]])

    def test_another_window_shares_the_store(self) -> None:
        self.open(self.write("visits.csv", VISITS))
        first = self.browser.current_window_handle
        self.find("header a").click()
        (second,) = set(self.browser.window_handles) - {first}
        self.browser.switch_to.window(second)
        try:
            self.wait_for("#tables", "VISITS 4 rows")
            self.run_script("DELETE FROM visits WHERE day = 1; CREATE TABLE t (a INT)")
        finally:
            self.browser.close()
            self.browser.switch_to.window(first)
        self.js("dispatchEvent(new Event('focus'))")
        self.wait(lambda: self.text("#tables").split("\n") == ["VISITS 2 rows", "T 0 rows"])

    def test_an_answer_that_is_kept_no_more(self) -> None:
        server = self.open(self.long_table())
        self.run_script("SELECT a FROM long")
        self.assertEqual(self.cells()[0], ["0"])
        for _ in range(4):
            server.run("SELECT COUNT(*) FROM long;" * 50)
        self.find("#grid").click()
        self.press_with(Keys.CONTROL, Keys.END)
        self.wait_for("#grid .error", "this answer isn't kept any more: run its statement again")
        time.sleep(0.5)
        self.assertLess(len(self.loaded("rows?")), 6)
        self.find("#show-plot").click()
        self.wait_for("#plot-caption", "isn't kept any more")
        said = [entry["message"] for entry in self.browser.get_log("browser")]
        self.assertEqual([text for text in said if "422" not in text], [])

    def test_a_program_that_died(self) -> None:
        program, number = self.observed_program()
        self.open(self.write("visits.csv", VISITS), BITCOL=str(program))
        self.run_script("SELECT * FROM visits")
        self.kill_program(number)
        self.run_script("SELECT COUNT(*) FROM visits")
        self.wait_for("#replies", "the program was killed by SIGKILL; its tables are gone")
        self.wait_for("#replies", "another program was started, and it has no tables")
        self.wait(lambda: self.text("#tables") == "")
        # The earlier answer is still there.
        self.assertEqual(len(self.cells()), 4)

    def test_a_server_that_ended(self) -> None:
        server = self.open()
        server.end()
        self.find("#run").click()
        self.wait_for("#replies", "the server doesn't answer")
        self.wait(lambda: self.text("#status") == "")
        self.browser.get_log("browser")

    def test_other_pages_are_refused(self) -> None:
        """A page of another server sends the same requests as this page, and even knows the word."""
        visits = self.write("visits.csv", VISITS)
        server, other = self.start(visits), self.start()
        self.browser.get(other.address)
        # The policy of a malicious page lets it send this.
        self.browser.execute_cdp_cmd("Page.setBypassCSP", {"enabled": True})
        self.addCleanup(self.browser.execute_cdp_cmd, "Page.setBypassCSP", {"enabled": False})
        self.browser.get(other.address)
        for mode in ("no-cors", "cors"):
            said = self.browser.execute_async_script(
                "const done = arguments[arguments.length - 1];"
                "fetch(arguments[0], {method: 'POST', mode: arguments[1], body: 'DROP TABLE visits'})"
                "  .then((response) => done(response.type), () => done('failed'))",
                server.address + "run",
                mode,
            )
            self.assertEqual(said, "failed", mode)
        self.assertEqual([table["name"] for table in server.state()["tables"]], ["VISITS"])
        self.browser.get(server.address.replace("127.0.0.1", "evil.example"))
        self.assertIn("the header Host names another server", self.text("body"))
        self.browser.get_log("browser")

    def test_the_policy_holds(self) -> None:
        """Neither a script in the page nor a part from elsewhere is loaded."""
        self.open()
        expected = ["connect-src", "frame-src", "img-src", "script-src-elem", "script-src-elem"]
        violated = self.browser.execute_async_script(
            "const [awaited, done] = arguments, found = [];"
            "addEventListener('securitypolicyviolation', (event) => {"
            "  found.push(event.effectiveDirective);"
            "  if (found.length === awaited) setTimeout(() => done(found.sort()), 500);"
            "});"
            "const add = (tag, properties) =>"
            "  document.body.append(Object.assign(document.createElement(tag), properties));"
            "add('script', {textContent: 'window.wasRun = true'});"
            "add('script', {src: 'http://evil.example:1/a.js'});"
            "add('img', {src: 'http://evil.example:1/a.png'});"
            "add('iframe', {src: 'http://evil.example:1/'});"
            "fetch('http://evil.example:1/').catch(() => {});",
            len(expected),
        )
        self.assertEqual(violated, expected)
        self.assertIsNone(self.js("return window.wasRun"))
        self.browser.get_log("browser")

    def test_texts_are_no_markup(self) -> None:
        self.open()
        self.drop("<img src=x onerror=alert(1)>.csv", "<b>a</b>\n<i>\n")
        self.wait_for("#replies", "<img src=x onerror=alert(1)>.csv: line 2, column '<b>a</b>': '<i>' is no integer")
        self.run_script("SELECT '<img src=x>' FROM t")
        self.wait_for("#replies", "SELECT '<img src=x>' FROM t")
        self.assertEqual(self.js("return document.querySelectorAll('#replies img, #replies b, #replies i').length"), 0)

    def test_a_text_that_is_too_long(self) -> None:
        self.open()
        self.js("document.getElementById('script').value = 'TABLES;' + ' '.repeat(2 ** 20)")
        self.find("#run").click()
        self.wait_for("#replies", "what is to be run has 1048583 bytes, and the page takes 1048576")

    def test_dark_and_light(self) -> None:
        self.open()
        found = []
        for scheme in ("light", "dark"):
            words = {"features": [{"name": "prefers-color-scheme", "value": scheme}]}
            self.browser.execute_cdp_cmd("Emulation.setEmulatedMedia", words)
            found.append(self.js("return getComputedStyle(document.body).backgroundColor"))
        self.browser.execute_cdp_cmd("Emulation.setEmulatedMedia", {"features": []})
        self.assertEqual(found, ["rgb(255, 255, 255)", "rgb(20, 23, 28)"])

    def test_what_is_typed_stays_when_the_page_is_loaded_again(self) -> None:
        self.open()
        self.js("document.getElementById('script').focus()")
        self.press("SELECT 'half")
        self.browser.refresh()
        self.assertEqual(self.find("#script").get_attribute("value"), "SELECT 'half")

    def test_picture(self) -> None:
        """What WEB.md shows."""
        self.browser.set_window_size(1200, 1190)
        self.addCleanup(self.browser.set_window_size, 1200, 1000)
        rows = [f"{day},{40 + day * 37 % 23},{600 + day * 91 % 340}\n" for day in range(1, 31)]
        self.open(self.write("visits.csv", "day,visits,seconds\n" + "".join(rows)))
        self.find("#tables summary").click()
        self.run_script("SELECT day, visits, second FROM visits")
        self.run_script("SELECT day, seconds, visits FROM visits WHERE visits > 41")
        self.find("#show-plot").click()
        self.wait_for("#plot-caption", "bars by DAY")
        self.js(
            "for (const [id, height] of [['canvas', '12rem'], ['grid', '10rem']])"
            "  document.getElementById(id).style.height = height;"
            "dispatchEvent(new Event('resize')); document.activeElement.blur(); scrollTo(0, 0)"
        )
        path = os.environ.get("BITCOL_PICTURE")
        if path:
            self.assertTrue(self.browser.save_screenshot(path))
