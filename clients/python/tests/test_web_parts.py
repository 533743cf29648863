"""Parts of the page's server, and of the page, each by itself."""

from __future__ import annotations

import shutil
import subprocess
import sys
import unittest
from email.message import Message
from pathlib import Path
from unittest import mock

import bitcol
from bitcol.reply import Reply, reply_of
from bitcol.shell.fault import Fault
from bitcol.shell.store import Store
from bitcol.web.answers import Answers
from bitcol.web.guard import Guard
from bitcol.web.workspace import Workspace, statements_in
from tests.test_door import ScriptedDoor

PAGE = Path(bitcol.__file__).resolve().parent / "web/page"
FULL = 16_777_216

# What the page's modules compute, compared with results worked out by hand.
MODULES = """
import assert from "node:assert/strict";
import { orderBy, range, scale, ticks } from "./chart.js";
import { exchanged } from "./editor.js";
import { rowAt, topOf, widthOf } from "./grid.js";
import { Rows, cellsOf } from "./rows.js";
import { address } from "./server.js";

assert.deepEqual(ticks(0, 100, 5), [0, 20, 40, 60, 80, 100]);
assert.deepEqual(ticks(-7, 12, 4), [-5, 0, 5, 10]);
assert.deepEqual(ticks(3, 5, 10), [3, 4, 5]);
assert.deepEqual(ticks(7, 7, 5), [7]);
// Not -0.
assert.deepEqual(ticks(-2147483648, 2147483647, 2), [0]);

const up = scale({ least: -10, greatest: 30 }, 400, 0);
assert.deepEqual([up(-10), up(0), up(30)], [400, 300, 0]);
assert.equal(scale({ least: 5, greatest: 5 }, 0, 100)(5), 50);
assert.deepEqual(range([[3, NaN, -2], [8]]), { least: -2, greatest: 8 });
assert.equal(range([[NaN], []]), null);
assert.deepEqual(orderBy(Float64Array.of(5, NaN, -1, 5, 2)), [2, 4, 0, 3]);

// 1,000,000 rows, of which 20 are seen: the last that can be the first is 999,980.
assert.equal(rowAt(0, 4_999_000, 1_000_000, 20), 0);
assert.equal(rowAt(4_999_000, 4_999_000, 1_000_000, 20), 999_980);
assert.equal(rowAt(2_499_500, 4_999_000, 1_000_000, 20), 499_990);
assert.equal(topOf(499_990, 4_999_000, 1_000_000, 20), 2_499_500);
assert.equal(topOf(999_999, 4_999_000, 1_000_000, 20), 4_999_000);
assert.equal(rowAt(0, 0, 5, 20), 0);
assert.equal(topOf(3, 0, 5, 20), 0);
assert.deepEqual(["A", "MEDIAN(SECONDS)", "X".repeat(128)].map((heading) => widthOf(heading, false)), [13, 17, 42]);

assert.deepEqual(cellsOf("1,NULL\\n18014398501093376,2\\n"), [["1", "NULL"], ["18014398501093376", "2"]]);
assert.deepEqual(cellsOf(""), []);
assert.deepEqual(exchanged("SELECT se FROM t", 9, "se", "seconds"), { text: "SELECT seconds FROM t", place: 14 });
// Of two pages of rows that somebody scrolls over, the one that is come back to is asked for anew.
globalThis.fetch = (target, { signal }) => new Promise((resolve, reject) => {
  signal.addEventListener("abort", () => reject(new DOMException("", "AbortError")));
  setTimeout(() => resolve(new Response("7\\n".repeat(256))), 20);
});
let changes = 0;
const rows = new Rows(1, 10_000, () => { changes += 1; });
rows.want(0, 10);
rows.want(5000, 5010);
rows.want(0, 10);
assert.equal(rows.row(3), undefined);
await new Promise((resolve) => setTimeout(resolve, 200));
assert.deepEqual([rows.row(3), rows.row(5000), changes], [["7"], undefined, 1]);

assert.equal(address("rows", { answer: 1, columns: undefined, name: "a b&c" }), "rows?answer=1&name=a+b%26c");
assert.equal(address("state"), "state");
"""


def answer(rows: int, headings: str = "A") -> Reply:
    """Returns an answer with this many rows, all with the same cell."""
    line = b",".join([b"5"] * (headings.count(",") + 1))
    return reply_of(headings.encode() + b"\n" + (line + b"\n") * rows + b"rows %d\n" % rows)


class Guarding(unittest.TestCase):
    def fault(self, guard: Guard, target: str, **headers: str) -> str | None:
        message = Message()
        for name, value in headers.items():
            message[name.replace("_", "-")] = value
        return guard.fault(target, message)

    def test_the_port_that_browsers_leave_out(self) -> None:
        guard = Guard("word", 80)
        self.assertEqual(guard.address, "http://127.0.0.1/word/")
        self.assertIsNone(self.fault(guard, "/word/", Host="127.0.0.1", Origin="http://127.0.0.1"))
        self.assertIsNone(self.fault(guard, "/word/run?a=/b/", Host="localhost"))
        for headers in ({"Host": "127.0.0.1:80"}, {"Host": "127.0.0.1", "Origin": "http://localhost"}, {}):
            self.assertIsNotNone(self.fault(guard, "/word/", **headers), headers)

    def test_what_follows_the_word(self) -> None:
        guard = Guard("word", 1)
        self.assertEqual(guard.rest("/word/"), ("", ""))
        self.assertEqual(guard.rest("/word/rows?first=1&a=/x/"), ("rows", "first=1&a=/x/"))
        # The word in the query doesn't count as the word of the address.
        self.assertIsNotNone(self.fault(guard, "/x?/word/", Host="127.0.0.1:1"))
        self.assertIsNotNone(self.fault(guard, "/w\u00f6rd/", Host="127.0.0.1:1"))


class Keeping(unittest.TestCase):
    def test_the_oldest_goes_first(self) -> None:
        answers = Answers(cells=10, answers=9)
        numbers = [answers.keep(answer(4)) for _ in range(2)]
        self.assertEqual(numbers, [1, 2])
        # Looking at the first answer keeps it.
        answers.get(1)
        self.assertEqual(answers.keep(answer(1, "A,B")), 3)
        self.assertEqual(len(answers.get(1)), 4)
        self.assertEqual(answers.keep(answer(1)), 4)
        with self.assertRaisesRegex(Fault, "isn't kept any more"):
            answers.get(2)
        self.assertEqual([len(answers.get(number)) for number in (1, 3, 4)], [4, 1, 1])

    def test_the_last_is_kept_whatever_its_length(self) -> None:
        answers = Answers(cells=10, answers=9)
        answers.keep(answer(4))
        self.assertEqual(len(answers.get(answers.keep(answer(50)))), 50)
        with self.assertRaises(Fault):
            answers.get(1)

    def test_so_many_answers(self) -> None:
        answers = Answers(cells=10, answers=2)
        for _ in range(3):
            answers.keep(answer(0))
        with self.assertRaises(Fault):
            answers.get(1)
        self.assertEqual([len(answers.get(number)) for number in (2, 3)], [0, 0])


class LongAnswers(unittest.TestCase):
    def workspace(self, *replies: bytes) -> Workspace:
        """Returns a workspace whose store answers this, on a machine with room for four columns of a full table as
        CSV."""
        for module, cells in (("web.workspace", 2**40), ("shell.exporting", 2**26)):
            patch = mock.patch(f"bitcol.{module}.cells_that_fit", return_value=cells)
            patch.start()
            self.addCleanup(patch.stop)
        self.door = ScriptedDoor(*replies)
        self.store = Store(lambda: bitcol.Session(door=self.door))
        self.addCleanup(self.store.close)
        return Workspace(self.store)

    def test_a_full_table_of_four_columns_is_answered(self) -> None:
        tables = b"TABLE,COLUMNS,ROWS\nT,4,%d\nrows 1\n" % FULL
        rows = b"A,A,A,A\n" + b"1,2,3,4\n" * 3 + b"rows 3\n"
        workspace = self.workspace(b"A,A,A,A\nrows 0\n", tables, rows, b"units 7\n")
        (outcome,) = workspace.run("SELECT a, a, a, a FROM t")
        self.assertEqual((outcome.error, outcome.answer, outcome.units), (None, 1, 7))
        self.assertEqual(workspace.answers.get(1).lines_at(2, 1), "1,2,3,4\n")

    def test_a_program_that_knows_no_units(self) -> None:
        tables = b"TABLE,COLUMNS,ROWS\nT,1,1\nrows 1\n"
        workspace = self.workspace(b"A\nrows 0\n", tables, b"A\n1\nrows 1\n", b"error 10: syntax error\n")
        (outcome,) = workspace.run("SELECT a FROM t")
        self.assertEqual((outcome.error, outcome.answer, outcome.units), (None, 1, None))

    def test_one_of_five_is_refused_before_it_is_asked_for(self) -> None:
        tables = b"TABLE,COLUMNS,ROWS\nT,5,%d\nrows 1\n" % FULL
        headings = b"A,B,C,D,E\nrows 0\n"
        workspace = self.workspace(headings, tables, b"COUNT(*)\n%d\nrows 1\n" % FULL, b"ok\n")
        first, second = workspace.run("SELECT * FROM t; DROP TABLE u")
        self.assertEqual(
            first.error,
            "the answer has 16777216 rows of 5 columns, which is 83886080 cells, and there is room for 67108864: "
            "choose fewer columns or rows, or SAVE the table",
        )
        self.assertIsNone(second.error)
        sent = [b"SELECT * FROM t\nWHERE 1 = 0;", b"TABLES;", b"SELECT COUNT(*) FROM t;", b"DROP TABLE u\n;"]
        self.assertEqual(self.door.scripts, sent)

    def test_a_table_of_five_is_no_csv(self) -> None:
        tables = b"TABLE,COLUMNS,ROWS\nT,5,%d\nrows 1\n" % FULL
        workspace = self.workspace(b"A,B,C,D,E\nrows 0\n", tables, b"COUNT(*)\n%d\nrows 1\n" % FULL)
        with self.assertRaisesRegex(Fault, "16777216 rows of 5 columns"):
            workspace.export("t", Path("never.csv"))
        self.assertEqual(len(self.door.scripts), 3)


class Statements(unittest.TestCase):
    def test_their_texts_and_lines(self) -> None:
        found = statements_in("-- a;\nTABLES; SELECT ';'\n;\n\nDROP TABLE t -- last")
        expected = [("TABLES", 2), ("SELECT ';'\n", 2), ("DROP TABLE t -- last\n", 5)]
        self.assertEqual([(each.text, each.line) for each in found], expected)


class Modules(unittest.TestCase):
    @unittest.skipUnless(shutil.which("node"), "node is not installed")
    def test_what_the_modules_of_the_page_compute(self) -> None:
        ended = subprocess.run(
            ["node", "--input-type=module"], input=MODULES, capture_output=True, text=True, cwd=PAGE, check=False
        )
        self.assertEqual((ended.returncode, ended.stderr), (0, ""))

    def test_the_page_names_nothing_elsewhere(self) -> None:
        for path in PAGE.iterdir():
            text = path.read_text(encoding="utf-8").replace("http://www.w3.org/2000/svg", "")
            for word in ("http:", "https:", "//cdn", "innerHTML", "eval("):
                self.assertNotIn(word, text, path.name)


def setUpModule() -> None:
    if not shutil.which("node"):
        print("node is not installed: the page's modules are not tried by themselves", file=sys.stderr)


if __name__ == "__main__":
    unittest.main()
