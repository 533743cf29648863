"""The page's server over HTTP: whom it answers, and what."""

from __future__ import annotations

import os
import socket
import sqlite3
import time
import unittest
from concurrent.futures import ThreadPoolExecutor
from pathlib import Path

from bitcol import Table
from tests.terminal import SECONDS
from tests.web import WebTestCase

POLICY = (
    "default-src 'none'; script-src 'self'; style-src 'self'; img-src 'self'; connect-src 'self'; "
    "base-uri 'none'; form-action 'none'; frame-ancestors 'none'"
)
VISITS = "day,seconds\n1,30\n1,\n2,45\n3,20\n"
LONGEST = 16_777_216


class Guarded(WebTestCase):
    """Whom the server answers."""

    def setUp(self) -> None:
        super().setUp()
        self.server = self.start(self.write("visits.csv", VISITS))

    def statuses(self, header: str, *values: str) -> list[int]:
        """Returns the statuses of requests with this header."""
        target = self.server.target("page.css")
        return [self.server.send("GET", target, headers={header: value}).status for value in values]

    def test_the_word_is_needed(self) -> None:
        word = self.server.word
        self.assertGreaterEqual(len(word), 32)
        reason = "the address lacks its word: take the whole address that the program wrote"
        for target in ("/", f"/{word}", f"/{word}x/", f"/{word[:-1]}/", f"/x/{word}/", "/page.js", f"/?{word}/", "*"):
            reply = self.server.send("GET", target)
            self.assertEqual((reply.status, reply.json), (403, {"error": reason}), target)
        self.assertEqual(self.server.send("POST", "/run", "DROP TABLE visits").status, 403)
        for method in ("POST", "HEAD", "PUT", "DELETE", "OPTIONS", "TRACE", "x"):
            self.assertEqual(self.server.send(method, "/wrong/run", "DROP TABLE visits").status, 403, method)
        self.assertEqual([table["name"] for table in self.server.state()["tables"]], ["VISITS"])

    def test_words_differ(self) -> None:
        self.assertNotEqual(self.server.word, self.start().word)

    def test_the_host_is_this_server(self) -> None:
        port = self.server.host.partition(":")[2]
        self.assertEqual(self.statuses("Host", self.server.host, f"localhost:{port}", f"LOCALHOST:{port}"), [200] * 3)
        wrong = ("evil.example", f"evil.example:{port}", "127.0.0.1", "127.0.0.1:1", f"{self.server.host}.example", "")
        self.assertEqual(self.statuses("Host", *wrong), [403] * len(wrong))
        self.assertEqual(self.raw(f"GET {self.server.target('')} HTTP/1.1\r\n\r\n"), b"403")
        self.assertEqual(self.raw(self.head("GET", "", "Host: evil.example")), b"403")

    def test_other_origins_are_refused(self) -> None:
        own = f"http://{self.server.host}"
        self.assertEqual(self.statuses("Origin", own), [200])
        wrong = ("http://evil.example", "null", "http://127.0.0.1:1", own.replace("http", "https"), own + "/", "")
        self.assertEqual(self.statuses("Origin", *wrong), [403] * len(wrong))
        self.assertEqual(self.statuses("Sec-Fetch-Site", "same-origin", "none"), [200] * 2)
        self.assertEqual(self.statuses("Sec-Fetch-Site", "cross-site", "same-site"), [403] * 2)
        target, headers = self.server.target("run"), {"Origin": "http://evil.example"}
        self.assertEqual(self.server.send("POST", target, "DROP TABLE visits", headers).status, 403)
        self.assertEqual(len(self.server.state()["tables"]), 1)

    def test_each_response_has_the_policy(self) -> None:
        replies = [self.server.get(name) for name in ("", "page.js", "page.css", "icon.svg", "state", "nothing")]
        replies += [self.server.send("GET", "/"), self.server.send("PUT", self.server.target(""))]
        replies.append(self.server.post("run", ""))
        self.assertEqual([reply.status for reply in replies], [200, 200, 200, 200, 400, 404, 403, 501, 200])
        for reply in replies:
            self.assertEqual(reply.headers["Content-Security-Policy"], POLICY)
            self.assertEqual(reply.headers["Referrer-Policy"], "no-referrer")
            self.assertEqual(reply.headers["X-Content-Type-Options"], "nosniff")
            self.assertEqual(reply.headers["Cache-Control"], "no-store")
            self.assertNotIn("Access-Control-Allow-Origin", reply.headers)

    def test_bodies_have_limits(self) -> None:
        for name, length, status in (
            ("run", "1048577", b"413"),
            ("complete", "1048577", b"413"),
            ("import?name=x.csv", "4294967297", b"413"),
            ("run", "9" * 5000, b"413"),
            ("run", "x", b"411"),
            ("run", "-1", b"411"),
            ("run", "\u0663", b"411"),
        ):
            self.assertEqual(self.raw(self.head("POST", name, f"Content-Length: {length}")), status, (name, length))
        self.assertEqual(self.raw(self.head("POST", "run", "Transfer-Encoding: chunked")), b"411")
        self.assertEqual(self.raw(self.head("GET", "page.js", "Content-Length: 1")), b"413")
        self.assertEqual(self.raw(self.head("GET", "page.js", f"X: {'x' * 70_000}")), b"431")
        self.assertEqual(self.raw(self.head("GET", "x" * 70_000)), b"414")
        self.assertEqual(self.server.run("SELECT COUNT(*) FROM visits" + " " * 60_000)[0]["rows"], 1)

    def test_there_is_nothing_else(self) -> None:
        names = ("nothing", "run", "../page.html", "page/page.js", "server.py", "page.html", "%70age.js", "page.js/")
        for name in names:
            self.assertEqual(self.server.get(name).status, 404, name)
        self.assertEqual(self.server.post("page.js", "").status, 404)
        for words in ({"after": "x"}, {}, {"after": "1" * 16}, {"after": "-1"}, {"after": "\u0663"}):
            self.assertEqual(self.server.get("state", **words).status, 400, words)
        self.assertEqual(self.server.post("run", b"\xff").json, {"error": "the text of a request is to be UTF-8"})

    def test_no_other_address_is_served(self) -> None:
        port = int(self.server.host.partition(":")[2])
        with self.assertRaises(ConnectionRefusedError):
            socket.create_connection(("127.0.0.2", port), SECONDS)

    def head(self, method: str, name: str, *headers: str) -> str:
        """Returns a request without its body."""
        first = f"{method} {self.server.target(name)} HTTP/1.1"
        return "\r\n".join([first, f"Host: {self.server.host}", *headers, "", ""])

    def raw(self, text: str) -> bytes:
        """Sends these bytes, and returns the status of the response."""
        host, _, port = self.server.host.partition(":")
        with socket.create_connection((host, int(port)), SECONDS) as connection:
            connection.sendall(text.encode())
            return connection.makefile("rb").readline().split()[1]


class Statements(WebTestCase):
    """The outcomes of statements, and their answers."""

    def test_a_script(self) -> None:
        server = self.start()
        outcomes = server.run(
            "CREATE TABLE t (a INT, b INT);\nINSERT INTO t VALUES (3, 1), (NULL, 2), (-1, 3); -- three\n"
            "SELECT a FROM t WHERE a < 3;;\n\n  SELECT ';' FROM t; SELECT b, a FROM t WHERE b > 1;\nTABLES"
        )
        seconds = [outcome.pop("seconds", None) for outcome in outcomes]
        units = [outcome.pop("units", None) for outcome in outcomes]
        self.assertEqual(
            outcomes,
            [
                {"statement": "CREATE TABLE t (a INT, b INT)", "line": 1, "rows": None, "headings": [], "answer": None},
                {
                    "statement": "INSERT INTO t VALUES (3, 1), (NULL, 2), (-1, 3)",
                    "line": 2,
                    "rows": 3,
                    "headings": [],
                    "answer": None,
                },
                {"statement": "SELECT a FROM t WHERE a < 3", "line": 3, "rows": 1, "headings": ["A"], "answer": 1},
                {"statement": "SELECT ';' FROM t", "line": 5, "error": "error 10: syntax error"},
                {
                    "statement": "SELECT b, a FROM t WHERE b > 1",
                    "line": 5,
                    "rows": 2,
                    "headings": ["B", "A"],
                    "answer": 2,
                },
                {
                    "statement": "TABLES",
                    "line": 6,
                    "rows": 1,
                    "headings": ["TABLE", "COLUMNS", "ROWS"],
                    "answer": 3,
                },
            ],
        )
        self.assertEqual([found is None for found in seconds], [False, False, False, True, False, False])
        self.assertTrue(all(0 < found < SECONDS for found in seconds if found is not None))
        self.assertEqual(units, [None, None, 3, None, 2, None])
        lines = [server.get("rows", answer=number, first=0, count=9).text for number in (1, 2, 3)]
        self.assertEqual(lines, ["-1\n", "2,NULL\n3,-1\n", "T,2,3\n"])

    def test_units(self) -> None:
        """Ten planes in the segment of 512, and four in the three others."""
        server = self.start(self.table("t", {"a": range(1000)}))
        (first, second, third) = server.run(
            "-- all\nSELECT COUNT(*) FROM t;STATS SELECT a FROM t WHERE a < 512 -- half\n;"
            "SELECT a FROM t WHERE a < 512 GROUP BY a"
        )
        self.assertEqual((first["units"], first["rows"]), (0, 1))
        self.assertEqual([second[name] for name in ("units", "rows", "headings", "answer")], [22, None, [], None])
        self.assertEqual((third["units"], third["rows"]), (22, 512))

    def test_scripts_that_are_none(self) -> None:
        server = self.start()
        self.assertEqual(server.run(" ;; -- nothing\n;"), [])
        (outcome,) = server.run("SELECT 'open FROM t; TABLES")
        self.assertIn("is not closed", outcome["error"])
        (first, second) = server.run("SELECT a FROM u; TABLES")
        self.assertEqual((first["error"], second["rows"]), ("error 20: no such table", 0))

    def test_no_digit_is_lost(self) -> None:
        """8,388,608 times 2,147,483,647 is more than the numbers of JavaScript hold."""
        server = self.start(self.table("t", {"a": [2**31 - 1] * 2**23}))
        server.run("SELECT SUM(a), MIN(a) FROM t")
        self.assertEqual(server.get("rows", answer=1, first=0, count=1).text, "18014398501093376,2147483647\n")

    def test_windows_of_rows(self) -> None:
        columns = {"a": range(100_000), "b": [None, 7] * 50_000, "c": range(0, -100_000, -1)}
        server = self.start(self.table("t", columns))
        server.run("SELECT a, b, c FROM t")

        def rows(**words: object) -> str:
            return server.get("rows", answer=1, **words).text

        self.assertEqual(rows(first=0, count=2), "0,NULL,0\n1,7,-1\n")
        self.assertEqual(rows(first=70_001, count=2), "70001,7,-70001\n70002,NULL,-70002\n")
        self.assertEqual(rows(first=70_001, count=2, columns="2,0"), "-70001,70001\n-70002,70002\n")
        self.assertEqual(rows(first=99_999, count=5, columns="1"), "7\n")
        self.assertEqual((rows(first=100_000, count=5), rows(first=5, count=0)), ("", ""))
        self.assertEqual(rows(first=0, count=65_536).count("\n"), 65_536)
        refused = [
            ({"first": 0, "count": 65_537}, "count is at most 65536"),
            ({"first": 0, "count": 1, "columns": "3"}, "the answer has no such column"),
            ({"first": 0, "count": 1, "columns": "a"}, "columns is to be a number"),
            ({"count": 1}, "first is to be given once"),
        ]
        for words, reason in refused:
            reply = server.get("rows", answer=1, **words)
            self.assertEqual((reply.status, reply.json), (400, {"error": reason}))
        reply = server.get("rows", answer=2, first=0, count=1)
        self.assertEqual(reply.status, 422)
        self.assertIn("isn't kept any more", reply.json["error"])

    def test_the_longest_answer(self) -> None:
        server = self.start(self.table("t", {"a": range(LONGEST)}))
        (outcome,) = server.run("SELECT a FROM t")
        self.assertEqual(outcome["rows"], LONGEST)
        self.assertEqual(server.get("rows", answer=1, first=LONGEST - 2, count=9).text, "16777214\n16777215\n")
        self.assertEqual(server.get("rows", answer=1, first=9_999_999, count=2).text, "9999999\n10000000\n")

    def test_an_answer_as_csv(self) -> None:
        server = self.start(self.write("visits.csv", VISITS))
        server.run("SELECT * FROM visits; SELECT seconds FROM visits")
        reply = server.get("answer.csv", answer=1)
        self.assertEqual(reply.text, "DAY,SECONDS\n1,30\n1,\n2,45\n3,20\n")
        self.assertEqual(reply.headers["Content-Disposition"], 'attachment; filename="answer-1.csv"')
        self.assertEqual(server.get("answer.csv", answer=2).text, 'SECONDS\n30\n""\n45\n20\n')
        self.assertEqual(server.get("answer.csv", answer=3).status, 422)

    def test_a_table_as_a_file(self) -> None:
        server = self.start(self.write("visits.csv", VISITS))
        reply = server.get("table", table="visits", form="table")
        self.assertEqual(Table.of_file(reply.body).columns(), {"DAY": [1, 1, 2, 3], "SECONDS": [30, None, 45, 20]})
        self.assertEqual(reply.headers["Content-Disposition"], 'attachment; filename="VISITS.table"')
        self.assertEqual(server.get("table", table="visits", form="csv").text, "DAY,SECONDS\n1,30\n1,\n2,45\n3,20\n")
        self.assertEqual(server.get("table", table="u", form="csv").json, {"error": "error 20: no such table"})
        self.assertEqual(server.get("table", table="visits", form="exe").status, 400)
        self.assertEqual(server.get("table", table="a/../b", form="csv").status, 422)

    def test_tables_and_layouts(self) -> None:
        server = self.start()
        server.run("CREATE TABLE t (a INT USING H DICTIONARY, b INT USING P); CREATE TABLE u (c BIGINT)")
        server.run("INSERT INTO t VALUES (1, 2)")
        self.assertEqual(
            server.state()["tables"],
            [
                {
                    "name": "T",
                    "rows": 1,
                    "columns": [{"name": "A", "type": "INTEGER"}, {"name": "B", "type": "INTEGER"}],
                },
                {"name": "U", "rows": 0, "columns": [{"name": "C", "type": "BIGINT"}]},
            ],
        )
        first = [{"layout": "H", "kind": "DICTIONARY"}, {"layout": "P", "kind": "OFFSET"}]
        self.assertEqual(server.get("layouts", table="t").json, first)
        server.run("SELECT * FROM t; REBUILD t (a USING S)")
        second = [{"layout": "S", "kind": "DICTIONARY"}, {"layout": "P", "kind": "OFFSET"}]
        self.assertEqual(server.get("layouts", table="T").json, second)
        error = {"error": "layouts of V, from a table file: error 20: no such table"}
        self.assertEqual(server.get("layouts", table="v").json, error)
        self.assertEqual(server.get("layouts", table="FROM").status, 422)
        self.assertEqual(server.post("run?x", "TABLES").json["error"], "the words after the ?: bad query field: 'x'")

    def test_words_are_completed(self) -> None:
        server = self.start(self.write("visits.csv", VISITS))
        server.state()
        self.assertEqual(server.post("complete", "SELECT sec").json, {"word": "sec", "words": ["seconds"]})
        self.assertEqual(server.post("complete", "TABLES;\nSELECT a FROM ").json, {"word": "", "words": ["VISITS"]})
        words = ["DAY", "DELETE", "DICTIONARY", "DROP"]
        self.assertEqual(server.post("complete", "SELECT SUM(D").json, {"word": "D", "words": words})
        files = {"word": "vis", "words": ["visits.csv"]}
        self.assertEqual(server.post("complete", "LOAD visits FROM 'vis").json, files)
        # A dot doesn't begin a command here.
        self.assertEqual(server.post("complete", ".im").json, {"word": ".im", "words": []})

    def test_two_windows_take_turns(self) -> None:
        """If the statements of two scripts were interleaved, some count would differ."""
        server = self.start()
        server.run("CREATE TABLE t (a INT)")
        changes = "DELETE FROM t; INSERT INTO t VALUES (1), (2); INSERT INTO t VALUES (3);"
        script = changes + "SELECT COUNT(*), SUM(a) FROM t"

        def window(_: int) -> str:
            answer = server.run(script)[-1]["answer"]
            return server.get("rows", answer=answer, first=0, count=1).text

        with ThreadPoolExecutor(8) as windows:
            self.assertEqual(list(windows.map(window, range(100))), ["3,6\n"] * 100)
        self.assertEqual(server.state()["tables"][0]["rows"], 3)

    def table(self, name: str, columns: dict[str, object]) -> Path:
        """Returns a table file with these columns."""
        return self.write(f"{name}.table", b"".join(map(bytes, Table.of(columns).file_pieces())))


class Files(WebTestCase):
    """The outcomes of files that are dropped on the page."""

    def setUp(self) -> None:
        super().setUp()
        self.server = self.start()

    def drop(self, name: str, content: str | bytes, **words: object) -> tuple[list[object], list[str]]:
        """Returns the tables that are made from a file, and the errors."""
        found = self.server.post("import", content, name=name, **words).json
        return [(made["table"], made["rows"], made["notes"]) for made in found["imported"]], found["errors"]

    def names(self) -> list[str]:
        return [table["name"] for table in self.server.state()["tables"]]

    def test_csv_becomes_a_table(self) -> None:
        self.assertEqual(self.drop("visits.csv", VISITS), ([("VISITS", 4, [])], []))
        self.server.run("SELECT seconds FROM visits WHERE day = 1")
        self.assertEqual(self.server.get("rows", answer=1, first=0, count=9).text, "30\nNULL\n")

    def test_names_that_are_none(self) -> None:
        notes = [
            "2024 visits.csv: table '2024 visits' is called T_2024_VISITS",
            "2024 visits.csv: column 2 'Day' is called DAY_2",
            "2024 visits.csv: column 3 'first name' is called FIRST_NAME",
            "2024 visits.csv: column 4 'count' is called C_COUNT",
        ]
        made = self.drop("2024 visits.csv", "day,Day,first name,count\n1,2,3,4\n")
        self.assertEqual(made, ([("T_2024_VISITS", 1, notes)], []))

    def test_what_is_no_csv(self) -> None:
        wide = f"{'9' * 20} has more than 64 bits, and a column holds -9223372036854775808 to 9223372036854775807"
        for name, content, reason in (
            ("a.png", b"\x89PNG\r\n\0\0", "no CSV file: line 2 has a zero byte"),
            ("a.csv", b"", "the file is empty, and a CSV file begins with a header"),
            ("a.csv", "day,seconds\n1,30\n2,half\n", "line 3, column 'seconds': 'half' is no integer"),
            ("a.csv", f"day,bytes\n1,{'9' * 20}\n", f"line 2, column 'bytes': {wide}"),
            ("a.csv", "1,2\n3,4\n", "line 1 has integers alone, and a CSV file begins with a header"),
            ("a.csv", "a,b\n1\n", "line 2 has 1 field, and the header has 2"),
            ("a.table", b"BITCOL\1", "error 44: not a table file"),
            ("a.db", b"SQLite format 3\0", "SQLite: "),
        ):
            made, errors = self.drop(name, content)
            self.assertEqual((made, len(errors)), ([], 1), name)
            self.assertTrue(errors[0].startswith(f"{name}: {reason}"), errors)
        self.assertEqual(self.names(), [])

    def test_a_table_that_is_there(self) -> None:
        self.drop("visits.csv", VISITS)
        reason = "visits.csv: there is a table VISITS already: DROP it, or give this one another name"
        self.assertEqual(self.drop("visits.csv", "a\n1\n"), ([], [reason]))
        self.assertEqual(self.drop("visits.csv", "a\n1\n", table="other"), ([("OTHER", 1, [])], []))
        self.assertEqual([table["rows"] for table in self.server.state()["tables"]], [4, 1])

    def test_other_files(self) -> None:
        path = self.folder / "some.db"
        connection = sqlite3.connect(path)
        connection.executescript("CREATE TABLE a (x); INSERT INTO a VALUES (1), (NULL)")
        connection.executescript("CREATE TABLE b (y); INSERT INTO b VALUES ('no')")
        connection.close()
        made, errors = self.drop("some.db", path.read_bytes())
        self.assertEqual((made, errors), ([("A", 2, [])], ["some.db, table b: row 1, column 'y': 'no' is no integer"]))
        table = b"".join(map(bytes, Table.of({"z": [5, None]}).file_pieces()))
        self.assertEqual(self.drop("t.table", table), ([("T", 2, [])], []))

    def test_a_name_is_no_path(self) -> None:
        for number, name in enumerate(("../../etc/a.csv", "C:\\a.csv", "/a.csv")):
            made, errors = self.drop(name, "x\n1\n", table=f"t{number}")
            self.assertEqual((len(made), errors), (1, []))
        self.assertEqual(self.drop("../b.csv", "x\n1\n"), ([("B", 1, [])], []))
        self.assertEqual(self.drop("x/", "x\nz\n")[1], ["file: line 2, column 'x': 'z' is no integer"])

    def test_a_file_that_is_cut_off(self) -> None:
        host, _, port = self.server.host.partition(":")
        target = self.server.target("import", {"name": "a.csv"})
        head = f"POST {target} HTTP/1.1\r\nHost: {self.server.host}\r\nContent-Length: 99\r\n\r\n"
        with socket.create_connection((host, int(port)), SECONDS) as connection:
            connection.sendall(head.encode() + b"a\n1\n")
            connection.shutdown(socket.SHUT_WR)
            self.assertEqual(connection.makefile("rb").read(), b"")
        self.assertEqual(self.names(), [])
        self.assertEqual(self.server.end(), ("", 0))


class Ends(WebTestCase):
    """How the server and its program end, and start."""

    def test_a_program_that_died(self) -> None:
        program, number = self.observed_program()
        server = self.start(self.write("visits.csv", VISITS), BITCOL=str(program))
        server.run("SELECT * FROM visits")
        last = server.state()["messages"][-1]["number"]
        self.kill_program(number)
        died = "the program was killed by SIGKILL; its tables are gone"
        outcomes = server.run("SELECT COUNT(*) FROM visits; CREATE TABLE t (a INT)")
        self.assertEqual([outcome["statement"] for outcome in outcomes], ["SELECT COUNT(*) FROM visits"])
        self.assertEqual(outcomes[0]["error"], died)
        # Both windows are told, and the earlier answer is still there.
        for _ in range(2):
            state = server.state(last)
            texts = [message["text"] for message in state["messages"]]
            self.assertEqual(texts, [died, "another program was started, and it has no tables"])
            self.assertEqual(state["tables"], [])
        self.assertEqual(server.get("rows", answer=1, first=3, count=9).text, "3,20\n")
        self.assertEqual(server.post("import", VISITS, name="visits.csv").json["imported"][0]["rows"], 4)
        self.kill_program(number)
        self.assertEqual(server.state()["tables"], [])

    def test_a_program_that_died_and_is_missing(self) -> None:
        program, number = self.observed_program()
        server = self.start(BITCOL=str(program))
        self.kill_program(number)
        other = program.rename(program.with_name("elsewhere"))
        self.assertIn("was killed by SIGKILL", server.run("TABLES")[0]["error"])
        reply = server.post("run", "TABLES")
        self.assertEqual(reply.status, 503)
        self.assertIn("the program can't be started", reply.json["error"])
        other.rename(program)
        self.assertEqual(server.run("TABLES")[0]["rows"], 0)

    def test_a_missing_program(self) -> None:
        self.assert_fails(
            ("web",),
            "error: the program can't be started: [Errno 2] No such file or directory: '/nowhere/bitcol'\n",
            status=2,
            BITCOL="/nowhere/bitcol",
        )

    def test_a_port_that_is_taken(self) -> None:
        port = self.start().host.partition(":")[2]
        self.assert_fails(("web", "--port", port), f"error: port {port} is taken\n", status=2)

    def test_a_port_that_is_chosen(self) -> None:
        with socket.create_server(("127.0.0.1", 0)) as free:
            port = free.getsockname()[1]
        self.assertEqual(self.start("--port", port).host, f"127.0.0.1:{port}")

    def test_ports_that_are_none(self) -> None:
        for word in ("65536", "-1", "http", "", "\u0663"):
            ended = self.run_shell("web", "--port", word)
            self.assertEqual((ended.returncode, ended.stdout), (2, ""), word)
            self.assertIn("usage: python3 -m bitcol web", ended.stderr)

    def test_files_of_the_command_line(self) -> None:
        broken, odd = self.write("broken.csv", "a\nx\n"), self.write("odd.csv", "a b\n1\n")
        server = self.start(broken, f"{odd}:two", "missing.csv")
        self.assertEqual(server.lines, [f"{odd}: column 1 'a b' is called A_B", "TWO: 1 row"])
        state = server.state()
        self.assertEqual([table["name"] for table in state["tables"]], ["TWO"])
        reasons = [f"{broken}: line 2, column 'a': 'x' is no integer", "missing.csv: No such file or directory"]
        texts = [message["text"] for message in state["messages"]]
        self.assertEqual(texts, [reasons[0], *server.lines, reasons[1]])
        self.assertEqual(server.end(), ("".join(f"error: {reason}\n" for reason in reasons), 0))

    def test_the_program_ends_with_the_server(self) -> None:
        program, number = self.observed_program()
        server = self.start(BITCOL=str(program))
        self.assertEqual(server.end(), ("", 0))
        with self.assertRaises(ProcessLookupError):
            self.kill_program(number)

    def test_a_statement_does_not_keep_the_server(self) -> None:
        """The program reads a statement and never answers: the server waits for two seconds."""
        program = self.write("slow", "#!/bin/sh\nhead -c 1 > taken\ncat > /dev/null\n")
        program.chmod(0o755)
        server = self.start(BITCOL=str(program))
        with ThreadPoolExecutor(1) as window:
            asked = window.submit(server.post, "run", "TABLES")
            limit = time.monotonic() + SECONDS
            while not (self.folder / "taken").exists() or not (self.folder / "taken").read_bytes():
                self.assertLess(time.monotonic(), limit)
                time.sleep(0.01)
            self.assertEqual(server.end(), ("", 130))
            self.assertIsInstance(asked.exception(SECONDS), ConnectionError)

    def test_a_file_with_a_name_that_is_no_text(self) -> None:
        path = os.fsdecode(os.fsencode(str(self.folder)) + b"/\xe9.csv")
        Path(path).write_text("a\n1\n")
        server = self.start(path)
        self.assertEqual([table["name"] for table in server.state()["tables"]], ["T"])
        self.assertIn("is called T", server.lines[0])

    def test_a_request_does_not_keep_the_server(self) -> None:
        server = self.start()
        host, _, port = server.host.partition(":")
        with socket.create_connection((host, int(port)), SECONDS) as connection:
            connection.sendall(b"GET ")
            self.assertEqual(server.end()[1], 0)


if __name__ == "__main__":
    unittest.main()
