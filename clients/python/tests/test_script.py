"""How scripts are split, values inserted, and names written. The language's description says what is expected."""

import random
import unittest
from collections.abc import Callable
from typing import Any

from bitcol import DataError, ProgrammingError, quoted
from bitcol.script import bound, bound_statement, statement_of, statements_of
from tests.support import SessionTestCase


def outcome(call: Callable[[str, Any], bytes], text: str, values: Any) -> Any:
    """Returns what the call returns, or the type and the text of what it raises."""
    try:
        return call(text, values)
    except (DataError, ProgrammingError) as fault:
        return type(fault), str(fault)


class Cutting(unittest.TestCase):
    def test_a_semicolon_ends_a_statement(self) -> None:
        self.assertEqual(statements_of("TABLES; DROP TABLE t ;"), [b"TABLES;", b" DROP TABLE t ;"])

    def test_the_last_one_is_closed(self) -> None:
        self.assertEqual(statements_of("TABLES"), [b"TABLES;"])
        self.assertEqual(statements_of("TABLES -- all of them"), [b"TABLES -- all of them\n;"])
        self.assertEqual(statements_of("TABLES -- one\n; TABLES -- two"), [b"TABLES -- one\n;", b" TABLES -- two\n;"])

    def test_blank_parts_are_left_out(self) -> None:
        self.assertEqual(statements_of(" ;\t\r\n; -- nothing; here\n ;"), [])
        self.assertEqual(statements_of(""), [])

    def test_a_semicolon_in_a_text_or_a_comment_ends_nothing(self) -> None:
        script = "LOAD t FROM 'a;b''c;d.csv'; TABLES -- x; y\n;"
        self.assertEqual(statements_of(script), [b"LOAD t FROM 'a;b''c;d.csv';", b" TABLES -- x; y\n;"])

    def test_a_comment_in_a_text_is_none(self) -> None:
        self.assertEqual(statements_of("SAVE t TO '--x'; TABLES;"), [b"SAVE t TO '--x';", b" TABLES;"])

    def test_a_minus_is_no_comment(self) -> None:
        script = "SELECT a FROM t WHERE a = - 1 OR b = -2; -- '\n"
        self.assertEqual(statements_of(script), [b"SELECT a FROM t WHERE a = - 1 OR b = -2;"])

    def test_a_text_that_is_not_closed(self) -> None:
        for script in ("LOAD t FROM 'a.csv; TABLES;", "TABLES; '", "SAVE t TO 'it''s;"):
            with self.assertRaisesRegex(ProgrammingError, "not closed"):
                statements_of(script)

    def test_one_statement(self) -> None:
        self.assertEqual(statement_of("TABLES"), b"TABLES;")
        for text in ("TABLES; TABLES", "", " ; -- none"):
            with self.assertRaisesRegex(ProgrammingError, "one statement"):
                statement_of(text)

    def test_text_without_utf8(self) -> None:
        with self.assertRaisesRegex(ProgrammingError, "UTF-8"):
            statements_of("LOAD t FROM '\ud800'")


class CuttingAsTheProgram(SessionTestCase):
    def test_random_scripts_get_a_reply_for_each_statement(self) -> None:
        """The program answers each statement that isn't blank once. So if the client splits differently than the
        program, a reply is missing, or one is left over for the list of tables."""
        generator = random.Random(3)
        for _ in range(400):
            script = "".join(generator.choice("';;-- \n\t\r\vxé1") for _ in range(generator.randint(1, 40)))
            try:
                statements = statements_of(script)
            except ProgrammingError:
                continue
            self.assertEqual(len(self.session.run(script)), len(statements), script)
            self.assertEqual(self.session.tables(), [], script)


class Binding(unittest.TestCase):
    def test_integers_and_none(self) -> None:
        statement = bound("INSERT INTO t VALUES (?, ?, ?)", (1, None, -(2**31)))
        self.assertEqual(statement.split(), "INSERT INTO t VALUES ( 1 , NULL , -2147483648 )".split())

    def test_a_place_in_a_text_or_a_comment_is_none(self) -> None:
        statement = "LOAD t FROM '?.csv' -- why?\n"
        self.assertEqual(bound(statement, ()), statement)

    def test_a_value_stays_a_token(self) -> None:
        self.assertNotIn("--", bound("UPDATE t SET a = -?", (-1,)))
        self.assertNotIn("12", bound("SELECT a FROM t WHERE a = 1?", (2,)))

    def test_what_has_an_index_is_an_integer(self) -> None:
        class Seven:
            def __index__(self) -> int:
                return 7

        self.assertEqual(bound("?", (Seven(),)).split(), ["7"])
        self.assertEqual(bound("?", (True,)).split(), ["1"])

    def test_other_types(self) -> None:
        for value in (1.0, "1", b"1", [1], object(), float("nan")):
            with self.assertRaisesRegex(ProgrammingError, "an integer or None"):
                bound("?", (value,))

    def test_the_number_of_values(self) -> None:
        for values in ((), (1,), (1, 2, 3)):
            with self.assertRaisesRegex(ProgrammingError, f"given: {len(values)}; .* 2$"):
                bound("? ?", values)

    def test_values_that_are_no_sequence(self) -> None:
        for values in ("1", b"1", bytearray(b"1"), {"a": 1}, {1}, frozenset({1}), {1: 2}.keys(), 1, iter([1]), None):
            with self.assertRaisesRegex(ProgrammingError, "list or a tuple"):
                bound("?", values)  # type: ignore[arg-type]

    def test_64_bits(self) -> None:
        self.assertEqual(bound("? ?", (-(2**63), 2**63 - 1)).split(), [str(-(2**63)), str(2**63 - 1)])
        for value in (-(2**63) - 1, 2**63, 10**5000):
            with self.assertRaisesRegex(DataError, "64 bits"):
                bound("?", (value,))

    def test_a_statement_with_values(self) -> None:
        self.assertEqual(bound_statement("SELECT a FROM t WHERE a = ?", (5,)), b"SELECT a FROM t WHERE a =  5 ;")
        self.assertEqual(bound_statement(";DELETE FROM t WHERE a=?; -- 5%", [None]), b"DELETE FROM t WHERE a= NULL ;")

    def test_a_statement_with_values_is_the_statement_of_the_text_with_them(self) -> None:
        """Also where one of both is refused, and the second time, when the text is known."""
        generator = random.Random(7)
        statements = 0
        for _ in range(4_000):
            text = "".join(generator.choice("???';;-- %\na1é\ud800") for _ in range(generator.randint(0, 9)))
            values = [generator.choice((1, -1, None, 2**63, "1")) for _ in range(generator.randint(0, 2))]
            expected = outcome(lambda text, values: statement_of(bound(text, values)), text, values)
            for _ in range(2):
                self.assertEqual(outcome(bound_statement, text, values), expected, (text, values))
            statements += isinstance(expected, bytes)
        self.assertGreater(statements, 100)

    def test_values_that_are_fewer_than_they_say(self) -> None:
        """What is sent ends with a `;` also then: else the program would wait for it."""

        class Two(list):  # type: ignore[type-arg]
            def __len__(self) -> int:
                return 2

        self.assertEqual(bound_statement("a ? b ? c", Two([1])), statement_of(bound("a ? b ? c", Two([1]))))


class FileNames(unittest.TestCase):
    def test_quotes_are_doubled(self) -> None:
        self.assertEqual(quoted("it's.csv"), "'it''s.csv'")

    def test_names_that_no_statement_has(self) -> None:
        for name, reason in (
            ("a\0b", "zero byte"),
            ("", "1 to 255"),
            ("x" * 256, "1 to 255"),
            ("é" * 128, "1 to 255"),
        ):
            with self.assertRaisesRegex(ProgrammingError, reason):
                quoted(name)
        for other in (b"a", None, 5, ["a"]):
            with self.assertRaisesRegex(ProgrammingError, f"a str or a path of str, not a {type(other).__name__}"):
                quoted(other)  # type: ignore[arg-type]
