"""Replies as the language's description gives them, whole and in pieces."""

import unittest

import bitcol
from bitcol.reply import Reply, ReplyBuffer, reply_of

REPLIES = (
    b"ok\n",
    b"ok 3\n",
    b"error 20: no such table\n",
    b"A,B\n1,NULL\n-2,5\nrows 2\n",
    b"ROWS\nrows 0\n",
    b"TABLE,COLUMNS,ROWS\nT,1,0\nrows 1\n",
    b"SUM(A)\nNULL\nrows 1\n",
    b"units 36\n",
)


class Cutting(unittest.TestCase):
    def test_pieces_of_each_size(self) -> None:
        stream = b"".join(REPLIES)
        for size in range(1, len(stream) + 1):
            buffer, found = ReplyBuffer(), []
            for start in range(0, len(stream), size):
                buffer.add(stream[start : start + size])
                while (reply := buffer.take()) is not None:
                    found.append(reply)
            self.assertEqual(tuple(found), REPLIES)


class Meaning(unittest.TestCase):
    def test_one_line(self) -> None:
        self.assertIsNone(reply_of(b"ok\n").count)
        self.assertEqual(reply_of(b"ok 16777216\n").count, 16777216)
        self.assertEqual(reply_of(b"ok 0\n").count, 0)
        self.assertFalse(reply_of(b"ok 3\n").is_units)

    def test_units(self) -> None:
        reply = reply_of(b"units 18446744073709551615\n")
        self.assertEqual((reply.count, reply.is_units, reply.headings, len(reply)), (2**64 - 1, True, (), 0))
        self.assertEqual(repr(reply), "<Reply units 18446744073709551615>")

    def test_rows_that_no_program_wrote(self) -> None:
        reply = Reply.of_rows(("A", "NOTE"), [(1, "x"), (None, "")])
        self.assertEqual((reply.rows(), reply.first_rows(1), len(reply)), ([(1, "x"), (None, "")], [(1, "x")], 2))
        self.assertEqual("".join(reply.lines("NULL")), "1,x\nNULL,\n")
        self.assertEqual(list(Reply.of_rows(("A",), [])), [])

    def test_rows_and_columns(self) -> None:
        reply = reply_of(b"A,B\n1,NULL\n-2,5\nrows 2\n")
        self.assertEqual((reply.headings, reply.count, len(reply)), (("A", "B"), 2, 2))
        self.assertEqual(reply.rows(), [(1, None), (-2, 5)])
        self.assertEqual(reply.columns(), [[1, -2], [None, 5]])
        self.assertEqual(list(reply), [(1, None), (-2, 5)])

    def test_few_and_many_headings(self) -> None:
        for width in (1, 3, 500):
            headings = tuple(f"COLUMN_{place}" for place in range(width))
            for first in (7, 8):
                line = ",".join(str(first + place) for place in range(width))
                reply = reply_of(f"{','.join(headings)}\n{line}\nrows 1\n".encode())
                self.assertEqual(reply.headings, headings)
                self.assertEqual(reply.rows(), [tuple(range(first, first + width))])

    def test_no_rows(self) -> None:
        reply = reply_of(b"A,B\nrows 0\n")
        self.assertEqual((reply.rows(), reply.columns(), len(reply)), ([], [[], []], 0))

    def test_a_list_of_tables(self) -> None:
        reply = reply_of(b"TABLE,COLUMNS,ROWS\nNULL_1,2,30\nT,1,0\nrows 2\n")
        self.assertEqual(reply.rows(), [("NULL_1", 2, 30), ("T", 1, 0)])

    def test_a_scalar(self) -> None:
        self.assertEqual(reply_of(b"SUM(A)\n-36028797018963968\nrows 1\n").scalar(), -36028797018963968)
        self.assertIsNone(reply_of(b"SUM(A)\nNULL\nrows 1\n").scalar())
        with self.assertRaisesRegex(bitcol.ProgrammingError, "2 cells"):
            reply_of(b"A,B\n1,2\nrows 1\n").scalar()

    def test_rows_of_a_reply_without(self) -> None:
        for data in (b"ok 3\n", b"ok\n"):
            with self.assertRaisesRegex(bitcol.InterfaceError, "no rows"):
                reply_of(data).rows()


class Parts(unittest.TestCase):
    def test_lines_of_a_short_answer(self) -> None:
        reply = reply_of(b"A,B\n1,NULL\n-2,5\n3,4\nrows 3\n")
        self.assertEqual(reply.lines_at(0, 2), "1,NULL\n-2,5\n")
        self.assertEqual(reply.lines_at(2, 5), "3,4\n")
        self.assertEqual((reply.lines_at(1, 0), reply.lines_at(3, 1), reply.lines_at(10**9, 1)), ("", "", ""))
        reply.rows()
        self.assertEqual(reply.lines_at(0, 2), "1,NULL\n-2,5\n")

    def test_lines_of_an_answer_without(self) -> None:
        self.assertEqual(reply_of(b"A\nrows 0\n").lines_at(0, 5), "")
        self.assertEqual(reply_of(b"TABLE,COLUMNS,ROWS\nT,1,0\nrows 1\n").lines_at(0, 5), "T,1,0\n")
        with self.assertRaisesRegex(bitcol.InterfaceError, "no rows"):
            reply_of(b"ok 3\n").lines_at(0, 1)

    def test_each_line_around_blocks(self) -> None:
        """Rows 0 to 3999 have 5 bytes, and 16,384 rows of 2 bytes follow: blocks end within lines and between them."""
        reply = reply_of(b"A\n" + b"1234\n" * 4000 + b"7\n" * 16_384 + b"rows 20384\n")
        for row in (0, 1, 3275, 3276, 3277, 3999, 4000, 4001, 10_383, 10_384, 10_385, 12_191, 12_192, 12_193, 20_383):
            expected = ["1234\n" if place < 4000 else "7\n" for place in (row, row + 1) if place < 20_384]
            self.assertEqual(reply.lines_at(row, 2), "".join(expected), row)

    def test_the_longest_answer(self) -> None:
        """16,777,216 rows, of which the last is different."""
        reply = reply_of(b"A\n" + b"5\n" * (2**24 - 1) + b"-8\nrows 16777216\n")
        self.assertEqual(reply.lines_at(2**24 - 2, 3), "5\n-8\n")
        self.assertEqual(reply.lines_at(2**23, 1), "5\n")


class Refusals(unittest.TestCase):
    def test_the_class_of_each_number(self) -> None:
        classes = {
            bitcol.StatementRefused: (10, 11, 12, 20, 21, 22, 23, 24, 25, 27, 60),
            bitcol.DataRefused: (13, 26, 42, 43, 44),
            bitcol.StoreRefused: (28, 40, 41, 46, 90),
        }
        self.assertEqual(sorted(sum(classes.values(), ())), sorted(bitcol.ErrorNumber))
        for kind, numbers in classes.items():
            for number in numbers:
                refusal = reply_of(b"error %d: for a reason\n" % number).refusal
                self.assertIs(type(refusal), kind)
                assert refusal is not None
                self.assertEqual((refusal.number, refusal.text), (number, "for a reason"))
                self.assertEqual(str(refusal), f"error {number}: for a reason")

    def test_a_number_that_is_not_known(self) -> None:
        refusal = reply_of(b"error 99: something new\n").refusal
        assert refusal is not None
        self.assertEqual((type(refusal), refusal.number), (bitcol.Refused, 99))

    def test_the_hierarchy(self) -> None:
        self.assertTrue(issubclass(bitcol.StatementRefused, bitcol.ProgrammingError))
        self.assertTrue(issubclass(bitcol.DataRefused, bitcol.DataError))
        self.assertTrue(issubclass(bitcol.StoreRefused, bitcol.OperationalError))
