"""Parts that aren't queried: truth values of conditions by the ends of columns, compared with the rows themselves."""

from __future__ import annotations

import unittest

import bitcol
from bitcol.cluster.condition import may_be_met
from bitcol.cluster.manifest import Ends

from .statements import Chance
from .support import SEED, say


def ends_of(values: list[int | None]) -> Ends:
    known = [value for value in values if value is not None]
    return Ends(min(known, default=None), max(known, default=None), len(values) - len(known))


class Worked(unittest.TestCase):
    ENDS = {"A": Ends(3, 7, 0), "B": Ends(10, 10, 2), "C": Ends(None, None, 5)}

    def test_worked_conditions(self) -> None:
        met = """a = 3 | 3 = a | a <> 3 | a < 4 | a > 6 | a >= 7 | a <= 3 | b IS NULL | b IS NOT NULL | c IS NULL
            b = 10 | a < b | NOT a = 5 | a BETWEEN 7 AND 9 | a NOT BETWEEN 4 AND 7 | a IN (1, 7) | a NOT IN (3, 4)
            (c = 1) IS UNKNOWN | (b = 10) IS NOT TRUE | a = 9 OR a = 7 | a = -1 OR b = +10 | -1 < a
            a NOT BETWEEN 4 AND NULL | a BETWEEN 5 AND 4 | a = 3 AND (b = 10 OR c = 1)
            NOT (a = 9) AND NOT (b <> 10)"""
        never = """a = 2 | a < 3 | a > 7 | 8 <= a | a IS NULL | c IS NOT NULL | c = 1 | c <> 1 | a = NULL | b <> 10
            a > b | NULL = NULL
            a = b | NOT a < 8 | a BETWEEN 8 AND 9 | a NOT BETWEEN 1 AND 9 | a IN (1, 2, NULL)
            a NOT IN (1, NULL) | (a = 3) IS UNKNOWN | (b = 10) IS FALSE | a = 3 AND a = 8 | 1 = 0 | NOT (a >= 3)
            (a > 9 OR c = 1) IS TRUE | a = 9 OR a = 8 AND a = 3"""
        for text, wanted in ((met, True), (never, False)):
            for line in text.splitlines():
                for condition in line.split("|"):
                    self.assertEqual(may_be_met(condition, self.ENDS), wanted, condition)

    def test_what_cannot_be_read_is_asked(self) -> None:
        texts = (None, "", "a", "z = 1", "a = ", "a = 9 b", "(a = 9", "a IS", "a = 9 IS MAYBE", "9 = '9'", "a = ²")
        for condition in texts:
            self.assertTrue(may_be_met(condition, self.ENDS), condition)
        self.assertTrue(may_be_met("(" * 100_000, self.ENDS))


class AgainstRows(unittest.TestCase):
    def test_random_conditions(self) -> None:
        """A part in which a row is found is never left out."""
        counts = {"conditions": 0, "met": 0, "left out": 0}
        with bitcol.Session() as session:
            for number in range(40):
                chance = Chance(f"ends-{SEED}-{number}")
                definition, rows = chance.table()
                some = [row for row in rows[: chance.choice([1, 2, 5])]]
                if not some:
                    continue
                session.execute(f"CREATE TABLE t ({definition})")
                session.executemany(f"INSERT INTO t VALUES ({', '.join('?' * len(some[0]))})", some)
                ends = {name.upper(): ends_of(list(column)) for name, column in zip(chance.names, zip(*some))}
                conditions = [chance.condition(chance.randrange(4)) for _ in range(60)]
                replies = session.answers([f"SELECT COUNT(*) FROM t WHERE {condition}" for condition in conditions])
                for condition, reply in zip(conditions, replies):
                    found = bitcol.reply_of(reply)
                    is_met = found.refusal is None and found.scalar() > 0
                    is_asked = may_be_met(condition, ends)
                    self.assertTrue(is_asked or not is_met, condition)
                    counts["conditions"] += 1
                    counts["met"] += is_met
                    counts["left out"] += not is_asked
                session.execute("DROP TABLE t")
        say(f"conditions against rows: {counts}")
        self.assertGreater(counts["left out"], counts["conditions"] // 10)
