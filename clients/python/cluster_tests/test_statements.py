"""Random statements of all kinds on the same rows in one store and in parts: the answers are the same bytes.

    make -C clients check-cluster STATEMENTS=5000 SEED=7

runs this number of them, and no other test. A difference is reported together with how to reproduce it.
"""

from __future__ import annotations

import contextlib
import time
import unittest
from collections import Counter
from collections.abc import Iterable, Iterator
from dataclasses import dataclass, replace
from unittest import mock

import bitcol
from bitcol import cluster
from bitcol.cluster import median, questions
from bitcol.cluster.condition import may_be_met
from bitcol.cluster.programs import opened
from bitcol.cluster.manifest import Manifest, Part
from bitcol.cluster.select import Select

from .statements import FORMS, Chance
from .support import SEED, STATEMENTS, ClusterTestCase, PartsTestCase, cut_rows, say

# The number of statements for each table.
OF_A_TABLE = 50
# The seconds between two lines that show the progress of a run.
TELLING_SECONDS = 10.0
ALL = "SELECT * FROM t"


def _with_all(manifest: Manifest, parts: Iterable[Part]) -> Manifest:
    """Returns the next version, in which parts without rows are kept."""
    return replace(manifest, version=manifest.version + 1, parts=tuple(parts))


@contextlib.contextmanager
def _searches(chance: Chance, few: int, probes: int) -> Iterator[None]:
    """Makes the search for medians use other steps than usual, and merges fewer answers at a time."""
    with mock.patch.object(questions, "FEW_VALUES", few), mock.patch.object(median, "PROBES", probes), \
            mock.patch.object(questions, "FAN_IN", chance.choice([2, 3, 32])):
        yield


@dataclass
class Asked:
    """A table of parts and one store with the same rows."""

    chance: Chance
    table: cluster.Table
    one: bitcol.Session
    told: str

    def wanted(self, statement: str) -> bytes:
        """Returns the expected bytes. For a STATS it adds up what the queried parts read."""
        (reply,) = self.one.answers([statement])
        if not statement.startswith("STATS") or reply.startswith(b"error"):
            return reply
        parts = self.table.manifest.parts
        condition = Select(statement.rstrip().removesuffix(";")).condition
        asked = [part for part in parts if may_be_met(condition, part.ends)] or parts[:1]
        units = 0
        for part in asked:
            with opened(self.table._place, part) as session:
                units += session.execute(statement).count or 0
        return b"units %d\n" % units


class Statements(PartsTestCase):
    """Tables with columns of each form, in parts, some of which have no rows."""

    COUNT = STATEMENTS
    MOST_ROWS = 2000
    FEW = (0, 3, 10_000)

    def setUp(self) -> None:
        super().setUp()
        self.counts: Counter[str] = Counter()
        self.forms: Counter[tuple[str, str, str]] = Counter()
        self.differences: list[str] = []
        self.last_told = time.monotonic()

    def test_random_statements(self) -> None:
        """Runs the requested number of statements, table after table."""
        while self.counts["statements"] < self.COUNT:
            self.ask_table(self.counts["tables"], min(OF_A_TABLE, self.COUNT - self.counts["statements"]))
        self.tell("all asked")
        self.assertEqual(self.differences, [])
        if self.counts["tables"] >= 40:
            self.assertEqual(set(self.forms), set(FORMS))

    def ask_table(self, number: int, count: int) -> None:
        """Makes a table, sends it some statements, and then reads its older versions."""
        chance = Chance(f"statements-{SEED}-{number}")
        few, probes = chance.choice(self.FEW), chance.choice([1, 2, 3, 14])
        definition, rows = chance.table(40 if few == 0 else self.MOST_ROWS)
        parts = cut_rows(chance, sorted(rows, key=str) if chance.random() < 0.3 else rows, 9)
        with mock.patch.object(Manifest, "following", _with_all):
            table, one = self.both(definition, parts, f"t{number}", chance.choice([None, 1, 2, 3]))
        asked = Asked(chance, table, one, f"seed {SEED}, table {number} ({definition})")
        self.counts.update({"tables": 1, "parts": len(parts), "parts of no row": sum(not part for part in parts)})
        self.forms.update(chance.forms)
        with _searches(chance, few, probes):
            versions = self.ask_statements(asked, count)
        for version, data in chance.sample(sorted(versions.items()), min(2, len(versions))):
            old = cluster.open(self.client, self.folder / f"t{number}", version)
            self.hold(asked, f"version {version}", old.answer(ALL), data)
        one.close()

    def ask_statements(self, asked: Asked, count: int) -> dict[int, bytes]:
        """Sends `count` statements, up to the first difference. Returns the rows of each version."""
        chance, table = asked.chance, asked.table
        versions = {table.version: table.answer(ALL)}
        for _ in range(count):
            self.counts["statements"] += 1
            kind = chance.choices(["select", "stats", "change"], [70, 8, 22])[0]
            if not self.ask(asked, kind, getattr(chance, kind)()):
                break
            if kind == "change" and table.version not in versions:
                versions[table.version] = table.answer(ALL)
                if not self.hold(asked, ALL, versions[table.version], asked.one.answers([ALL])[0]):
                    break
            if chance.random() < 0.02:
                table.compact(chance.choice([1, 50, 2**22]))
                versions[table.version] = asked.one.answers([ALL])[0]
        return versions

    def ask(self, asked: Asked, kind: str, statement: str) -> bool:
        """Sends a statement, and returns whether both answers are equal."""
        wanted = asked.wanted(statement)
        try:
            found = asked.table.answer(statement)
        except bitcol.NotSupportedError as refused:
            # A single store supports it.
            self.counts["not supported"] += 1
            groups = bitcol.reply_of(wanted).count or 0
            return self.hold(asked, statement, str(refused).encode() if groups <= questions.GROUP_LIMIT else b"", b"")
        self.counts[kind] += 1
        self.counts["refused"] += wanted.startswith(b"error")
        self.counts["MEDIAN"] += "MEDIAN(" in statement.upper() and not wanted.startswith(b"error")
        self.counts["GROUP BY"] += "GROUP BY" in statement and not wanted.startswith(b"error")
        self.tell_sometimes()
        return self.hold(asked, statement, found, wanted)

    def hold(self, asked: Asked, statement: str, found: bytes, wanted: bytes) -> bool:
        """Compares an answer with the expected one, and reports a difference."""
        if found == wanted:
            return True
        told = f"{asked.told}: {statement!r}: parts {found[:200]!r}, one store {wanted[:200]!r}"
        say(f"DIFFERENCE: {told}")
        self.differences.append(told)
        return False

    def tell_sometimes(self) -> None:
        """Writes a line with the progress of the run, if none was written recently."""
        if time.monotonic() - self.last_told >= TELLING_SECONDS:
            self.tell("so far")

    def tell(self, when: str) -> None:
        """Writes a line that says what was sent."""
        self.last_told = time.monotonic()
        told = ", ".join(f"{what} {count}" for what, count in self.counts.items())
        say(f"seed {SEED}, of {self.COUNT} statements {when}: {told}, differences {len(self.differences)}")


class StatementsOfWorkers(ClusterTestCase, Statements):
    """The same with two workers. Their rounds take longer, so there are only few."""

    THREADS = 2
    COUNT = STATEMENTS // 5
    FEW = (100,)


if __name__ == "__main__":
    unittest.main()
