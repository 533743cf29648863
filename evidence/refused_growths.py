#!/usr/bin/env python3
"""Refuses each memory allocation in turn, over scripts that use every statement, and checks bitcol's replies.

    python3 evidence/refused_growths.py

The program runs with a small library in front of the C library's `malloc` and `realloc` that refuses the N-th call, N
from 1 until a run makes no such call. Each run has to end out of memory with nothing written, or with error 90 instead
of one reply, and all others those to the script without that statement; with `--stop` it ends after the error. The
files that are left have to be those of that script, too. Build bitcol first, by `rt run` in crates/bitcol; a C compiler
is needed.
"""

import itertools
import os
import resource
import subprocess
import sys
import tempfile
from dataclasses import dataclass, replace
from pathlib import Path

from common import Progress, built

LIBRARY = r"""
#define _GNU_SOURCE
#include <dlfcn.h>
#include <errno.h>
#include <fcntl.h>
#include <stdlib.h>
#include <unistd.h>

static long calls;

// Whether this call is the refused one. A file tells that there was one.
static int is_refused(void) {
    static long refused = -1;
    if (refused < 0) {
        const char *n = getenv("REFUSED");
        refused = n ? atol(n) : 0;
    }
    if (++calls != refused)
        return 0;
    close(open(getenv("REFUSED_NOTE"), O_CREAT | O_WRONLY, 0600));
    errno = ENOMEM;
    return 1;
}

void *malloc(size_t size) {
    static void *(*next)(size_t);
    if (!next)
        next = dlsym(RTLD_NEXT, "malloc");
    return is_refused() ? NULL : next(size);
}

void *realloc(void *block, size_t size) {
    static void *(*next)(void *, size_t);
    if (!next)
        next = dlsym(RTLD_NEXT, "realloc");
    return is_refused() ? NULL : next(block, size);
}
"""

ADDRESS_SPACE = 32 * 2**20

WANT = b"error 90: out of memory\n"
NO_MEMORY = (2, b"", b"bitcol: out of memory\n")
STOPPED_OR_DONE = (0, 1)

FILLED = [
    "CREATE TABLE t (a INTEGER, b INTEGER USING H DICTIONARY, c INTEGER USING S, d INTEGER USING V);",
    "INSERT INTO t VALUES (1, 5, NULL, -9), (2, NULL, 7, 300), (NULL, 5, 70000, 8), (-4, 6, 1, 8);",
]

SCRIPTS = {
    "rows and conditions": [
        *FILLED,
        "SELECT a, b FROM t WHERE (a < 3 AND b IN (5, 6, 7)) OR NOT c BETWEEN 2 AND 9 OR a < d;",
        "INSERT INTO t (d, a) VALUES (1, 2), (3, 4);",
        "SELECT * FROM t WHERE a IS NULL OR b = c;",
        "TABLES;",
    ],
    "changes": [
        *FILLED,
        "UPDATE t SET a = d, d = 70000, b = a WHERE c IS NOT NULL;",
        "DELETE FROM t WHERE a = 8;",
        "INSERT INTO t VALUES (9223372036854775807, -9223372036854775807, 0, 12);",
        "REBUILD t (a USING S DICTIONARY, d USING H);",
        "REBUILD t;",
        "SELECT * FROM t;",
    ],
    "set functions": [
        *FILLED,
        "SELECT COUNT(*), COUNT(b), SUM(a), MIN(c), MAX(d), MEDIAN(d) FROM t WHERE a <> 2;",
        "SELECT SUM(d), MEDIAN(b) FROM t;",
        "DROP TABLE t;",
        "TABLES;",
    ],
    "files": [
        "CREATE TABLE t (a INT, b INT USING P DICTIONARY);",
        "LOAD t FROM 'rows.csv' WITH HEADER;",
        "SAVE t TO 'table';",
        "OPEN u FROM 'table';",
        "SELECT * FROM u WHERE a < 2;",
        "LOAD t FROM 'missing';",
        "LOAD u FROM 'faulty.csv';",
        "TABLES;",
    ],
    "columns of BIGINT": [
        "CREATE TABLE t (a INTEGER, b BIGINT, c BIGINT USING S DICTIONARY);",
        "INSERT INTO t VALUES (1, 4294967296, -9223372036854775808), (2, 3, NULL), (NULL, NULL, 9223372036854775807);",
        "UPDATE t SET a = b;",
        "UPDATE t SET a = b, c = a WHERE a = 2;",
        "SAVE t TO 'wide';",
        "OPEN u FROM 'wide';",
        "LOAD u FROM 'wide.csv';",
        "SELECT SUM(b), MEDIAN(c) FROM u WHERE c < a OR b IS NULL;",
        "REBUILD t (b USING H);",
        "REBUILD t (b USING P);",
        "CREATE TABLE v (a BIGINT USING H);",
        "SELECT * FROM t;",
    ],
    "refusals": [
        *FILLED,
        "SELECT x FROM t;",
        "CREATE TABLE t (a INT);",
        "INSERT INTO t VALUES (1);",
        "SELECT a FROM t WHERE a = 'x';",
        "SELECT a FROM t WHERE a =;",
        "SELECT 'never closed",
    ],
}

# The worked examples that `test_scripts` has as tests.
ONE_COLUMN = ["CREATE TABLE t (a INTEGER);", "INSERT INTO t VALUES (3), (NULL), (-1);"]
TWO_COLUMNS = "CREATE TABLE t (a INT, b INT);"
HALVED = [TWO_COLUMNS, "INSERT INTO t VALUES " + ", ".join(f"({i}, {i % 2})" for i in range(1, 301)) + ";"]

WORKED = {
    "a first script": [*ONE_COLUMN, "SELECT a FROM t WHERE a < 3;"],
    "unknown rows": [
        "CREATE TABLE t (a INT);",
        "INSERT INTO t VALUES (1), (2), (NULL);",
        "SELECT a FROM t WHERE a NOT IN (1, NULL);",
        "SELECT a FROM t WHERE NOT (a < 2);",
        "SELECT a FROM t WHERE (a < 2) IS UNKNOWN;",
    ],
    "two columns exchanged": [
        TWO_COLUMNS,
        "INSERT INTO t VALUES (1, 2), (NULL, 5);",
        "UPDATE t SET a = b, b = a;",
        "SELECT * FROM t;",
    ],
    "a wider value": [
        "CREATE TABLE t (a INT);",
        "INSERT INTO t VALUES (1), (2), (3);",
        "UPDATE t SET a = 1000000 WHERE a = 2;",
        "SELECT a FROM t;",
    ],
    "half of the rows": [
        *HALVED,
        "DELETE FROM t WHERE b = 0;",
        "SELECT COUNT(*) FROM t WHERE NOT a IS NULL;",
        "REBUILD t (a USING H);",
        "SELECT COUNT(*) FROM t WHERE NOT a IS NULL;",
    ],
    "rows of a file": [
        TWO_COLUMNS,
        "LOAD t FROM 'marked.csv';",
        "SELECT * FROM t;",
        "LOAD t FROM 'marked.csv' WITH HEADER;",
        "LOAD t FROM 'faulty.csv';",
    ],
    "a table and its file": [
        *ONE_COLUMN,
        "SAVE t TO 'f';",
        "OPEN u FROM 'f';",
        "SELECT a FROM u;",
        "TABLES;",
        "OPEN v FROM 'rows.csv';",
    ],
    "a column and another": [
        "CREATE TABLE t (a INT USING V, b INT USING S DICTIONARY);",
        "INSERT INTO t VALUES (5, 5), (-3, 4), (NULL, 1), (7, NULL);",
        "SELECT * FROM t WHERE a < b;",
        "SELECT * FROM t WHERE NOT a < b;",
        "SELECT * FROM t WHERE b <> 2;",
    ],
    "a report": [
        "CREATE TABLE t (a INT);",
        "INSERT INTO t VALUES (4), (NULL), (1), (9), (2);",
        "SELECT MEDIAN(a), SUM(a), COUNT(a), MIN(a), MAX(a) FROM t;",
        "SELECT MIN(a), MEDIAN(a) FROM t WHERE a > 2;",
    ],
    "a cut in a name": [
        "CREATE TABLE t (a INTEGER);",
        "-- one; two\nSAVE t TO 'x;y';",
        "SELECT a FROM t;",
        "TABLES" + " " * 65_530 + ";",
        "TABLES" + " " * 65_531 + ";",
    ],
    "no such table": ["DROP TABLE t;", "TABLES;"],
    "the ends of both types": [
        "CREATE TABLE t (a BIGINT, b INTEGER);",
        "INSERT INTO t VALUES (-9223372036854775808, 1), (9223372036854775807, 2);",
        "SELECT SUM(a), MEDIAN(a), MAX(a) FROM t;",
        "SELECT b FROM t WHERE a > b;",
        "UPDATE t SET b = a WHERE b = 2;",
        "UPDATE t SET b = a WHERE b = 3;",
        "REBUILD t (a USING H);",
        "CREATE TABLE u (a BIGINT USING H);",
    ],
    "sparse groups": [
        "CREATE TABLE t (a BIGINT, b BIGINT USING S);",
        "INSERT INTO t VALUES (-9223372036854775808, 1), (9223372036854775807, 2), (NULL, 3), (0, NULL), (0, -4);",
        "SELECT a, SUM(b), MEDIAN(b), COUNT(*) FROM t GROUP BY a;",
        "SELECT b, MAX(a) FROM t WHERE NOT b = 2 GROUP BY b;",
        "SELECT * FROM t GROUP BY a;",
    ],
    "units": [
        *HALVED,
        "STATS SELECT a FROM t WHERE a < 7 AND b = 0;",
        "DELETE FROM t WHERE b = 0;",
        "STATS SELECT COUNT(*) FROM t WHERE a < 7 OR a < b;",
        "STATS SELECT c FROM t;",
    ],
}


def groups_in(layout, kind):
    """A report by groups over columns in this layout and kind."""
    return [
        f"CREATE TABLE t (a INT USING {layout} {kind}, b INT USING {layout} {kind});",
        "INSERT INTO t VALUES (2, 7), (1, NULL), (2, -3), (NULL, 4), (1, 5), (-8, 0);",
        "SELECT a, COUNT(*), COUNT(b), SUM(b), MIN(b), MAX(b), MEDIAN(b) FROM t GROUP BY a;",
        "SELECT SUM(b), a FROM t WHERE b > 0 GROUP BY a;",
        "STATS SELECT a, COUNT(*) FROM t WHERE b > 0 GROUP BY a;",
    ]


LAID = itertools.product("PVHS", ("OFFSET", "DICTIONARY"))
GROUPED = {f"groups in {layout} {kind}": groups_in(layout, kind) for layout, kind in LAID}

FILES = {
    "rows.csv": b"a,b\r\n1,2\r\n,-3\r\n\"2\",\r\n",
    "faulty.csv": b"1,2\n3,x\n",
    "wide.csv": b"1,9223372036854775807,-1\n,,\n",
    "marked.csv": b"\xef\xbb\xbf\"7\",\r\nnull,-2\r\n+5,08\r\n",
}


@dataclass
class Ended:
    output: bytes
    error: bytes
    status: int
    was_refused: bool
    files: dict

    def left(self):
        """What is written, to the standard output and to files."""
        return self.output, tuple(sorted(self.files.items()))


class Program:
    def __init__(self, library, note):
        self.program, self.library, self.note = built("bitcol"), str(library), note

    def run(self, statements, refused=0, stop=False):
        with tempfile.TemporaryDirectory() as folder:
            for name, data in FILES.items():
                (Path(folder) / name).write_bytes(data)
            self.note.unlink(missing_ok=True)
            told = {"LD_PRELOAD": self.library, "REFUSED": str(refused), "REFUSED_NOTE": str(self.note)}
            command = [self.program, "--stop"] if stop else [self.program]
            script, surroundings = "\n".join(statements).encode(), {**os.environ, **told}
            ended = subprocess.run(
                command, input=script, cwd=folder, env=surroundings, capture_output=True, timeout=60, check=False
            )
            files = {path.name: path.read_bytes() for path in Path(folder).iterdir()}
            return Ended(ended.stdout, ended.stderr, ended.returncode, self.note.exists(), files)

    def replies(self, statements):
        """The reply to each statement: what the script up to it writes, without what it writes up to the one before."""
        outputs = [self.run(statements[:count]).output for count in range(len(statements) + 1)]
        return [after[len(before) :] for before, after in itertools.pairwise(outputs)]


def allowed(program, statements, stop):
    """What a run with one refused allocation may leave: error 90 for a statement, and what the others alone write."""
    for place, others in enumerate(statements[:place] + statements[place + 1 :] for place in range(len(statements))):
        replies = program.replies(others)
        replies.insert(place, WANT)
        if stop:
            errors = [number for number, reply in enumerate(replies) if reply.startswith(b"error")]
            replies = replies[: errors[0] + 1]
            others = others[:place]
        yield replace(program.run(others, stop=stop), output=b"".join(replies)).left()


def check(program, name, statements, stop):
    may_be_left = set(allowed(program, statements, stop))
    usual = program.run(statements, stop=stop)
    wants = nothing = usual_replies = 0
    for refused in itertools.count(1):
        ended = program.run(statements, refused, stop)
        if not ended.was_refused:
            break
        if (ended.status, ended.output, ended.error, ended.files) == (*NO_MEMORY, FILES):
            nothing += 1
        elif ended.status in STOPPED_OR_DONE and ended.left() in may_be_left:
            wants += 1
        elif ended.status == usual.status and ended.left() == usual.left():
            usual_replies += 1
        else:
            told = f"status {ended.status}, {ended.output!r}, {ended.error!r}, files {ended.files!r}"
            sys.exit(f"{name}, growth {refused} refused: {told}")
    counts = f"{wants:4} error 90, {nothing:3} runs that wrote nothing, {usual_replies:3} as if it had been given"
    print(f"{name:20} {'with --stop' if stop else '':11} {counts}")


def check_address_space():
    """Fills a table under a limit on the address space: each INSERT adds its rows or is out of memory.

    What follows is executed on the rows that were added.
    """
    fill = "INSERT INTO t VALUES " + ",".join(f"({i}, {-i})" for i in range(4_000)) + ";"
    count = "SELECT COUNT(*), SUM(a), SUM(b) FROM t;"
    create = "CREATE TABLE t (a INT USING P, b INT USING V);"
    script = "\n".join([create, *[fill] * 2_000, count, "DROP TABLE t;", create, fill, count])
    ended = subprocess.run(
        [built("bitcol")],
        input=script.encode(),
        capture_output=True,
        timeout=600,
        check=False,
        preexec_fn=lambda: resource.setrlimit(resource.RLIMIT_AS, (ADDRESS_SPACE,) * 2),
    )
    replies = ended.stdout.splitlines(keepends=True)
    fills, rest = replies[1:2_001], replies[2_001:]
    added, wants = fills.count(b"ok 4000\n"), fills.count(WANT)
    heading, one = b"COUNT(*),SUM(A),SUM(B)\n", 4_000 * 3_999 // 2
    whole = b"%d,%d,%d\n" % (4_000 * added, added * one, -added * one)
    alone = b"4000,%d,%d\n" % (one, -one)
    wanted = [heading, whole, b"rows 1\n", b"ok\n", b"ok\n", b"ok 4000\n", heading, alone, b"rows 1\n"]
    if ended.returncode != 0 or added + wants != 2_000 or wants == 0 or rest != wanted:
        told = f"status {ended.returncode}, {added} added, {wants} out of memory, {rest!r}"
        sys.exit(f"{ADDRESS_SPACE // 2**20} MB of address space: {told}")
    megabytes = ADDRESS_SPACE // 2**20
    print(f"{megabytes} MB of address space: {added} statements added their rows, {wants} were out of memory")


def main():
    with tempfile.TemporaryDirectory() as folder:
        source, library = Path(folder) / "refuse.c", Path(folder) / "refuse.so"
        source.write_text(LIBRARY)
        subprocess.run(["cc", "-shared", "-fPIC", "-O1", "-o", library, source, "-ldl"], check=True)
        program = Program(library, Path(folder) / "note")
        scripts = SCRIPTS | WORKED | GROUPED
        progress = Progress("refused growths", 2 * len(scripts))
        for name, statements in scripts.items():
            for stop in (False, True):
                progress.clear()
                check(program, name, statements, stop)
                progress.step()
        progress.clear()
    check_address_space()


if __name__ == "__main__":
    main()
