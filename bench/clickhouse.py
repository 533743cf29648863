"""ClickHouse as one of the compared stores: `clickhouse local` if it is installed, or a server of its own.

The table is in memory (engine Memory), and each query runs in one thread. Times are the wall times that ClickHouse
reports for each query by --time. It gets all queries of a round at once; between them a marker is selected.
"""

import atexit
import shutil
import socket
import subprocess
import sys
import tempfile
import time
from collections.abc import Iterable, Iterator
from pathlib import Path

from common import data_file
from queries import Columns, Query, Taken, shortened

MARK = "--next--"
KINDS = {"INT": "Nullable(Int32)", "BIGINT": "Nullable(Int64)"}
CONFIG = """<yandex><logger><level>warning</level><log>{home}/log</log><errorlog>{home}/errors</errorlog></logger>
<http_port>{http}</http_port><tcp_port>{port}</tcp_port><listen_host>127.0.0.1</listen_host>
<path>{home}/data/</path><tmp_path>{home}/tmp/</tmp_path><users_config>{home}/users.xml</users_config>
<default_profile>default</default_profile><default_database>default</default_database>
<mark_cache_size>536870912</mark_cache_size></yandex>
"""
USERS = """<yandex><profiles><default/></profiles><quotas><default/></quotas><users><default><password></password>
<networks><ip>127.0.0.1</ip></networks><profile>default</profile><quota>default</quota></default></users></yandex>
"""


def clickhouse_command() -> list[str] | None:
    """The command of `clickhouse local`, or that of the client if there is a server too, or None."""
    if program := shutil.which("clickhouse"):
        return [program, "local"]
    if program := shutil.which("clickhouse-local"):
        return [program]
    if shutil.which("clickhouse-server") and (program := shutil.which("clickhouse-client")):
        return [program]
    return None


def is_local(command: list[str]) -> bool:
    return command[-1] == "local" or command[0].endswith("-local")


def free_port() -> int:
    with socket.socket() as asked:
        asked.bind(("127.0.0.1", 0))
        return int(asked.getsockname()[1])


def marked_csv(columns: Columns) -> Path:
    """All rows in one CSV file, with NULL written as ClickHouse reads it."""
    path = data_file("clickhouse.csv")
    with path.open("w") as out:
        for source in columns.files:
            with source.open() as file:
                out.writelines(",".join(cell or "\\N" for cell in line.rstrip("\n").split(",")) + "\n" for line in file)
    return path


class Server:
    """A server on the loopback, with a folder of its own; both end with the bench."""

    def __init__(self) -> None:
        self.folder = tempfile.TemporaryDirectory()
        home, self.port = Path(self.folder.name), free_port()
        (home / "users.xml").write_text(USERS)
        config = home / "config.xml"
        config.write_text(CONFIG.format(home=home, http=free_port(), port=self.port))
        command, nowhere = ["clickhouse-server", f"--config-file={config}"], subprocess.DEVNULL
        self.child = subprocess.Popen(command, stdout=nowhere, stderr=nowhere, cwd=home)
        atexit.register(self.close)

    def wait(self, client: list[str]) -> None:
        for _ in range(100):
            if subprocess.run([*client, "--query", "SELECT 1"], capture_output=True).returncode == 0:
                return
            time.sleep(0.2)
        self.close()
        sys.exit("the server of ClickHouse doesn't answer")

    def close(self) -> None:
        self.child.terminate()
        self.child.wait()
        self.folder.cleanup()


class ClickHouse:
    """ClickHouse with a table in memory. `clickhouse local` reads the table again for each round of queries."""

    name = "ClickHouse"

    def __init__(self, columns: Columns, command: list[str]) -> None:
        self.source = marked_csv(columns)
        self.fields = ", ".join(f"{name} {KINDS[kind]}" for name, kind in columns.types.items())
        self.loading: float | None = None
        self.server = None if is_local(command) else Server()
        self.command = command
        if self.server:
            self.command = [*command, "--port", str(self.server.port)]
            self.server.wait(self.command)
            self.fill()
        answer, _ = self.run("SELECT NOT (NULL AND 0) FORMAT CSV")
        self.is_three_valued = answer == ["1\n"]

    def fill(self) -> None:
        subprocess.run([*self.command, "--query", f"CREATE TABLE t ({self.fields}) ENGINE = Memory"], check=True)
        start = time.perf_counter()
        with self.source.open("rb") as rows:
            subprocess.run([*self.command, "--query", "INSERT INTO t FORMAT CSV"], stdin=rows, check=True)
        self.loading = time.perf_counter() - start

    def run(self, words: str) -> tuple[list[str], list[float]]:
        """What the statements write, split at the markers, and the seconds of each statement."""
        command = [*self.command, "--multiquery", "--time", "--query", words]
        if self.server:
            done = subprocess.run(command, stdin=subprocess.DEVNULL, capture_output=True, text=True)
        else:
            command += ["--structure", self.fields, "--input-format", "CSV", "--table", "source"]
            with self.source.open("rb") as rows:
                done = subprocess.run(command, stdin=rows, capture_output=True, text=True)
        if done.returncode != 0:
            sys.exit(f"ClickHouse refuses a statement: {done.stderr[:500]}")
        seconds = [float(line) for line in done.stderr.split() if line.replace(".", "", 1).isdigit()]
        return done.stdout.split(f'"{MARK}"\n'), seconds

    def round(self, queries: Iterable[Query]) -> dict[str, Taken]:
        asked = [query for query in queries if self.is_three_valued or not getattr(query, "is_three_valued", False)]
        begin = ["SET max_threads = 1"]
        if not self.server:
            begin.append("CREATE TABLE t ENGINE = Memory AS SELECT * FROM source")
        words = [f"{query.sql(ordered=True)} FORMAT CSV; SELECT '{MARK}' FORMAT CSV" for query in asked]
        answers, seconds = self.run("; ".join(begin + words))
        # The last times are those of the queries and of the markers between them.
        took = seconds[-2 * len(asked) :: 2]
        if len(took) != len(asked):
            sys.exit("ClickHouse tells other times than those of the queries")
        if not self.server:
            self.loading = seconds[-2 * len(asked) - 1]
        answered = zip(asked, answers, took)
        return {query.title: Taken(spent, shortened(query, cells(text))) for query, text, spent in answered}

    def close(self) -> None:
        if self.server:
            self.server.close()
        self.source.unlink()


def cells(text: str) -> Iterator[tuple[str, ...]]:
    """The rows of a result, as bitcol writes them."""
    return (tuple("NULL" if cell == "\\N" else cell for cell in line.split(",")) for line in text.splitlines())
