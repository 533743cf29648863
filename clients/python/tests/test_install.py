"""The wheel and `make install`, each into a folder of its own."""

import importlib.util
import os
import re
import shutil
import subprocess
import sys
import tempfile
import unittest
import zipfile
from pathlib import Path

import bitcol

CLIENTS = Path(__file__).resolve().parent.parent.parent
MANUAL = CLIENTS / "share/bitcol.1"
LANGUAGE = CLIENTS.parent / "docs/LANGUAGE.md"
SCRIPT = "CREATE TABLE t (a INT); INSERT INTO t VALUES (3), (NULL), (-1); SELECT a FROM t WHERE a < 3;"
REPLIES = "ok\nok 3\nA\n-1\nrows 1\n"


def run(*words: object, folder: Path = CLIENTS, **environment: str) -> str:
    """Returns what a command writes to standard output. Raises an error if it fails."""
    variables = {name: value for name, value in os.environ.items() if name not in ("BITCOL", "PYTHONPATH")}
    variables.update(environment)
    ended = subprocess.run(
        list(map(str, words)), input=SCRIPT, capture_output=True, text=True, env=variables, cwd=folder, check=False
    )
    if ended.returncode:
        raise AssertionError(f"{words} ended with {ended.returncode}: {ended.stdout}{ended.stderr}")
    return ended.stdout


class InFolder(unittest.TestCase):
    def setUp(self) -> None:
        room = tempfile.TemporaryDirectory()
        self.addCleanup(room.cleanup)
        self.folder = Path(room.name)
        self.program = os.path.abspath(bitcol.find_program())


@unittest.skipUnless(shutil.which("make"), "make is not installed")
class Install(InFolder):
    def test_install_and_uninstall(self) -> None:
        for prefix in ("opt/bitcol", "two words"):
            words = ("make", "-C", CLIENTS, f"DESTDIR={self.folder}", f"PREFIX=/{prefix}", f"BITCOL={self.program}")
            run(*words, "install")
            top = self.folder / prefix
            self.assertEqual(run(top / "bin/bitcol"), REPLIES)
            self.assertEqual((top / "share/man/man1/bitcol.1").read_bytes(), MANUAL.read_bytes())
            run(*words, "uninstall")
            self.assertEqual([path for path in self.folder.rglob("*") if path.is_file()], [])


@unittest.skipUnless(shutil.which("groff"), "groff is not installed")
class Manual(unittest.TestCase):
    def test_the_page_has_no_fault_and_its_example_is_right(self) -> None:
        ended = subprocess.run(
            ["groff", "-man", "-Tascii", "-ww", "-P-cbou", MANUAL], capture_output=True, text=True, check=False
        )
        self.assertEqual((ended.returncode, ended.stderr), (0, ""))
        lines = [line.strip() for line in ended.stdout.splitlines()]
        start = next(place for place, line in enumerate(lines) if line.startswith("echo "))
        self.assertIn(SCRIPT, lines[start])
        self.assertEqual(lines[start + 1 : start + 6], REPLIES.split("\n")[:-1])

    def test_the_page_has_each_statement(self) -> None:
        """The words of the statements are those of the grammar in the description of the language."""
        grammar = LANGUAGE.read_text().partition("\nstatement = ")[2].partition("\ncoldef ")[0]
        words = set(re.findall(r"\b[A-Z]{2,}\b", grammar))
        self.assertGreaterEqual(len(words), 20)
        page = MANUAL.read_text().partition("\n.SH STATEMENTS\n")[2].partition("\n.fi\n")[0]
        plain = page.replace("\\fB", " ").replace("\\fR", " ")
        self.assertEqual(words - set(re.findall(r"\b[A-Z]{2,}\b", plain)), set())


class Wheel(InFolder):
    def make(self, folder: Path) -> Path:
        """Makes the wheel in a folder, and returns its path."""
        return Path(run(sys.executable, "-B", CLIENTS / "python/make_wheel.py", folder, BITCOL=self.program).strip())

    def test_the_same_files_make_the_same_bytes(self) -> None:
        first, second = self.make(self.folder / "a"), self.make(self.folder / "b")
        self.assertEqual(first.read_bytes(), second.read_bytes())

    def test_it_has_the_module_in_c_if_that_was_built(self) -> None:
        module = CLIENTS / "python/bitcol/_rows.abi3.so"
        wheel = self.make(self.folder)
        with zipfile.ZipFile(wheel) as files:
            found = [files.read(name) for name in files.namelist() if name.endswith(".abi3.so")]
        self.assertEqual(found, [module.read_bytes()] if module.exists() else [])
        self.assertIn("-py3-none-", wheel.name)

    def test_a_program_or_a_library_that_is_not_there(self) -> None:
        for names in ({"BITCOL": "/no/such"}, {"BITCOL": self.program, "BITCOL_LIBRARY": "/no/such"}):
            with self.assertRaisesRegex(AssertionError, r"ended with 1: /no/such isn't there: build it by \w+ .*\n$"):
                run(sys.executable, "-B", CLIENTS / "python/make_wheel.py", self.folder, **names)
        self.assertEqual(list(self.folder.iterdir()), [])

    @unittest.skipUnless(importlib.util.find_spec("pip"), "pip is not installed")
    def test_it_is_installed_with_its_program(self) -> None:
        wheel, place = self.make(self.folder), self.folder / "installed"
        pip = (sys.executable, "-m", "pip", "install", "--quiet", "--no-index", "--no-deps", "--no-compile")
        run(*pip, "--target", place, wheel)
        script = "import bitcol, sys; s = bitcol.Session(); s.run(sys.stdin.read()); print(s.tables(), bitcol.__file__)"
        said = run(sys.executable, "-B", "-c", script, PYTHONPATH=str(place), PATH="/usr/bin:/bin", folder=self.folder)
        self.assertEqual(said, f"[TableSize(name='T', columns=1, rows=3)] {place}/bitcol/__init__.py\n")
        self.assertEqual(run(place / "bin/bitcol", PYTHONPATH=str(place), folder=self.folder), REPLIES)
        shell = (sys.executable, "-B", "-m", "bitcol")
        self.assertEqual(run(*shell, PYTHONPATH=str(place), PATH="/usr/bin:/bin", folder=self.folder), "A\n-1\n")
        parts = [path.name for path in (CLIENTS / "python/bitcol/web/page").iterdir()]
        self.assertIn("page.html", parts)
        self.assertEqual(sorted(path.name for path in (place / "bitcol/web/page").iterdir()), sorted(parts))

    @unittest.skipUnless(importlib.util.find_spec("pip"), "pip is not installed")
    def test_pip_makes_one_of_the_folder(self) -> None:
        pip = (sys.executable, "-m", "pip", "wheel", "--quiet", "--no-index", "--no-deps")
        run(*pip, "--wheel-dir", self.folder / "pip", CLIENTS / "python", BITCOL=self.program)
        (wheel,) = (self.folder / "pip").iterdir()
        self.assertEqual(wheel.read_bytes(), self.make(self.folder).read_bytes())
