"""Which program a session runs, and what it says if there is none."""

import os
import tempfile
import unittest
from pathlib import Path
from unittest import mock

import bitcol


class Finding(unittest.TestCase):
    def setUp(self) -> None:
        self.program = os.path.abspath(bitcol.find_program())

    def test_what_the_variable_names(self) -> None:
        with mock.patch.dict(os.environ, {"BITCOL": "/some/program"}):
            self.assertEqual(bitcol.find_program(), "/some/program")

    def test_what_is_on_the_path(self) -> None:
        with tempfile.TemporaryDirectory() as folder:
            (Path(folder) / "bitcol").symlink_to(self.program)
            with mock.patch.dict(os.environ, {"PATH": folder, "BITCOL": ""}), bitcol.Session() as session:
                self.assertEqual(bitcol.find_program(), f"{folder}/bitcol")
                self.assertEqual(session.tables(), [])

    def test_none(self) -> None:
        with mock.patch.dict(os.environ, {"PATH": "", "BITCOL": ""}):
            with self.assertRaisesRegex(bitcol.OperationalError, "no program: name it, set BITCOL"):
                bitcol.Session()

    def test_a_program_that_is_named(self) -> None:
        with mock.patch.dict(os.environ, {"PATH": "", "BITCOL": ""}), bitcol.connect(self.program) as connection:
            self.assertEqual(connection.cursor().execute("TABLES").fetchall(), [])
