"""The client's page: runs each of its examples."""

import doctest
import os
import tempfile
import unittest
from pathlib import Path

PAGE = Path(__file__).resolve().parent.parent / "README.md"


class Page(unittest.TestCase):
    def test_examples(self) -> None:
        self.addCleanup(os.chdir, os.getcwd())
        with tempfile.TemporaryDirectory() as folder:
            os.chdir(folder)
            found = doctest.testfile(str(PAGE), module_relative=False)
        self.assertGreater(found.attempted, 20)
        self.assertEqual(found.failed, 0)
