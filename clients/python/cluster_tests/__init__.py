"""Tests of tables of parts: `make -C clients check-cluster`. Tests whose packages aren't installed are skipped."""

import sys
from importlib.util import find_spec

for _name, _what in (("distributed", "the tests with workers"), ("pandas", "the tests of frames")):
    if find_spec(_name) is None:
        print(f"SKIPPED: {_what}. {_name} is not installed for {sys.executable}", file=sys.stderr)
