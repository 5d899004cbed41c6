"""The example of README.md runs, and prints what the page shows."""
import re
import subprocess
import sys
import unittest
from pathlib import Path

HOME = Path(__file__).resolve().parent.parent


class Usage(unittest.TestCase):
    def test_example(self):
        page = (HOME / "README.md").read_text("utf-8")
        shown = re.search(r"^\$ .*bindings/python/tests/usage\.py\n(.*?)^```$", page, re.S | re.M)[1]
        printed = subprocess.run([sys.executable, HOME / "tests" / "usage.py"], cwd=HOME.parents[1], check=True,
                                 stdout=subprocess.PIPE, text=True).stdout
        self.assertEqual(printed, shown)
