"""The examples of the page of all languages."""
from __future__ import annotations

import os
import re
import tempfile
import unittest
from pathlib import Path

PAGE = Path(__file__).resolve().parent.parent.parent / "README.md"


class Page(unittest.TestCase):
    def test_its_examples_run(self) -> None:
        blocks = re.findall(r"^```python\n(.*?)^```$", PAGE.read_text(encoding="utf-8"), re.M | re.S)
        self.assertEqual(len(blocks), 2)
        with tempfile.TemporaryDirectory() as scratch:
            self.addCleanup(os.chdir, os.getcwd())
            os.chdir(scratch)
            for block in blocks:
                exec(block, {})
            os.chdir("/")


if __name__ == "__main__":
    unittest.main()
