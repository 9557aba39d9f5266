"""Tests of bench/ablate.py: each part that it turns off is there."""

import sys
import tempfile
import unittest
from pathlib import Path

from ward import ROOT

sys.path.insert(0, str(ROOT / "bench"))

import ablate  # noqa: E402


class Parts(unittest.TestCase):
    def test_each_part_is_turned_off_in_a_copy(self):
        rows = ROOT / "python" / "inrc2pb" / "rows"
        for part, changes in ablate.PARTS.items():
            with self.subTest(part), tempfile.TemporaryDirectory() as name:
                command = ablate.copied(part, Path(name))
                self.assertTrue(command.is_file())
                for module, _, new in changes:
                    text = (Path(name) / "python/inrc2pb/rows" / f"{module}.py").read_text()
                    self.assertIn(new, text)
                    self.assertNotEqual(text, (rows / f"{module}.py").read_text())
                    compile(text, module, "exec")

    def test_a_part_that_is_not_there_or_twice(self):
        for text in ("", "x = 1\nx = 1\n"):
            with self.assertRaises(ValueError):
                ablate.changed(text, "x = 1", "x = 2")


if __name__ == "__main__":
    unittest.main()
