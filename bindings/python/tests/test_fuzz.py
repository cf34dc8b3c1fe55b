"""A short run of the fuzzer. `python tests/fuzz.py` makes long ones."""

from __future__ import annotations

import os
import subprocess
import sys
import unittest

from tests.common import HERE


class Fuzz(unittest.TestCase):
    """Some thousand calls with arguments of every type and state."""

    def test_a_short_run(self) -> None:
        command = [sys.executable, os.path.join(HERE, "fuzz.py"), "--seconds", "4", "--seed", "7"]
        done = subprocess.run(command, capture_output=True, text=True, check=False)
        self.assertEqual(done.returncode, 0, done.stderr[-2000:])


if __name__ == "__main__":
    unittest.main()
