"""No function tells want of memory without a cause, and each that refuses says what stays."""

import os
import subprocess
import sys
import unittest

from common import TOP


class MemoryAlone(unittest.TestCase):
    def test_each_refusal_has_its_clauses(self):
        script = os.path.join(TOP, "bench", "memory.py")
        ended = subprocess.run([sys.executable, script, "--check"], capture_output=True, text=True)
        self.assertEqual((ended.returncode, ended.stderr), (0, ""), ended.stdout)


if __name__ == "__main__":
    unittest.main()
