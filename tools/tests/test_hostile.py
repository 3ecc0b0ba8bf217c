"""What octets, faults and want of memory can do: the page of promises, and short runs of the scripts that try it."""

import os
import shutil
import subprocess
import sys
import tempfile
import unittest

from common import DEVICE, TOP, needs_program

TWICE = """A semaphore is defined, and once more.

A semaphore is defined, and once more.
= steps
end
1 <OPEN> -> <OPENED>
1 A00D020101B508A003800154810101 -> A1050201019500
1 A00D020102B508A003800154810101 -> A20A800102A205A003820105
"""
HAS_COMPILER = shutil.which("cc") is not None


def ended(script, *words):
    """The status of a script of bench/, and what it printed."""
    ran = subprocess.run([sys.executable, os.path.join(TOP, "bench", script), *words], capture_output=True, text=True)
    return ran.returncode, ran.stdout + ran.stderr


class Promises(unittest.TestCase):
    def test_each_clause_is_there_and_the_tables_are_those_of_the_sources(self):
        self.assertEqual(ended("promises.py", "--check"), (0, "0 are missing\n"))


@needs_program
class Tried(unittest.TestCase):
    def program(self):
        return "--program", shutil.which(DEVICE[0])

    def test_some_damaged_octets(self):
        status, said = ended("octets.py", "--some", "1009", "--jobs", "2", *self.program())
        self.assertEqual((status, said.split("\n")[-2].split()), (0, ["0", "found"]), said)

    @unittest.skipUnless(HAS_COMPILER, "no C compiler")
    def test_the_edge(self):
        status, said = ended("edges.py", "--check", os.path.join(TOP, "docs", "RECORDING.md"), *self.program())
        self.assertEqual(status, 0, said)

    @unittest.skipUnless(HAS_COMPILER, "no C compiler")
    def test_reads_and_writes_that_fail(self):
        status, said = ended("faults.py", "--most", "61", *self.program())
        self.assertEqual((status, said.split("\n")[-2]), (0, "0 ended in another way"), said)

    @unittest.skipUnless(HAS_COMPILER, "no C compiler")
    def test_memory_that_is_refused(self):
        status, said = ended("memory_refused.py", "--most", "7", *self.program())
        self.assertEqual((status, said.split("\n")[-2]), (0, "0 ended in another way"), said)

    def test_a_refusal_that_changes_something_is_caught(self):
        faulty = os.path.join(os.path.dirname(__file__), "changes_on_a_refusal.py")
        with tempfile.TemporaryDirectory() as room:
            rows, device = os.path.join(room, "one.rows"), os.path.join(room, "device")
            with open(rows, "w", encoding="latin-1") as file:
                file.write(TWICE)
            for program, found in ((shutil.which(DEVICE[0]), 0), (device, 1)):
                if found:
                    with open(device, "w", encoding="utf-8") as file:
                        file.write(f'#!/bin/sh\nexec {sys.executable} {faulty} {shutil.which(DEVICE[0])} "$@"\n')
                    os.chmod(device, 0o755)
                status, said = ended("octets.py", "--rows", rows, "--some", "997", "--jobs", "2", "--program", program)
                self.assertEqual((status, "refused, and changes what follows" in said), (found, bool(found)), said)


if __name__ == "__main__":
    unittest.main()
