"""`mms rows`: rows in words, and the index, which has to be the one that is stored.

    tools/mms rows --index > docs/ROWS-INDEX.md    makes it anew
"""

import contextlib
import io
import os
import re
import unittest
import unittest.mock
from typing import Tuple

from common import TOP, text_of
from mmstools import cli, grammar, rows
from row_files import rows as all_rows

PAGE = os.path.join(TOP, "docs", "ROWS-INDEX.md")


def run(*said: str) -> Tuple[int, str, str]:
    """What the command does: its status, standard output and standard error."""
    out, err = io.StringIO(), io.StringIO()
    with contextlib.redirect_stdout(out), contextlib.redirect_stderr(err):
        status = cli.main(["rows", *said])
    return status, out.getvalue(), err.getvalue()


class Index(unittest.TestCase):
    def test_the_stored_page(self):
        self.assertEqual(rows.index(), text_of(PAGE), "tools/mms rows --index > docs/ROWS-INDEX.md")

    def test_what_no_row_shows(self):
        """Each service is answered somewhere, and each rule and limit has a row; of causes these have none."""
        lines = [line for line in text_of(PAGE).split("\n") if line.startswith("| ")]
        without = [line for line in lines if line.endswith("| none |")]
        causes = [line for line in without if not re.match(r"\| \w+ \| \w+ \d", line)]
        longer = "the answer would be longer than the negotiated size of a PDU"
        self.assertEqual([c.split(" | ")[1] for c in causes], [longer] * 2)
        self.assertFalse([line for line in lines if re.match(r"\| \w+ \| none \|", line)])

    def test_a_place_is_that_of_a_row(self):
        places = {row.place for row in all_rows()}
        for line in text_of(PAGE).split("\n"):
            for name, numbers in re.findall(r"(?:\| |; )([a-z_]+) (\d+(?:, \d+)*)(?= \||;| and)", line):
                self.assertLessEqual({f"{name}.rows:{n}" for n in numbers.split(", ")}, places, line[:80])


class Words(unittest.TestCase):
    @classmethod
    def setUpClass(cls):
        cls.some = [row for row in all_rows() if row.place.startswith(("captured", "semaphores"))]

    def setUp(self):
        patch = unittest.mock.patch.object(rows, "rows", lambda: self.some)
        patch.start()
        self.addCleanup(patch.stop)

    def test_preempt(self):
        status, out, err = run("preempt", "Robots")
        self.assertEqual((status, err), (0, ""))
        self.assertIn("captured.rows:3: = replay", out)
        self.assertIn("    1: TakeControl Robots controlTimeOut=10 invoke=1\n", out)

    def test_steps(self):
        _, out, _ = run("A semaphore is defined once")
        self.assertIn("    1: RelinquishControl T invoke=3 -> answer RelinquishControl invoke=3\n", out)
        self.assertIn("    1: DeleteSemaphore T invoke=6 -> Error service:object-constraint-conflict invoke=6\n", out)

    def test_no_such_word(self):
        status, out, err = run("xylophone", "T")
        self.assertEqual((status, out, err), (1, "", "mms rows: no row has xylophone and T\n"))

    def test_heads(self):
        """The invokeID and the service of a PDU, as far as they are there."""
        for digits, found in {
            "A0050201078200": (7, 2),
            "A00D020102BF4408": (2, 68),
            "A0": (None, None),
            "A003020107": (None, None),
            "A08002010182000000": (1, 2),
            "A003300000": (None, None),
        }.items():
            self.assertEqual(rows._head(bytes.fromhex(digits)), found, digits)
        self.assertEqual(grammar.SERVICE[68][0], "reportJournalStatus")


if __name__ == "__main__":
    unittest.main()
