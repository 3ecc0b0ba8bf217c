"""A crate's line in crates.txt names the crates that its sources name, and no other: each name is a path that rt goes."""

import os
import re
import unittest

from common import TOP

CRATES = os.path.join(TOP, "crates")


def lines(text):
    """The crates that stand on others, each with the names of these."""
    for line in text.splitlines():
        head, told, below = line.split("#")[0].partition(":")
        if told:
            yield head.split()[0], below.split()


def named(crate):
    """The words of a crate's sources, definitions and proofs."""
    words = set()
    for part in ("src", "specs", "proofs"):
        for folder, _, files in os.walk(os.path.join(CRATES, crate, part)):
            for name in files:
                with open(os.path.join(folder, name), encoding="utf-8") as file:
                    words.update(re.findall(r"\w+", file.read()))
    return words


class Crates(unittest.TestCase):
    def test_each_crate_below_is_named(self):
        with open(os.path.join(TOP, "crates.txt"), encoding="utf-8") as file:
            below = dict(lines(file.read()))
        self.assertEqual(sorted(below), sorted(os.listdir(CRATES)))
        idle = {crate: unused for crate, names in below.items() if (unused := set(names) - named(crate))}
        self.assertEqual(idle, {})


if __name__ == "__main__":
    unittest.main()
