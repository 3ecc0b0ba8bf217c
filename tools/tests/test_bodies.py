"""The file of verdicts tells of each wrong body as it stands, and of no other; those that the page names were tried and refused."""

import importlib.util
import os
import re
import unittest

from common import TOP

spec = importlib.util.spec_from_file_location("wrong_bodies", os.path.join(TOP, "bench", "wrong_bodies.py"))
script = importlib.util.module_from_spec(spec)
spec.loader.exec_module(script)

SOURCE = """/// One.
#[cold]
pub fn one() -> u8
    ensures { result ≡ 1 }
{
    1
}

impl<T: Drop> Held<T> {
    /// Two.
    pub(crate) fn two(&self) -> u8 {
        2
    }
}

impl<T: Drop> Drop for Held<T> {
    fn drop(self) {}
}
"""
SAID = """note: src/held.rt:2:1: it is not proved that what the function ensures holds when it returns (`returns-clause-one`)
fn parts::held::one: no proof: expected answers in ./proofs/held/one/Answers.antt; `search` did not prove `returns-clause-one`
help: write ./proofs/held/one/Answers.antt with these lines
    pub returns-clause-other : goal.returns-clause-other
fn parts::held::Held::two: {}
only=2 proved=0
"""


class Told(unittest.TestCase):
    """What a check says of several wrong bodies is told of each by its own functions."""

    def holder(self, line):
        return script.holder("parts", "src/held.rt", SOURCE, line)

    def said_of(self, name, ended):
        return script.said_of([name], "parts", SAID.format(ended), {"src/held.rt": SOURCE})

    def test_a_line_is_of_its_function(self):
        self.assertEqual([self.holder(it) for it in (1, 2, 3, 6)], ["parts::held::one"] * 4)
        self.assertEqual([self.holder(it) for it in (10, 12)], ["parts::held::Held::two"] * 2)
        self.assertEqual(self.holder(17), "parts::held::HeldDrop::drop")
        self.assertEqual([self.holder(it) for it in (8, 14)], ["", ""])
        self.assertEqual(script.holder("parts", "specs/Held.antt", SOURCE, 3), "")

    def test_one_is_refused_at_its_goal(self):
        self.assertEqual(self.said_of("parts::held::one", "proved"), ("returns-clause-one", True))

    def test_one_is_proved(self):
        self.assertEqual(self.said_of("parts::held::Held::two", "proved"), script.PROVED)

    def test_one_that_rests_on_another_is_not_told(self):
        rests = "no proof: it calls `parts::held::one`, which is not proved"
        self.assertIsNone(self.said_of("parts::held::Held::two", rests))
        self.assertIsNone(self.said_of("parts::held::Held::two", "not proved"))
        self.assertIsNone(self.said_of("parts::held::three", "proved"))


class WrongBodies(unittest.TestCase):
    def test_each_is_told_as_it_stands(self):
        there = {(it.crate, it.name): it.sum() for crate in script.crates() for it in script.bodies(crate)}
        told = {key: line.split("\t")[2] for key, line in script.kept().items()}
        self.assertEqual(told, there, "bench/wrong_bodies.py CRATE.. --keep tries those of a crate")

    def test_each_verdict_has_its_day_its_commit_and_a_goal(self):
        for key, line in script.kept().items():
            with self.subTest(body=key):
                self.assertRegex(line.split("\t", 3)[3], r"^(not tried|\d{4}-\d\d-\d\d\t[0-9a-f]{7,40}\t.+)$")

    def test_those_that_the_page_names_were_refused(self):
        with open(os.path.join(TOP, "docs", "TRUST.md"), encoding="utf-8") as page:
            section = page.read().split("\n## Wrong bodies\n")[1].split("\n## ")[0]
        named = re.findall(r"`(\w+)/must-fail/(\w+)`", section)
        told = script.kept()
        self.assertGreater(len(named), 14)
        self.assertEqual([it for it in named if it not in told or told[it].endswith(script.UNTRIED)], [])

    def test_each_edit_can_be_made(self):
        for crate in script.crates():
            for body in script.bodies(crate):
                with self.subTest(crate=crate, body=body.name):
                    self.assertTrue(body.edits())
                    text = {}
                    for at, old, new in body.edits():
                        path = os.path.join(TOP, "crates", crate, at)
                        if at not in text:
                            with open(path, encoding="utf-8") as file:
                                text[at] = file.read()
                        self.assertEqual(text[at].count(old), 1, (at, old))
                        self.assertNotEqual(old, new)
                        text[at] = text[at].replace(old, new)


if __name__ == "__main__":
    unittest.main()
