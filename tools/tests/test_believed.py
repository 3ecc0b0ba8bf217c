"""The documents cite definitions that are there: what has to be trusted, and by which each rule is stated, in which code."""

import os
import re
import subprocess
import sys
import unittest

from common import TOP


def page(name):
    """The text of a page of docs/."""
    with open(os.path.join(TOP, "docs", f"{name}.md"), encoding="utf-8") as text:
        return text.read()


class Believed(unittest.TestCase):
    def test_the_page_has_what_the_script_finds(self):
        script, page = (os.path.join(TOP, *path) for path in (("bench", "believed.py"), ("docs", "TRUST.md")))
        ended = subprocess.run([sys.executable, script, "--check", page], capture_output=True, text=True)
        self.assertEqual((ended.returncode, ended.stderr), (0, ""))

    def test_what_states_a_rule_is_there(self):
        """Each definition that PROFILE cites stands in its file, and each paragraph that cites some names the code."""
        text = page("PROFILE")
        cited = re.findall(r"((?:`\w+`(?:,| and)? )+)\(`(\w+)/specs/(\w+)`\)", " ".join(text.split()))
        self.assertGreaterEqual(len(cited), 90)
        for names, crate, file in cited:
            with open(os.path.join(TOP, "crates", crate, "specs", f"{file}.antt"), encoding="utf-8") as module:
                line = r"^(?:abbrev |unfoldable |  )?pub (?:record |data )?(\w+)"
                defined = re.findall(line, module.read(), re.M)
            for name in re.findall(r"`(\w+)`", names):
                self.assertIn(name, defined, f"{crate}/specs/{file}")
        stated = [" ".join(part.split()) for part in text.split("\n\n") if "*Stated by*" in part]
        self.assertGreaterEqual(len(stated), 25)
        for part in stated:
            self.assertTrue(part.startswith("*Stated by*"), part)
            files = re.findall(r"`(\w+/src/\w+\.rt)`", part.partition("In code: ")[2])
            self.assertTrue(files, part)
            for file in files:
                self.assertTrue(os.path.isfile(os.path.join(TOP, "crates", file)), file)

    def test_each_section_says_by_what(self):
        """Each section of PROFILE that has rules cites what states them."""
        sections = re.split(r"(?m)^#{2,3} ", page("PROFILE"))[1:]
        self.assertEqual([s.split("\n")[0] for s in sections if "*Stated by*" not in s], [])


if __name__ == "__main__":
    unittest.main()
