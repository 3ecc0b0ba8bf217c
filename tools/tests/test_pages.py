"""The pages say each limit and each exit status once, limits as the definitions have them, in whole paragraphs."""

import os
import re
import unittest

from common import TOP, text_of

NOUNS = """octets names variables lists domains uploads invocations conditions enrollments semaphores pools tokens journals
    entries clients cells requests""".split()  # what there are limits of
DEFINED = {
    "named variables": ("4,096", "variables/specs/Definitions", "most_variables"),
    "lists of variables": ("256", "variable_lists/specs/Lists", "most_lists"),
    "domains": ("256", "domain_load/specs/Loading", "most_domains"),
    "open uploads": ("64", "domain_upload/specs/Uploads", "most_uploads"),
    "program invocations": ("256", "program_inv/specs/Programs", "most_programs"),
    "event conditions": ("256", "event_cond/specs/Services", "most_conditions"),
    "event enrollments": ("1,024", "event_enrol/specs/Enrolments", "most_enrolments"),
    "semaphores, pools among them": ("256", "mms_time/specs/Services", "most_semaphores"),
    "journals": ("64", "mms_journal/specs/Journals", "most_journals"),
    "entries of one": ("65,536", "mms_journal/specs/Journals", "most_entries"),
    "their octets": ("16,777,216", "mms_journal/specs/Journals", "most_octets"),
    "octets of a domain": ("1,048,576", "domain_load/specs/Segmented", "most_octets"),
    "in an answer: names": ("12", "cell_services/specs/Device", "most_names"),
    "tokens of a pool": ("12", "mms_time/specs/Statuses", "most_tokens"),
    "entries of a semaphore": ("6", "mms_time/specs/Statuses", "most_entries"),
    "entries of a journal": ("16", "mms_journal/specs/Selection", "most_told"),
}  # limits, their numbers, and the definitions that state them
APART = (
    r"passes 1,048,576 octets, each line",  # of the text of a configuration
    r"0 to 65,535, and the millisecond",  # a day
    r"day 65,535",
    r"the lesser of 4,096 and",  # of a piece
    r"of 0 to 4,096 elements",
    r"most 16 of them, each of at most 64 octets",  # of capabilities
)  # numbers that are no limit of the table, with what stands around them


def page(name: str) -> str:
    """A page, each run of blanks as one."""
    return " ".join(text_of(os.path.join(TOP, name)).split())


def limits():
    """The lines of PROFILE's table of limits, and the page without the section."""
    text = text_of(os.path.join(TOP, "docs", "PROFILE.md"))
    head, _, rest = text.partition("## Limits")
    section, _, rest = rest.partition("\n## ")
    lines = [[c.strip() for c in line.strip("|").split("|")] for line in section.split("\n") if line.startswith("| ")]
    return lines[1:], " ".join((head + rest).split())


class Limits(unittest.TestCase):
    def numbers(self):
        return {n for line in limits()[0] for n in re.findall(r"\d[\d,]*\d", line[1].strip(",")) if n != "10"}

    def found(self, text):
        """The limits whose numbers stand in a text: great ones anywhere, small ones before what they are of."""
        for known in APART:
            text = re.sub(known, "", text)
        great = [n for n in self.numbers() if len(n) > 2 and re.search(rf"(?<![\d,.]){n}(?![\d,])", text)]
        words = "|".join(NOUNS)
        small = re.findall(rf"\b(?:12|16|32|64) (?:\w+ )?(?:{words})\b", text)
        return sorted(great) + small

    def test_the_numbers(self):
        """These are told from others."""
        self.assertGreater(len(self.numbers()), 10)
        text = "at most 4,096 rows, of 64 clients and 32 event conditions, 64 bits, 14,096"
        self.assertEqual(self.found(text), ["4,096", "64 clients", "32 event conditions"])

    def test_stand_once(self):
        """They stand in PROFILE's table alone: not in README, not in RECORDING, and not again in PROFILE."""
        pages = {"README": page("README.md"), "RECORDING": page("docs/RECORDING.md"), "PROFILE": limits()[1]}
        for name, text in pages.items():
            self.assertEqual(self.found(text), [], name)
        for name in ("README.md", "docs/RECORDING.md"):
            self.assertIn("PROFILE.md#limits-choice", page(name))

    def test_are_the_definitions(self):
        told = {}
        for what, most, _ in limits()[0]:
            told.update(zip((w.strip() for w in what.split(";")), (m.strip() for m in most.split(";"))))
        for what, (number, file, name) in DEFINED.items():
            if what in told and what not in ("tokens of a pool", "entries of a semaphore", "entries of a journal"):
                self.assertEqual(told[what], number, what)
            module = text_of(os.path.join(TOP, "crates", f"{file}.antt"))
            self.assertIn(f"\n{name} = {number.replace(',', '')}\n", module, what)
        (answer,) = [most for what, most, _ in limits()[0] if what.startswith("in an answer")]
        self.assertEqual(answer, "12; 12; 6; 16")


class Statuses(unittest.TestCase):
    def test_stand_once(self):
        """What an exit status means stands in RECORDING: README and the script's help have no number of one."""
        script = page("mmscell").partition("cat <<'TEXT'")[2].partition(" TEXT ")[0]
        self.assertIn("docs/RECORDING.md", script)
        for name, text in (("README", page("README.md")), ("mmscell", script)):
            self.assertEqual(re.findall(r"(?:status(?:es)?|ends?) (?:with |of |is |are )?\d", text), [], name)


class Paragraphs(unittest.TestCase):
    """No line of a paragraph is broken off."""

    WIDE, LACKING = 120, 24

    def test_pages(self):
        names = [os.path.join("docs", n) for n in os.listdir(os.path.join(TOP, "docs")) if n.endswith(".md")]
        for name in ["README.md", "CHANGELOG.md", *names]:
            if name.endswith("ROWS-INDEX.md"):
                continue
            lines, is_code = text_of(os.path.join(TOP, name)).split("\n"), False
            for n, (line, below) in enumerate(zip(lines, lines[1:]), 1):
                is_code ^= line.lstrip().startswith("```")
                is_text = line.strip() and not is_code and not re.match(r"\s*[|#!]|\s*```", line)
                goes_on = re.match(r"\s*(?![-*] |\d+\. |[|#]|```)\S+", below)
                if is_text and goes_on:
                    word = re.match(r"`[^`]*`\S*|\[[^\]]*\]\S*|\S+", below.strip())[0]
                    self.assertGreater(len(line) + 1 + len(word), self.WIDE - self.LACKING, f"{name}, line {n}: {line}")


if __name__ == "__main__":
    unittest.main()
