"""Refusals: which rule a recording breaks, held against all rows of the gate, and how it is explained."""

import os
import random
import re
import shutil
import subprocess
import unittest

from common import DEVICE, needs_program
from mmstools import refusals
from row_files import HERE, rows
from test_explain import HEAD, Files, run

RECORDING = os.path.join(HERE, "..", "..", "docs", "RECORDING.md")
CELLS = '''[[cell]]
number = 0
type = "850120"
value = "850100"
[[variable]]
name = "Speed"
cell = 0
[[pool]]
name = "P"
tokens = ["A", "B"]
'''


def with_config(text: str, events: str = "") -> str:
    return f"mms-recording 1\nconfig\n{text}end\n{events}"


class Told(unittest.TestCase):
    def test_rows(self):
        """Each recording of the rows is refused as its report says, or not at all."""
        count = 0
        for row in rows():
            if row.words == "replay" and row.status in (0, 2, 6, 7):
                found = refusals.first_refusal(row.recording) or refusals.doubt(row.recording)
                told = row.report.rstrip("\n").split("\n")[-1] if row.status else None
                self.assertEqual((found and found.told(), found.status if found else 0), (told, row.status), row.place)
                count += 1
        self.assertGreater(count, 390)

    def test_carriage_returns(self):
        """They don't count in the configuration's 1,048,576 octets, nor in a line's 196,608."""
        line = "#" * 196608 + "\r\n"
        for rest, told in ((65530, None), (65531, "bad 8 config")):
            found = refusals.first_refusal(with_config(line * 5 + "#" * rest + "\r\n"))
            self.assertEqual(found and found.told(), told)

    def test_every_word_of_the_docs(self):
        """The words and the rules are those of docs/RECORDING.md."""
        with open(RECORDING, encoding="utf-8") as f:
            text = f.read()
        words, rules = ((text.partition(head)[2].partition("\n\n")[0]) for head in ("| word |", "| rule | broken"))
        words, rules = re.findall(r"(?m)^\| `(\w+)` \| ", words), re.findall(r"(?m)^\| (\d+) \| ", rules)
        self.assertEqual([*words, "too much"], list(refusals.WORDS))
        self.assertEqual([int(rule) for rule in rules], list(refusals.RULES))

    def test_read(self):
        for line in ("bad 1 header", "bad 4 hex", "bad config 6", "bad 3 config", "too much 16388"):
            self.assertEqual(refusals.read_told(line).told(), line)
        for line in ("bad 4 word", "bad config 10", "bad 0 hex", "too much", "bad", "bad x hex"):
            self.assertIsNone(refusals.read_told(line), line)

    @needs_program
    def test_program(self):
        """Recordings with a sign that is changed, dropped or put in are refused as the program refuses them."""
        rng = random.Random(7)
        config = "clients = 2\nday = 65535\nms = 86399990\n" + CELLS
        whole = with_config(config, "1 8B00\ntick 3\nlost 2\n# a\nphase\n1 A0\n")
        for _ in range(400):
            at = rng.randrange(len(whole))
            signs = rng.choice(["", rng.choice('0159AFx \n\t#"=[]'), whole[at] * 2])
            text = whole[:at] + signs + whole[at + 1 :]
            got = subprocess.run([*DEVICE, "replay"], input=text.encode("latin-1"), stdout=subprocess.PIPE)
            last = got.stdout.decode("latin-1").rstrip("\n").split("\n")[-1]
            found = refusals.first_refusal(text)
            if refusals.doubt(text) is None:
                self.assertEqual(found and found.told(), last if got.returncode else None, text)
            else:
                self.assertIsNone(found, text)


NEWER = [
    'vendor = "\\x41"',
    'vendor = "a\\\\x4"',
    'vendor = """\\x41"""',
    'cell = [{ number = 0, type = "8300", value = "83\\x301\\x300" }]',
    'cell = [\n  {\n    number = 0, # the first\n    type = "8300",\n    value = "830100",\n  },\n]',
    'cell = [{ number = 0, type = "8300", value = "830100", }]',
]  # of TOML 1.1
NO_TOML = ['vendor = "\\x4"', "cell = [{ , }]", "cell = [{ number = 0,, }]", "cell = [{\nnumber = 0\ntype = 1\n}]"]


class Newer(Files):
    """What TOML 1.1 has and TOML 1.0 hasn't is read as the device reads it."""

    def told(self, config):
        found = refusals.first_refusal(with_config(config + "\n"))
        return found and found.told()

    def test_read(self):
        for config in NEWER:
            self.assertNotEqual(self.told(config), "bad config 0", config)
            self.assertIsNone(refusals.doubt(with_config(config + "\n")), config)
        for config in NO_TOML:
            self.assertIsNone(self.told(config), config)
            self.assertEqual(refusals.doubt(with_config(config + "\n")).told(), "bad config 0", config)
        self.assertEqual(self.told('vendor = "\\e"'), "bad config 3")
        self.assertEqual(self.told("day = 12:30"), "bad config 1")
        self.assertEqual(self.explained(with_config(NEWER[0] + "\n"))[0], 0)

    def test_lines_stay(self):
        text = 'cell = [\n  {\n    number = 0, type = "8300",\n    value = "830100",\n  },\n]\nday = x\n'
        self.assertIn("Line 9: `day = x`", self.explained(with_config(text))[1])

    @needs_program
    def test_program(self):
        for config in [*NEWER, *NO_TOML, 'vendor = "\\e"', "day = 12:30"]:
            text = with_config(config + "\n")
            got = subprocess.run([*DEVICE, "replay"], input=text.encode("latin-1"), stdout=subprocess.PIPE)
            last = got.stdout.decode("latin-1").rstrip("\n").split("\n")[-1]
            told = last if got.returncode else None
            doubt = refusals.doubt(with_config(config + "\n"))
            self.assertEqual(doubt.told() if doubt is not None else self.told(config), told, config)


class Undecided(Files):
    """Of a configuration that Python doesn't read as TOML mmscell decides, and a refusal is claimed where a report has one."""

    TEXT = with_config('vendor = "\\x4"\n', "1 8B00\n")

    def test_alone(self):
        status, out, err = self.explained(self.TEXT, "a.mms")
        self.assertEqual((status, err), (0, ""))
        self.assertRegex(out, r"\ANote: the configuration is no TOML that this tool reads: .*mmscell decides")
        self.assertIn('\nLine 3: `vendor = "\\x4"`\n', out)
        self.assertIn("client 1 sends: conclude-Request", out)
        self.assertNotIn("refused", out)

    def test_report_beside(self):
        """One that is served claims nothing; one that is refused for rule 0, or for another reason, is told so."""
        for report, told in (
            ("phase 1\n1 1 8B00\nclient 1\n> abort\n", ""),
            ("bad config 0\n", "`bad config 0`: no TOML that this tool reads"),
            ("bad config 3\n", "`bad config 3`: `vendor`"),
            ("bad 5 hex\n", "`bad 5 hex`: an event line begins"),
        ):
            self.explained(report, "a.report")
            status, out, err = self.explained(self.TEXT, "a.mms")
            self.assertEqual((status, told in err), (2 if told else 0, True), report)
            self.assertEqual("Note: " in out, not told)

    def test_the_report_s_line(self):
        """The report of such a recording is explained with the line that it tells."""
        self.explained(self.TEXT, "a.mms")
        self.assertIn("Line 5: `1 8B00`", self.explained("phase 1\nbad 5 hex\n", "a.report")[1])
        self.assertIn("Line 3: `vendor", self.explained("bad config 0\n", "a.report")[1])

    def test_what_is_sure(self):
        """What Python reads, and what is no UTF-8, is refused without a report."""
        for config in ("day = 9223372036854775808", "vendor = '\xff'", "x = 1"):
            self.assertIsNone(refusals.doubt(with_config(config + "\n")), config)
            self.assertRegex(refusals.first_refusal(with_config(config + "\n")).told(), "bad config [01]", config)


class Given(Files):
    """A configuration for `capture`: a broken rule is refused, and of what Python doesn't read it is said."""

    PRESS = os.path.join(HERE, "data", "press.pcap")

    def capture(self, config):
        path = os.path.join(self.folder, "given.toml")
        with open(path, "w", encoding="utf-8") as f:
            f.write(config)
        return run("capture", self.PRESS, "--config", path)

    @unittest.skipUnless(shutil.which("tshark"), "tshark is missing")
    def test_capture(self):
        status, out, err = self.capture('vendor = "\\x4"\n')
        self.assertNotEqual(status, 2)
        self.assertIn('\nvendor = "\\x4"\nend\n', out)
        self.assertRegex(err, r"given.toml is no TOML that this tool reads: .*; whether it is a configuration, mmscell decides")
        status, out, err = self.capture('vendor = ""\n')
        self.assertEqual((status, out, "breaks rule 3" in err, "decides" in err), (2, "", True, False))
        self.assertNotIn("decides", self.capture('vendor = "\\x41"\n')[2])


class Explained(Files):
    def test_lines(self):
        """The word's rule, what to look at, and the line itself, behind the events before it; status 2."""
        for events, word, line in [
            ("1 8B00\n1 8B0\n", "hex", "`1 8B0`"),
            ("1 8B00\nlots 1\n", "event", "`lots 1`"),
            ("1 8B00\n5 8B\n", "client", "`5 8B`"),
            ("1 8B00\n1 8B # end\n", "hex", "`1 8B # end`"),
        ]:
            status, out, err = self.explained(HEAD + events)
            meaning = refusals.WORDS[word]
            self.assertEqual(status, 2)
            self.assertIn("client 1 sends: conclude-Request", out)
            self.assertIn(f"`bad 5 {word}`", out)
            self.assertIn(meaning.where, out)
            self.assertIn("Look at: " + meaning.look, out)
            self.assertIn("Line 5: " + line, out)
            self.assertIn(f"`bad 5 {word}`", err)

    def test_head(self):
        for text, told, line in [
            ("mms-recording 3\nconfig\nend\n", "bad 1 header", "`mms-recording 3`"),
            ("mms-recording 2 \nconfig\nend\n", "bad 1 header", "`mms-recording 2 `"),
            ("mms-recording 2\n", "bad 2 config", "no line 2"),
            ("\xef\xbb\xbfmms-recording 1\nconfig\nend\n", "bad 1 header", r"`\xEF\xBB\xBFmms-recording 1`"),
            ("mms-recording 1\nConfig\nend\n", "bad 2 config", "`Config`"),
        ]:
            status, out, _ = self.explained(text)
            self.assertEqual((status, f"`{told}`" in out, line in out), (2, True, True), text)
        self.assertIn("no line 3", self.explained("mms-recording 1\nconfig\n")[1])

    def test_clock_and_too_much(self):
        _, out, _ = self.explained(with_config("day = 65535\nms = 86399999\n", "tick 1\n"))
        self.assertIn("`bad 6 clock`", out)
        _, out, _ = self.explained(HEAD + "tick 1\n" * 16385)
        self.assertIn("`too much 16388`", out)

    def test_configuration(self):
        """The rule, the row and the key, and what is wrong there."""
        for old, new, rule, here in [
            ('"850120"', '"850121"', 6, "row 1 of [[cell]], key `type`: `850121` is not one whole element"),
            ('"850100"', '"8501"', 6, "row 1 of [[cell]], key `value`: `8501` is not one whole element"),
            ('"850100"', '"830100"', 6, "row 1 of [[cell]], key `value`: `830100` is not Data of the type `850120`"),
            ("cell = 0", "cell = 9", 7, "row 1 of [[variable]], key `cell`: there is no cell 9"),
            ('["A", "B"]', '["A", "A"]', 8, "row 1 of [[pool]], key `tokens`: A stands twice"),
            ('"Speed"', '"2x"', 4, "row 1 of [[variable]], key `name`: '2x' is no Identifier"),
            ("number = 0", "number = 4096", 5, "row 1 of [[cell]], key `number`: 4096 is not from 0 to 4095"),
            ("number = 0", "num = 0", 1, "row 1 of [[cell]], key `num`: no key of a row of [[cell]]"),
            ("[[cell]]", "clients = 65\n[[cell]]", 2, "key `clients`: 65 is not from 1 to 64"),
            ("[[cell]]", 'vendor = ""\n[[cell]]', 3, "key `vendor`: '' is not 1 to 32 octets"),
        ]:
            status, out, err = self.explained(with_config(CELLS.replace(old, new, 1)))
            self.assertEqual(status, 2, new)
            self.assertIn(f"`bad config {rule}`", out)
            self.assertIn(f"Here: {here}", out)
            self.assertIn(refusals.RULES[rule].look, out)
            self.assertIn(here, err)

    def test_the_key_s_line(self):
        """The line of the recording with the key, or where TOML ends to be TOML."""
        for old, new, line in [
            ('"850100"', '"830100"', 'Line 6: `value = "830100"`'),
            ("cell = 0", "cell = 9", "Line 9: `cell = 9`"),
            ("[[cell]]", "[[cell", "Line 3: `[[cell`"),
            ('["A", "B"]', '["A", "A"]', 'Line 12: `tokens = ["A", "A"]`'),
            ('value = "850100"', "value = 850100x", "Line 6: `value = 850100x`"),
        ]:
            self.assertIn(line, self.explained(with_config(CELLS.replace(old, new, 1)))[1])
        inline = 'clients = 2\ncell = [{ number = 0, type = "8300", value = "8300" }]\n'
        self.assertNotIn("\nLine ", self.explained(with_config(inline))[1])
        self.assertNotIn("\nLine ", self.explained(with_config('[[cell]]\nnumber = 0\n[[cell]]\ntype = ""\n'))[1])

    def test_counts(self):
        rows_ = "".join(f'[[variable]]\nname = "v{i}"\ncell = 0\n' for i in range(4097))
        _, out, _ = self.explained(with_config('[[cell]]\nnumber = 0\ntype = "8300"\nvalue = "830100"\n' + rows_))
        self.assertIn("Here: there are 4097 rows of [[variable]], more than 4096", out)

    def test_report_beside_its_recording(self):
        """A report's last line is explained, with the line of the recording where that is refused so."""
        report = "phase 1\n1 1 8B00\nclient 1\n> abort\nbad 6 hex\n"
        status, out, err = self.explained(report, "a.report")
        self.assertEqual((status, err), (2, "mms explain: the report ends with `bad 6 hex`: its recording was refused\n"))
        self.assertIn(refusals.WORDS["hex"].look, out)
        self.assertNotIn("Line 6:", out)
        self.explained(HEAD + "1 8B00\nphase\n1 8B0\n", "a.mms")
        self.assertIn("Line 6: `1 8B0`", self.explained(report, "a.report")[1])
        self.explained(HEAD + "1 8B00\nphase\n1 8B00\n", "a.mms")
        self.assertIn("is not refused so", self.explained(report, "a.report")[1])

    def test_no_word(self):
        status, out, err = self.explained("phase 1\nbad 4 word\n", "a.report")
        self.assertEqual((status, "no word that a report ends with" in err), (2, True))


if __name__ == "__main__":
    unittest.main()
