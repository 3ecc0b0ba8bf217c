"""Explanations: of PDUs, recordings and reports, and what the command does with what can't be read.

    tools/tests/test_explain.py --store    writes beside the examples what they are in words, and into them the meaning of
                                           each element in comments, both to be looked through
"""

import contextlib
import io
import os
import random
import re
import sys
import tempfile
import unittest
from typing import List, Tuple

from common import EXAMPLES, REPORTS, text_of
from mmstools import cli, comments, explain, texts

HEAD = "mms-recording 1\nconfig\nend\n"


def stored(report: str) -> str:
    """Where an example's explanation is stored."""
    return report[: -len(".report")] + ".txt"


def store() -> None:
    """Writes the explanation of each example, and its comments anew."""
    for path in REPORTS:
        recording = path[: -len(".report")] + ".mms"
        text = comments.commented(text_of(recording))
        with open(recording, "w", encoding="latin-1", newline="\n") as f:
            f.write(text)
        with open(stored(path), "w", encoding="utf-8") as f:
            f.write("\n".join(explain.explained(path)) + "\n")


def run(*words: str) -> Tuple[int, str, str]:
    """What the command does: its status, standard output and standard error."""
    out, err = io.StringIO(), io.StringIO()
    with contextlib.redirect_stdout(out), contextlib.redirect_stderr(err):
        status = cli.main(list(words))
    return status, out.getvalue(), err.getvalue()


class Files(unittest.TestCase):
    def setUp(self):
        folder = tempfile.TemporaryDirectory()
        self.addCleanup(folder.cleanup)
        self.folder = folder.name

    def explained(self, text: str, name: str = "a.mms") -> Tuple[int, str, str]:
        path = os.path.join(self.folder, name)
        with open(path, "w", encoding="latin-1", newline="") as f:
            f.write(text)
        return run("explain", path)


class Pdus(unittest.TestCase):
    def test_table(self):
        self.assertEqual(
            explain.pdu(bytes.fromhex("A00D020102B308A003800154830105"), ""),
            [
                "A0 0D            [0] SEQUENCE         confirmed-Request",
                "  02 01      02  INTEGER              invokeID           2",
                "  B3 08          [19] Take, SEQUENCE  takeControl",
                "    A0 03        [0] Name             semaphoreName",
                "      80 01  54  [0] Identifier       vmd-specific       T",
                "    83 01    05  [3] INTEGER, ms      acceptableDelay    5 ms",
            ],
        )

    def test_indefinite(self):
        """Each end of contents is a line; the words are those of the same PDU with definite lengths."""
        self.assertEqual(
            explain.pdu(bytes.fromhex("A080020101B380A080800154000083010500000000"), ""),
            [
                "A0 80            [0] SEQUENCE         confirmed-Request",
                "  02 01      01  INTEGER              invokeID           1",
                "  B3 80          [19] Take, SEQUENCE  takeControl",
                "    A0 80        [0] Name             semaphoreName",
                "      80 01  54  [0] Identifier       vmd-specific       T",
                "    00 00        end of contents",
                "    83 01    05  [3] INTEGER, ms      acceptableDelay    5 ms",
                "  00 00          end of contents",
                "00 00            end of contents",
            ],
        )
        alike = ("A080020101B380A080800154000083010500000000", "A00D020101B308A003800154830105")
        said = [run("explain", digits)[1].split("\n")[0] for digits in alike]
        self.assertEqual(said[0], said[1])

    def test_digits(self):
        for digits in ("A0050201018200", "a0 05 02 01 01 82 00"):
            status, out, err = run("explain", digits)
            self.assertEqual((status, out.split("\n")[0], err), (0, "Identify, request, invokeID 1", ""))

    def test_unknown_is_shown(self):
        """By tag and octets, on its own line."""
        _, out, _ = run("explain", "A00A020101A4058503010203")
        self.assertRegex(out, r"(?m)^ +85 03 +01 02 03 +\[5\] +\? +not in the table: 01 02 03$")

    def test_malformed(self):
        """A sentence and status 2, behind what can be shown."""
        for digits, why in [
            ("A00D0201", "says 13 octets, and there are 2"),
            ("A0", "there is no length"),
            ("BF", "the tag ends too early"),
            ("A080", "an indefinite length that does not end"),
            ("AE00", "no PDU of MMS"),
            ("8B0000", "1 octets stand behind it"),
            ("A0050201008000", "a value has no octets"),
        ]:
            status, out, err = run("explain", digits)
            self.assertEqual(status, 2, digits)
            self.assertIn(why, err)
            self.assertNotIn("Traceback", err)
            self.assertIn(digits[:2], out)

    def test_each_cut(self):
        """Each beginning of a PDU is refused by a sentence."""
        whole = "A02C020101A527A0163009A007800553706565643009A0078005466C616773A00D850107A20A850101850102850103"
        for i in range(2, len(whole), 2):
            status, out, err = run("explain", whole[:i])
            self.assertEqual((status, err.count("\n")), (2, 1), whole[:i])

    def test_long_and_deep(self):
        """65,000 octets, and what nests deeper than is looked at: lines, and a sentence where it is no PDU."""
        for octets, why in [
            (bytes.fromhex("A080") * 32500, "an indefinite length that does not end"),
            (bytes.fromhex("A080") * 16250 + bytes(32500), "nests too deep to be shown"),
            (bytes.fromhex("BF") + b"\xff" * 64999, "the tag ends too early"),
            (bytes.fromhex("A182FDE4") + bytes.fromhex("020101") * 21665 + b"\0", "there is no length"),
            (bytes.fromhex("3000") * 32500, "no PDU of MMS"),
            (bytes.fromhex("A082FDE40201018482FDDD") + b"A" * 64989, ""),
            (bytes(65000), "no PDU of MMS"),
        ]:
            self.assertEqual(len(octets), 65000)
            status, out, err = run("explain", octets.hex())
            self.assertEqual((status, err.count("\n")), (2, 1) if why else (0, 0), octets[:12].hex() + err)
            self.assertIn(why, err)
            self.assertTrue(out)

    def test_values_are_shown_or_counted(self):
        """A long value is cut with how many octets it has; each of a short one is there."""
        _, out, _ = run("explain", "A16B020101A466A164" + "8962" + "AB" * 98)
        self.assertIn("AB " * 13, out)
        self.assertEqual(re.sub(r"(?s)^.*octet-string", "", out).count("AB"), 98)
        _, out, _ = run("explain", "A182FA0B020101BB82FA048082FA00" + "AA" * 64000)
        self.assertIn("(64000 octets)", out)

    def test_tpkt(self):
        digits = "0300001902F0800100010061 0C300A020103A005A003020101"
        status, out, _ = run("explain", digits)
        self.assertEqual(status, 2)
        self.assertRegex(out, r"begin with 03 00.*PDUs are bare here")
        self.assertNotIn("03 00", run("explain", "8B00")[1])


class Recordings(Files):
    def test_events(self):
        status, out, err = self.explained(HEAD + "# who\n1 8B00\nlost 1\ntick 5\nphase\nends p\n")
        self.assertEqual((status, err), (0, ""))
        for line in (
            "# who",
            "client 1 sends: conclude-Request",
            "the connection of client 1 is lost",
            "5 ms go by",
            "phase 2",
            "the program invocation p ends",
        ):
            self.assertIn("\n" + line + "\n", out)

    def test_editions(self):
        """A recording of edition 2 with an indefinite length and a long name; in edition 1 the length has a note."""
        for edition, noted in (("1", True), ("2", False)):
            text = HEAD.replace("1", edition) + "1 A080 020101 800100 0000\nends p\n"
            status, out, err = self.explained(text)
            self.assertEqual((status, err), (0, ""))
            self.assertIn(f"A recording of edition {edition}, 1 phase.", out)
            self.assertIn("client 1 sends: Status, request, invokeID 1\n", out)
            self.assertEqual("Note: an indefinite length, which recordings of edition 2 allow" in out, noted)
        for edition, most in (("1", 32), ("2", 64)):
            head = HEAD.replace("1", edition) + "ends "
            self.assertEqual(self.explained(head + "p" * most)[0], 0)
            self.assertEqual(self.explained(head + "p" * (most + 1))[0], 2)

    def test_tpkt_in_an_event(self):
        _, out, _ = self.explained(HEAD + "2 0300 0019 02F080\n")
        self.assertRegex(out, r"client 2 sends: .*\n    Note: .*PDUs are bare here")

    def test_digits_in_a_file(self):
        self.assertEqual(self.explained("A005 0201\n01 8200\n")[1].split("\n")[0], "Identify, request, invokeID 1")

    def test_neither(self):
        for text in ("", "hello\n", "\0\1\2", "phase\n", "\n\n", "\xd4\xc3\xb2\xa1"):
            status, out, err = self.explained(text)
            self.assertEqual((status, out), (2, ""), text)
            self.assertIn("neither a recording nor a report", err)

    def test_no_file(self):
        status, _, err = run("explain", "/no/such/file")
        self.assertEqual((status, err.count("\n")), (2, 1))


class Comments(Files):
    def test_examples(self):
        """The comments of each example have the meaning of each element."""
        for path in REPORTS:
            text = text_of(path[: -len(".report")] + ".mms")
            self.assertEqual(comments.commented(text), text, path)
            self.assertLessEqual(max(len(line) for line in text.split("\n") if line.startswith("#")), 120, path)

    def test_command(self):
        """Comments stand above their PDU, those that stood there give way, and all else stays as it is."""
        text = HEAD.replace("end", "#: a\nend") + "# who\n#: old\n1 A005 020101 8200\n\ntick 5\n 2 A0\n"
        path = os.path.join(self.folder, "a.mms")
        with open(path, "w", encoding="latin-1", newline="") as f:
            f.write(text)
        said = "#: A0 confirmed-Request; 02 invokeID 1; 82 identify\n1 A005"
        flawed = "#: A0 confirmed-Request <-- there is no length\n 2 A0"
        wanted = text.replace("#: old\n1 A005", said).replace(" 2 A0", flawed)
        self.assertEqual(run("explain", "--comments", path), (0, wanted, ""))
        self.assertEqual(comments.commented(wanted), wanted)
        self.assertEqual(texts.read_recording(wanted).notes, {(0, 0): ["who"]})

    def test_indefinite(self):
        """Ends of contents have no comment."""
        lines = comments.of_pdu(bytes.fromhex("A0800201018001000000"))
        self.assertEqual(lines, ["#: A0 confirmed-Request; 02 invokeID 1; 80 status FALSE"])

    def test_no_recording(self):
        status, out, err = run("explain", "--comments", REPORTS[0])
        self.assertEqual((status, out, err.count("\n")), (2, "", 1))

    def test_any_octets(self):
        """Each element of any octets is there, in lines that are no longer than a text's."""
        rng = random.Random(3)
        for _ in range(1000):
            octets = bytes(rng.choice([0xA0, 0x30, 0x80, 2, 1, 4, rng.randrange(256)]) for _ in range(rng.randrange(1, 60)))
            lines = comments.of_pdu(octets)
            self.assertLessEqual(max(map(len, lines)), 120)
            self.assertTrue(all(line.startswith("#: ") for line in lines))
            tags = [line.tag.replace(" ", "") for line in explain.table(octets) if line.kind != explain.END]
            at, said = 0, " ".join(line[2:].strip() for line in lines)
            for tag in tags:
                at = said.index(tag, at) + len(tag)

    def test_as_above(self):
        """What stands there twice is explained once."""
        octets = "A826800300FDE881010A82010A830105A416800101810305F100820C03EE1C00000408000079EF18"
        lines = comments.commented(HEAD + f"1 {octets}\n2 {octets}\n").split("\n")
        self.assertGreater(lines.index(f"1 {octets}"), 6)
        self.assertEqual(lines[-3:], ["#: A8 initiate-Request, as above", f"2 {octets}", ""])


class Reports(Files):
    def test_examples(self):
        """Each example is explained as it is stored."""
        self.assertTrue(REPORTS, EXAMPLES)
        for path in REPORTS:
            with open(stored(path), encoding="utf-8") as f:
                self.assertEqual("\n".join(explain.explained(path)) + "\n", f.read(), path)

    def test_each_output_is_told(self):
        for path in REPORTS:
            lines = list(explain.explained(path))
            said = sum(line.startswith("  the cell ") for line in lines)
            self.assertEqual(said, text_of(path).count("\n> "), path)

    def test_who_asks(self):
        """The server's own requests, and what clients answer, are told apart from answers and requests."""
        lines = list(explain.explained(os.path.join(EXAMPLES, "domains.report")))
        self.assertTrue(any(x.startswith("  the cell asks client 1: DownloadSegment") for x in lines))
        self.assertTrue(any("client 1 answers: DownloadSegment" in x for x in lines))
        self.assertTrue(any("client 1 sends: InitiateDownloadSequence" in x for x in lines))
        self.assertFalse(any("the cell answers client 1: DownloadSegment" in x for x in lines))

    def test_cut_off(self):
        status, _, err = self.explained("phase 1\n1 1 8B00\nclient 1\n> abo", "a.report")
        self.assertEqual((status, "cut off in line 4" in err), (2, True))

    def test_no_report(self):
        status, _, err = self.explained("phase 1\n1 1 8B00\nhello\nclient 1\n> abort\n", "a.report")
        self.assertEqual((status, "line 3: hello" in err), (2, True))


if __name__ == "__main__":
    if sys.argv[1:] == ["--store"]:
        store()
    else:
        unittest.main()
