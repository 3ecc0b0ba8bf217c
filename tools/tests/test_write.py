"""`mms write`: words to octets, back again, and what is said of words that are none."""

import contextlib
import glob
import io
import os
import subprocess
import tempfile
import unittest
from typing import Tuple

from common import ASK, DEVICE, EXAMPLES, needs_program, text_of
from fuzz_write import tried
from mmstools import cli, grammar, spoken, texts, words, write
from pdus_of_rows import of_rows

HEAD = "mms-recording 1\nconfig\nend\n"
WORDS = {
    "Initiate": ASK.hex(),
    "Initiate calling=1 localDetail=-": "A821 810101 82010A 830105 A416 800101 810305F100 820C03EE1C00000408000079EF18",
    "Conclude": "8B00",
    "Cancel 300": "85 02 012C",
    "Status": "A006 020101 800100",
    "identify": "A005 020101 8200",
    "Read Speed": "A014 020101 A40F A10D A00B 3009 A007 8005 5370656564",
    "Read [D/T @T]": "A01C 020101 A417 A115 A013 300A A008 A106 1A0144 1A0154 3005 A003 820154",
    "Read cell:3 specificationWithResult=TRUE": "A013 020101 A40E 8001FF A109 A007 3005 A103 800103",
    "Read list:L": "A00C 020101 A407 A105 A103 80014C",
    "Write Speed 7": "A017 020101 A512 A00B 3009 A007 8005 5370656564 A003 850107",
    'Write [A B] [-1 "x"]': "A01D 020101 A518 A00E 3005 A003 800141 3005 A003 800142 A006 8501FF 8A0178",
    "TakeControl T acceptableDelay=5 invoke=2": "A00D 020102 B308 A003 800154 830105",
    "TakeControl T delay=5ms applicationToPreempt=2": "A014 020101 B30F A003 800154 830105 A705 A103 020102",
    "DefineSemaphore T 3": "A00D 020101 B508 A003 800154 810103",
    "answer DownloadSegment 0102 moreFollows=FALSE": "A10C 020101 BB07 80020102 810100",
    "answer TerminateDownloadSequence invoke=9": "A105 020109 9C00",
    "Error vmd-state:domain-transfer-problem": "A20A 800101 A205 A003 800103",
    "Reject pdu-error=invalid-pdu": "A403 850101",
    "GetNameList semaphore domainSpecific:D continueAfter=A": "A012 020101 A10D A003 800104 A103 810144 820141",
    "<8B00>": "8B00",
}
BAD = {
    "": (1, "no words"),
    "Reed Speed": (1, "`Reed` is no service and no PDU; is it `Read`?"),
    "answer": (7, "the service that is answered is missing"),
    "answer Initiate": (8, "`Initiate` is no service"),
    "Read": (5, "read lacks variableAccessSpecification"),
    "TakeControl T delya=5": (15, "takeControl has no `delya`; it has semaphoreName"),
    "TakeControl T priority=128": (24, "`128` is out of range: priority is 0 to 127"),
    "TakeControl T delay=4294967296": (21, "out of range: acceptableDelay is 0 to 4294967295"),
    "TakeControl T delay=5 delay=6": (23, "delay stands twice"),
    "TakeControl T delay=": (21, "acceptableDelay is missing"),
    "TakeControl 1T": (13, "`1T` is no name"),
    "DefineSemaphore T 0": (19, "numberOfTokens is 1 to 65535"),
    "DefineSemaphore T x": (19, "`x` is no number, which numberOfTokens is"),
    "Read A B": (8, "`B` is one too many for read"),
    "Read [A": (8, "the `]` of listOfVariable is missing"),
    "Write V TRU": (9, "`TRU` is none of"),
    "Write V unsigned:-1": (18, "`-1` is out of range: unsigned is 0 to 4294967295"),
    "Write V 9223372036854775808": (9, "out of range"),
    "Write V 1e39": (9, "too large for its bits"),
    "DefineNamedVariable V cell:0 typeSpecification=integer:12": (56, "integer has 8, 16, 32, 64 bits"),
    "GetNameList semaphor vmdSpecific": (13, "is it `semaphore`?"),
    "Cancel -1x": (8, "`-1x` is no number"),
    "Conclude now": (10, "`now` is one too many"),
    "Identify invoke=4294967296": (17, "invoke is 0 to 4294967295"),
    "Conclude invoke=2": (1, "has no invoke="),
    'Start P executionArgument="abc': (27, "a text that has no second"),
    "Start P executionArgument=<8": (27, "without pairs of hexadecimal digits"),
    "ReadJournal J rangeStartSpecification=startingTime:25:00:00.000/1": (52, "out of range"),
    "CreateProgramInvocation P []": (27, "has 0 members, and may have 1 to 16"),
}


def run(*said: str) -> Tuple[int, str, str]:
    """What the command does: its status, standard output and standard error."""
    out, err = io.StringIO(), io.StringIO()
    with contextlib.redirect_stdout(out), contextlib.redirect_stderr(err):
        status = cli.main(["write", *said])
    return status, out.getvalue(), err.getvalue()


class Pdus(unittest.TestCase):
    def test_words(self):
        for said, octets in WORDS.items():
            self.assertEqual(write.written(said).octets.hex().upper(), octets.replace(" ", "").upper(), said)

    def test_bad_words(self):
        for said, (at, why) in BAD.items():
            with self.assertRaises(write.BadWords, msg=said) as caught:
                write.written(said, edition="1")
            self.assertIn(why, caught.exception.why)
            self.assertEqual(caught.exception.at, at, said)

    def test_names_of_both_editions(self):
        long = "N" * 33
        self.assertTrue(write.written(f"Read {long}", edition="2").octets)
        with self.assertRaisesRegex(write.BadWords, "1 to 32 letters"):
            write.written(f"Read {long}", edition="1")

    def test_each_service_is_known(self):
        for k, (name, forms) in grammar.SERVICE.items():
            for head in (name, "answer " + name):
                with self.subTest(head):
                    try:
                        self.assertEqual(write.written(head).pdu, int(head != name))
                    except write.BadWords as bad:
                        self.assertRegex(bad.why, "lacks|missing")

    def test_random_strings(self):
        done, refused = tried(3000, 7)
        self.assertEqual(done + refused, 3000)
        self.assertGreater(done, 20)


class Inverse(unittest.TestCase):
    def test_every_pdu_of_rows_and_examples(self):
        """Its words are written as the same octets, so `explain` reads the same; and nearly all are in words."""
        in_words = whole = 0
        for octets, place in of_rows().items():
            if len(octets) > texts.MOST_PDU:
                continue
            said = spoken.say(octets)
            self.assertEqual(write.written(said).octets, octets, f"{place}: {said[:200]}")
            if said[0] != "<":
                in_words += 1
                whole += "<" not in said
        self.assertGreater(in_words, 12000)
        self.assertGreater(whole, 11500)

    def test_the_examples(self):
        """A recording in words is the recording again."""
        for path in sorted(glob.glob(os.path.join(EXAMPLES, "*.mms"))):
            text = text_of(path)
            said = spoken.recording(text)
            again, first = texts.read_recording(write.recording(said)), texts.read_recording(text)
            self.assertEqual((again.phases, again.config, again.edition), (first.phases, first.config, first.edition))


class Recordings(unittest.TestCase):
    def setUp(self):
        folder = tempfile.TemporaryDirectory()
        self.addCleanup(folder.cleanup)
        self.path = os.path.join(folder.name, "a.mms")

    def written(self, text: str, *more: str) -> Tuple[int, str, str]:
        with open(self.path, "w", encoding="latin-1", newline="") as f:
            f.write(text)
        return run(self.path, *more)

    def test_numbers_count_by_client(self):
        lines = "1: Initiate,1: Read V, 2 : Initiate,2: Status,1: Status,1: Status invoke=9,1: Identify".split(",")
        more = "\nphase\n# x\ntick 5\n1: answer DeleteDomain\n1: Initiate\n1: Identify"
        status, out, err = self.written(HEAD + "\n".join(lines) + more)
        self.assertEqual((status, err), (0, ""))
        body = out[len(HEAD) :].split("\n")
        notes = [x.strip() for x in lines] + ["x", "1: answer DeleteDomain", "1: Initiate", "1: Identify"]
        self.assertEqual([x[2:] for x in body if x.startswith("# ")], notes)
        r = texts.read_recording(out)
        numbers = [words.say(e.octets).invoke for p in r.phases for e in p if e.kind == "heard"]
        self.assertEqual(numbers, [None, 1, None, 1, 2, 9, 10, 1, None, 1])
        self.assertEqual(len(r.phases), 2)

    def test_octets_count_too(self):
        status, out, _ = self.written(HEAD + "1 A0 05 020107 8200\n1: Identify\n")
        self.assertIn("\n1 A0050201088200\n", out)

    def test_bad_lines(self):
        for line, why in (
            ("1: Reed V", "line 4, sign 4: `Reed` is no service and no PDU; is it `Read`?"),
            ("  12:  DefineSemaphore T 0", "line 4, sign 26: `0` is out of range"),
            ("1; Read V", "line 4: 1; Read V: neither an event nor a PDU in words"),
            ("1: Read " + "N" * 33, "line 4, sign 9: "),
        ):
            status, out, err = self.written(HEAD + line + "\n")
            self.assertEqual((status, out), (2, ""))
            self.assertIn(why, err)

    def test_edition_2_has_longer_names(self):
        self.assertEqual(self.written(HEAD.replace("1", "2", 1) + "1: Read " + "N" * 33)[0], 0)

    def test_no_recording(self):
        for text, why in (("hello\n", "line 1: no recording"), ("mms-recording 1\nconfig\n", "`end` are missing")):
            status, _, err = self.written(text)
            self.assertEqual(status, 2)
            self.assertIn(why, err)

    def test_back(self):
        status, out, _ = self.written(HEAD + "# why\n1 A0050201018200\nlost 1\n1 FF\n", "--back")
        self.assertEqual((status, out), (0, HEAD + "# why\n1: Identify\nlost 1\n1 FF\n"))

    @needs_program
    def test_it_is_served(self):
        _, out, _ = self.written(HEAD + "1: Initiate\n1: DefineSemaphore T 1\n1: TakeControl T\n1: Conclude\n")
        got = subprocess.run([*DEVICE, "replay"], input=out.encode(), stdout=subprocess.PIPE, check=True).stdout
        outputs = texts.read_report(got.decode()).phases[0].outputs[1]
        said = [spoken.say(o, 0, 0) for o in outputs]
        answers = ["answer DefineSemaphore invoke=1", "answer TakeControl noResult invoke=2", "conclude-Response"]
        self.assertEqual(said[1:], answers)


class Command(unittest.TestCase):
    def test_one(self):
        said = run("TakeControl T acceptableDelay=5", "--invoke", "2")
        self.assertEqual(said, (0, "A00D020102B308A003800154830105\n", ""))
        self.assertEqual(run("Conclude")[:2], (0, "8B00\n"))
        self.assertEqual(run("TakeControl", "T"), (0, "A00A020101B305A003800154\n", ""))
        self.assertEqual(run("--back", "A00A 020101 B305 A003 800154"), (0, "TakeControl T\n", ""))

    def test_refused(self):
        for said, why in (
            (["Read"], "mms write: sign 5: read lacks variableAccessSpecification"),
            (["Read V", "--invoke", "-1"], "--invoke -1 is out of range"),
            (["none.mms"], "none.mms: no such file"),
            (["--back", "A00"], "A00: no file, and no PDU in hexadecimal digits"),
        ):
            status, out, err = run(*said)
            self.assertEqual((status, out), (2, ""))
            self.assertIn(why, err)


if __name__ == "__main__":
    unittest.main()
