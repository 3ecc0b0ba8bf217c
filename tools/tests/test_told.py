"""`mms write` of the lines of `explain`: what is written, `explain` tells with the same line."""

import re
import unittest
from collections import Counter

import common  # noqa: F401  (finds the tools)
import pdus_of_rows
from mmstools import ber, explain, grammar, spoken, words, write

UNWRITTEN = (" .. ", "symbolicAddress", "unconstrainedAddress", "preempt client ,", "= cell 0, type ")  # of lines that say too little
LINES = [
    ("TakeControl T, delay 5 ms, request, invokeID 2", "TakeControl T acceptableDelay=5 invoke=2"),
    ("TakeControl T, token A, preempt client 3, request, invokeID 1", "TakeControl T token=A applicationToPreempt=3"),
    ("Status, request, invokeID 7", "Status invoke=7"),
    ("Status extended, request, invokeID 7", "Status TRUE invoke=7"),
    ("Write Speed = 7, cell 1 = TRUE, request, invokeID 4", "Write [Speed cell:1] [7 TRUE] invoke=4"),
    ("Write list L = 1, 2, request, invokeID 1", "Write list:L [1 2]"),
    ("Read cell 0, Speed, request, invokeID 3", "Read [cell:0 Speed] invoke=3"),
    ("GetNameList domain of the VMD, after D, request, invokeID 1", "GetNameList domain vmdSpecific continueAfter=D"),
    ("GetNameList journal of domain D, request, invokeID 1", "GetNameList journal domainSpecific:D"),
    ("CreateProgramInvocation P, D1, D2, reusable FALSE, request, invokeID 1", "CreateProgramInvocation P [D1 D2] reusable=FALSE"),
    ("Start P, argument \"x\", request, invokeID 1", "Start P executionArgument=x"),
    ("UploadSegment upload 1, request, invokeID 4", "UploadSegment 1 invoke=4"),
    ("DownloadSegment AA BB, response, invokeID 1", "answer DownloadSegment AABB moreFollows=FALSE"),
    ("DownloadSegment AA BB, more follow, response, invokeID 1", "answer DownloadSegment AABB"),
    ("TerminateDownloadSequence done, response, invokeID 3", "answer TerminateDownloadSequence invoke=3"),
    ("error access: object-non-existent, invokeID 2", "Error access:object-non-existent invoke=2"),
    (
        "reject max-recursion-exceeded (confirmed-requestPDU), invokeID 14",
        "Reject originalInvokeID=14 confirmed-requestPDU=max-recursion-exceeded",
    ),
    ("cancel-Request invokeID 9, invokeID 9", "Cancel 9"),
    ("initiate-Request PDU 65000, calling 10, called 10, nesting 5", "Initiate"),
    ("initiate-Request PDU 512, calling 1, called 2, nesting 3", "Initiate localDetail=512 calling=1 called=2 nesting=3"),
]


class Told(unittest.TestCase):
    def test_lines(self):
        """A line and the words of `mms write` give the same octets, which have that line."""
        for said, in_words in LINES:
            octets = write.written(said).octets
            self.assertEqual(octets, write.written(in_words).octets, said)
            self.assertEqual(explain.heading(words.say(octets)), said)

    def test_rows(self):
        """Every other PDU of the rows that has words: its line gives its octets, or others that have the same line."""
        kinds = Counter()
        for octets, place in list(pdus_of_rows.of_rows().items())[::2]:
            s = words.say(octets)
            is_numbered = s.invoke is not None and 0 <= s.invoke < 1 << 32
            if len(octets) > 400 or not s.pdu or not is_numbered or "malformed" in s.detail:
                continue
            if re.search("<|0x", spoken.say(octets, s.invoke, s.invoke)):
                continue  # some of it stands in octets
            said = explain.heading(s)
            try:
                again = write.written(said).octets
            except write.BadWords as bad:
                is_known = s.pdu == "confirmed-Response" and s.service == "read"  # with the variables in front
                self.assertTrue(is_known or any(x in said for x in UNWRITTEN), f"{place}: {said}: {bad}")
                continue
            kinds[again == octets] += 1
            if again != octets and s.service not in ("read", "readJournal"):  # whose data look alike
                self.assertEqual(explain.heading(words.say(again)), said, place)
        self.assertGreater(kinds[True], 8 * kinds[False])
        self.assertGreater(kinds[True], 4500)

    def test_no_line(self):
        """Words that aren't a line mean what they meant: `request` is a name, too."""
        same = (write.written(f"DeleteEventCondition {said}").octets for said in ("V, request", "[V request]"))
        self.assertEqual(*same)
        for said in ("Read V, Q = 1, request, invokeID 3", "TakeControl T, dela 5, request, invokeID 1"):
            with self.assertRaises(write.BadWords):
                write.written(said)


class Alike(unittest.TestCase):
    def test_what_is_shared(self):
        """A PDU whose parts are shared with others is as one that is decoded by itself."""
        for octets in pdus_of_rows.of_rows():
            if len(octets) < 3000 and grammar.numbered(octets):
                shared, own = grammar.decode(octets), grammar._decoded(octets)
                self.assertEqual([list(map(shown, n.walk())) for n in shared], [list(map(shown, n.walk())) for n in own])

    def test_once(self):
        """PDUs that differ in their invokeID alone are decoded, told and laid out once."""
        kept = grammar._behind, words._like, explain._around
        before = [f.cache_info().misses for f in kept]
        for number in range(100):
            octets = bytes.fromhex(f"A0160201{number:02X}B311A0088006514F6E6365518102523186 0100")
            self.assertEqual(words.say(octets).invoke, number)
            self.assertEqual(len(explain.pdu(octets)), 7)
        self.assertEqual([f.cache_info().misses - n for f, n in zip(kept, before)], [1, 1, 1])

    def test_where_the_number_stands(self):
        for digits, at in (
            ("A006020101800100", (4, 5)),
            ("A08106020101800100", (5, 6)),
            ("A20A800102A205A003870102", (4, 5)),
            ("A0070202012C800100"[:-2], None),
            ("A003020101", None),
            ("A00602010180010000", None),
            ("A080020101800100", None),
            ("A0060301018001", None),
        ):
            self.assertEqual(grammar.numbered(bytes.fromhex(digits)), at, digits)


def shown(n: grammar.Node):
    """All that an element and its node tell, but for where the octets are counted from."""
    e: ber.Element = n.element
    octets = e.octets[e.at : e.tag_end], e.octets[e.tag_end : e.start], e.contents
    return n.label, n.type, n.value, n.known, n.kind, octets, e.tag, e.constructed, e.flaw, e.is_ended, len(e.parts)


if __name__ == "__main__":
    unittest.main()
