"""Texts read and written, elements, and PDUs in a line of words."""

import random
import re
import unittest
from typing import List

from common import EXAMPLES, REPORTS, text_of
from mmstools import ber, explain, grammar, texts, words
from mmstools.history import history
from test_words_rows import shown

NAME = "A003800145"  # [0] vmd-specific E
TIME = "800600000005" + "0000"  # [0] 5 ms of day 0


def element(tag: str, *parts: str) -> str:
    """An element in digits, of a tag and what it holds."""
    contents = "".join(parts)
    return f"{tag}{len(contents) // 2:02X}{contents}"


def asked(tag: str, *parts: str) -> str:
    return element("A0", "020101", element(tag, *parts))


def answered(tag: str, *parts: str) -> str:
    return element("A1", "020101", element(tag, *parts))


class Texts(unittest.TestCase):
    def test_examples_there(self):
        self.assertTrue(REPORTS, "no examples in " + EXAMPLES)

    def test_written_as_read(self):
        for path in REPORTS:
            self.assertEqual(texts.write_report(texts.read_report(text_of(path))), text_of(path))
            r = texts.read_recording(text_of(path[: -len(".report")] + ".mms"))
            again = texts.read_recording(texts.write_recording(r))
            self.assertEqual((r.phases, r.config), (again.phases, again.config))

    def test_cut_anywhere(self):
        whole = text_of(REPORTS[0])
        for i in range(0, len(whole), 5):
            try:
                history(texts.read_report(whole[:i]))
            except texts.BadText:
                pass

    def test_events(self):
        """The forms of an event line, and what is none."""
        for line in ("1 8B00", "1\t 8b 00", "lost 3", "tick 5", "ends a$_1", "ends " + "a" * 32):
            self.assertIsNotNone(texts.event(line), line)
        for line in ("1 8B0", "1 8 B00", "1", "lost", "tick -1", "ends 1a", "ends " + "a" * 65, "\u0661 8B00", "phase"):
            self.assertIsNone(texts.event(line), line)

    def test_editions(self):
        """A name has 32 octets at most in edition 1, 64 in edition 2, and in a report, which names none."""
        for edition, most in (("1", 32), ("2", 64)):
            head = f"mms-recording {edition}\nconfig\nend\nends "
            recording = texts.read_recording(head + "a" * most)
            self.assertEqual((recording.edition, recording.phases[0][0].name), (edition, "a" * most))
            self.assertEqual(texts.write_recording(recording), head + "a" * most + "\n")
            with self.assertRaises(texts.BadText):
                texts.read_recording(head + "a" * (most + 1))
        report = "phase 1\n1 ends " + "a" * 64 + "\n"
        self.assertEqual(texts.write_report(texts.read_report(report)), report)
        for head in ("mms-recording 3", "mms-recording 02", "mms-recording 2 "):
            with self.assertRaises(texts.BadText):
                texts.read_recording(head + "\nconfig\nend\n")

    def test_examples_are_spelled_by_element(self):
        """Octets of an example are parted element by element; what isn't whole stands as it is."""
        for path in REPORTS:
            text = text_of(path[: -len(".report")] + ".mms")
            for line in text.partition("\nend\n")[2].split("\n"):
                if re.match(r"\s*\d+ ", line):
                    digits = line.split(maxsplit=1)[1]
                    if digits != "A0":
                        self.assertEqual(digits.upper(), by_element(bytes.fromhex(digits)), path)


def by_element(octets: bytes) -> str:
    """Octets parted so that tag and length of what holds others, and its end, stand alone, and other elements whole."""

    def pieces(e: ber.Element) -> List[bytes]:
        inner = [piece for part in e.parts for piece in pieces(part)]
        end = [ber.END_OF_CONTENTS] * e.is_ended
        return [octets[e.at : e.start], *inner, *end] if inner else [octets[e.at : e.end], *end]

    return " ".join(piece.hex().upper() for e in ber.elements(octets) for piece in pieces(e))


class Elements(unittest.TestCase):
    def test_lengths_and_tags(self):
        """Long, too long and indefinite lengths, tags of several octets, and what is wrong where something is."""
        for octets, number, contents, flaw in [
            ("8001AA", 0, "AA", ""),
            ("808101AA", 0, "AA", ""),
            ("80880000000000000001AA", 0, "AA", ""),
            ("9F8501" + "00", 641, "", ""),
            ("A0803080" + "00000000", 0, "30800000", ""),
            ("A0803080000080000000", 0, "308000008000", ""),
            ("8080AA0000", 0, "", "an indefinite length, which no primitive element has"),
            ("A080AA00", 0, "", "an indefinite length that does not end"),
            ("A080AA000000", 0, "AA00", ""),
            ("8002AA", 0, "AA", "says 2 octets, and there are 1"),
            ("8082", 0, "", "the length is cut off"),
            ("8089", 0, "", "the length has too many octets"),
            ("9F85", 31, "", "the tag ends too early"),
            ("80", 0, "", "there is no length"),
        ]:
            e = ber.elements(bytes.fromhex(octets))[0]
            self.assertEqual((e.contents.hex().upper(), e.flaw), (contents, flaw), octets)
            if not flaw:
                self.assertEqual(e.number, number)

    def test_any_octets(self):
        rng = random.Random(1)
        for _ in range(3000):
            likely = [0xA0, 0xA1, 2, 1, 0x80, 0x30, 0x1F, 0xBF, 0x82, 0xFF, 0, 4]
            octets = bytes(rng.choice([*likely, rng.randrange(256)]) for _ in range(rng.randrange(1, 40)))
            words.say(octets)
            explain.pdu(octets)

    def test_any_change_of_a_pdu(self):
        """Octets of PDUs of each service, some of them changed: there are words and lines, and each octet is shown."""
        rng = random.Random(2)
        whole = [bytes.fromhex(pdu) for pdu, _, _ in SAID if len(pdu) > 8]
        for _ in range(4000):
            octets = bytearray(rng.choice(whole))
            for _ in range(rng.randrange(1, 4)):
                octets[rng.randrange(len(octets))] = rng.choice([0, 0x80, 0xFF, 0x30, 0xA0, rng.randrange(256)])
            words.say(bytes(octets))
            self.assertTrue(explain.pdu(bytes(octets)))


SAID = [
    # what is refused, and errors
    ("A20A800102A205A003870102", "error", "access: object-non-existent"),
    ("A40680010E810108", "reject", "max-recursion-exceeded (confirmed-requestPDU)"),
    ("A403850101", "reject", "invalid-pdu (pdu-error)"),
    ("A20F800101A20AA003840102A303810103", "error", "service: object-state-conflict, Start found it running"),
    ("A20F800101A20AA003840102A303820104", "error", "service: object-state-conflict, Stop found it stopped"),
    ("A20F800101A20AA003840102A303830102", "error", "service: object-state-conflict, Resume found it idle"),
    ("A20F800101A20AA003840102A303840101", "error", "service: object-state-conflict, Reset found it unrunnable"),
    ("A20F800101A20AA003840102A303810109", "error", "service: object-state-conflict, Start found it unknown"),
    ("A20F800101A20AA003840102A303800107", "error", "service: object-state-conflict, obtainFile 7"),
    ("AD05A003890101", "conclude-Error", "conclude: further-communication-required"),
    ("A70A800109A105A0038A0101", "cancel-Error", "cancel: invoke-id-unknown"),
    ("AA05A003880104", "initiate-Error", "initiate: max-services-outstanding-called-insufficient"),
    ("850109", "cancel-Request", "invokeID 9"),
    ("A0", "A0", "malformed: there is no length"),
    ("AE00", "AE 00", "malformed: no PDU of MMS"),
    # the VMD, variables, semaphores
    ("A113020101A20E8003564D44810443454C4C820131", "Identify", 'vendor "VMD", model "CELL", revision "1"'),
    ("A017020104A512A00B3009A00780055370656564A003850107", "Write", "Speed = 7"),
    ("A108020102A503800103", "Write", "object-access-denied"),
    ("A00E020103A109A003800109A1028200", "GetNameList", "domain of the association"),
    ("A00A020102B305A003800154", "TakeControl", "T"),
    ("A107020102B3028000", "TakeControl", "granted"),
    # domains
    ("A00E020101BA0980024431A100820101", "InitiateDownloadSequence", "D1, capabilities none, sharable TRUE"),
    ("A0070201019B024431", "DownloadSegment", "D1"),
    ("A10C020101BB078002AABB810100", "DownloadSegment", "AA BB"),
    ("A109020101BB048002AABB", "DownloadSegment", "AA BB, more follow"),
    ("A009020102BC0480024431", "TerminateDownloadSequence", "D1"),
    (
        "A010020102BC0B80024431A105A003800103",
        "TerminateDownloadSequence",
        "D1, discard vmd-state: domain-transfer-problem",
    ),
    ("A0070201039D024431", "InitiateUploadSequence", "D1"),
    ("A10A020103BD05800101A100", "InitiateUploadSequence", "upload 1, capabilities none"),
    ("A0060201049E0101", "UploadSegment", "upload 1"),
    ("A10C020104BE078002AABB8101FF", "UploadSegment", "AA BB, more follow"),
    ("A0070201069F1F0101", "TerminateUploadSequence", "upload 1"),
    ("A0080201079F24024431", "DeleteDomain", "D1"),
    (
        "A116020102BF2510A0008101028201FF8301FFA400850100",
        "GetDomainAttributes",
        "capabilities none, state ready, deletable TRUE, sharable TRUE, invocations none, uploads 0",
    ),
    # program invocations
    (asked("BF26", "800150", "A1041A024431"), "CreateProgramInvocation", "P, D1"),
    (asked("BF26", "800150", "A1041A024431", "820100"), "CreateProgramInvocation", "P, D1, reusable FALSE"),
    (asked("BF26", "800150", "A1081A0244311A024432"), "CreateProgramInvocation", "P, D1, D2"),
    (asked("BF26", "800150", "A100"), "CreateProgramInvocation", "P, none"),
    (asked("9F27", "50"), "DeleteProgramInvocation", "P"),
    (asked("BF28", "800150", "8101" + "78"), "Start", 'P, argument "x"'),
    (asked("BF29", "800150"), "Stop", "P"),
    (asked("BF28", "800150", "8100"), "Start", 'P, argument ""'),
    (asked("BF28", "800150"), "Start", "P"),
    (asked("BF2A", "800150"), "Resume", "P"),
    (asked("BF2A", "800150", "8100"), "Resume", 'P, argument ""'),
    (asked("BF2B", "800150"), "Reset", "P"),
    (asked("BF2C", "800150"), "Kill", "P"),
    (answered("9F26"), "CreateProgramInvocation", "done"),
    (answered("9F27"), "DeleteProgramInvocation", "done"),
    (answered("9F28"), "Start", "done"),
    (answered("9F29"), "Stop", "done"),
    (answered("9F2A"), "Resume", "done"),
    (answered("9F2B"), "Reset", "done"),
    (answered("9F2C"), "Kill", "done"),
    (asked("9F2D", "50"), "GetProgramInvocationAttributes", "P"),
    (
        answered("BF2D", "800103", "A1041A024431", "8201FF", "8301FF", "840100", "8500"),
        "GetProgramInvocationAttributes",
        'state running, D1, deletable TRUE, reusable TRUE, monitor FALSE, argument ""',
    ),
    (
        answered("BF2D", "800101", "A1081A0244311A024432", "8201FF", "830100", "840100", "850178"),
        "GetProgramInvocationAttributes",
        'state unrunnable, D1, D2, deletable TRUE, reusable FALSE, monitor FALSE, argument "x"',
    ),
    (asked("A1", "A00380010A", "A1028000"), "GetNameList", "programInvocation of the VMD"),
    (asked("A1", "A00380010A", "A1028000", "820150"), "GetNameList", "programInvocation of the VMD, after P"),
    (answered("A1", "A0061A01501A0151", "810100"), "GetNameList", "P, Q"),
    (
        "A11A020102BF2514A0008101038201FF8301FFA4041A024431850100",
        "GetDomainAttributes",
        "capabilities none, state in-use, deletable TRUE, sharable TRUE, invocations D1, uploads 0",
    ),
    # event conditions and enrolments
    ("A00E020101BF2F08A003800145810100", "DefineEventCondition", "E, class network-triggered"),
    (
        asked("BF2F", NAME, "810101", "82010A", "830105", "8401FF", "A605A003800156", "870164"),
        "DefineEventCondition",
        "E, class monitored, priority 10, severity 5, alarmSummaryReports TRUE, monitoredVariable V,"
        " evaluationInterval 100 ms",
    ),
    ("A00B020101BF3005A003800145", "DeleteEventCondition", "E"),
    ("A107020101" + "9F300101", "DeleteEventCondition", "1 not deleted"),
    (asked("BF32", "800145"), "ReportEventConditionStatus", "E"),
    (
        answered("BF32", "800101", "810102", "8201FF", "A308" + TIME, "A4028200"),
        "ReportEventConditionStatus",
        "currentState idle, numberOfEventEnrollments 2, enabled TRUE, timeOfLastTransitionToActive 00:00:00.005, day 0,"
        " timeOfLastTransitionToIdle undefined",
    ),
    (
        asked("BF33", NAME, "8101FF", "840132"),
        "AlterEventConditionMonitoring",
        "E, enabled TRUE, evaluationInterval 50 ms",
    ),
    ("A00B020103BF3405A003800145", "TriggerEvent", "E"),
    (
        "A017020101BF3911A00380014EA10380014582020104830100",
        "DefineEventEnrollment",
        "N, E, eventConditionTransitions idle-to-active, alarmAcknowledgementRule none",
    ),
    (asked("BF3A", "A1", "03800145"), "DeleteEventEnrollment", "E"),
    (
        "A31CA21AA00380014EA103800145820140830102A4088006000000140000",
        "EventNotification",
        "N, E, severity 64, currentState active, transitionTime 00:00:00.020, day 0",
    ),
    # journals
    ("A00B020101BF4505A00380014A", "CreateJournal", "J"),
    (asked("BF46", "A00380014A"), "DeleteJournal", "J"),
    (
        "A01B020102BF4215A00380014AA10E300C800600000005000083026F6B",
        "WriteJournal",
        'J, occurrenceTime 00:00:00.005, day 0, annotation "ok"',
    ),
    ("A00B020103BF4105A00380014A", "ReadJournal", "J"),
    (
        "A12C020103BF4126A021301F80080000000000000001A105A103020101A20C800600000005000083026F6B810100",
        "ReadJournal",
        'entry 1, client 1, entryContent occurrenceTime 00:00:00.005, day 0, annotation "ok"',
    ),
    (
        asked("BF43", "A00380014A", element("A1", TIME)),
        "InitializeJournal",
        "J, limitSpecification limitingTime 00:00:00.005, day 0",
    ),
    (answered("9F43", "03"), "InitializeJournal", "3 removed"),
    (asked("BF44", "80014A"), "ReportJournalStatus", "J"),
    (answered("BF44", "800103", "8101FF"), "ReportJournalStatus", "currentEntries 3, deletable TRUE"),
]


class Words(unittest.TestCase):
    def test_sentences(self):
        for pdu, title, detail in SAID:
            s = words.say(bytes.fromhex(pdu))
            self.assertEqual((s.title, s.detail), (title, detail), pdu)

    def test_forms(self):
        """Each element of these PDUs is known, and each octet shown once."""
        for pdu, _, detail in SAID:
            if "malformed" not in detail:
                (node,) = grammar.decode(bytes.fromhex(pdu))
                self.assertTrue(all(n.known and not n.element.flaw for n in node.walk()), pdu)
                self.assertEqual(shown(node), bytes.fromhex(pdu))

    def test_every_service_has_its_words(self):
        """Each number below 78 has a name, and those of the services that a device may come to serve have forms."""
        for k in range(78):
            self.assertIn(k, grammar.BITS_OF["SERVICES"])
        for k in [*range(38, 46), 47, 48, 50, 51, 52, 57, 58, *range(65, 71)]:
            self.assertNotIn("ANY", grammar.SERVICE[k][1], k)

    def test_tones(self):
        """Whether all, some or none of a Read or a Write succeeded."""
        for pdu, tone in [
            ("A107020101A5028100", "good"),
            ("A108020102A503800103", "bad"),
            ("A10A020102A5058100800103", "part"),
            ("A10A020101A405A103850107", "good"),
            ("A10A020101A405A10380010A", "bad"),
        ]:
            self.assertEqual(words.say(bytes.fromhex(pdu)).tone, tone, pdu)
        self.assertEqual((words.say(None).tone, words.say(b"").tone), ("abort", "bad"))

    def test_octets_are_kept(self):
        """The elements of a PDU show each of its octets once, also of those that are malformed."""
        for path in REPORTS:
            for row in history(texts.read_report(text_of(path))):
                for octets in [row.event.octets] + [o.octets or b"" for o in row.outputs]:
                    self.assertEqual(b"".join(map(shown, grammar.decode(octets))), octets)

    def test_values(self):
        """Values are whole, numbers in their fewest digits, and what a value can't be is said."""
        for octets, form, value in [
            ("00" * 300, "OCTETS", " ".join(["00"] * 300)),
            ("080000C03F", "FLOAT", "6.89649e-41"),
            ("083DCCCCCD", "FLOAT", "0.1"),
            ("087F7FFFFF", "FLOAT", "3.4028235e+38"),
            ("0B400921FB54442D18", "FLOAT", "3.141592653589793"),
            ("", "INTEGER", "(no octet)"),
            ("09FF", "BITS", "(no bit string)"),
            ("0500", "BITS", "000"),
            ("00FDE8", "INTEGER", "65000"),
            ("FF", "MS", "-1 ms"),
            ("41E9", "Id", r"A\xE9"),
            ("2A", "DomainState", "unknown (42)"),
            ("410AC3A4FF", "UTF8", '"A<A>\u00e4\\\\xff"'.replace("\\\\", "\\")),
        ]:
            self.assertEqual(grammar._value(bytes.fromhex(octets), form), value)

    def test_long_values_are_counted(self):
        """A line of words has a part of a long value and of a long list, and says how much there is."""
        long = words.say(bytes.fromhex("A182FA0B020101BB82FA048082FA00" + "AA" * 64000)).detail
        self.assertRegex(long, r"^AA AA .* \.\. \(64000 octets\), more follow$")
        many = words.say(bytes.fromhex("A182006D020101A4820066A1820062" + "850107" * 32 + "8500")).detail
        self.assertRegex(many, r"\.\. 9 more")

    def test_in_order_and_once(self):
        """A component that stands twice, or behind a later one, is not known."""
        for parts in (("A003800154", "810141", "810142"), ("810141", "A003800154")):
            service = grammar.decode(bytes.fromhex(asked("B3", *parts)))[0].parts[-1]
            self.assertEqual([p.known for p in service.parts], [True] * (len(parts) - 1) + [False])

    def test_other_classes_are_unknown(self):
        self.assertFalse(grammar.decode(bytes.fromhex("60020500"))[0].known)

    def test_hint(self):
        self.assertIn("PDUs are bare here", words.hint(bytes.fromhex("03000016")))
        self.assertEqual([words.hint(o) for o in (None, b"", b"\x03", b"\x8b\0", b"\x03\x01")], [""] * 5)


if __name__ == "__main__":
    unittest.main()
