"""The words for the PDUs of the examples and the rows, held against tshark's own dissector of MMS."""

import os
import re
import shutil
import struct
import subprocess
import tempfile
import unittest
import xml.etree.ElementTree as ET
from typing import Dict, Iterator, List, Set, Tuple

import test_words_rows
from common import REPORTS, text_of
from mmstools import grammar, texts, words
from mmstools.grammar import VALUES, Node

LINK = 147  # the first that users may say what it is
AS_MMS = 'uat:user_dlts:"User 0 (DLT=147)","mms","0","","0",""'


def pcap(pdus: List[bytes]) -> bytes:
    """A capture whose frames are bare PDUs."""
    head = struct.pack("<IHHiIII", 0xA1B2C3D4, 2, 4, 0, 0, 262144, LINK)
    return head + b"".join(struct.pack("<IIII", 0, 0, len(o), len(o)) + o for o in pdus)


def dissected(pdus: List[bytes]) -> Iterator[List[ET.Element]]:
    """Of each PDU all fields that tshark tells of it."""
    with tempfile.TemporaryDirectory() as folder:
        path = os.path.join(folder, "pdus.pcap")
        with open(path, "wb") as f:
            f.write(pcap(pdus))
        told = subprocess.run(
            ["tshark", "-r", path, "-o", AS_MMS, "-T", "pdml"], stdout=subprocess.PIPE, stderr=subprocess.DEVNULL
        ).stdout
    for packet in ET.fromstring(told).iter("packet"):
        yield [f for proto in packet.findall("proto") if proto.get("name") == "mms" for f in proto.iter("field")]


def plain(name: str) -> str:
    """A name as both have it: tshark's without where it comes from and with `_` for each other sign."""
    name = re.sub(r"^mms\.|_element$", "", name)
    return re.sub(r"[^A-Za-z0-9]", "_", name.rpartition("-Request_")[2].rpartition("-Response_")[2]).lower()


def of_examples() -> Set[bytes]:
    """The PDUs of the examples."""
    out = set()
    for path in REPORTS:
        for phase in texts.read_report(text_of(path)).phases:
            out |= {one.octets for _, one in phase.served if one.kind == "heard"}
            out |= {o for many in phase.outputs.values() for o in many if o}
    return out


def of_rows() -> Set[bytes]:
    """What the server sends in the steps of the rows, and what it takes."""
    sent = {o for step in test_words_rows.steps() for _, o in step.outputs if o}
    return sent | set(test_words_rows.Requests().taken())


ALSO = {
    "basicObjectClass": "objectclass",
    "numberOfTokens": "numbersoftokens",
    "executionArgument": "startargument",
    "priority": "prio_rity",
    "eventConditionTransitions": "eventconditiontransition",
    "occurrenceTime": "occurencetime",
}  # as tshark has them
MISSPELLED = {"namedVariable": "nammedVariable", "unrunnable": "unrunable"}  # by tshark
NOT_SHOWN = {"format-width", "exponent-width"}  # by tshark
# what tshark objects to, by service, and why
OBJECTED = {
    "reportSemaphoreEntryStatus": "no SEQUENCE stands under the tag of an ApplicationReference",
    "readJournal": "no SEQUENCE stands under the tag of an ApplicationReference",
    "write": "a binary-time of no octets is one here",
    "defineNamedVariable": "tshark knows no components of the type of floating-point numbers",
    "status": "a BOOLEAN without octets, which the server rejects",
    "reportEventConditionStatus": "tshark knows no undefined EventTime",
}
# of another form in tshark, which looks for a choice in the name of the condition
OTHERWISE = {"eventNotification"}


def is_objection(f: ET.Element) -> bool:
    return f.get("name", "").startswith("_ws.") and "alformed" in f.get("showname", "")


@unittest.skipUnless(shutil.which("tshark"), "tshark is missing")
class Dissected(unittest.TestCase):
    @classmethod
    def setUpClass(cls):
        """Each PDU that is one by our table, with tshark's fields."""
        pdus = sorted(o for o in of_examples() | of_rows() if len(o) < 4000 and words.say(o).pdu)
        cls.told = list(zip(pdus, dissected(pdus)))
        cls.agreed = [(o, fields) for o, fields in cls.told if not any(map(is_objection, fields))]

    def leaves(self) -> Iterator[Tuple[bytes, Node, List[ET.Element]]]:
        """Each value of each PDU, with the fields that tshark has at its octets."""
        for octets, fields in self.agreed:
            if words.say(octets).service in OTHERWISE:
                continue
            at: Dict[Tuple[int, int], List[ET.Element]] = {}
            for f in fields:
                at.setdefault((int(f.get("pos")), int(f.get("size"))), []).append(f)
            for n in grammar._decoded(octets)[0].walk():
                e = n.element
                if not n.parts and e.contents and n.label not in NOT_SHOWN:
                    bits = at.get((e.start + 1, e.end - e.start - 1), []) if n.element.contents[0] < 8 else []
                    yield octets, n, at.get((e.start, e.end - e.start), []) + bits

    def test_all_are_told(self):
        self.assertGreater(len(self.told), 4000)
        self.assertGreater(len(self.agreed), len(self.told) * 95 // 100)

    def test_names(self):
        """Each value stands under the name that tshark has at the same octets."""
        for octets, n, fields in self.leaves():
            names = {plain(f.get("name")) for f in fields}
            label = plain(n.label)
            same = any(x.endswith(label) or x.startswith(label) for x in names)  # with what else it is called
            also = ALSO.get(n.label) in names or not n.label
            self.assertTrue(fields and (same or also), f"{octets.hex()}: {n.label}, and {names}")

    def test_values(self):
        """Each number that has a word, each number and each name is what tshark says."""
        for octets, n, fields in self.leaves():
            said = " ".join(f.get("showname") or "" for f in fields)
            value = n.value.split(" (")[0]
            if n.kind in VALUES:
                self.assertIn(MISSPELLED.get(value, value), said, octets.hex())
            elif n.kind in ("INTEGER", "MS"):
                shown = {int(f.get("show")) % 2**32 for f in fields if re.fullmatch(r"-?\d+", f.get("show"))}
                self.assertIn(int(value.split()[0]) % 2**32, shown, octets.hex())
            elif n.kind in ("Id", "VisibleString"):
                self.assertIn(n.value.strip('"'), {f.get("show") for f in fields}, octets.hex())

    def test_services(self):
        """The service and the invokeID are those that tshark says."""
        for octets, fields in self.agreed:
            said = words.say(octets)
            told = {f.get("name"): f.get("showname") for f in fields}
            chosen = told.get("mms.confirmedServiceRequest") or told.get("mms.confirmedServiceResponse")
            if chosen and said.service != "no service":
                self.assertEqual(re.search(r": ([\w-]+) \(", chosen)[1], said.service, octets.hex())
            number = told.get("mms.invokeID") or told.get("mms.originalInvokeID")
            if number and said.invoke is not None:
                self.assertEqual(int(number.split(": ")[1]) % 2**32, said.invoke, octets.hex())

    def test_objections(self):
        """tshark objects to PDUs of these services alone."""
        objected = {words.say(o).service for o, fields in self.told if any(map(is_objection, fields))}
        self.assertLessEqual(objected, set(OBJECTED))


if __name__ == "__main__":
    unittest.main()
