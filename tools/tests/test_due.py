"""Tests of when time has to go by unasked."""
from common import *  # noqa: F403
from mmstools.due import OFTEN, Due
from mmstools.write import written


class Moments(unittest.TestCase):
    """The next moment, by requests and answers."""

    def setUp(self):
        self.due = Due()

    def heard(self, words_, now, client=1, invoke=1):
        self.due.heard(client, written(words_, invoke).octets, now)

    def granted(self, now, client=1, invoke=1):
        self.due.told(client, written("answer TakeControl noResult", 1, invoke).octets, now)

    def test_nothing(self):
        for said in ("Status", "Read V", "TakeControl T", "DefineEventCondition E network-triggered"):
            self.heard(said, 5)
            self.assertIsNone(self.due.next(5))

    def test_waits(self):
        self.heard("TakeControl T acceptableDelay=20", 5)
        self.heard("TakeControl T acceptableDelay=7", 6)
        self.assertEqual(self.due.next(6), 13)
        self.due.met(13)
        self.assertEqual(self.due.next(13), 25)
        self.due.met(400)
        self.assertIsNone(self.due.next(400))

    def test_control(self):
        """It counts from the grant; one that is granted by an end that is met late counts from that end, too."""
        self.heard("TakeControl T controlTimeOut=100", 5)
        self.heard("TakeControl T controlTimeOut=50", 6, 2)
        self.assertIsNone(self.due.next(6))
        self.granted(10)
        self.assertEqual(self.due.next(10), 110)
        self.due.met(113)
        self.granted(113, 2)
        self.assertEqual(self.due.next(113), 160)
        self.due.met(160)
        self.assertEqual(self.due.next(160), 163)

    def test_refused_or_lost(self):
        self.heard("TakeControl T controlTimeOut=100", 5)
        self.due.told(1, bytes.fromhex("A20A800101A205A003870102"), 5)
        self.heard("TakeControl T controlTimeOut=100", 5, 2)
        self.due.lost(2)
        self.granted(6)
        self.granted(6, 2)
        self.assertIsNone(self.due.next(6))

    def test_evaluations(self):
        """At the multiples of the interval from the definition; often, once a condition was altered."""
        self.heard("DefineEventCondition E monitored monitoredVariable=V evaluationInterval=50", 7)
        self.assertEqual([self.due.next(now) for now in (7, 56, 57, 58)], [57, 57, 107, 107])
        self.heard("DefineEventCondition F monitored monitoredVariable=V evaluationInterval=1", 8)
        self.assertEqual(self.due.next(8), 18)
        self.heard("AlterEventConditionMonitoring E enabled=TRUE", 9)
        self.assertEqual(self.due.next(9), 9 + OFTEN)

    def test_indefinite_lengths(self):
        service = bytes.fromhex("B380" + "A080" + "800154" + "0000" + "830114" + "0000")
        self.due.heard(1, bytes.fromhex("A080" + "020101") + service + b"\0\0", 5)
        self.assertEqual(self.due.next(5), 25)

    def test_any_octets(self):
        rng = random.Random(4)
        for _ in range(500):
            octets = bytearray(written("TakeControl T acceptableDelay=20 controlTimeOut=9").octets)
            octets[rng.randrange(1, len(octets))] = rng.randrange(256)
            self.due.heard(1, bytes(octets), 5)
            self.due.told(1, b"\xa1" + bytes(octets[1:]), 5)
            self.due.next(5)
