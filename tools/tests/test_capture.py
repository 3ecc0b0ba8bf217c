"""Tests of capture."""
from common import *  # noqa: F403
from frames import simple_data


@unittest.skipUnless(shutil.which("tshark"), "tshark is missing")
class Capture(unittest.TestCase):
    def setUp(self):
        self.folder = tempfile.TemporaryDirectory()
        self.addCleanup(self.folder.cleanup)
        self.path = os.path.join(self.folder.name, "a.pcap")

    def of(self, wire, options=None, **how):
        with open(self.path, "wb") as f:
            f.write(wire.pcap(**how))
        return capture.capture(self.path, options or capture.Options(learn=False))

    def lines(self, got):
        return [e.line() for p in got.recording.phases for e in p]

    def test_round_trip(self):
        """A recording as frames, with segments cut, doubled and swapped, COTP in pieces, and back."""
        for n, f in enumerate(REPORTS):
            for trouble in (False, True):
                wire, events = conversation.wire_of(history(texts.read_report(text_of(f))), n, trouble)
                got = self.of(wire)
                real = {i: int(h.rsplit(".", 1)[1]) - 10 for i, h in enumerate(got.clients, 1)}
                back = [
                    texts.Event(e.kind, real.get(e.client, 0), e.octets, e.ms)
                    for p in got.recording.phases
                    for e in p
                ]
                while events and events[0].kind == "tick":
                    events.pop(0)
                self.assertEqual(conversation.ticks(back), conversation.ticks(events), f)
                self.assertEqual(got.warnings, [])

    def talk(self, count=5):
        wire = Wire()
        c = Connection(wire, "10.0.0.11", 50001)
        c.open(ASK, YES)
        for _ in range(count):
            c.pdu(0, IDENTIFY)
            c.pdu(1, NAMED)
        return wire, c

    def test_what_the_server_said(self):
        wire, _ = self.talk(1)
        got = self.of(wire)
        self.assertEqual(
            texts.write_report(got.seen),
            "phase 1\n1 1 %s\n2 1 %s\nclient 1\n> %s\n> %s\n"
            % tuple(o.hex().upper() for o in (ASK, IDENTIFY, YES, NAMED)),
        )

    def test_lost_segment(self):
        wire, _ = self.talk(5)
        del wire.frames[-6]  # the third request
        got = self.of(wire)
        self.assertEqual(len(self.lines(got)), 1 + 4)
        self.assertTrue(got.warnings)

    def test_begins_in_the_middle(self):
        wire, _ = self.talk(3)
        wire.frames = wire.frames[8:]
        got = self.of(wire)
        self.assertEqual(self.lines(got)[0], "1 " + ASK.hex().upper())
        self.assertTrue(any("beginning" in w for w in got.warnings))

    def test_cut_anywhere(self):
        wire, _ = self.talk(3)
        whole = len(wire.pcap())
        for cut in range(0, whole, 211):
            try:
                self.of(wire, cut=cut)
            except capture.Unread:
                pass

    def test_cut_frames(self):
        wire, _ = self.talk(3)
        with self.assertRaisesRegex(capture.Unread, "cut when it was captured"):
            self.of(wire, snap=70)

    def test_several_pdus_in_a_segment(self):
        wire, c = self.talk(0)
        c.send(0, cotp_data(data(IDENTIFY)) + cotp_data(data(b"\xa0")) + cotp_data(data(b"\x8b\0")))
        self.assertEqual(self.lines(self.of(wire))[1:], ["1 " + IDENTIFY.hex().upper(), "1 A0", "1 8B00"])

    def test_client_comes_back(self):
        wire, c = self.talk(1)
        c.reset()
        other = Connection(wire, "10.0.0.12", 50002)
        other.open(ASK, YES)
        again = Connection(wire, "10.0.0.11", 50003)
        again.open(ASK, YES)
        got = self.of(wire)
        self.assertEqual([l.split()[0] for l in self.lines(got)], ["1", "1", "lost", "2", "1"])

    def test_other_port_and_servers(self):
        wire = Wire()
        for port, server in ((50001, "10.0.0.1"), (50002, "10.0.0.2")):
            c = Connection(wire, "10.0.0.11", port, server, 10102)
            c.open(ASK, YES)
        with self.assertRaisesRegex(capture.Unread, "--port"):
            self.of(wire)
        with self.assertRaisesRegex(capture.Unread, "several servers"):
            self.of(wire, capture.Options(decode_as=10102))
        got = self.of(wire, capture.Options(decode_as=10102, server=("10.0.0.2", None)))
        self.assertEqual(len(self.lines(got)), 1)

    def test_aborts(self):
        for side in (0, 1):
            wire, c = self.talk(1)
            c.abort(side)
            got = self.of(wire)
            self.assertEqual(self.lines(got)[-1], "lost 1")
            self.assertEqual(got.seen.phases[-1].outputs[1][2:], [None] * side)

    def test_conclude_in_the_release(self):
        wire, c = self.talk(1)
        c.send(0, cotp_data(finish(False, b"\x8b\0")))
        c.send(1, cotp_data(finish(True, b"\x8c\0")))
        c.close()
        got = self.of(wire)
        self.assertEqual(self.lines(got)[-1], "1 8B00")
        self.assertEqual(got.seen.phases[-1].outputs[1][-1], b"\x8c\0")

    def test_release_alone(self):
        wire, c = self.talk(1)
        c.send(0, cotp_data(finish()))
        self.assertEqual(self.lines(self.of(wire))[-1], "lost 1")

    def test_remarks(self):
        """Objects of domains that nobody loads are told once, with how many there are; those of a load aren't."""
        wire, c = self.talk(0)
        read = "A01E020101A419A117A0153013A011A10F1A034C44301A084C4C4E3024535424"
        for octets in (read, read, read.replace("535424", "535425")):
            c.pdu(0, bytes.fromhex(octets))
        got = self.of(wire).remarks
        self.assertEqual(len(got), 1)
        self.assertTrue(got[0].startswith("2 objects of domains (LD0) are named"), got)
        c.pdu(0, bytes.fromhex("A00F020102BA0A80034C4430A1008201FF"))
        self.assertEqual(self.of(wire).remarks, [])

    def test_editions(self):
        """A recording is of edition 2 where a client sends an indefinite length, or somebody a name of 33 to 64 octets."""
        name = {size: tlv(0x80, b"T" * size) for size in (32, 33, 64, 65)}
        status = {size: tlv(0xA0, b"\2\1\1" + tlv(0xB7, name[size])) for size in name}
        names = tlv(0xA1, b"\2\1\1" + tlv(0xA1, tlv(0xA0, tlv(0x1A, b"T" * 40)) + b"\x81\1\0"))
        for side, octets, edition in [
            (0, bytes.fromhex("A0800201018001000000"), "2"),
            (0, bytes.fromhex("A080020101800100"), "1"),
            (1, bytes.fromhex("A180020101A08080010081010000000000"), "1"),
            (0, status[32], "1"),
            (0, status[33], "2"),
            (0, status[64], "2"),
            (0, status[65], "1"),
            (1, names, "2"),
        ]:
            wire, c = self.talk(0)
            c.pdu(0, IDENTIFY)
            c.pdu(side, octets)
            got = self.of(wire)
            self.assertEqual(got.recording.edition, edition, octets.hex())
            self.assertEqual("the recording is of edition 2" in " ".join(got.remarks), edition == "2")
            self.assertTrue(texts.write_recording(got.recording).startswith(f"mms-recording {edition}\n"))
            self.assertEqual(self.of(wire, capture.Options(learn=False, edition="1")).recording.edition, "1")
        self.assertIn("1 name has more than 32 octets", " ".join(self.remarks_of(status[65])))
        self.assertIn("1 name has more than 64 octets", " ".join(self.remarks_of(status[64], status[65])))
        self.assertEqual(len(self.remarks_of(status[64])), 1)

    def remarks_of(self, *pdus):
        wire, c = self.talk(0)
        for octets in pdus:
            c.pdu(0, octets)
        return self.of(wire).remarks

    def test_malformed(self):
        """PDUs of any octets, in both encodings of user data, and two in one, come as they stood."""
        rng = random.Random(5)
        wire, c = self.talk(0)
        sent = [b"\xa0", b"\x61\x00", b"\x30\x80", b"\0", b"\xa0\x80", b"\xbf", b"\xff" * 70, b"\x62\x02\x01\x01"]
        sent += [bytes(rng.randrange(256) for _ in range(rng.randrange(1, 12))) for _ in range(60)]
        sent = [o for o in sent if o[:1] != b"\xa8"]
        for octets in sent:
            c.send(0, cotp_data(data(octets)))
            c.send(0, cotp_data(simple_data(octets)))
        c.send(0, cotp_data(b"\1\0\1\0" + tlv(0x61, pdv(3, b"\xa0")[2:], pdv(3, b"\xa0\x01")[2:])))
        want = [o for octets in sent for o in (octets, octets)] + [b"\xa0", b"\xa0\x01"]
        got = self.of(wire)
        self.assertEqual(self.lines(got)[1:], [f"1 {o.hex().upper()}" for o in want])
        self.assertEqual(got.warnings, [])

    def test_broken_presentation(self):
        """What presentation lacks is told with the frame, and what stands around it comes."""
        for user, flaw in (
            (tlv(0x61, bytes.fromhex("3007020103A005A0")), capture.BROKEN),
            (tlv(0x61, bytes.fromhex("3003020103")), capture.BROKEN),
            (tlv(0x61, bytes.fromhex("3005020103A000")), capture.EMPTY),
            (tlv(0x40), capture.EMPTY),
            (b"\x40\x03\xa0", capture.BROKEN),
        ):
            wire, c = self.talk(1)
            c.send(0, cotp_data(b"\1\0\1\0" + user))
            frame = len(wire.frames)
            c.pdu(0, b"\x8b\0")
            got = self.of(wire)
            self.assertEqual(got.warnings, [f"frame {frame}: {flaw}"])
            self.assertEqual(self.lines(got)[-1], "1 8B00")
            self.assertEqual(len(self.lines(got)), 3)

    def test_answers_without_requests(self):
        """What the server answered to requests before the capture is told, and left out of what was seen."""
        wire, _ = self.talk(3)
        wire.frames = wire.frames[8:]
        got = self.of(wire)
        self.assertIn("frame 1: an answer whose request is not in the capture", got.warnings[0])
        self.assertEqual([o for p in got.seen.phases for o in p.outputs[1]], [NAMED, NAMED])

    def test_server_asks(self):
        """A phase doesn't end while a request of the server is unanswered."""
        wire, c = self.talk(0)
        c.pdu(0, bytes.fromhex("A00F020102BA0A80034C4430A1008201FF"))
        c.pdu(1, bytes.fromhex("A1050201029A00"))
        c.pdu(1, bytes.fromhex("A0080201019B034C4430"))
        wire.now += 2500 * 1000
        c.pdu(0, bytes.fromhex("A109020101BB048002AABB"))
        self.assertEqual(len(self.of(wire).recording.phases), 1)

    def test_learned_is_marked(self):
        wire, _ = self.talk(1)
        config = self.of(wire, capture.Options()).recording.config
        self.assertEqual(config[3:], [capture.MARK, 'vendor = "VMD"', 'model = "CELL"', 'revision = "1"'])
        given = capture.Options(config=["vendor = \"X\""])
        self.assertEqual(self.of(wire, given).recording.config[3:], ["vendor = \"X\""])

    def test_no_phase_while_unanswered(self):
        wire, c = self.talk(1)
        c.pdu(0, IDENTIFY)
        wire.now += 2500 * 1000
        c.pdu(0, IDENTIFY)
        c.pdu(1, NAMED)
        self.assertEqual(len(self.of(wire).recording.phases), 1)

    def test_time_up_to_the_last_answer(self):
        wire, c = self.talk(1)
        c.pdu(0, IDENTIFY)
        wire.now += 20 * 1000
        c.pdu(1, NAMED)
        self.assertEqual(self.lines(self.of(wire))[-1], "tick 20")

    def test_ticks_and_phases(self):
        wire, c = self.talk(1)
        wire.now += 2500 * 1000
        c.pdu(0, IDENTIFY)
        got = self.of(wire)
        self.assertEqual([[e.kind for e in p] for p in got.recording.phases], [["heard", "heard"], ["tick", "heard"]])
        self.assertEqual(got.recording.phases[1][0].ms, 2500)
        self.assertEqual([place for p in got.seen.phases for place, _ in p.served], [1, 2, 4, 5])  # 3 is the drain
        self.assertEqual(got.recording.config, ["clients = 1", "day = 14562", "ms = 80000000"])  # 2023-11-14 22:13:20


class Learned(unittest.TestCase):
    def test_example(self):
        """The configuration that the answers of the example tell: its cells by name, and the pool."""
        report = texts.read_report(text_of(os.path.join(EXAMPLES, "pools-and-guards.report")))
        lines = learn.learned([[e for _, e in p.served] for p in report.phases], [p.outputs for p in report.phases])
        self.assertEqual(
            lines,
            [
                "[[cell]]",
                "number = 0",
                "type = \"850120\"",
                "value = \"850100\"",
                "[[variable]]",
                "name = \"Speed\"",
                "cell = 0",
                "[[pool]]",
                "name = \"Robots\"",
                "tokens = [\"R1\", \"R2\"]",
            ],
        )
