"""Tests of commands."""
import make_press
from common import *  # noqa: F403


class Running(unittest.TestCase):
    """Runs a command, and tells its status and what it printed."""

    def run_(self, *args):
        out, err = io.StringIO(), io.StringIO()
        with contextlib.redirect_stdout(out), contextlib.redirect_stderr(err):
            status = cli.main(list(args))
        return status, out.getvalue(), err.getvalue()


class Refusing(Running):
    """Has a command refuse a file by a sentence and status 2."""

    def refused(self, *args):
        status, out, err = self.run_(*args)
        self.assertEqual((status, out), (2, ""), err)
        self.assertRegex(err, r"^mms \w+: .*\n$")
        return err

    def file(self, octets):
        folder = tempfile.TemporaryDirectory()
        self.addCleanup(folder.cleanup)
        path = os.path.join(folder.name, "x")
        with open(path, "wb") as f:
            f.write(octets)
        return path


class Commands(Running):
    """What the commands print and how they end."""

    def test_refusals_are_sentences(self):
        for args in (
            ["explain", "/no/such"],
            ["chart", __file__],
            ["capture", "/no/such"],
            ["compare", REPORTS[0], REPORTS[1]],
        ):
            status, out, err = self.run_(*args)
            self.assertEqual((status, out), (2, ""))
            self.assertRegex(err, r"^mms \w+: .*\n$")

    def test_same(self):
        status, out, _ = self.run_("compare", REPORTS[0], REPORTS[0])
        self.assertEqual(status, 0)
        loss = os.path.join(EXAMPLES, "loss.report")
        pdu = re.search("> (A9.*)\n", text_of(loss))[1]
        longer = "A981" + pdu[2:]  # its length in one octet more
        for old, new in (("> abort\n", ""), (f"> {pdu}\n", f"> {longer}\n"), ("> abort\n", "> abort\n> abort\n")):
            with tempfile.TemporaryDirectory() as d:
                other = os.path.join(d, "other.report")
                with open(other, "w", encoding="latin-1") as f:
                    f.write(text_of(loss).replace(old, new, 1))
                self.assertNotEqual(text_of(other), text_of(loss))
                self.assertEqual(self.run_("compare", loss, other)[0], 1)
                self.assertEqual(self.run_("compare", "--ignore", "spelling", loss, other)[0], int(new[:4] != "> A9"))

    def test_explained(self):
        status, out, _ = self.run_("explain", "A00A020102B305A003800154")
        self.assertEqual(status, 0)
        self.assertIn("vmd-specific", out)

    def test_a_part_of_a_chart(self):
        report = os.path.join(EXAMPLES, "semaphores.report")
        for args in (["--places", "6-9"], ["--places", "12-"], ["--places", "7"], ["--clients", "2"]):
            status, out, _ = self.run_("chart", report, *args)
            self.assertEqual(status, 0)
            ET.fromstring(out)
        for args in (["--places", "x"], ["--places", "900-"]):
            self.assertEqual(self.run_("chart", report, *args)[0], 2)

    @unittest.skipUnless(shutil.which("rsvg-convert"), "rsvg-convert is missing")
    def test_png(self):
        with tempfile.TemporaryDirectory() as d:
            self.assertEqual(self.run_("chart", REPORTS[0], "-o", d + "/a.png")[0], 0)
            with open(d + "/a.png", "rb") as f:
                self.assertEqual(f.read(4), b"\x89PNG")


class Wrong(Refusing):
    """What can't be meant is refused by a sentence that says it."""

    def test_chart(self):
        report = os.path.join(EXAMPLES, "semaphores.report")
        with tempfile.TemporaryDirectory() as d:
            path = os.path.join(d, "x.pdf")
            self.assertIn(".svg, .png or .md", self.refused("chart", report, "-o", path))
            self.assertFalse(os.path.exists(path))
        self.assertIn("nothing is of client 9", self.refused("chart", report, "--clients", "9"))
        self.assertIn("nothing is of client 9", self.refused("chart", report, "--clients", "1,9"))

    def test_chart_of_a_refused_report(self):
        for text in (b"bad config 3\n", b"bad 1 header\n", b"phase 1\nbad 4 hex\n"):
            self.assertIn(text.decode().split("\n")[-2], self.refused("chart", self.file(text)))

    @staticmethod
    def texts(svg):
        """The words of a picture, one after the other."""
        return " ".join(text.text or "" for text in ET.fromstring(svg).iter("{http://www.w3.org/2000/svg}text"))

    def test_chart_of_events_and_a_refusal(self):
        """The events are drawn, and the refusal is told; so is a report that is cut off."""
        for end, told in (("bad 9 hex\n", "refused behind these events: `bad 9 hex`"), ("2 8B", "cut off in line 5")):
            path = self.file(b"phase 1\n1 1 8B00\nclient 1\n> abort\n" + end.encode())
            status, out, err = self.run_("chart", path)
            self.assertEqual((status, told in err, out.count("<circle"), told in self.texts(out)), (1, True, 1, True))
            with tempfile.TemporaryDirectory() as d:
                self.assertEqual(self.run_("chart", path, "-o", d + "/x.md")[0], 1)
                self.assertIn(told, text_of(d + "/x.md"))
            self.assertIn("none of the events is asked for", self.refused("chart", path, "--places", "7-"))

    def test_malformed_answer(self):
        """One that is malformed counts once, as another answer to its request."""
        report = text_of(os.path.join(EXAMPLES, "variables.report"))
        changed = report.replace("> A1050201048700\n", "> A1FF\n")
        self.assertNotEqual(report, changed)
        found = compare.compare(texts.read_report(changed), texts.read_report(report))
        self.assertEqual([(d.row.place, d.kind) for d in found if d.kind != "same"], [(5, "answer")])
        whole = compare.compare(texts.read_report(report), texts.read_report(report))
        self.assertEqual(len(found), len(whole))

    def test_one_is_one(self):
        report = self.file(b"phase 1\n1 1 8B00\nclient 1\n> 8C00\n")
        self.assertIn("1 answer: 1 the same octets\n", self.run_("compare", report, report)[1])

    def test_old_python(self):
        """The tool tells which Python is needed, in place of a traceback."""
        with open(os.path.join(TOP, "tools", "mms"), encoding="utf-8") as f:
            text = f.read()
        code = text.replace("sys.version_info", "(3, 10)")
        self.assertNotEqual(code, text)
        got = subprocess.run([sys.executable, "-c", code], capture_output=True, text=True)
        self.assertEqual((got.returncode, got.stderr), (2, "mms: Python 3.11 or later is needed, and this one is 3.10\n"))


class Unreadable(Refusing):
    """Whatever the file is, the tools end with a sentence and status 2."""

    def test_no_report(self):
        wrong = (b"phase 1\nsomething else\n\n\n", b"phase 1\n1 2 3 4\n\n\n")
        for octets in (b"", b"\n", b"GIF89a", bytes(range(256)), *wrong):
            path = self.file(octets)
            self.assertIn("line ", self.refused("compare", path, REPORTS[0]))
            self.refused("compare", REPORTS[0], path)
        self.refused("compare", EXAMPLES, REPORTS[0])

    def test_cut_reports(self):
        whole = text_of(REPORTS[1]).encode("latin-1")
        for i in range(0, len(whole) - 1, 3):  # without its last line feed alone it is whole
            status, _, err = self.run_("compare", self.file(whole[:i]), REPORTS[1])
            self.assertIn(status, (1, 2))
            self.assertTrue(status == 1 or err.startswith("mms compare: "))

    def test_unknown_kind(self):
        self.refused("compare", "--ignore", "colour", REPORTS[0], REPORTS[0])

    def test_hostile_reports(self):
        """PDUs that are cut, of 65,000 octets, and nested to the limit, asked and answered."""
        deep = b""
        for _ in range(80):
            deep = tlv(0xA1, deep)
        for octets in (b"\xa0", b"\xa1\x82", tlv(0xA0, bytes(64990)), tlv(0xA1, deep), b"\xa1" * 65000):
            text = f"phase 1\n1 1 {octets.hex()}\nclient 1\n> {octets.hex()}\n> abort\n"
            path = self.file(text.encode())
            self.assertEqual(self.run_("compare", path, path)[0], 0)


@unittest.skipUnless(shutil.which("tshark"), "tshark is missing")
class UnreadableCaptures(Refusing):
    """Captures of which nothing or a part alone can be read."""

    def talk(self):
        wire = Wire()
        c = Connection(wire, "10.0.0.11", 50001)
        c.open(ASK, YES)
        c.pdu(0, IDENTIFY)
        c.pdu(1, NAMED)
        return wire

    def test_cut_in_a_frame(self):
        """What stands before the cut is written; the sentence says behind which frame nothing is read."""
        wire = self.talk()
        status, out, err = self.run_("capture", self.file(wire.pcap(cut=10)))
        self.assertEqual(status, 2)
        self.assertIn("cut short in the middle of a packet (behind frame 8 nothing", err)
        self.assertEqual(out.count("\n1 "), 2)
        self.assertIn("cut short", self.refused("capture", self.file(wire.pcap()[:60])))

    def test_cut_anywhere(self):
        whole = self.talk().pcap()
        for i in range(0, len(whole), 97):
            status, _, err = self.run_("capture", self.file(whole[:i]))
            self.assertEqual(status, 2, i)
            self.assertRegex(err, r"^mms capture: .*\n")

    def test_empty(self):
        self.refused("capture", self.file(b""))
        self.assertIn("no MMS PDU", self.refused("capture", self.file(Wire().pcap())))

    def test_no_capture(self):
        self.refused("capture", __file__)
        self.refused("capture", EXAMPLES)

    def test_without_mms(self):
        wire = Wire()
        c = Connection(wire, "10.0.0.11", 50001, server_port=80)
        c.send(0, b"GET / HTTP/1.0\r\n\r\n")
        c.close()
        self.assertIn("--port", self.refused("capture", self.file(wire.pcap())))
        c = Connection(wire, "10.0.0.11", 50002)
        c.send(0, b"not a TPKT at all")
        self.assertIn("no MMS PDU", self.refused("capture", self.file(wire.pcap())))

    def test_other_link_types(self):
        """Frames of 802.11 (105) and of a user's own type (147) that are none, and bare IP (101), which is read."""
        wire = self.talk()
        for link in (105, 147):
            self.assertIn("link type", self.refused("capture", self.file(wire.pcap(link=link))))
        ethernet = self.run_("capture", self.file(wire.pcap()))[1]
        wire.frames = [(t, f[14:]) for t, f in wire.frames]
        self.assertEqual(self.run_("capture", self.file(wire.pcap(link=101)))[:2], (0, ethernet))

    def test_one_side(self):
        """With the server's side alone there is nothing to be served; with the client's alone nothing was seen."""
        wire = self.talk()
        sides = [f[26:30] for _, f in wire.frames]  # the address of the source
        frames, server = wire.frames, bytes((10, 0, 0, 1))
        wire.frames = [f for f, side in zip(frames, sides) if side == server]
        self.assertIn("what the clients sent is not in it", self.refused("capture", self.file(wire.pcap())))
        wire.frames = [f for f, side in zip(frames, sides) if side != server]
        status, out, err = self.run_("capture", self.file(wire.pcap()))
        self.assertEqual(out.count("\n1 "), 2)
        self.assertIn("0 answers", err)


class Press(Running):
    """The captured conversation with three planted differences, whose recording and report are a row of the gate."""

    def data(self, kind):
        return os.path.join(HERE, "data", "press." + kind)

    def test_pcap_is_made(self):
        with open(self.data("pcap"), "rb") as f:
            self.assertEqual(make_press.press().pcap(), f.read())

    @unittest.skipUnless(shutil.which("tshark"), "tshark is missing")
    def test_captured(self):
        """The recording and what was seen, byte for byte."""
        with tempfile.TemporaryDirectory() as d:
            seen = os.path.join(d, "seen")
            words = ["--config", self.data("toml"), "--seen", seen]
            status, out, _ = self.run_("capture", self.data("pcap"), *words)
            self.assertEqual((status, out), (0, text_of(self.data("mms"))))
            self.assertEqual(text_of(seen), text_of(self.data("seen")))

    @unittest.skipUnless(shutil.which("tshark"), "tshark is missing")
    def test_given_configuration(self):
        """A given configuration with a broken rule is refused."""
        with tempfile.TemporaryDirectory() as d:
            path = os.path.join(d, "bad.toml")
            for text, said in (("clients = 65\n", "rule 2"), ("day = 9223372036854775808\n", "rule 0"), ("cell = 1\n", "rule 1")):
                with open(path, "w", encoding="utf-8") as f:
                    f.write(text)
                status, out, err = self.run_("capture", self.data("pcap"), "--config", path)
                self.assertEqual((status, out), (2, ""))
                self.assertIn(said, err)

    def test_planted_differences(self):
        status, out, err = self.run_("compare", self.data("seen"), self.data("report"))
        self.assertEqual((status, out, err), (1, text_of(self.data("compare")), ""))
        found = compare.compare(*(texts.read_report(text_of(self.data(k))) for k in ("seen", "report")))
        kinds = [(d.row.place, d.kind) for d in found if d.kind != "same"]
        self.assertEqual(kinds, [(22, "answer"), (37, "spelling"), (39, "answer")])

    def test_is_the_row(self):
        row = text_of(os.path.join(DATA, "captured.rows")).split("= replay\n")[1]
        self.assertEqual(row, text_of(self.data("mms")) + "= status 0\n" + text_of(self.data("report")))

    @needs_program
    def test_report_is_the_program_s(self):
        self.assertEqual(replayed(texts.read_recording(text_of(self.data("mms")))), text_of(self.data("report")))
