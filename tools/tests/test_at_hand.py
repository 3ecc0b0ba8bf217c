"""Octets as a person has them at hand, and what explain says of them."""
from common import *  # noqa: F403
from mmstools import at_hand
from test_commands import Refusing

STATUS = "A006020101800100"
LONG = "A00F020101A40AA1088006" + b"Speeds".hex()
WHOLE = bytes.fromhex(STATUS)
C_ARRAY = "const unsigned char x[] = {\n 0xA0, 0x06, 0x2, 0x01, /* invokeID */ 0x01,\n 0x80, 0x1, 0x00 };\n"


def hexdump(octets):
    """As hexdump -C has it."""
    out = []
    for at in range(0, len(octets), 16):
        some = octets[at : at + 16]
        pairs = "  ".join(some[i : i + 8].hex(" ") for i in (0, 8) if some[i:])
        signs = "".join(chr(c) if 32 <= c < 127 else "." for c in some)
        out.append(f"{at:08x}  {pairs:48}  |{signs}|")
    return "\n".join([*out, f"{len(octets):08x}"]) + "\n"


def xxd(octets):
    out = []
    for at in range(0, len(octets), 16):
        some = octets[at : at + 16]
        groups = " ".join(some[i : i + 2].hex() for i in range(0, len(some), 2))
        out.append(f"{at:08x}: {groups:39}  " + "".join(chr(c) if 32 <= c < 127 else "." for c in some))
    return "\n".join(out) + "\n"


class Forms(Refusing):
    def test_one(self):
        for text in (
            STATUS,
            STATUS.lower(),
            "A0 06 02 01 01 80 01 00",
            "> " + STATUS,
            "1 " + STATUS,
            "10 " + STATUS,
            "64 A006 020101 800100",
            "5 1 " + STATUS,
            "17 12 " + STATUS,
            "a0:06:02:01:01:80:01:00",
            "a0-06-02-01-01-80-01-00",
            "0x" + STATUS,
            "0xA0 0x06 0x02 0x01 0x01 0x80 0x01 0x00",
            C_ARRAY,
            r"\xA0\x06\x02\x01\x01\x80\x01\x00",
            r'b"\xa0\x06\x02\x01\x01\x80\x01\x00"',
            hexdump(WHOLE),
            xxd(WHOLE),
            "0000   a0 06 02 01 01 80 01 00                           ........\n",
            "0000000 a0 06 02 01 01 80 01 00\n0000010\n",
        ):
            self.assertEqual(at_hand.pdus(text), [WHOLE], text)

    def test_dumps_of_many_lines(self):
        rng = random.Random(3)
        for size in (1, 15, 16, 17, 31, 33, 64, 200):
            octets = tlv(0xA0, bytes([2, 1, 1]) + tlv(0x80, rng.randbytes(size)))
            self.assertEqual(at_hand.pdus(hexdump(octets)), [octets])
            self.assertEqual(at_hand.pdus(xxd(octets)), [octets])

    def test_lines(self):
        """Lines of a report are one PDU each."""
        self.assertEqual(at_hand.pdus(f"client 1\n> {STATUS}\n> abort\n> {LONG}\n"), [WHOLE, bytes.fromhex(LONG)])

    def test_none(self):
        for text in ("", "A", "hello", "0x", "> ", "{}", "0xA0, 0x1234", "phase"):
            self.assertEqual(at_hand.pdus(text), [], text)

    def test_random(self):
        """Whatever the text is, the answer is octets."""
        rng = random.Random(5)
        signs = "0123456789ABCDEFabcdefx :>,{}|\\\n-"
        for _ in range(3000):
            for one in at_hand.pdus("".join(rng.choice(signs) for _ in range(rng.randrange(40)))):
                self.assertIsInstance(one, bytes)

    def test_explained(self):
        whole = self.run_("explain", STATUS)[1]
        for text in ("> " + STATUS, "1 " + STATUS, "a0:06:02:01:01:80:01:00", hexdump(WHOLE)):
            self.assertEqual(self.run_("explain", text), (0, whole, ""))
            self.assertEqual(self.run_("explain", self.file(text.encode())), (0, whole, ""))

    def test_rows(self):
        """Each file of rows is explained, row by row."""
        for path in (os.path.join(DATA, "captured.rows"), os.path.join(DATA, "programs.rows")):
            if not os.path.exists(path):
                continue
            status, out, err = self.run_("explain", path)
            self.assertEqual((status, err), (0, ""))
            heads = re.findall(r"(?m)^= (?:replay|run|stress|steps)\b", text_of(path))
            self.assertEqual(len(re.findall(r"(?m)^line \d+: = ", out)), len(heads))


if __name__ == "__main__":
    unittest.main()
