"""Tests of compare."""
from common import *  # noqa: F403


class Compare(unittest.TestCase):
    def setUp(self):
        self.report = texts.read_report(text_of(os.path.join(EXAMPLES, "variables.report")))

    def changed(self, old, new):
        return texts.read_report(texts.write_report(self.report).replace("> %s\n" % old, new and "> %s\n" % new))

    def kinds(self, other):
        return [(d.row.place, d.kind) for d in compare.compare(other, self.report) if d.kind != "same"]

    def test_kinds(self):
        self.assertEqual(self.kinds(self.report), [])
        self.assertEqual(
            self.kinds(self.changed("A10A020101A405A103850100", "A10B020101A406A10485020000")), [(2, "spelling")]
        )
        self.assertEqual(
            self.kinds(self.changed("A10A020101A405A103850100", "A10A020101A405A103850101")), [(2, "values")]
        )
        self.assertEqual(self.kinds(self.changed("A1050201048700", "A20A800104A205A003820105")), [(5, "answer")])
        self.assertEqual(self.kinds(self.changed("A1050201048700", "")), [(5, "missing")])

    def test_other_events(self):
        with self.assertRaises(texts.BadText):
            compare.compare(texts.read_report(text_of(os.path.join(EXAMPLES, "loss.report"))), self.report)

    def test_order(self):
        """The same answers in another order are told."""
        text = ["phase 1", "1 1 " + ASK.hex().upper(), "2 1 A006020101800100", "3 1 A006020102800100", "client 1"]
        one, two = ("> A10B02010%dA006800100810100" % i for i in (1, 2))
        first, second = (
            texts.read_report("\n".join([*text, "> " + YES.hex().upper(), *answers]) + "\n")
            for answers in ((two, one), (one, two))
        )
        self.assertEqual([d.kind for d in compare.compare(second, second)], ["same"] * 3)
        self.assertIn("order", [d.kind for d in compare.compare(first, second)])
