"""Tests of history."""
import time

from common import *  # noqa: F403


class History(unittest.TestCase):
    def rows(self, name):
        return history(texts.read_report(text_of(os.path.join(EXAMPLES, name + ".report"))))

    def test_each_output_once(self):
        for f in REPORTS:
            report = texts.read_report(text_of(f))
            rows = history(report)
            self.assertEqual(
                sum(len(r.outputs) for r in rows), sum(len(o) for p in report.phases for o in p.outputs.values())
            )
            self.assertTrue(all(o.sure for r in rows for o in r.outputs), f)

    def test_reports_that_nobody_asked_for(self):
        """An InformationReport is set aside, and every other answer keeps its event; so is a notification without cause."""
        unasked = {
            "report": "A30DA00BA10480025250A003830101",
            "notice": "A31BA219A0058003454E31A1058003454331820140830102A403810101",
        }
        for kind, what in unasked.items():
            octets = bytes.fromhex(what)
            for name in ("variables", "two-clients", "open-status-conclude"):
                text = text_of(os.path.join(EXAMPLES, name + ".report"))
                alone = history(texts.read_report(text))
                lines = [x for line in text.split("\n") for x in (line, *[f"> {what}"] * line.startswith("> "))]
                rows = history(texts.read_report("\n".join(lines)))
                for one, other in zip(rows, alone):
                    kept = [(o.client, o.octets) for o in one.outputs if o.sure and o.octets != octets]
                    self.assertEqual(kept, [(o.client, o.octets) for o in other.outputs], (name, one.place))
                aside = [o for row in rows for o in row.outputs if o.octets == octets]
                self.assertEqual(len(aside), text.count("\n> "))
                self.assertFalse(kind == "report" and any(o.sure and len(rows) > 1 for o in aside))

    def test_grants_of_other_events(self):
        rows = {r.place: r for r in self.rows("semaphores")}
        self.assertEqual(rows[7].answered.place, 12)  # the tick
        self.assertEqual(rows[15].answered.place, 16)  # the other's RelinquishControl
        self.assertEqual(rows[19].answered.place, 20)  # its own cancel
        rows = {r.place: r for r in self.rows("pools-and-guards")}
        self.assertEqual(rows[9].answered.place, 34)

    def test_two_semaphores(self):
        """What is given back is another semaphore than the one that is waited for."""
        d, t, r = "A00D0201%02XB508A0038001%s810101", "A00A0201%02XB305A0038001%s", "A00A0201%02XB405A0038001%s"
        text = (
            ["phase 1"]
            + ["%d %d %s" % (c, c, ASK.hex().upper()) for c in (1, 2)]
            + [
                "3 1 " + d % (1, "53"),
                "4 1 " + d % (2, "54"),
                "5 1 " + t % (3, "53"),
                "6 1 " + t % (4, "54"),
                "7 2 " + t % (1, "54"),
                "8 1 " + r % (5, "53"),
                "9 1 " + r % (6, "54"),
                "client 1",
                "> " + YES.hex().upper(),
            ]
            + ["> A10502010%d9500" % i for i in (1, 2)]
            + ["> A10702010%dB3028000" % i for i in (3, 4)]
            + ["> A10502010%d9400" % i for i in (5, 6)]
            + ["client 2", "> " + YES.hex().upper(), "> A107020101B3028000"]
        )
        rows = {row.place: row for row in history(texts.read_report("\n".join(text) + "\n"))}
        self.assertEqual(rows[7].answered.place, 9)

    def test_deadline_at_its_moment(self):
        """Two waiters; the second is granted by the tick to the very end of the owner's control, in the same phase."""
        take = "A00D0201%02XB308A003800154%s"
        text = (
            ["phase 1"]
            + ["%d %d %s" % (c, c, ASK.hex().upper()) for c in (1, 2)]
            + [
                "3 1 A00D020101B508A003800154810101",
                "4 1 " + take % (2, "84010A"),
                "5 2 A00A020102B305A003800154",
                "6 tick 10",
                "7 tick 1",
                "client 1",
                "> " + YES.hex().upper(),
                "> A1050201019500",
                "> A107020102B3028000",
                "client 2",
                "> " + YES.hex().upper(),
                "> A107020102B3028000",
            ]
        )
        rows = {r.place: r for r in history(texts.read_report("\n".join(text) + "\n"))}
        self.assertEqual((rows[5].answered.place, rows[4].answered.place), (6, 4))
        self.assertTrue(all(o.sure for r in rows.values() for o in r.outputs))

    @needs_program
    def test_every_guess_is_marked(self):
        """What the report alone tells is held against a phase for each event: an output that is sure stands there.

        A notification tells its moment, but a report not its own start: of several ticks and requests of one phase that
        may have turned a condition, which one did stays a guess.
        """
        count = guesses = 0
        for name, recording in recordings_of_rows():
            flat = [e for p in recording.phases for e in p]
            for phases in (recording.phases, [flat]):
                one = texts.Recording("1", recording.config, phases)
                report = texts.read_report(replayed(one))
                if report.end:
                    continue
                told, true = placed(history(report)), placed(served(one, DEVICE))
                self.assertEqual([o.octets for _, o in told], [o.octets for _, o in true], name)
                for (at, out), (where, _) in zip(told, true):
                    self.assertTrue(at == where or not out.sure, f"{name}: {out.said.title} at {at}, not {where}")
                    guesses += not out.sure and out.said.pdu != "unconfirmed"
                count += len(told)
        self.assertGreater(count, 9000)
        self.assertLess(guesses, count // 25)  # and not all of them are called guesses

    def test_other_answers_are_guesses(self):
        """A server that answers late, or what nobody asked, gives no certainty, and nothing is lost."""
        text = ["phase 1", "1 1 " + ASK.hex().upper(), "2 1 A0050201018200", "3 1 A0050201018200", "client 1"]
        text += ["> " + YES.hex().upper(), "> " + NAMED.hex().upper(), "> A105020109BF05"]
        rows = history(texts.read_report("\n".join(text) + "\n"))
        outs = [o for r in rows for o in r.outputs]
        self.assertEqual(len(outs), 3)
        self.assertFalse(any(o.sure for o in outs[1:]))

    def of_many(self, opened, asks, answers, times):
        """The rows of a phase of so many times the same events, with the same invokeIDs, and their seconds."""
        first = ["%d %s" % (c, ASK.hex().upper()) for c in (1, 2)]
        events = first + [ask for ask, _ in opened] + asks * times
        text = ["phase 1"] + ["%d %s" % (i, e) for i, e in enumerate(events, 1)]
        for c, first in ((1, [answer for _, answer in opened if answer]), (2, [])):
            text += ["client %d" % c, "> " + YES.hex().upper()]
            text += ["> " + o for o in first + answers[c - 1] * times]
        report = texts.read_report("\n".join(text) + "\n")
        begun = time.process_time()
        return history(report), time.process_time() - begun

    def test_ten_thousand_events(self):
        """Events of one phase that reuse their invokeIDs take seconds, and all outputs find their events."""
        define = ("1 A00D020101B508A003800154810101", "A1050201019500")
        taken, given = "A107020101B3028000", "A1050201019400"
        take, give, brief = "A00A020101B305A003800154", "A00A020101B405A003800154", "A00D020101B308A003800154830101"
        late = "A20A800101A205A003850101"  # service-preempt: timeout
        for opened, asks, answers, times in [
            ([], ["1 A0050201018200", "2 A0050201018200"], [[NAMED.hex().upper()]] * 2, 5000),
            ([define], ["1 " + take, "2 " + take, "1 " + give, "2 " + give], [[taken, given], [taken, given]], 2500),
            ([define, ("1 " + take, taken)], ["2 " + brief, "tick 2"], [[], [late]], 5000),
        ]:
            rows, seconds = self.of_many(opened, asks, answers, times)
            outs = [o for r in rows for o in r.outputs]
            self.assertTrue(all(o.sure for o in outs))
            self.assertEqual(len(outs), 2 + len(opened) + sum(map(len, answers)) * times)
            self.assertLess(seconds, 60)  # before, the first waits of 500 took half a minute

    def test_loads(self):
        """What the server asks a client stands at the client's answer, or at the request for the load."""
        rows = {r.place: r for r in self.rows("domains")}
        asked = {p: [o.said.service for o in r.outputs if o.said.pdu == "confirmed-Request"] for p, r in rows.items()}
        self.assertEqual(
            {p: s for p, s in asked.items() if s},
            {
                5: ["downloadSegment"],
                8: ["downloadSegment"],
                12: ["terminateDownloadSequence"],
                30: ["downloadSegment"],
                31: ["downloadSegment"],
            },
        )

    def test_loads_in_one_phase(self):
        """Two loads at once: the server's requests stand at the answers of their own domains."""
        text = ["phase 1", "1 1 " + ASK.hex().upper()]
        text += ["2 1 A00D020101BA08800141A1008201FF", "3 1 A00D020102BA08800142A1008201FF"]
        text += ["4 1 A109020102BB048002AABB", "5 1 A109020101BB048002AABB", "client 1", "> " + YES.hex().upper()]
        text += ["> A1050201019A00", "> A0060201019B0141", "> A1050201029A00", "> A0060201029B0142"]
        text += ["> A0060201039B0142", "> A0060201049B0141"]
        rows = {r.place: r for r in history(texts.read_report("\n".join(text) + "\n"))}
        self.assertEqual([len(rows[p].outputs) for p in (2, 3, 4, 5)], [2, 2, 1, 1])
        self.assertTrue(all(o.sure for r in rows.values() for o in r.outputs))


def placed(rows):
    """The outputs, client by client, each with the number of its event."""
    found = [(i, o) for i, r in enumerate(rows) for o in r.outputs]
    return sorted(found, key=lambda io: io[1].client)
