"""Tests of charts: what is drawn where, and that no text stands on another.

    tools/tests/test_chart.py --store

writes the charts of the examples and their index beside them, which a test compares with what is drawn today.
"""

import os
import re
import shutil
import struct
import sys
import tempfile
import unittest
import xml.etree.ElementTree as ET
from unittest import mock

import common  # noqa: F401  (finds mmstools)
from mmstools import chart, chart_lines, chart_text, texts
from mmstools.chart_lines import LOOKS, Tone
from mmstools.history import Output, Row, history, served
from mmstools.words import say

HERE = os.path.dirname(os.path.abspath(__file__))
TOP = os.path.dirname(os.path.dirname(HERE))
EXAMPLES = os.path.join(TOP, "crates", "cell_rows", "data", "examples")
KINDS = (("report", "report"), ("in words", "txt"), ("chart", "svg"))
NAMES = sorted(name[:-7] for name in os.listdir(EXAMPLES) if name.endswith(".report"))
SVG = "{http://www.w3.org/2000/svg}"
ASK = "A826800300FDE881010A82010A830105A416800101810305F100820C03EE1C00000408000079EF18"
YES = "A926800300FDE881010A82010A830105A416800101810305E100820C03EF3C1FFF0FFDB8607E0098"
LONG = "Name_of_32_octets_in_all_counted"


def example(name, end="report"):
    """The text of an example."""
    with open(os.path.join(EXAMPLES, f"{name}.{end}"), encoding="latin-1") as file:
        return file.read()


def rows_of(name):
    """The rows of an example's report."""
    return history(texts.read_report(example(name)))


def drawn(name):
    """The chart of an example."""
    return chart.chart(rows_of(name), name)


def program():
    """The words of the program that serves recordings, or None where there is none."""
    try:
        return chart.program()
    except texts.BadText:
        return None


def tlv(tag, *parts):
    """An element of that tag in hex, with parts in hex."""
    contents = "".join(parts)
    size = len(contents) // 2
    length = f"{size:02X}" if size < 128 else f"82{size:04X}" if size < 65536 else f"83{size:06X}"
    return tag + length + contents


def write(number, name, octets):
    """A Write of an octet-string to a variable of the VMD."""
    variable = tlv("30", tlv("A0", tlv("80", name.encode().hex())))
    data = tlv("A0", tlv("89", bytes(i % 251 for i in range(octets)).hex()))
    return tlv("A0", tlv("02", f"{number:02X}"), tlv("A5", tlv("A0", variable), data)).upper()


def conversation(clients, name=LONG, octets=60000):
    """A report of so many clients: each opens, writes, is refused, aborts or is lost, and time passes."""
    events, outputs = [], {c: [] for c in range(1, clients + 1)}
    for c in outputs:
        events += [f"{c} {ASK}", f"{c} {write(1, name, octets)}", f"tick {c}", f"{c} {write(2, name, 3)}", f"{c} 8B00"]
        outputs[c] += [YES, "A107020101A5028100", "A108020102A503800103", "8C00"]
        events += [f"{c} {ASK}", f"{c} {ASK}" if c % 2 else f"lost {c}"]
        outputs[c] += [YES, "abort"] if c % 2 else [YES]
    lines = ["phase 1"] + [f"{place} {event}" for place, event in enumerate(events, 1)]
    for c, sent in outputs.items():
        lines += [f"client {c}"] + [f"> {octets}" for octets in sent]
    return history(texts.read_report("\n".join(lines) + "\n"))


def boxes(svg):
    """The boxes of all texts: left, top, right, bottom and words."""
    found = []
    for text in ET.fromstring(svg).iter(SVG + "text"):
        size, x, y = (float(text.get(key)) for key in ("font-size", "x", "y"))
        wide = chart_text.width(text.text or "", size, text.get("font-weight") == "bold")
        left = x - {"middle": wide / 2, "end": wide}.get(text.get("text-anchor"), 0)
        found.append((left, y - size * 0.76, left + wide, y + size * 0.24, text.text))
    return found


class Layout(unittest.TestCase):
    """Texts stand beside one another, inside the picture."""

    def check(self, svg):
        """No text overlaps with another, or stands closer above it than a dot, and none leaves the picture."""
        root = ET.fromstring(svg)
        wide, high = float(root.get("width")), float(root.get("height"))
        found = sorted(boxes(svg), key=lambda box: box[1])
        for i, (left, top, right, bottom, words) in enumerate(found):
            self.assertTrue(0 <= left and right <= wide and 0 <= top and bottom <= high, words)
            for other in found[i + 1 :]:
                if other[1] >= bottom + 1:
                    break
                self.assertFalse(left < other[2] and other[0] < right, f"{words} and {other[4]}")

    def test_clients(self):
        for clients in (1, 2, 4, 5, 8, 64):
            with self.subTest(clients):
                rows = conversation(clients)
                names = {c: f"10.20.30.{c}:4{c:04}" for c in range(1, clients + 1)}
                self.check(chart.chart(rows, "x" * 300, "a note " * 40, names))
                self.check(chart.chart(rows, "x", names={c: "n" * 60 for c in names}))

    def test_examples(self):
        for name in NAMES:
            with self.subTest(name):
                self.check(drawn(name))

    def test_long_numbers_and_titles(self):
        """An invokeID of 120 octets, which no PDU may have, and a title that is as long."""
        for octets in (bytes.fromhex(tlv("85", "11" * 120)), bytes.fromhex(tlv("A5", "11" * 120))):
            said = say(octets)
            said.invoke, said.title = int("1" * 200), said.title * 20
            row = Row(1, 1, texts.Event("heard", 1, octets), said, 0, [Output(2, octets, said)])
            self.check(chart.chart([row], "x"))

    def test_far_down_the_names_again(self):
        for clients, head in ((4, "client 4"), (8, "8")):
            rows = conversation(clients) * 2
            found = boxes(chart.chart(rows, "x"))
            heads = [top for left, top, _, _, words in found if words == head and left > chart.RAIL]
            self.assertGreater(len(heads), 2)
            self.assertTrue(all(700 < b - a < 1100 for a, b in zip(heads, heads[1:])), heads)

    def test_pictures_of_many_clients_stay_narrow(self):
        for clients, most in ((8, 1100), (64, 4000)):
            svg = chart.chart(conversation(clients, octets=9), "x")
            self.assertLess(float(ET.fromstring(svg).get("width")), most)

    def test_captured(self):
        """What was captured stands below, in dashes and with its octets."""
        rows = rows_of("open-status-conclude")
        octets = bytes.fromhex("8C00")
        seen = {2: [("other", say(octets), octets, 1)], 3: [("missing", say(None), None, 1)]}
        svg = chart.chart(rows, "x", seen=seen)
        self.check(svg)
        self.assertIn(">captured<", svg)
        self.assertIn(">captured: nothing<", svg)
        self.assertIn('stroke-dasharray="4 4" marker-end="url(#to-seen)"', svg)
        self.assertEqual(svg.count('stroke="#f0abfc"'), 2)


class Texts(unittest.TestCase):
    """Texts are cut into lines of their room, and what is left out is counted."""

    def test_wrap_keeps_all(self):
        words = " ".join("word" * (i % 5 + 1) for i in range(40))
        for room in (30, 90, 333):
            lines = chart_text.wrap(words, room, 1000, 17)
            self.assertEqual("".join(lines).replace(" ", ""), words.replace(" ", ""))
            self.assertTrue(all(chart_text.width(line) <= room for line in lines))

    def test_what_is_left_out_is_counted(self):
        for text in ("x" * 120000, "FF " * 60000, "words of many lengths, not one of which is long " * 3):
            lines = chart_text.wrap(text, 200, 2)
            self.assertEqual(len(lines), 2)
            shown, _, left = "".join(lines).partition(" .. ")
            number = int(re.fullmatch(r"(\d+) more signs", left).group(1))
            self.assertEqual(len(re.sub(r"\s", "", shown)) + number, len(re.sub(r"\s", "", text)))
            self.assertTrue(all(chart_text.width(line) <= 200 for line in lines))

    def test_octets_are_cut(self):
        self.assertEqual(chart_text.hexadecimal(b"\x01\xab"), "01 AB")
        self.assertTrue(chart_text.hexadecimal(bytes(60000)).endswith(" .. 59520 more octets"))

    def test_times(self):
        told = [chart_text.span(ms) for ms in (0, 9999, 12345, 599000, 3600001)]
        self.assertEqual(told, ["0 ms", "9999 ms", "12.345 s", "599 s", "1:00:00.001 h"])

    def test_signs_that_XML_lacks(self):
        ET.fromstring(chart.chart(rows_of("loss"), "a\x00<&\ud800\x1b", "\x01", {1: "\ufffe\x02<"}))


class Drawn(unittest.TestCase):
    """Each event at its place, its outputs below it, what waits as bars."""

    def test_each_event_and_each_output_once(self):
        for name in NAMES:
            rows, svg = rows_of(name), drawn(name)
            quiet = sum(row.event.kind == "tick" and not row.outputs for row in rows)
            self.assertEqual(svg.count("<circle"), len(rows) - quiet, name)
            told = sum(len(row.outputs) for row in rows) + self.waiting(rows)
            self.assertEqual(svg.count(", the cell to client "), told)
            heard = sum(row.event.kind in ("heard", "lost") for row in rows)
            self.assertEqual(svg.count(" to the cell, at "), heard, name)

    @staticmethod
    def waiting(rows):
        """How many rows have words alone, of a request that waits."""
        return sum(chart_lines.waits(row) for row in rows)

    def test_outputs_below_their_event(self):
        for name in NAMES:
            rows, svg = rows_of(name), drawn(name)
            lines = r'<g class="e"><title>place (\d+), (client|the cell)[^<]*</title>\n<line [^>]*y1="([\d.]+)"'
            groups = re.findall(lines, svg)
            order = [(float(y), int(place)) for place, _, y in groups]
            self.assertEqual(order, sorted(order), name)
            at = {row.place: y for row, y in self.events(rows, svg)}
            for place, way, y in groups:
                below = min([top for top in at.values() if top > at[int(place)]], default=1e9)
                self.assertTrue(at[int(place)] <= float(y) < below, (name, place))
                self.assertTrue(way == "client" or float(y) > at[int(place)])

    @staticmethod
    def events(rows, svg):
        """Each row with where its dot or its notch is."""
        where = re.findall(r'<circle cx="92.0" cy="([\d.]+)"|<line x1="86.0" y1="([\d.]+)"', svg)
        return list(zip(rows, (float(dot or notch) for dot, notch in where)))

    def test_places_stand_beside_their_events(self):
        for name in NAMES:
            rows, svg = rows_of(name), drawn(name)
            told = [(int(words), top) for _, top, right, _, words in boxes(svg) if 77 < right < 79 and words.isdigit()]
            self.assertEqual([place for place, _ in told], [row.place for row in rows], name)
            for (_, top), (_, y) in zip(told, self.events(rows, svg)):
                self.assertLess(abs(top - y), 12)

    def test_waits(self):
        """A bar reaches from the request to its answer."""
        svg = drawn("semaphores")
        pattern = r'y="([\d.]+)" width="8.0" height="([\d.]+)" rx="3" fill="#fde68a".*?<title>(.*?)</title>'
        bars = re.findall(pattern, svg)
        self.assertEqual(
            [words for *_, words in bars],
            [
                "client 2 waits from place 7 to place 12, 10 ms",
                "client 1 waits from place 15 to place 16, 0 ms",
                "client 2 waits from place 19 to place 20, 0 ms",
            ],
        )
        top, high, _ = bars[0]
        self.assertIn(f'<circle cx="92.0" cy="{top}"', svg)
        self.assertIn(f'y1="{float(top) + float(high):.1f}" x2', svg)
        self.assertIn(">waits, answered at place 12<", svg)
        self.assertIn(">place 7 asked<", svg)

    def test_waits_that_the_picture_cuts(self):
        rows = rows_of("semaphores")
        self.assertIn("from place 7 to the end", chart.chart(chart.chosen(rows, "1-10"), "x"))
        self.assertIn("from place 7 to place 12", chart.chart(chart.chosen(rows, "8-30"), "x"))

    def test_two_waits_of_one_client(self):
        """They stand beside one another."""
        rows = []
        for place in (1, 2):
            octets = bytes.fromhex(f"A00A02010{place}B305A003800154")
            rows.append(Row(place, 1, texts.Event("heard", 1, octets), say(octets), 0))
        found = re.findall(r'<rect x="([\d.]+)" y="[\d.]+" width="8.0"', chart.chart(rows, "x"))
        self.assertEqual(len(set(found)), 2)

    def test_associations(self):
        self.assertEqual(drawn("semaphores").count("the association is open</title>"), 2)
        self.assertEqual(drawn("loss").count("client 1: the association is open</title>"), 2)  # of one client, twice

    def test_time_beside_ticks(self):
        self.assertIn(">10 ms pass, now 10 ms<", drawn("semaphores"))
        self.assertIn(">+10 ms, now 10 ms<", drawn("pools-and-guards"))

    def test_octets_on_hover(self):
        svg = drawn("open-status-conclude")
        self.assertIn("2 octets: 8B 00</title>", svg)
        self.assertIn("place 2, the cell to client 1, at 0 ms", svg)
        rows = conversation(1)
        pattern = r"60059 octets: A0 82 EA 97 .*? \.\. 59579 more octets</title>"
        self.assertTrue(re.search(pattern, chart.chart(rows, "x")))

    def test_data_is_cut_in_words(self):
        self.assertIn("(60000 octets)", chart.chart(conversation(1), "x"))

    def test_requests_of_the_cell(self):
        """What the cell asks is told from what it answers, and waits as a bar; a client's answer is an event."""
        svg = drawn("domains")
        self.assertEqual(svg.count(">asks DownloadSegment<"), 4)
        self.assertEqual(svg.count(">asks TerminateDownloadSequence<"), 1)
        self.assertEqual(svg.count(">answers DownloadSegment<"), 3)
        self.assertEqual(svg.count(">answers TerminateDownloadSequence<"), 1)
        self.assertIn(">cell #1<", svg)
        bars = re.findall(r'stroke-dasharray="3 2"><title>(.*?)</title>', svg)
        self.assertEqual(len(bars), 5)
        self.assertEqual(bars[0], "the cell waits for client 1 from place 5 to place 8")
        self.assertEqual(bars[-1], "the cell waits for client 1 from place 31 to place 32, where the association ends")

    def test_guesses_are_marked(self):
        rows = rows_of("semaphores")
        for row in rows:
            for output in row.outputs:
                output.sure = False
        outputs = sum(len(row.outputs) for row in rows)
        svg = chart.chart(rows, "x")
        self.assertEqual(svg.count("a guess: at this place or another one of the phase</text>"), outputs)
        self.assertIn(f"the events of {outputs} answers are guesses", svg)
        self.assertIn("(a guess)", chart.mermaid(rows))
        self.assertNotIn("guess", drawn("semaphores"))

    def test_what_ends_a_program(self):
        row = Row(4, 1, texts.Event("ends", name="Prog"), None, 5)
        self.assertIn(">Prog ends<", chart.chart([row], "x"))

    def test_nothing(self):
        ET.fromstring(chart.chart([], "x"))


class Looks(unittest.TestCase):
    """Lines are told apart by colour, and without it."""

    def test_without_colour(self):
        self.assertEqual(set(LOOKS), set(Tone))
        for key in ("colour", "words", "sign"):
            self.assertEqual(len({getattr(look, key) for look in LOOKS.values()}), len(Tone), key)
        dashed = [look.dashes for tone, look in LOOKS.items() if tone not in (Tone.ASK, Tone.GOOD)]
        self.assertEqual(len(set(dashed)), len(dashed))
        self.assertNotIn("", dashed)

    def test_each_tone_is_drawn_by_its_look(self):
        shown = {"refusals": Tone.BAD, "loss": Tone.ABORT, "domains": Tone.SERVER, "variables": Tone.GOOD}
        for name, tone in shown.items():
            look, svg = LOOKS[tone], drawn(name)
            dashes = f' stroke-dasharray="{look.dashes}"' if look.dashes else ""
            arrow = f'stroke="{look.colour}" stroke-width="1.4"{dashes} marker-end="url(#to-{tone.value})"'
            self.assertIn(arrow, svg)
            self.assertGreaterEqual(svg.count(f'd="{look.sign}"'), 2)  # in the legend, and at each such line
            self.assertIn(f">{look.words}</text>", svg)

    def test_a_client_that_refuses(self):
        """A client's error to a request of the cell is refused, and so is what is malformed."""
        for octets in ("A2080001", "A209800103A203830101"):
            row = Row(1, 1, texts.Event("heard", 1, bytes.fromhex(octets)), say(bytes.fromhex(octets)), 0)
            self.assertIs(chart_lines.lines_of(row, [])[0].tone, Tone.BAD)


class Parts(unittest.TestCase):
    """A part of a report is chosen, and too much is said in a sentence."""

    def test_places(self):
        rows = rows_of("semaphores")
        for words, places in {"3-7": [3, 6, 7], "20-": [20, 21, 22], "-2": [1, 2], "12": [12]}.items():
            self.assertEqual([row.place for row in chart.chosen(rows, words)], places)
        for words in ("a-b", "-", "3-x", "1-2-3"):
            with self.assertRaisesRegex(texts.BadText, "--places wants two places"):
                chart.chosen(rows, words)
        with self.assertRaisesRegex(texts.BadText, "none of the events is asked for; their places go from 1 to 22"):
            chart.chosen(rows, "4-5")

    def test_clients(self):
        rows = rows_of("semaphores")
        kept = chart.chosen(rows, clients="2")
        self.assertEqual([row.place for row in kept], [2, 7, 12, 16, 19, 20, 22])
        self.assertEqual({output.client for row in kept for output in row.outputs}, {2})
        self.assertEqual(sum(len(row.outputs) for row in rows), 12)  # what was given stays whole
        for words in ("x", "1;2", "1,", ","):
            with self.assertRaisesRegex(texts.BadText, "--clients wants numbers"):
                chart.chosen(rows, clients=words)

    def test_ten_thousand_events(self):
        """A sentence says that a part is to be chosen, and that part is drawn."""
        octets = bytes.fromhex("A0050201018200")
        rows = [Row(i, 1, texts.Event("heard", 1 + i % 3, octets), say(octets), 0) for i in range(1, 10001)]
        with self.assertRaisesRegex(texts.BadText, "10000 events are too many .* --places A-B, from 1 to 10000, or"):
            chart.chart(rows, "x")
        svg = chart.chart(chart.chosen(rows, "4001-6000"), "x")
        self.assertEqual(svg.count("<circle"), 2000)

    def test_program(self):
        with tempfile.TemporaryDirectory() as folder, mock.patch.dict(os.environ, {"MMSCELL": "from here"}):
            path = os.path.join(folder, "a program")
            self.assertEqual(chart.program(), ["from", "here"])
            open(path, "w").close()
            self.assertEqual(chart.program(path), [path])
            os.environ.pop("MMSCELL")
            with mock.patch.object(chart, "TOP", folder):
                with self.assertRaisesRegex(texts.BadText, "there is no program for it"):
                    chart.program()
                built = os.path.join(folder, "crates", "mmscell", "out", "mmscell")
                os.makedirs(os.path.dirname(built))
                open(built, "w").close()
                os.chmod(built, 0o755)
                self.assertEqual(chart.program(), [built])


class Files(unittest.TestCase):
    """Stored charts are what is drawn today; PNG; Mermaid."""

    def test_stored_charts(self):
        for name, text in stored().items():
            with self.subTest(name), open(os.path.join(EXAMPLES, name), encoding="utf-8") as file:
                self.assertTrue(file.read() == text, "tools/tests/test_chart.py --store writes them anew")
        kinds = ("mms", "report", *(kind for _, kind in KINDS[1:]))
        there = {f"{name}.{kind}" for name in NAMES for kind in kinds} | {"README.md"}
        self.assertEqual(set(os.listdir(EXAMPLES)), there)

    @unittest.skipUnless(program(), "no program: MMSCELL names none, and crates/mmscell/out/mmscell isn't there")
    def test_recordings_are_drawn_as_their_reports(self):
        for name in NAMES:
            rows = served(texts.read_recording(example(name, "mms")), program())
            self.assertTrue(chart.chart(rows, name) == drawn(name), name)

    @unittest.skipUnless(shutil.which("rsvg-convert"), "rsvg-convert isn't there")
    def test_png(self):
        with tempfile.TemporaryDirectory() as folder:
            path = os.path.join(folder, "x.png")
            svg = drawn("domains")
            chart.write_png(svg, path)
            with open(path, "rb") as file:
                head = file.read(24)
            size = [int(number) for number in re.search(r'width="(\d+)" height="(\d+)"', svg).groups()]
            self.assertEqual(struct.unpack(">II", head[16:]), (2 * size[0], 2 * size[1]))
            chart.write_png(re.sub(r'height="\d+"', 'height="20000"', svg, count=1), path)
            with open(path, "rb") as file:
                self.assertAlmostEqual(struct.unpack(">II", file.read(24)[16:])[1], 32000, delta=16)
            with self.assertRaisesRegex(texts.BadText, "by 33000 dots is too large for PNG; .* --places"):
                chart.write_png(re.sub(r'height="\d+"', 'height="33000"', svg, count=1), path)
            with self.assertRaisesRegex(texts.BadText, "^rsvg-convert: .+"):
                chart.write_png(svg, os.path.join(folder, "none", "x.png"))

    def test_png_without_its_program(self):
        with mock.patch.dict(os.environ, {"PATH": ""}):
            with self.assertRaisesRegex(texts.BadText, "rsvg-convert is missing, .*librsvg2-bin"):
                chart.write_png(drawn("loss"), "x.png")

    def test_mermaid(self):
        for name in NAMES:
            rows, text = rows_of(name), chart.mermaid(rows_of(name))
            self.assertTrue(text.startswith("sequenceDiagram\n    participant c1 as client 1\n"))
            self.assertEqual(len(re.findall(r"^    cell-.*", text, re.M)), sum(len(row.outputs) for row in rows), name)
            self.assertFalse(re.search(r"[#;<]", text.replace("->>", "")))
        text = chart.mermaid(rows_of("domains"))
        self.assertIn("    cell->>c1: asks DownloadSegment Prog\n", text)
        self.assertIn("    c1->>cell: 16: answers TerminateDownloadSequence done\n", text)
        self.assertIn("    c1-xcell: 32: connection lost\n", text)
        self.assertIn("cell-->>c2: (to place 7) TakeControl granted\n", chart.mermaid(rows_of("semaphores")))
        row = Row(1, 1, texts.Event("tick", ms=5), None, 5, [Output(1, None, say(None))])
        self.assertIn("    Note over cell: 1: tick 5\n    cell-xc1: abort", chart.mermaid([row]))


def spelled(said):
    """A service or a PDU as the index names it."""
    return said.title if said.service else said.pdu


def index():
    """The text of the index: which services stand in which example, and which examples have a service."""
    asked = {}
    for name in NAMES:
        rows = rows_of(name)
        heard = [row.said for row in rows if row.event.kind == "heard" and row.said.tone == "ask"]
        heard += [output.said for row in rows for output in row.outputs if chart_lines.asks(output)]
        asked[name] = sorted({spelled(said) for said in heard if said.pdu.endswith("-Request")}, key=str.lower)
    lines = [
        "# Examples",
        "",
        "A recording for each feature: its comments tell what is asked, those that begin with `#:` each element. Its",
        "report is what `mmscell replay` answers, which the gate checks. The report stands beside it in words, as",
        "`tools/mms explain` tells them, and as a chart, as `tools/mms chart` draws it: a lane for the cell and one for",
        "each client, time downwards. `tools/tests/test_explain.py --store` and `tools/tests/test_chart.py --store` write",
        "the comments, the words, the charts and this index, and tests compare them.",
        "",
        "| recording | | | | what is asked there |",
        "|---|---|---|---|---|",
    ]
    for name in NAMES:
        links = [f"[{said}]({name}.{kind})" for said, kind in KINDS]
        lines.append(f"| [{name}]({name}.mms) | {' | '.join(links)} | {', '.join(asked[name])} |")
    lines += ["", "| service or PDU | where it stands |", "|---|---|"]
    for service in sorted({service for services in asked.values() for service in services}, key=str.lower):
        where = [f"[{name}]({name}.mms)" for name in NAMES if service in asked[name]]
        lines.append(f"| {service} | {', '.join(where)} |")
    return "\n".join(lines) + "\n"


def stored():
    """Each chart, and the index, with its text."""
    return {f"{name}.svg": drawn(name) for name in NAMES} | {"README.md": index()}


def store():
    """Writes them anew."""
    for name in os.listdir(EXAMPLES):
        if name.endswith(".svg") and name not in stored():
            os.remove(os.path.join(EXAMPLES, name))
    for name, text in stored().items():
        with open(os.path.join(EXAMPLES, name), "w", encoding="utf-8", newline="\n") as file:
            file.write(text)


if __name__ == "__main__":
    if "--store" in sys.argv[1:]:
        store()
    else:
        unittest.main()
