"""A report as a picture: one lane for the cell, one for each client, time downwards.

The rail at the left is the cell's history: a dot for each event, in order of place. What a client sends runs from its
lane to the dot, and each answer from the rail to the lane of the client that gets it, below its event. A bar on a lane
shows how long a request waits: a full one for a client's, a dashed one for a request of the cell that a client has yet
to answer. Octets are told where the pointer rests on a line. A picture has at most 2,000 events: of a report with more
--places or --clients chooses a part.

Status 0: it is drawn. 1: it is drawn, and the report ends with why its recording is refused, or is cut off, which the
picture tells, too. 2: nothing can be drawn.
"""

import os
import re
import shlex
from collections import defaultdict
from dataclasses import dataclass, replace
from typing import Optional

from .chart_lines import LOOKS, Line, Tone, asks, is_answer, lines_of, waits
from .chart_mermaid import mermaid  # noqa: F401
from .chart_svg import FAINT, INK, SOFT, WHITE, Drawing, document, write_png  # noqa: F401
from .chart_text import SIZE, SMALL, TINY, count, cut, hexadecimal, span, width, wrap
from .history import Row
from .texts import BadText, Report

TOP = os.path.dirname(os.path.dirname(os.path.dirname(os.path.abspath(__file__))))
LINE, GAP, LEFT, BAND = 17, 9, 24, 18  # heights of a line, behind a row, the margin, and the height of a phase's band
RAIL, FIRST, WORDS, SIGN = 92, 262, 28, 15  # where the cell's lane is and the first client's; from a lane to its words
LEAST, CLOSE, OVER = 200, 48, 430  # the least room of a lane; between close ones, and for words over their neighbours
NAME = 236  # the greatest room of who a client was, at the head of its lane
ROOMS = {1: 480, 2: 430, 3: 400}  # the greatest room of a lane, by how many there are
MOST_APART = 4  # clients whose words have a room of their own
NUMBER, TITLE = 90, 280  # the greatest room of an invokeID and of a title
LINES = 3  # lines of words that a detail may have
AGAIN = 900  # after so much height the clients' names stand there again
MOST_EVENTS = 2000
CELL = "#1e3a5f"
LANES = ["#2563eb", "#0d9488", "#9333ea", "#b45309", "#db2777", "#0e7490", "#4d7c0f", "#dc2626"]


@dataclass
class Bar:
    """A request that waits, at the lane of its client."""

    client: int
    top: float
    bottom: float
    of_cell: bool
    words: str


def chart(rows: list[Row], name: str, note: str = "", names: Optional[dict] = None, seen: Optional[dict] = None) -> str:
    """The SVG of these rows.

    `note` stands below the name, `names` says who the clients were, `seen` what a captured server answered otherwise,
    by place, as `compare` tells it.
    """
    if len(rows) > MOST_EVENTS:
        raise BadText(
            f"{len(rows)} events are too many for one picture, which has at most {MOST_EVENTS}; choose a part with"
            f" --places A-B, from {rows[0].place} to {rows[-1].place}, or with --clients N,N"
        )
    return Picture(rows, name, note, names or {}, seen or {}).svg()


def chosen(rows: list[Row], places: str = "", clients: str = "") -> list[Row]:
    """The rows of these places (`A-B`, `A-`, `-B`, `A`), and of them what these clients (`N,N`) send and get.

    Ticks and ends of program invocations are everybody's. What one client does for another, such as to give back the
    token that it waits for, stays.
    """
    kept = rows
    if places:
        low, dash, high = (part.strip() for part in places.partition("-"))
        if not re.fullmatch(r"\d+", low + high):
            raise BadText("--places wants two places, such as 10-60")
        last = int(high) if high else rows[-1].place if dash and rows else int(low)
        kept = [row for row in kept if int(low or 0) <= row.place <= last]
    if clients:
        if not re.fullmatch(r"\s*\d+\s*(,\s*\d+\s*)*", clients):
            raise BadText("--clients wants numbers of clients, such as 1,4")
        some = {int(number) for number in clients.split(",")}
        there = sorted({c for row in rows for c in (row.event.client, *(o.client for o in row.outputs)) if c})
        strange = sorted(some - set(there))
        if strange:
            raise BadText(f"nothing is of client {strange[0]}; there is of {', '.join(map(str, there)) or 'none'}")
        kept = [replace(row, outputs=[o for o in row.outputs if o.client in some]) for row in kept]
        kept = [row for row in kept if row.outputs or row.event.client in some or not row.event.client]
    if not kept:
        if not rows:
            raise BadText("there is no event")
        raise BadText(f"none of the events is asked for; their places go from {rows[0].place} to {rows[-1].place}")
    return kept


def ended(report: Report) -> str:
    """What has to be said of a report that isn't one of a whole recording; empty of any other."""
    if not report.end:
        return ""
    return report.end if report.is_cut else f"the recording is refused behind these events: `{report.end}`"


def program(given: Optional[str] = None) -> list[str]:
    """The words that begin the program that serves recordings: those given, else MMSCELL's, else the gate's program."""
    words = given or os.environ.get("MMSCELL")
    if words:
        return [words] if os.path.exists(words) else shlex.split(words)
    built = os.path.join(TOP, "crates", "mmscell", "out", "mmscell")
    if os.access(built, os.X_OK):
        return [built]
    raise BadText(
        "a recording is to be served, and there is no program for it: name one with --program PATH or by the variable"
        " MMSCELL, or build crates/mmscell/out/mmscell; what is drawn may be a report, too, which needs none"
    )


class Picture:
    """The picture of some rows."""

    def __init__(self, rows, name, note, names, seen):
        self.rows, self.name, self.note, self.names = rows, name, note, names
        self.lines = {row.place: lines_of(row, seen.get(row.place, [])) for row in rows}
        self.clients = sorted({line.client for lines in self.lines.values() for line in lines})
        self.apart = len(self.clients) <= MOST_APART
        self.ground, self.front = Drawing(), Drawing()
        self.marks: list[tuple] = []  # (client, y, whether its association begins or ends there)
        self.waiting: dict[tuple, tuple] = {}  # where a request that waits began, and its words
        self.bars: list[Bar] = []
        self.heads_at = 0.0  # where the clients' names stood last
        self.event_at = 0.0  # where the event's first line stands
        self.lanes()

    # ---- where everything stands
    def lanes(self):
        """Where the lanes are, by how wide their words are; then each detail as lines of its lane's room."""
        most = ROOMS.get(len(self.clients), 390)
        room = {client: LEAST for client in self.clients}
        for client in self.clients:
            room[client] = max(LEAST, min(width(self.names.get(client, ""), TINY), NAME) + 24 - WORDS)
        for line in self.all_lines():
            line.number, line.title = cut(line.number, NUMBER, SMALL), cut(line.title, TITLE, SIZE, True)
            whole = self.before_words(line) + width(line.detail) + 4
            room[line.client] = max(room[line.client], min(max(whole, width(line.note, SMALL) + 4), most))
        self.room, self.at = room, {}
        x = FIRST
        for client in self.clients:
            self.at[client] = x
            x += room[client] + WORDS + 8 if self.apart else CLOSE
        self.wide = max(x if self.apart else x + OVER, 640)
        for line in self.all_lines():
            free = room[line.client] if self.apart else OVER - WORDS
            line.words = wrap(line.detail, free, LINES, self.before_words(line)) if line.detail else [""]

    def all_lines(self):
        """All lines of all rows."""
        return [line for lines in self.lines.values() for line in lines]

    @staticmethod
    def before_words(line: Line) -> float:
        """How much room stands before a line's detail."""
        number = width(f"{line.number} ", SMALL) if line.number else 0
        return number + (width(line.title, SIZE, True) + 6 if line.title else 0)

    # ---- the picture
    def svg(self) -> str:
        """The whole picture."""
        head = Drawing()
        self.top = self.head(head)
        self.heads_at, y, phase = self.top, self.top + 28, None
        for row in self.rows:
            if row.phase != phase or y - self.heads_at > AGAIN:
                y = self.band(row.phase, y, phase is not None)
                phase = row.phase
            y = self.row(row, y)
        bottom = y + 8
        for key in list(self.waiting):
            self.ends(key, bottom, "the end")
        lanes = Drawing()
        self.lifelines(lanes, bottom)
        self.draw_bars(lanes)
        high = self.foot(lanes, bottom + 22)
        layers = (head, self.ground, lanes, self.front)
        return document(self.wide, high, self.name, [part for layer in layers for part in layer.parts])

    def head(self, out: Drawing) -> float:
        """The name, what there is, and what the lines mean; answers where the lanes begin."""
        out.text(LEFT, 30, cut(self.name, self.wide - 2 * LEFT, 17, True), 17, INK, True)
        y = 48
        for words in wrap(self.summary(), self.wide - 2 * LEFT, 4, 0, SMALL):
            out.text(LEFT, y, words, SMALL, SOFT)
            y += 15
        x, tones = LEFT, {line.tone for line in self.all_lines() if line.arrow}
        entries = [(LOOKS[tone].words, tone) for tone in Tone if tone in tones]
        entries += [("a client waits", None)] * any(waits(row) or self.late(row) for row in self.rows)
        entries += [("the cell waits for a client", "cell")] * (Tone.SERVER in tones)
        y += 4
        for words, tone in entries:
            room = legend_room(tone) + width(words, SMALL)
            if x > LEFT and x + room > self.wide - LEFT:
                x, y = LEFT, y + 17
            self.legend(out, x, y, words, tone)
            x += room + 20
        return y + 58

    @staticmethod
    def late(row: Row) -> bool:
        """Whether a row has an answer to what an earlier one asked."""
        return any(output.asked is not None and output.asked is not row for output in row.outputs)

    def summary(self) -> str:
        """What there is in the picture, in words."""
        outputs = [output for row in self.rows for output in row.outputs]
        heard, guesses = sum(row.event.kind == "heard" for row in self.rows), sum(not o.sure for o in outputs)
        words = [count(len(self.rows), "event")]
        if self.rows:
            words[0] += f" at places {self.rows[0].place} to {self.rows[-1].place}"
        words += [count(heard, "PDU") + " heard", f"{sum(o.octets is not None for o in outputs)} sent"]
        words.append(count(len(self.clients), "client"))
        words.append(f"{span(self.rows[-1].now if self.rows else 0)} of the cell's time")
        words += [f"the events of {count(guesses, 'answer')} are guesses"] * bool(guesses)
        return ", ".join(words + [self.note] * bool(self.note))

    @staticmethod
    def legend(out: Drawing, x, y, words, tone) -> None:
        """What a line or a bar means."""
        if tone is None or tone == "cell":
            bar(out, x, y - 8, 26, 8, tone == "cell", "")
        else:
            look = LOOKS[tone]
            out.line(x, y - 4, x + 26, y - 4, look.colour, 2, look.dashes)
            if look.sign:
                out.sign(look.sign, x + 36, y - 4, look.colour, look.colour if look.filled else "none")
        out.text(x + legend_room(tone), y, words, SMALL, SOFT)

    def band(self, phase: int, y: float, gap: bool) -> float:
        """The band in which a phase begins, or goes on, with the clients' names where they stood far above."""
        y += 6 if gap else 0
        self.ground.rect(0, y - 11, self.wide, BAND, "#eef2f7")
        self.front.text(12, y + 2, f"phase {phase}", SMALL, SOFT, True)
        if y - self.heads_at > AGAIN - 200:
            self.heads_at = y
            for client in self.clients:
                words = f"client {client}" if self.apart else str(client)
                size = width(words, SMALL, True) + 10
                self.front.rect(self.at[client] - size / 2, y - 11, size, BAND, "#eef2f7")
                self.front.text(self.at[client], y + 2, words, SMALL, self.colour(client), True, "middle")
        return y + 23

    def colour(self, client: int) -> str:
        """The colour of a client's lane."""
        return LANES[self.clients.index(client) % len(LANES)]

    def lifelines(self, out: Drawing, bottom: float) -> None:
        """The lanes: dotted, and drawn through while the client's association is open."""
        out.line(RAIL, self.top, RAIL, bottom, CELL, 4)
        lane_head(out, RAIL, self.top, "cell", "", CELL)
        if not self.apart:
            out.text(FIRST - 20, self.top + 5, "client", SIZE, SOFT, True, "end")
        for client in self.clients:
            x, since = self.at[client], None
            out.line(x, self.top, x, bottom, FAINT, 1.4, "2 4")
            for _, y, opens in [mark for mark in self.marks if mark[0] == client] + [(client, bottom, False)]:
                if opens and since is None:
                    since = y
                elif not opens and since is not None:
                    title = f"client {client}: the association is open"
                    out.line(x, since, x, y, self.colour(client), 3, title=title)
                    since = None
            name, words = self.names.get(client, ""), f"client {client}" if self.apart else str(client)
            below = cut(name, min(self.room[client] + WORDS - 24, NAME), TINY) if self.apart else ""
            lane_head(out, x, self.top, words, below, self.colour(client), f"client {client} {name}".strip())

    def foot(self, out: Drawing, y: float) -> float:
        """Who the clients were, where their heads have no room for it; answers where the picture ends."""
        if self.apart or not self.names:
            return y
        x, y = LEFT, y + 10
        for client in self.clients:
            words = cut(f"client {client}: {self.names.get(client, '')}", 290, SMALL)
            if x > LEFT and x + 290 > self.wide:
                x, y = LEFT, y + 16
            out.text(x, y, words, SMALL, self.colour(client))
            x += 300
        return y + 24

    # ---- requests that wait
    def begins(self, key: tuple, y: float, words: str) -> None:
        """A request begins to wait: of a client, by its place, or of the cell, by its number."""
        self.waiting[key] = (y, words)

    def ends(self, key: tuple, y: float, until: str) -> None:
        """A request waits no more."""
        top, words = self.waiting.pop(key, (None, ""))
        if top is not None:
            self.bars.append(Bar(key[0], top, y, key[1] == "cell", f"{words} to {until}"))

    def closes(self, client: int, y: float, place: int) -> None:
        """A client's association ends, and with it all that waits."""
        self.marks.append((client, y, False))
        for key in [key for key in self.waiting if key[0] == client]:
            self.ends(key, y, f"place {place}, where the association ends")

    def draw_bars(self, out: Drawing) -> None:
        """The bars of each client, beside one another where they are of one time."""
        ends = defaultdict(list)
        for one in sorted(self.bars, key=lambda bar: bar.top):
            slots = ends[one.client]
            slot = next((i for i, end in enumerate(slots) if end < one.top), len(slots))
            slots[slot : slot + 1] = [one.bottom]
            x = self.at[one.client] - (13 if one.of_cell else 4) - 9 * (slot % 5)
            bar(out, x, one.top, 8, max(one.bottom - one.top, 4), one.of_cell, one.words)

    # ---- rows
    def row(self, row: Row, y: float) -> float:
        """An event with all that came of it; answers where the next one begins."""
        lines = self.lines[row.place]
        if row.event.kind == "tick" and not lines:
            return self.small_tick(row, y)
        if any(line.tone is Tone.SEEN for line in lines):
            high = sum(len(line.words) + bool(line.note) for line in lines) * LINE + 6
            self.ground.rect(RAIL - 56, y - 12, self.wide - RAIL + 46, high, "#fdf4ff", "#f0abfc", 6)
        self.front.text(RAIL - 14, y + 4, str(row.place), SMALL, SOFT, False, "end")
        if row.event.kind in ("tick", "ends"):
            self.moment(row, y)
            y += LINE + 2
        else:
            self.dot(row, y)
        self.event_at = y
        for line in lines:
            y = self.line(row, line, y)
        return y + GAP

    def small_tick(self, row: Row, y: float) -> float:
        """Time that passes without an output takes little room: a notch on the rail."""
        y -= 4
        words = f"+{span(row.event.ms)}, now {span(row.now)}"
        self.front.open(f"place {row.place}: {span(row.event.ms)} pass, now {span(row.now)}")
        self.front.line(RAIL - 6, y, RAIL + 9, y, "#6366f1", 2)
        self.ink(RAIL + 14, y + 3.5, words, TINY, "#4338ca")
        self.front.text(RAIL - 14, y + 3.5, str(row.place), TINY, SOFT, False, "end")
        self.front.close()
        return y + LINE

    def moment(self, row: Row, y: float) -> None:
        """A tick of which something comes, or the end of a program invocation."""
        event = row.event
        words = f"{event.name} ends" if event.kind == "ends" else f"{span(event.ms)} pass, now {span(row.now)}"
        self.front.line(RAIL, y, self.wide - 16, y, "#94a3b8", 1, "1 5")
        self.front.rect(RAIL + 12, y - 9, width(words, SMALL) + 18, 18, "#e0e7ff", "#a5b4fc", 9)
        self.front.text(RAIL + 21, y + 4, words, SMALL, "#3730a3")
        self.dot(row, y)

    def dot(self, row: Row, y: float) -> None:
        """The event on the rail."""
        self.front.circle(RAIL, y, 5, WHITE, CELL, cut(f"place {row.place}: {row.event.line()}", 2000))

    def line(self, row: Row, line: Line, y: float) -> float:
        """A line of words with its arrow; answers where the next one begins."""
        self.notice(row, line, y)
        self.front.open(self.hover(row, line))
        look, x = LOOKS[line.tone], self.at[line.client]
        if line.arrow:
            self.arrow(row, line, y)
        if line.sign:
            self.front.sign(line.sign, x + SIGN, y, look.colour, look.colour if look.filled else "none")
        y = self.words(line, y)
        self.front.close()
        return y

    def arrow(self, row: Row, line: Line, y: float) -> None:
        """The arrow between a client's lane and the rail, with a cross where the association is lost."""
        look, x = LOOKS[line.tone], self.at[line.client]
        if line.inward:
            self.front.line(x, y, RAIL + 7, y, look.colour, 1.4, look.dashes, line.tone.value)
        else:
            end = x - (9 if line.tone is Tone.ABORT else 2)
            self.front.line(RAIL + 2, y, end, y, look.colour, 1.4, look.dashes, line.tone.value)
        if line.tone is Tone.ABORT:
            self.front.sign("M-5,-5 L5,5 M5,-5 L-5,5", x, y, look.colour)

    def words(self, line: Line, y: float) -> float:
        """The words of a line, cut into lines before; answers where the next one begins."""
        look, x = LOOKS[line.tone], self.at[line.client] + WORDS
        at = x
        if line.number:
            self.ink(at, y + 4, line.number, SMALL, SOFT)
            at += width(f"{line.number} ", SMALL)
        if line.title:
            self.ink(at, y + 4, line.title, SIZE, look.colour, True)
            at += width(line.title, SIZE, True) + 6
        for words in line.words:
            if words:
                self.ink(at, y + 4, words, SIZE, "#334155" if line.tone is Tone.ASK else look.colour)
            y, at = y + LINE, x
        if line.note:
            y -= 0 if line.title or line.detail else LINE
            self.ink(x, y + 3, line.note, SMALL, "#b45309" if line.guess else SOFT, italic=True)
            y += LINE
        return y

    def ink(self, x, y, words, size, fill, bold=False, italic=False) -> None:
        """Words, on white where they may stand over the lanes of others."""
        if not self.apart:
            self.front.rect(x - 2, y - size, width(words, size, bold) + 4, size + 3, WHITE)
        self.front.text(x, y, words, size, fill, bold, "start", italic)

    def notice(self, row: Row, line: Line, y: float) -> None:
        """Keeps what a line means for the lanes and for what waits."""
        client, said = line.client, line.said
        if line.tone is Tone.SEEN:
            return
        if not line.arrow:
            words = f"client {client} waits from place {row.place}"
            self.begins((client, "client", row.place), self.event_at, words)
        elif line.inward and is_answer(said):
            self.ends((client, "cell", said.invoke), y, f"place {row.place}")
        elif line.tone is Tone.SERVER:
            words = f"the cell waits for client {client} from place {row.place}"
            self.begins((client, "cell", said.invoke), y, words)
        elif line.tone is Tone.ABORT or said is not None and said.pdu == "conclude-Response" and not line.inward:
            self.closes(client, y, row.place)
        elif not line.inward and said is not None and said.pdu == "initiate-Response":
            self.marks.append((client, y, True))
        self.answers(row, line, y)

    def answers(self, row: Row, line: Line, y: float) -> None:
        """Ends the wait of a request that this line answers, which began above the picture where it isn't drawn."""
        for output in row.outputs:
            asked = output.asked
            if asked is None or asked is row or output.said is not line.said:
                continue
            key, words = (line.client, "client", asked.place), f"client {line.client} waits from place {asked.place}"
            if asked.place not in self.lines:
                self.begins(key, self.top, words)
            self.ends(key, y, f"place {row.place}, {span(row.now - asked.now)}")

    @staticmethod
    def hover(row: Row, line: Line) -> str:
        """What is told where the pointer rests on a line."""
        way = f"client {line.client} to the cell" if line.inward else f"the cell to client {line.client}"
        number = f"invokeID {line.said.invoke}" if line.said is not None and line.said.invoke is not None else ""
        said = " ".join(part for part in (line.title, cut(line.detail, 3000)) if part)
        words = [f"place {row.place}, {way}, at {span(row.now)}"]
        words += [", ".join(part for part in (said, number) if part), line.note]
        if line.octets:
            words.append(f"{count(len(line.octets), 'octet')}: {hexadecimal(line.octets)}")
        return "\n".join(part for part in words if part)


def legend_room(tone) -> float:
    """How much room stands before the words of an entry of the legend."""
    return 46 if isinstance(tone, Tone) and LOOKS[tone].sign else 32


def bar(out: Drawing, x, y, wide, high, of_cell: bool, title: str) -> None:
    """A bar of what waits: dashed where it is the cell."""
    if of_cell:
        out.rect(x, y, wide, high, "#eff6ff", "#1d4ed8", 3, "3 2", title)
    else:
        out.rect(x, y, wide, high, "#fde68a", "#b45309", 3, "", title)


def lane_head(out: Drawing, x, y, words, below, colour, title="") -> None:
    """The box at the head of a lane."""
    wide, high = max(width(words, SIZE, True), width(below, TINY)) + 20, 36 if below else 24
    out.rect(x - wide / 2, y - high + 10, wide, high, colour, "none", 6, "", title)
    out.text(x, y - high + 26, words, SIZE, WHITE, True, "middle")
    if below:
        out.text(x, y + 3, below, TINY, WHITE, False, "middle")
