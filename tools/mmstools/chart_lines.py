"""What a chart says of a row: a line for what came in, for each output, and for what is yet to come."""

from dataclasses import dataclass, field
from enum import Enum
from typing import Optional

from .history import Output, Row
from .words import Said

ANSWERING = ("confirmed-Response", "confirmed-Error", "reject")


@dataclass(frozen=True)
class Look:
    """How a kind of line is told from the others: by its colour, and without it by its dashes and its sign."""

    words: str
    colour: str
    dashes: str = ""
    sign: str = ""  # a path round the point 0,0
    filled: bool = False


class Tone(Enum):
    """The kinds of lines. Those of the decoder's words have its names."""

    ASK = "ask"
    GOOD = "good"
    PART = "part"
    BAD = "bad"
    ABORT = "abort"
    OTHER = "other"
    SERVER = "server"
    SEEN = "seen"


LOOKS = {
    Tone.ASK: Look("asked or answered by a client", "#1e293b"),
    Tone.GOOD: Look("answered", "#15803d", "", "M-4,0 L-1.2,3 L4,-3.5"),
    Tone.PART: Look("answered in part", "#a16207", "14 3", "M-4,0 H4"),
    Tone.BAD: Look("refused or malformed", "#c2410c", "6 3", "M-3.2,-3.2 L3.2,3.2 M3.2,-3.2 L-3.2,3.2"),
    Tone.ABORT: Look("aborted or lost", "#9f1239", "2 3", "M-4,-4 H4 V4 H-4 Z M-4,-4 L4,4 M4,-4 L-4,4"),
    Tone.OTHER: Look("sent unasked", "#6d28d9", "10 3 2 3", "M0,-4 V1.5 M0,3.2 V4"),
    Tone.SERVER: Look("asked by the cell", "#1d4ed8", "10 3 2 3 2 3", "M-3,-4 L4,0 L-3,4 Z", True),
    Tone.SEEN: Look("captured, where it differs", "#a21caf", "4 4", "M0,-4.5 L4.5,0 L0,4.5 L-4.5,0 Z"),
}


@dataclass
class Line:
    """A line of words at a client's lane, and the arrow to it or from it, where it has one."""

    client: int
    tone: Tone
    title: str
    detail: str = ""
    inward: bool = False
    arrow: bool = True
    octets: Optional[bytes] = None
    said: Optional[Said] = None
    number: str = ""  # the invokeID, where it stands in front
    note: str = ""
    guess: bool = False
    words: list[str] = field(default_factory=list)  # the detail, cut into lines

    @property
    def sign(self) -> str:
        """The path of its sign; what clients send has none but where it is malformed."""
        return LOOKS[self.tone].sign if self.arrow else ""


def is_answer(said: Optional[Said]) -> bool:
    """Whether a client answers a request of the cell by that."""
    return said is not None and said.pdu in ANSWERING


def asks(output: Output) -> bool:
    """Whether the cell asks a client by that."""
    return output.said.pdu == "confirmed-Request"


def waits(row: Row) -> bool:
    """Whether what a row asks isn't answered in its own event."""
    if row.said is None or row.said.pdu != "confirmed-Request":
        return False
    return row.answered is not row and not any(output.client == row.event.client for output in row.outputs)


def numbered(said: Said, of_cell: bool = False) -> str:
    """The invokeID of a PDU: the cell numbers its requests by itself, beside the client's."""
    return "" if said.invoke is None else f"{'cell ' * of_cell}#{said.invoke}"


def lines_of(row: Row, seen: list) -> list[Line]:
    """What is to be said of a row; `seen` is what a captured server answered otherwise, as `compare` tells it."""
    lines = []
    if row.event.kind == "heard":
        lines.append(heard(row))
    elif row.event.kind == "lost":
        lines.append(Line(row.event.client, Tone.ABORT, "connection lost", inward=True, octets=b""))
    lines += [sent(row, output) for output in row.outputs]
    if waits(row):
        answered = f"waits, answered at place {row.answered.place}" if row.answered else "waits, no answer follows"
        lines.append(Line(row.event.client, Tone.ASK, "", arrow=False, note=answered))
    return lines + [captured(*one) for one in seen]


def heard(row: Row) -> Line:
    """The line of what a client sent."""
    said, title = row.said, row.said.title
    if is_answer(said):
        title = f"answers {title}" if said.service else f"answers by {title}"
    tone = Tone.BAD if said.tone == "bad" else Tone.ASK
    line = Line(row.event.client, tone, title, said.detail, inward=True, octets=row.event.octets, said=said)
    line.number = numbered(said, is_answer(said))
    return line


def sent(row: Row, output: Output) -> Line:
    """The line of an output: of an answer to the row's own request its result alone."""
    said, notes = output.said, []
    title, tone, number = said.title, Tone(said.tone), ""
    if asks(output):
        title, tone, number = f"asks {title}", Tone.SERVER, numbered(said, True)
    elif output.asked is row and said.pdu == "confirmed-Response":
        title = ""
    if output.asked is not None and output.asked is not row:
        notes.append(f"place {output.asked.place} asked")
        number = numbered(said)
    if not output.sure:
        notes.append("a guess: at this place or another one of the phase")
    line = Line(output.client, tone, title, said.detail, octets=output.octets, said=said, number=number)
    line.note, line.guess = "; ".join(notes), not output.sure
    return line


def captured(kind: str, said: Said, octets: Optional[bytes], client: int) -> Line:
    """The line of what a captured server answered in place of this."""
    if kind == "missing":
        return Line(client, Tone.SEEN, "captured: nothing")
    return Line(client, Tone.SEEN, "captured", f"{said.title} {said.detail}".strip(), octets=octets, said=said)
