"""A recording, a report or one PDU in words: each PDU cut by element, with tag, length, contents, name and value, and
for what is refused the rule that is broken, the line itself, and of a configuration the row and the key.

    mms explain FILE    a recording, a report, a file of rows, or PDUs as below; - for standard input
    mms explain DIGITS  a PDU: pairs of digits, a line of a recording or a report (`1 A0..`, `> A1..`), `a0:06`, `0xA006`,
                        a C array, `\\xA0\\x06`, or a hexdump

Beside a report NAME.report the recording NAME.mms is looked at for the line that was refused, where it is there. Of a
configuration that Python doesn't read as TOML mmscell decides: it is refused where NAME.report beside it says so. The
status is 2 where a recording is refused, a report is cut off or a PDU is malformed; a sentence then says why.
"""

import os
import re
import sys
import textwrap
from dataclasses import dataclass
from functools import lru_cache
from typing import Iterable, Iterator, List, Optional, Tuple

from . import at_hand, ber, grammar, refusals, row_files
from .grammar import Node
from .history import Row, history
from .refusals import Refusal
from .texts import BadText, Event, Recording, Report, kind_of, read_recording, read_report
from .words import Said, hint, say

CLASSES = ("universal", "application", "", "private")
CONTENTS = 12  # octets of contents that are shown
AT_ONCE = 500  # lines that are written at once
MOST_SIGNS = 1200  # of a value; an unknown element is shown as far as these
WIDE, LEAST_WIDE = 150, 40
WIDTHS = (26, 40, 34, 30)  # of the columns, at most
UNIVERSAL = {
    1: "BOOLEAN",
    2: "INTEGER",
    3: "BIT STRING",
    4: "OCTET STRING",
    5: "NULL",
    12: "UTF8String",
    16: "SEQUENCE",
    25: "GraphicString",
    26: "VisibleString",
}
ROWS = re.compile(r"(?m)^= (?:replay|run|steps)\b")  # a file of rows has such a line
END = "end of contents"  # of indefinite length
SPOKEN_AS = {
    "confirmed-Request": "request",
    "confirmed-Response": "response",
    "confirmed-Error": "",
    "unconfirmed": "unconfirmed",
}
LEGEND = (
    "Each element is a line: tag and length, contents where it has no parts, its tag and type, its name, its value."
    " Inner elements are indented below the one that holds them."
)


# ---------------------------------------------------------------- a PDU


@dataclass
class Line:
    """What is shown of an element; the octets are spelled in hexadecimal digits."""

    depth: int
    tag: str
    length: str
    contents: str  # where it has no parts
    kind: str  # its tag and its type
    name: str
    value: str

    def columns(self) -> Tuple[str, str, str, str]:
        head = " ".join(x for x in (self.tag, self.length) if x)
        return "  " * self.depth + head, self.contents, self.kind, self.name


def table(octets: bytes) -> List[Line]:
    """A line for each element, in the order of the octets."""
    out: List[Line] = []

    def add(n: Node, depth: int) -> None:
        out.append(_line(n, depth))
        for p in n.parts:
            add(p, depth + 1)
        if n.element.is_ended:
            out.append(Line(depth, "00", "00", "", END, "", ""))

    for n in grammar.decode(octets):
        add(n, 0)
    return out


def _line(n: Node, depth: int) -> Line:
    """What is shown of a node."""
    e = n.element
    number = f"[{e.number}]" if e.cls == 2 else f"{CLASSES[e.cls]} {e.number}"
    if e.cls == 0:
        number = UNIVERSAL.get(e.number, number)
    value = n.value if n.known else " ".join(x for x in ("not in the table:", n.value) if x).rstrip(":")
    if len(value) > MOST_SIGNS:
        value = f"{value[:MOST_SIGNS].rstrip()} .. ({e.end - e.start} octets)"
    return Line(
        depth,
        _hex(e.octets[e.at : e.tag_end]),
        _hex(e.octets[e.tag_end : e.start]),
        "" if n.parts else _cut(e.contents),
        " ".join(x for x in (number, n.type if n.type != number else "") if x),
        n.label or ("" if n.known else "?"),
        f"{value}  <-- {e.flaw}".lstrip() if e.flaw else value,
    )


def _hex(b: bytes) -> str:
    """Octets in hexadecimal digits, with a blank between two."""
    return b.hex(" ").upper()


def _cut(b: bytes) -> str:
    """The first octets, and how many there are."""
    return _hex(b[:CONTENTS]) + (f" .. {len(b)}" if len(b) > CONTENTS else "")


def pdu(octets: Optional[bytes], indent: str = "    ") -> List[str]:
    """The lines of one PDU; none of an abort."""
    at = grammar.numbered(octets) if octets else None
    if at is None:
        return _laid_out(table(octets or b""), indent)
    start, end = at
    named, above, below = _around(octets[: start - 1], end - start, octets[end:], indent)
    contents = octets[start:end]
    return [*above, f"{named[0]}{_hex(contents)}{named[1]}{int.from_bytes(contents, 'big', signed=True)}", *below]


@lru_cache(maxsize=1 << 14)
def _around(head: bytes, size: int, behind: bytes, indent: str) -> Tuple[Tuple[str, str], List[str], List[str]]:
    """Of PDUs that begin so, and differ in an invokeID of so many octets alone: what stands around that one in its line,
    and the lines above and below."""
    shown = "00" + " 00" * (size - 1)
    above, line, *below = _laid_out(table(head + bytes([size]) + bytes(size) + behind), indent)
    front, _, back = line.partition(f"{head[-1]:02X} {size:02X}")
    first, _, last = back.partition(shown)
    return (f"{front}{head[-1]:02X} {size:02X}{first}", last.removesuffix("0")), [above], below


def _laid_out(lines: List[Line], indent: str) -> List[str]:
    """These elements in columns."""
    if not lines:
        return []
    columns = [line.columns() for line in lines]
    widths = [min(max(len(c[i]) for c in columns), most) for i, most in enumerate(WIDTHS)]
    out = []
    for line, parts in zip(lines, columns):
        head = indent + "".join(part.ljust(width) + "  " for part, width in zip(parts, widths))
        room = max(LEAST_WIDE, WIDE - len(head))
        values = [line.value] if len(line.value) <= room else textwrap.wrap(line.value, room)
        out += [(head + values[0]).rstrip()] + [" " * len(head) + v for v in values[1:]]
    return out


def heading(s: Said) -> str:
    """What a PDU says, what it is, and its invokeID."""
    words = " ".join(x for x in (s.title, s.detail) if x)
    kind = SPOKEN_AS.get(s.pdu)
    number = "" if s.invoke is None else f", invokeID {s.invoke}"
    return f"{words}{', ' + kind if kind else ''}{number}"


def _of_pdu(octets: bytes) -> Iterator[str]:
    """One PDU alone; raises BadText behind its lines where it is malformed."""
    said = say(octets)
    yield heading(said)
    yield from _hinted(octets, "")
    yield from pdu(octets, "")
    if not said.pdu or "malformed" in said.detail:
        raise BadText(f"these {len(octets)} octets are no PDU: {said.detail.partition('malformed: ')[2] or said.title}")


def _of_pdus(found: List[bytes]) -> Iterator[str]:
    """One PDU after the other; raises BadText behind the last where one is malformed."""
    wrong: List[BadText] = []
    for i, octets in enumerate(found):
        yield from [""] * bool(i)
        try:
            yield from _of_pdu(octets)
        except BadText as bad:
            wrong.append(bad)
    if wrong:
        raise wrong[0]


def _of_rows(text: str) -> Iterator[str]:
    """Each row of a file of rows: its recording, and what has to be written or sent."""
    for row in row_files.read(text):
        yield f"line {row.line}: = {row.words}"
        if not row.recording.startswith("mms-recording"):
            yield from row.report.split("\n")
            continue
        try:
            yield from _of_recording_text(row.recording, f"the recording of line {row.line}")
        except BadText as bad:
            yield f"{bad}"
        for step in row.steps:
            for client, octets in step.outputs:
                yield f"{step.event.line()} -> client {client}: {heading(say(octets))}"
        try:
            yield from of_report(read_report(row.report)) if row.report else ()
        except BadText as bad:
            yield f"{bad}"
        yield ""


def _hinted(octets: bytes, indent: str) -> Iterator[str]:
    """The note for whoever typed these octets, where there is one."""
    if hint(octets):
        yield f"{indent}Note: {hint(octets)}."


# ---------------------------------------------------------------- a recording


def of_recording(r: Recording) -> Iterator[str]:
    """The lines of a recording: each event, and its PDU by element."""
    yield f"A recording of edition {r.edition}, {_phases(len(r.phases))}. {LEGEND}"
    if r.config:
        yield ""
        yield "configuration"
        yield from ("    " + line for line in r.config)
    for k, events in enumerate(r.phases, 1):
        yield ""
        yield f"phase {k}"
        for i, one in enumerate(events):
            yield ""
            yield from ("# " + note for note in r.notes.get((k - 1, i), []))
            yield from _event("", one, r.edition)


def _phases(count: int) -> str:
    return f"{count} phase{'' if count == 1 else 's'}"


def _of_recording_text(text: str, name: str) -> Iterator[str]:
    """A recording, and where it is refused what stands before the line, and why; BadText is raised behind that."""
    refusal = refusals.first_refusal(text) or told_beside(text, name)
    if refusal is None:
        doubt = refusals.doubt(text)
        if doubt is not None:
            yield from [*refusals.undecided(doubt, text), ""]
        yield from of_recording(read_recording(text))
        return
    if refusal.line and refusal.word not in ("header", "config"):
        yield from _before(text, refusal)
    yield from refusals.explained(refusal, text)
    raise BadText(f"{name} is refused, `{refusal.told()}`: {_here(refusal)}")


def told_beside(text: str, name: str) -> Optional[Refusal]:
    """Of a recording NAME.mms whose configuration can't be read here the refusal that NAME.report ends with."""
    doubt, beside = refusals.doubt(text), re.sub(r"\.mms$", "", name) + ".report"
    if doubt is None or not name.endswith(".mms") or not os.path.exists(beside):
        return None
    told = refusals.read_told(_read(beside).rstrip("\r\n").rpartition("\n")[2])
    return doubt if told is not None and told.rule == 0 else told


def _here(refusal: Refusal) -> str:
    """What is wrong here, or else the rule."""
    return refusal.broken.words() if refusal.broken is not None else refusal.meaning().where


def _before(text: str, refusal: Refusal) -> Iterator[str]:
    """The recording up to the line that is refused, where that stands behind the configuration."""
    try:
        yield from of_recording(read_recording("\n".join(text.split("\n")[: refusal.line - 1])))
        yield ""
    except BadText:
        return


# ---------------------------------------------------------------- a report


def of_report(r: Report, recording: str = "", name: str = "") -> Iterator[str]:
    """The lines of a report, each answer below the event that it came of, and at its end why the recording was refused;
    the line itself is taken from the recording's text, where that is there and is refused so."""
    yield f"A report, {_phases(len(r.phases))}. {LEGEND}"
    phase = 0
    for row in history(r):
        if row.phase != phase:
            phase = row.phase
            yield ""
            yield f"phase {phase}"
        yield ""
        yield from _event(f"place {row.place}: ", row.event)
        yield from _answers(row)
    if r.end:
        yield ""
        yield from _ended(r, recording, name)


def _answers(row: Row) -> Iterator[str]:
    """What an event makes the device send, and when its answer comes where that is later."""
    for o in row.outputs:
        late = "" if o.asked in (row, None) else f", to the request of place {o.asked.place}"
        sure = "" if o.sure else " (at this place or before)"
        does = "asks" if o.said.pdu == "confirmed-Request" else "answers" if o.octets is not None else "sends"
        yield f"  the cell {does} client {o.client}{late}{sure}: {heading(o.said)}"
        yield from pdu(o.octets)
    if row.answer is None and row.said is not None and row.said.pdu == "confirmed-Request":
        yield "  no answer"
    elif row.answered is not None and row.answered is not row:
        yield f"  it waits, and is answered at place {row.answered.place}"


def _ended(r: Report, recording: str, name: str) -> Iterator[str]:
    """The report's last line, and what it means."""
    told = refusals.read_told(r.end)
    if told is None:
        yield r.end
        raise BadText(r.end if r.is_cut else f"`{r.end}` is no word that a report ends with")
    found = refusals.first_refusal(recording) or refusals.doubt(recording) if recording else None
    if found is not None and found.told() == told.told():
        yield from refusals.explained(found, recording)
    elif found is not None and found.broken is not None and told.line and refusals.doubt(recording):
        yield from refusals.explained(told, recording)
    else:
        yield from refusals.explained(told)
        if recording:
            yield f"The line itself is not shown: {name} is not refused so."
    raise BadText(f"the report ends with `{r.end}`: its recording was refused")


def _event(head: str, one: Event, edition: str = "") -> Iterator[str]:
    """An event, and its octets by element; with a note where the edition, if it is known, hasn't their lengths."""
    if one.kind == "heard":
        said = say(one.octets)
        does = "answers" if said.pdu in ("confirmed-Response", "confirmed-Error") else "sends"
        yield f"{head}client {one.client} {does}: {heading(said)}"
        yield from _hinted(one.octets, "    ")
        if edition == "1" and any(e.is_ended for top in ber.elements(one.octets) for e in top.walk()):
            yield "    Note: an indefinite length, which recordings of edition 2 allow (`mms-recording 2`)."
        yield from pdu(one.octets)
    else:
        yield head + {
            "tick": f"{one.ms} ms go by",
            "lost": f"the connection of client {one.client} is lost",
            "ends": f"the program invocation {one.name} ends",
        }[one.kind]


# ---------------------------------------------------------------- the command


def source(argument: str) -> Tuple[str, List[bytes]]:
    """The text of a file or of standard input, and the PDUs that it or the argument itself holds, where it holds some."""
    if argument != "-" and not os.path.exists(argument):
        found = at_hand.pdus(argument)
        if found:
            return "", found
    text = _read(argument)
    known = kind_of(text) or "mms-recording" in text.split("\n", 1)[0].lower() or ROWS.search(text)
    return text, [] if known else at_hand.pdus(text)


def explained(argument: str) -> Iterable[str]:
    """The lines for a file, for standard input or for a PDU in digits. Raises BadText, also behind lines."""
    text, found = source(argument)
    if found:
        return _of_pdus(found)
    if "mms-recording" in text.split("\n", 1)[0].lower():
        return _of_recording_text(text, argument)
    if kind_of(text) == "report":
        beside = re.sub(r"\.report$", "", argument) + ".mms"
        there = argument != "-" and os.path.exists(beside)
        return of_report(_report(text, argument), _read(beside) if there else "", beside)
    if ROWS.search(text):
        return _of_rows(text)
    raise BadText(f"{argument} is neither a recording nor a report or a file of rows, and no PDU in hexadecimal digits")


def _report(text: str, name: str) -> Report:
    """The report that a text is; what is wrong with it is said with its name."""
    try:
        return read_report(text)
    except BadText as bad:
        raise BadText(f"{name}, {bad}") from None


def _read(path: str) -> str:
    """A text whose signs are the octets of a file or of standard input."""
    if path == "-":
        return sys.stdin.buffer.read().decode("latin-1")
    with open(path, "rb") as f:
        return f.read().decode("latin-1")


def command(asked) -> int:
    """The command `mms explain`, whose argument is `file`."""
    some: List[str] = []
    try:
        for line in explained(asked.file):
            some.append(line)
            if len(some) == AT_ONCE:
                print("\n".join(some))
                some.clear()
    finally:
        if some:
            print("\n".join(some))
    return 0
