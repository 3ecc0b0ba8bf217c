"""Recordings and reports, the two texts of mmscell (docs/RECORDING.md)."""

import re
from dataclasses import dataclass, field
from typing import Dict, List, NamedTuple, Optional, Tuple

ABORT = None  # an output that is no PDU
MOST_EVENTS, MOST_OCTETS = 16384, 67108864  # of a phase
MOST_CLIENTS, MOST_TICK, MOST_PDU = 64, 3600000, 65000
CLIENTS = 4  # where the configuration doesn't say
LONGEST = {"1": 32, "2": 64}  # octets of a name, by edition
MADE = "#:"  # a comment that `explain --comments` made begins so


def count(number: int, what: str) -> str:
    """A number of things."""
    return f"{number} {what}{'' if number == 1 else 's'}"


class BadText(Exception):
    """A text that is no recording or no report; says the line."""


class Event(NamedTuple):
    """One event of the history: "heard" octets of a client, "lost", "tick" or "ends"."""

    kind: str
    client: int = 0
    octets: bytes = b""
    ms: int = 0
    name: str = ""

    def line(self) -> str:
        """As a recording and a report have it."""
        if self.kind == "heard":
            return f"{self.client} {self.octets.hex().upper()}"
        said = {"lost": self.client, "tick": self.ms, "ends": self.name}[self.kind]
        return f"{self.kind} {said}"


@dataclass
class Phase:
    """A phase of a report: the events with their places, and the outputs of each client."""

    number: int
    served: List[Tuple[int, Event]] = field(default_factory=list)
    outputs: Dict[int, List[Optional[bytes]]] = field(default_factory=dict)


@dataclass
class Report:
    phases: List[Phase] = field(default_factory=list)
    end: str = ""  # the line `bad ..` or `too much ..` behind the phases, where there is one
    is_cut: bool = False  # it ends in the middle of a line, and `end` says so

    def clients(self) -> List[int]:
        """Those that send or are sent something."""
        seen = set()
        for p in self.phases:
            seen.update(p.outputs)
            seen.update(e.client for _, e in p.served if e.client)
        return sorted(seen)


@dataclass
class Recording:
    edition: str
    config: List[str]
    phases: List[List[Event]]
    notes: Dict[Tuple[int, int], List[str]] = field(default_factory=dict)  # comments in front of phase p's event i

    def clients(self) -> int:
        """How many there are."""
        said = (re.match(r"\s*clients\s*=\s*(\d+)", line) for line in self.config)
        return next((int(m[1]) for m in said if m), CLIENTS)


def is_name(text: str, edition: str = "2") -> bool:
    """Whether a text is an Identifier of that edition; of edition 2 where none is said, as in a report."""
    return len(text) <= LONGEST[edition] and re.fullmatch(r"[A-Za-z_$][A-Za-z0-9_$]*", text) is not None


HEARD = re.compile(r"(\d{1,9})[ \t]+((?:[0-9A-Fa-f]{2} *)+)", re.ASCII)
OTHERS = re.compile(r"(lost|tick)[ \t]+(\d{1,9})", re.ASCII)
ENDS = re.compile(r"ends[ \t]+([A-Za-z0-9_$]+)")


def event(words: str, edition: str = "2") -> Optional[Event]:
    """The event that a line without blanks at its ends says in that edition, or None."""
    m = HEARD.fullmatch(words)
    if m:
        return Event("heard", int(m[1]), bytes.fromhex(m[2]))
    m = OTHERS.fullmatch(words)
    if m:
        return Event("lost", client=int(m[2])) if m[1] == "lost" else Event("tick", ms=int(m[2]))
    m = ENDS.fullmatch(words)
    return Event("ends", name=m[1]) if m and is_name(m[1], edition) else None


def read_recording(text: str) -> Recording:
    """The recording that a text is, by the forms of its lines alone; raises BadText at the first that has none."""
    lines = [line[:-1] if line.endswith("\r") else line for line in text.split("\n")]
    if not re.fullmatch(r"mms-recording [12]", lines[0]):
        raise BadText("line 1: no recording, which begins with `mms-recording 1` or `mms-recording 2`")
    if len(lines) < 2 or lines[1] != "config" or "end" not in lines[2:]:
        raise BadText("line 2: `config` and, behind the configuration, `end` are missing")
    stop = lines.index("end", 2)
    out = Recording(lines[0][-1], lines[2:stop], [[]])
    notes: List[str] = []
    for n, line in enumerate(lines[stop + 1 :], stop + 2):
        line = line.strip(" \t")
        if line.startswith("#"):
            notes += [line[1:].strip()] * (not line.startswith(MADE))
        elif line == "phase":
            out.phases.append([])
        elif line:
            one = event(line, out.edition)
            if one is None:
                raise BadText(f"line {n}: {line[:60]}")
            if notes:
                out.notes[len(out.phases) - 1, len(out.phases[-1])] = notes
                notes = []
            out.phases[-1].append(one)
    return out


def write_recording(r: Recording) -> str:
    """The text of a recording."""
    out = [f"mms-recording {r.edition}", "config", *r.config, "end"]
    for p, events in enumerate(r.phases):
        if p:
            out.append("phase")
        for i, one in enumerate(events):
            out += [f"# {note}" for note in r.notes.get((p, i), [])]
            out.append(one.line())
    return "\n".join(out) + "\n"


NUMBER, PAIRS = re.compile(r"[0-9]+"), re.compile(r"(?:[0-9A-Fa-f]{2})+")


def read_report(text: str) -> Report:
    """The report that a text is, also one that is cut off; raises BadText at the first line that has no form."""
    out, client = Report(), 0
    lines = text.split("\n")
    for n, line in enumerate(lines, 1):
        line = line.strip()
        if not line:
            continue
        try:
            client = _read_line(out, client, line)
        except BadText as bad:
            if n < len(lines) - 1 or not out.phases:
                raise BadText(f"line {n}: {bad}") from None
            out.end, out.is_cut = f"the report is cut off in line {n}", True
            break
    if not out.phases and not out.end:
        raise BadText("line 1: no report, which begins with `phase 1`")
    return out


def _read_line(out: Report, client: int, line: str) -> int:
    """Takes a line into the report; says whose outputs come next."""
    word, _, rest = line.partition(" ")
    if word == ">" and client and (rest == "abort" or PAIRS.fullmatch(rest)):
        out.phases[-1].outputs.setdefault(client, []).append(ABORT if rest == "abort" else bytes.fromhex(rest))
        return client
    one = event(rest) if out.phases and NUMBER.fullmatch(word) else None
    if one is not None:
        out.phases[-1].served.append((int(word), one))
        return 0
    if re.fullmatch(r"bad .+|too much .+", line):
        out.end = line
        return client
    if word == "phase" and NUMBER.fullmatch(rest):
        out.phases.append(Phase(int(rest)))
        return 0
    if not out.phases:
        raise BadText("no report, which begins with `phase 1`")
    if word == "client" and NUMBER.fullmatch(rest):
        return int(rest)
    raise BadText(line[:60])


def write_report(r: Report) -> str:
    """The text of a report."""
    out = []
    for p in r.phases:
        out.append(f"phase {p.number}")
        out += [f"{place} {one.line()}" for place, one in p.served]
        for client in sorted(c for c in p.outputs if p.outputs[c]):
            out.append(f"client {client}")
            out += ["> abort" if o is ABORT else f"> {o.hex().upper()}" for o in p.outputs[client]]
    if r.end:
        out.append(r.end)
    return "\n".join(out) + "\n"


def kind_of(text: str) -> str:
    """"recording", "report" or ""."""
    first = text.split("\n", 1)[0].strip()
    if first.startswith("mms-recording"):
        return "recording"
    return "report" if re.match(r"phase \d|bad |too much ", first) else ""
