"""The rows of the gate (docs/ROWS.md), read: recordings with what must be written, and steps with what each makes."""

import glob
import os
import re
from dataclasses import dataclass, field
from functools import lru_cache
from typing import Dict, Iterator, List, Optional, Tuple

from .texts import Event, event

TOP = os.path.dirname(os.path.dirname(os.path.dirname(os.path.abspath(__file__))))
DATA = os.path.join(TOP, "crates", "cell_rows", "data")


@dataclass
class Step:
    """An event, and what it makes the device send: to whom, and the octets or None for an abort."""

    event: Event
    outputs: List[Tuple[int, Optional[bytes]]]


@dataclass
class Row:
    """A row: where it stands, the words behind its sign, what its file says of it, and the recording with its report,
    or with the steps, which are then all in one phase."""

    place: str  # the file's name and the line
    line: int
    words: str  # `steps` of edition 1, `steps 2` of edition 2
    recording: str = ""
    status: int = 0
    report: str = ""
    steps: List[Step] = field(default_factory=list)
    told: str = ""  # what the file says of it, in the lines above it


@lru_cache(maxsize=1)
def _shorthands() -> Dict[str, str]:
    """What the names in marks stand for."""
    if not os.path.exists(os.path.join(DATA, "shorthands")):
        return {}
    out: Dict[str, List[str]] = {}
    with open(os.path.join(DATA, "shorthands"), encoding="latin-1") as f:
        for line in f.read().split("\n")[1:]:
            if line.startswith("= "):
                out[line[2:]] = []
            elif out:
                out[list(out)[-1]].append(line)
    return {name: "\n".join(lines).rstrip("\n") for name, lines in out.items()}


def _mark(m) -> str:
    """What a mark stands for; one that stands for nothing stays."""
    octet = re.fullmatch(r"([0-9A-F]{2})(?:\*(\d+))?", m[1])
    if m[1] in _shorthands():
        return re.sub(r"<([^<>\n]+)>", _mark, _shorthands()[m[1]])
    return chr(int(octet[1], 16)) * int(octet[2] or 1) if octet else m[0]


def text_of(lines: List[str]) -> str:
    """The text that lines with marks stand for."""
    out = []
    for line in lines:
        times = re.match(r"<\*(\d+)>", line)
        end = "" if line.endswith("<+>") else "\n"
        line = line[times.end() if times else 0 : -3 if not end else None]
        for i in range(int(times[1]) if times else 1):
            out.append(re.sub(r"<([^<>\n]+)>", _mark, line.replace("<#>", str(i + 1))) + end)
    return "".join(out)


def _step(line: str) -> Step:
    """`EVENT` or `EVENT -> OUTPUT, CLIENT: OUTPUT`."""
    said, _, made = line.partition(" -> ")
    one = event(said.strip())
    outputs = []
    for output in made.split(", ") if made else []:
        client, colon, octets = output.rpartition(": ")
        octets = octets.strip()
        outputs.append((int(client) if colon else one.client, None if octets == "abort" else bytes.fromhex(octets)))
    return Step(one, outputs)


def read(text: str, name: str = "") -> Iterator[Row]:
    """The rows of a file's text."""
    lines = text.split("\n")
    starts = [i for i, line in enumerate(lines) if line.startswith("=")] + [len(lines)]
    row, source, told = None, [], _paragraph(lines[: starts[0]])
    for at, end in zip(starts, starts[1:]):
        head, body = lines[at], lines[at + 1 : end]
        if re.fullmatch(r"= steps(?: 2)?", head):
            first = body.index("end")
            last = next((i for i in range(first, len(body)) if not body[i]), len(body))
            lines_of = [line for line in text_of(body[first + 1 : last]).split("\n") if line]
            config, events = text_of(body[:first]), [line.partition(" -> ")[0] for line in lines_of]
            recording = f"mms-recording {head[-1] if head[-1] == '2' else 1}\nconfig\n{config}end\n"
            recording += "".join(f"{line}\n" for line in events)
            steps = [_step(line) for line in lines_of]
            yield Row(f"{name}:{at + 1}", at + 1, head[2:], recording, steps=steps, told=told)
            told = _paragraph(body[last:]) or told
        elif head.startswith("= status") and row is not None:
            last = len(body) - 1 if body and not body[-1] and end == len(lines) else len(body)
            row.recording, row.status, row.report = text_of(source), int(head.split()[2]), text_of(body[:last])
            yield row
        elif head.startswith("=#"):
            told = _paragraph(body) or told
        else:
            row, source = Row(f"{name}:{at + 1}", at + 1, head[2:], told=told), body


def _paragraph(lines: List[str]) -> str:
    """The last paragraph of these lines, as one line."""
    return " ".join("\n".join(lines).strip().rpartition("\n\n")[2].split())


def rows() -> Iterator[Row]:
    """All rows of all files."""
    for path in sorted(glob.glob(os.path.join(DATA, "*.rows"))):
        with open(path, encoding="latin-1") as f:
            yield from read(f.read(), os.path.basename(path))
