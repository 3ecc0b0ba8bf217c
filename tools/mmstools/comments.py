"""A recording with the meaning of each element in comments: above each PDU stand its elements in their order, each by its
tag, its name and its value; of octets that stood above already it is said so. These comments begin with `#:`; those that
stood there before give way to them, and all else stays as it is."""

import textwrap
from typing import Iterator, List

from .explain import END, Line, table
from .texts import MADE, event, read_recording

WIDE = 120  # columns of a line
MOST_SIGNS = 700  # of a value


def commented(text: str) -> str:
    """The text of a recording with these comments; raises BadText where it is none."""
    read_recording(text)
    return "\n".join(_lines(text.split("\n")))


def _lines(lines: List[str]) -> Iterator[str]:
    """The lines of a recording with these comments, which stand behind its configuration alone."""
    body, above = lines.index("end", 2) + 1, set()
    yield from lines[:body]
    for line in lines[body:]:
        if line.startswith(MADE):
            continue
        one = event(line.strip())
        if one is not None and one.kind == "heard":
            said = of_pdu(one.octets)
            again = len(said) > 1 and one.octets in above
            yield from [f"{MADE} {_element(table(one.octets)[0])}, as above"] if again else said
            above.add(one.octets)
        yield line


def of_pdu(octets: bytes) -> List[str]:
    """The comments of one PDU; a line ends behind an element, unless one alone is longer."""
    lines, room = [], WIDE - len(MADE) - 3
    for said in [_element(line) for line in table(octets) if line.kind != END]:
        if lines and len(lines[-1]) + len(said) + 3 <= room:
            lines[-1] += f"; {said}"
        else:
            lines[-1:] = [f"{lines[-1]};"] if lines else []
            lines += textwrap.wrap(said, room - 1, break_on_hyphens=False)
    return [f"{MADE} {'  ' if i else ''}{line}" for i, line in enumerate(lines)]


def _element(line: Line) -> str:
    """An element: its tag, its name or else its type, and its value, where it has no parts."""
    kind = line.kind.partition(" ")[2].partition(",")[0] or line.kind
    value = line.value if len(line.value) <= MOST_SIGNS else f"{line.value[:MOST_SIGNS].rstrip()} .."
    return " ".join(x for x in (line.tag.replace(" ", ""), line.name or kind, value) if x)
