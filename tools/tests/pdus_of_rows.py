"""Every PDU of the rows of the gate and of the examples, once, with the place of a row that has it."""

import re
from typing import Dict, Iterator

from common import EXAMPLES, REPORTS, text_of
from row_files import Row, rows

LINE = re.compile(r"(?:\d+[ \t]+)?\d+[ \t]+((?:[0-9A-Fa-f]{2} *)+)|> ((?:[0-9A-F]{2})+)")
MOST = 400000  # signs of a text that is looked through; longer ones say one line again and again, which is seen then


def of_rows(seen=None) -> Dict[bytes, str]:
    """The PDUs of rows, and of examples."""
    out: Dict[bytes, str] = {}
    lines: Dict[str, str] = {}
    for row in rows() if seen is None else seen:
        for octets in _of_steps(row):
            out.setdefault(octets, row.place)
        for text in (row.recording, row.report):
            for line in set(text[:MOST].split("\n")):
                lines.setdefault(line.strip(" \t\r"), row.place)
    for path in REPORTS:
        for text in (text_of(path), text_of(re.sub("report$", "mms", path))):
            for line in text.split("\n"):
                lines.setdefault(line.strip(" \t\r"), path[len(EXAMPLES) + 1 :])
    for line, place in lines.items():
        m = LINE.fullmatch(line)
        if m:
            out.setdefault(bytes.fromhex(m[1] or m[2]), place)
    return {octets: place for octets, place in out.items() if octets}


def _of_steps(row: Row) -> Iterator[bytes]:
    """The PDUs of a row's steps."""
    for step in row.steps:
        yield step.event.octets
        yield from (o for _, o in step.outputs if o)
