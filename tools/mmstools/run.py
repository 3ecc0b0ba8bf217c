"""Serves each recording of a folder, and compares what it gives with the report beside it.

    mms run FOLDER    NAME.mms is served by `replay`, and its report is held against NAME.report, to the octet

As many recordings are served at once as there are processors. Each ends as one of

    same       the report beside it is the one that came
    differs    it isn't: where, in words
    new        there is no report beside it; with --accept what came is stored there
    accepted   what came was stored, with --accept, in place of none or of another
    failed     nothing came that is a report: the program ended with 1, 3, 4, 5 or a signal, or wasn't there

A recording that is refused has a report, too: it ends with the line that says why.

Status 0: all are the same or accepted. 1: some differ or are new. 2: one failed, or nothing can be run.
"""

import concurrent.futures
import os
import subprocess
import sys
import tempfile
import time
import xml.etree.ElementTree as ET
from dataclasses import dataclass
from typing import Dict, Iterator, List, Optional

from . import compare, texts
from .texts import BadText, count

KINDS = ("same", "differs", "new", "accepted", "failed")
REPORTED = (0, 2, 6, 7)  # statuses with which the program leaves a report
MOST_WORDS = 40  # lines of a difference that are told


@dataclass
class Result:
    """How one recording ended."""

    name: str
    kind: str
    seconds: float
    status: Optional[int] = None  # of the program, negative for a signal
    words: str = ""  # the difference, or why there is none


def recordings(folder: str) -> List[str]:
    """The names of the recordings of a folder and of the folders in it, without `.mms`; raises BadText where it has none."""
    if not os.path.isdir(folder):
        raise BadText(f"{folder} is no folder")
    found = []
    for inner, _, files in os.walk(folder):
        found += [os.path.join(inner, f[: -len(".mms")]) for f in files if f.endswith(".mms")]
    if not found:
        raise BadText(f"{folder} has no recording, a file NAME.mms")
    return sorted(found)


def run(name: str, device: List[str], accept: bool) -> Result:
    """Serves one recording, named without `.mms`."""
    began, wanted = time.monotonic(), _read(name + ".report")
    try:
        with open(name + ".mms", "rb") as source, tempfile.TemporaryFile() as said:
            done = subprocess.run([*device, "replay"], stdin=source, stdout=subprocess.PIPE, stderr=said)
            said.seek(0)
            complaint = said.read()[-2000:].decode("utf-8", "replace").strip()
    except OSError as bad:
        return Result(name, "failed", time.monotonic() - began, words=f"{bad.filename}: {bad.strerror}")
    kind, words = "same", ""
    if done.returncode not in REPORTED:
        kind, words = "failed", f"the program ended with {done.returncode}: {complaint or 'it says nothing'}"
    elif done.stdout != wanted and accept:
        kind = "accepted"
        with open(name + ".report", "wb") as f:
            f.write(done.stdout)
    elif wanted is None:
        kind, words = "new", "there is no report beside it"
    elif done.stdout != wanted:
        kind, words = "differs", difference(wanted, done.stdout)
    return Result(name, kind, time.monotonic() - began, done.returncode, words)


def _read(path: str) -> Optional[bytes]:
    """A file, where it is there."""
    if not os.path.exists(path):
        return None
    with open(path, "rb") as f:
        return f.read()


def difference(wanted: bytes, came: bytes) -> str:
    """How two reports differ: answer by answer where they can be compared so, and else the first line."""
    first, second = (b.decode("latin-1") for b in (wanted, came))
    try:
        found = compare.compare(texts.read_report(first), texts.read_report(second))
        if any(d.kind != "same" for d in found):
            lines = compare.words(found, ("wanted", "came")).rstrip("\n").split("\n")
            more = [f".. {len(lines) - MOST_WORDS} more lines"] if len(lines) > MOST_WORDS else []
            return "\n".join(lines[:MOST_WORDS] + more)
    except BadText as bad:
        return f"{bad}; {_first_line(first, second)}"
    return _first_line(first, second)


def _first_line(first: str, second: str) -> str:
    """The first line in which two texts differ."""
    a, b = first.split("\n"), second.split("\n")
    at = next((i for i, (x, y) in enumerate(zip(a, b)) if x != y), min(len(a), len(b)))
    wanted, came = (lines[at][:60] if at < len(lines) else "nothing" for lines in (a, b))
    return f"line {at + 1}: wanted `{wanted}`, came `{came}`"


def run_all(names: List[str], device: List[str], accept: bool, jobs: int) -> Iterator[Result]:
    """Serves all, so many at once, and tells each in the order of the names."""
    with concurrent.futures.ThreadPoolExecutor(jobs) as pool:
        yield from pool.map(lambda name: run(name, device, accept), names)


class Bar:
    """How far it is, in a line of a terminal; nothing elsewhere."""

    def __init__(self, total: int):
        self.total, self.done, self.is_shown = total, 0, sys.stderr.isatty()

    def step(self, bad: int) -> None:
        """One more is done; so many were not the same."""
        self.done += 1
        if self.is_shown:
            filled = 30 * self.done // self.total
            words = f"\r[{'#' * filled}{'.' * (30 - filled)}] {self.done}/{self.total}, {bad} not the same"
            sys.stderr.write(words + "\n" * (self.done == self.total))
            sys.stderr.flush()


def junit(results: List[Result], folder: str) -> str:
    """JUnit's XML of the results."""
    sums = counted(results)
    suite = ET.Element(
        "testsuite",
        name=folder,
        tests=str(len(results)),
        failures=str(sums["differs"] + sums["new"]),
        errors=str(sums["failed"]),
        time=f"{sum(r.seconds for r in results):.3f}",
    )
    for r in results:
        case = ET.SubElement(suite, "testcase", classname="mmscell", name=_shown(r.name, folder), time=f"{r.seconds:.3f}")
        if r.kind in ("differs", "new", "failed"):
            told = ET.SubElement(case, "error" if r.kind == "failed" else "failure", message=r.kind)
            told.text = "".join(c if c in "\n\t" or " " <= c <= "~" else "?" for c in r.words)
    return ET.tostring(suite, encoding="unicode", xml_declaration=True) + "\n"


def counted(results: List[Result]) -> Dict[str, int]:
    """How many ended as each kind."""
    return {kind: sum(r.kind == kind for r in results) for kind in KINDS}


def _shown(name: str, folder: str) -> str:
    """A recording's name within the folder."""
    return os.path.relpath(name, folder) + ".mms"


def words(results: List[Result], folder: str) -> str:
    """All that aren't the same, and how many are of each kind."""
    out = []
    for r in results:
        if r.kind != "same":
            out.append(f"{_shown(r.name, folder)}: {r.kind}")
            out += [f"  {line}".rstrip() for line in r.words.split("\n") if r.words]
    told = ", ".join(f"{n} {kind}" for kind, n in counted(results).items() if n)
    return "\n".join([*out, f"{count(len(results), 'recording')}: {told}"]) + "\n"


def status(results: List[Result]) -> int:
    """That of the command."""
    kinds = {r.kind for r in results}
    return 2 if "failed" in kinds else 1 if kinds & {"differs", "new"} else 0
