"""The rows of the gate (docs/ROWS.md) in words, and the index of what they show.

    mms rows            each row: where it stands, what its file says of it, each event in words and what it makes
    mms rows WORD ..    those rows alone in which each of these words stands, in a service, a value or the file's text
    mms rows --index    the page docs/ROWS-INDEX.md: for each service, cause, limit and rule of docs/PROFILE.md its rows

Of a row of many events the first and the last are shown. Status 0: some row is shown. 1: no row has these words. 2: the
rows, or PROFILE, can't be read.
"""

import functools
import os
import re
from collections import defaultdict
from typing import Dict, FrozenSet, Iterable, Iterator, List, Optional, Set, Tuple

from . import ber, grammar, spoken, words
from .row_files import DATA, Row, rows
from .texts import BadText, event

PROFILE = os.path.join(DATA, "..", "..", "..", "docs", "PROFILE.md")
MOST_LINES, MOST_SIGNS, LONGEST = 60, 240, 600  # of a row; of a PDU in words; octets of one that is said in words
MOST_PLACES = 6  # of one file, in a cell of the index
Fact = Tuple[str, ...]  # such as ("refused", "read", "access: object-non-existent")
LINE = re.compile(r"(?:\d+ )?(\d+)[ \t]+((?:[0-9A-Fa-f]{2} *)+)")
FURTHER = {
    "clients of a recording": ["configured.~how many clients", "limits.~."],
    "cells, which": ["configuration_rules~that break a rule", "~beyond 4,095"],
    "octets of a name": ["~Identifier|names? of (33|64|65)|long(er)? name|33 octets|64 octets"],
    "named variables": ["defineNamedVariable!capability", "defineNamedVariableList!capability"],
    "domains; open": [
        "initiateDownloadSequence!capability",
        "initiateUploadSequence!capability",
        "createProgramInvocation!capability",
    ],
    "event conditions": ["defineEventCondition!capability", "defineEventEnrollment!capability"],
    "semaphores, pools": ["defineSemaphore!capability", "pool_limits~.", "semaphore_forms~tokens"],
    "journals; entries": ["createJournal!capability", "writeJournal!capability"],
    "octets of a domain": ["~1,?048,?576|too long a load|octets of a domain"],
    "in a request": ["~1,?02[45]|\\b6[45] (variables|entries|of)|\\b1[67] domains|at most|more than"],
    "in an answer": ["+more"],
    "octets of an answer": [
        "!service: other",
        "+rejected max-serv-outstanding-exceeded",
        "+rejected max-recursion-exceeded",
    ],
}  # of each limit, by how its line begins, what shows it
RULES = {
    "ObjectName": ["~domain('s)? scope|names? of (the )?(VMD|association|domain)|of its association"],
    "Address": ["~address"],
    "Variable": ["+asked getVariableAccessAttributes"],
    "Access": ["+asked read"],
    "Data": ["data_forms~."],
    "Type": ["data_forms~type", "configured_cells~type"],
    "AccessResult": ["+answered read"],
    "DataAccessError": ["+asked write"],
    "scopeOfDelete": ["+asked deleteVariableAccess", "+asked deleteNamedVariableList"],
    "Priority": ["~priorit"],
    "Application": ["~preempt|applicationToPreempt|ApplicationReference"],
    "Token": ["+asked reportPoolSemaphoreStatus"],
    "Entry": ["+asked reportSemaphoreEntryStatus", "+asked writeJournal"],
    "Modifier": ["modifiers~."],
    "Transitions": ["~transition"],
    "EventTime": ["+notified"],
    "Time": ["+asked readJournal"],
    "Start": ["+asked readJournal"],
    "Number": ["+asked readJournal"],
    "Stop": ["+asked readJournal"],
    "guard": ["~guard"],
    "A load": ["+asked downloadSegment"],
    "What ends a load otherwise": ["+discarded"],
    "Uploads": ["+asked uploadSegment"],
    "IN-USE": ["~IN-USE"],
    "What it was told": ["~argument"],
    "Whose it is": ["programs~association|lost|loss|nobody|clients|another client"],
    "The end": ["+ends"],
    "Attributes": ["+asked getProgramInvocationAttributes"],
    "Evaluations": ["~evaluat"],
    "Notifications": ["+notified"],
    "Times": ["journals~time|moment"],
    "A client of a pool": ["pools~."],
    "A token that is freed": ["~given back|gives? (it|one|a token|back)|freed|is granted"],
    "A wait that ends": ["takeControl!timeout"],
    "Control": ["~control"],
    "A lost client": ["~hung|lost|loss"],
}  # of each rule, by its name, what shows it; a service by its name is shown by the rows that ask for it


# ---------------------------------------------------------------- in words


def shown(row: Row) -> Iterator[str]:
    """The lines of a row."""
    yield f"{row.place}: = {row.words}"
    yield f"    {row.told}"
    lines = list(_of_steps(row) if row.steps else _of_texts(row))
    half = MOST_LINES // 2
    left = len(lines) - 2 * half
    body = lines if left <= 0 else lines[:half] + [f".. {left} more lines"] + lines[-half:]
    yield from ("    " + line for line in body)


def _of_steps(row: Row) -> Iterator[str]:
    """The steps of a row: each event, and what it makes."""
    for step in row.steps:
        made = (_to(client, octets, step.event.client) for client, octets in step.outputs)
        said = _octets(step.event.octets) if step.event.kind == "heard" else ""
        head = f"{step.event.client}: {said}" if said else step.event.line()
        yield " -> ".join(x for x in (head, "; ".join(made)) if x)


def _to(client: int, octets: Optional[bytes], own: int) -> str:
    """An output, and to whom where that is another client."""
    return ("" if client == own else f"{client}: ") + ("abort" if octets is None else _octets(octets))


@functools.lru_cache(maxsize=None)
def _octets(octets: bytes) -> str:
    """A PDU in words, shortened."""
    if len(octets) > LONGEST:
        s = words.say(octets)
        said = f"{s.title} {s.detail}"
    else:
        said = spoken.say(octets, -1, -1)
    return said if len(said) <= MOST_SIGNS else f"{said[:MOST_SIGNS]} .. ({len(octets)} octets)"


def _of_texts(row: Row) -> Iterator[str]:
    """The recording and the report of a row."""
    for text in (row.recording, row.report):
        lines = text[: MOST_LINES * 3000].split("\n")
        body = lines if len(lines) <= 2 * MOST_LINES else lines[:MOST_LINES] + lines[-MOST_LINES:]
        for line in body[:-1] if body and not body[-1] else body:
            yield _in_words(line)
        if text is row.recording:
            yield f"= status {row.status}"


def _in_words(line: str) -> str:
    """A line of a recording or of a report."""
    if line.startswith("> ") and re.fullmatch(r"> (?:[0-9A-F]{2})+", line):
        return "> " + _octets(bytes.fromhex(line[2:]))
    m = LINE.fullmatch(line.strip(" \t\r"))
    if m and event(f"{m[1]} {m[2]}"):
        return f"{line[: line.index(m[2])].rstrip()}: {_octets(bytes.fromhex(m[2]))}"
    return line if len(line) <= MOST_SIGNS else f"{line[:MOST_SIGNS]} .. ({len(line)} signs)"


# ---------------------------------------------------------------- what a row shows


class Facts:
    """What rows show, each PDU looked at once."""

    def __init__(self) -> None:
        self.of_heard: Dict[bytes, Tuple[FrozenSet[Fact], Optional[int], str]] = {}
        self.of_sent: Dict[bytes, Tuple[FrozenSet[Fact], Optional[int], str]] = {}

    def of_row(self, row: Row) -> Set[Fact]:
        """What a row shows."""
        out: Set[Fact] = set()
        asked: Dict[Tuple[int, Optional[int]], str] = {}
        for kind, client, octets in _events(row):
            if kind == "ends":
                out.add(("ends",))
            elif octets:
                facts, invoke, service = self.of(octets, kind == "sent")
                out |= facts
                if kind == "heard" and service:
                    asked[client, invoke] = service
                refused = next((f[1] for f in facts if f[0] == "error"), "") if kind == "sent" else ""
                if refused and (client, invoke) in asked:
                    out.add(("refused", asked[client, invoke], refused))
            elif kind == "sent":
                out.add(("aborted",))
        return out

    def of(self, octets: bytes, is_sent: bool) -> Tuple[FrozenSet[Fact], Optional[int], str]:
        """What one PDU shows, its invokeID, and the service that it asks for."""
        known = self.of_sent if is_sent else self.of_heard
        if octets not in known:
            known[octets] = _of_pdu(octets, is_sent)
        return known[octets]


def _of_pdu(octets: bytes, is_sent: bool) -> Tuple[FrozenSet[Fact], Optional[int], str]:
    """The same, of a PDU that wasn't looked at yet."""
    first = octets[0]
    if first in (0xA0, 0xA1):
        invoke, number = _head(octets)
        service = grammar.SERVICE.get(number, ("", []))[0] if number is not None else ""
        facts = {("asked" if first == 0xA0 else "answered", service)} if service else set()
        if is_sent and first == 0xA1 and octets.endswith(b"\x81\x01\xff"):
            facts.add(("more", service))
        if is_sent and number == 28 and first == 0xA0 and b"\xa1" in octets[6:]:
            facts.add(("discarded",))
        return frozenset(facts), invoke, service if first == 0xA0 else ""
    s = words.say(octets)
    if not is_sent:
        return frozenset({("sent", s.pdu)} if s.pdu else set()), s.invoke, ""
    if s.pdu == "reject":
        return frozenset({("rejected", s.detail.partition(" ")[0])}), s.invoke, ""
    if s.pdu == "unconfirmed":
        return frozenset({("notified",)}), None, ""
    kind = "error" if s.pdu == "confirmed-Error" else s.pdu
    return frozenset({(kind, s.detail.partition(", ")[0])}), s.invoke, ""


def _head(octets: bytes) -> Tuple[Optional[int], Optional[int]]:
    """The invokeID and the number of the service of a confirmed PDU, as far as they are there."""
    _, at, flaw = ber._length(octets, 1, len(octets))
    if flaw or at + 2 > len(octets) or octets[at] != 2:
        return None, None
    size, start, flaw = ber._length(octets, at + 1, len(octets))
    end = start + (size or 0)
    if flaw or end >= len(octets):
        return None, None
    number, _ = ber._number(octets, end, len(octets))
    return ber.integer(octets[start:end]), number if octets[end] >> 6 == 2 else None


def _events(row: Row) -> Iterator[Tuple[str, int, Optional[bytes]]]:
    """What a row hears and sends, in its order: phase by phase, where that is all that is known."""
    for step in row.steps:
        yield step.event.kind, step.event.client, step.event.octets
        yield from (("sent", client, octets) for client, octets in step.outputs)
    client, seen = 0, set()
    whole = row.report[: row.report.rfind("\n") + 1]  # where the sink was full, a part of a line may come behind
    for line in whole.split("\n") if len(whole) < 4000000 else []:
        if line.startswith("client "):
            client = int(line[7:])
        elif line.startswith("> "):
            octets = None if line == "> abort" else bytes.fromhex(line[2:])
            yield "sent", client, octets
        elif " " in line and line not in seen and line[0].isdigit():
            seen.add(line)
            one = event(line.partition(" ")[2])
            if one is not None:
                yield one.kind, one.client, one.octets


# ---------------------------------------------------------------- PROFILE


def _tables(text: str) -> Iterator[Tuple[str, List[str], List[List[str]]]]:
    """The tables of a page: the section, the head's cells, and the cells of each line."""
    section, head, body = "", [], []
    for line in text.split("\n") + [""]:
        line = line.strip()
        if line.startswith("#"):
            section = line.strip("# ").replace(" *(choice)*", "")
        cells = [c.strip() for c in re.split(r"(?<!\\)\|", line.strip("|"))] if line.startswith("|") else []
        if cells and not head:
            head = cells
        elif cells and not re.fullmatch(r"[-| ]+", line):
            body.append(cells)
        elif not cells and head:
            yield section, head, body
            head, body = [], []


def _plain(text: str) -> str:
    """A cell without the mark of a choice."""
    return text.replace(" *(choice)*", "").replace(" *(choice of order)*", "")


class Index:
    """The index: which rows show what."""

    def __init__(self, profile: str, all_rows: Iterable[Row]) -> None:
        self.profile, facts = profile, Facts()
        self.shown: Dict[Fact, List[str]] = defaultdict(list)
        self.told: Dict[str, str] = {}
        for row in all_rows:
            self.told[row.place] = row.told
            for fact in facts.of_row(row):
                self.shown[fact].append(row.place)

    def places(self, found: Iterable[str]) -> str:
        """Places, by file; of many the first."""
        by_file: Dict[str, List[int]] = defaultdict(list)
        for place in found:
            name, _, line = place.partition(".rows:")
            by_file[name].append(int(line))
        out = []
        for name in sorted(by_file):
            lines = sorted(set(by_file[name]))
            more = f" and {len(lines) - MOST_PLACES} more" if len(lines) > MOST_PLACES else ""
            out.append(f"{name} {', '.join(map(str, lines[:MOST_PLACES]))}{more}")
        return "; ".join(out) or "none"

    def selected(self, selectors: Iterable[str]) -> Set[str]:
        """The rows of selectors: `+fact`, `SERVICE!error`, `FILE~pattern` of what a file says."""
        out: Set[str] = set()
        for s in selectors:
            if s.startswith("+"):
                said = tuple(s[1:].split(" ", 1))
                out.update(p for f, places in self.shown.items() if f[: len(said)] == said for p in places)
            elif "!" in s:
                service, _, error = s.partition("!")
                out |= self.refused([service] if service else [], error)
            else:
                name, _, pattern = s.partition("~")
                out.update(p for p, t in self.told.items() if p.startswith(name) and re.search(pattern, t, re.I))
        return out

    def refused(self, services: List[str], error: str) -> Set[str]:
        """The rows that refuse one of the services, or any, with an error."""
        return {
            p
            for f, places in self.shown.items()
            if f[0] == "refused" and (not services or f[1] in services) and error in f[2]
            for p in places
        }

    # ------------------------------------------------------------ its tables

    def services(self) -> Iterator[str]:
        """Each service: where it is answered, and where refused."""
        yield "| service | answered | refused |"
        yield "|---|---|---|"
        offered = {int(c[0]) for _, _, body in _tables(self.profile) for c in body if c[0].isdigit() and len(c) > 3}
        for k, (name, _) in grammar.SERVICE.items():
            if k in offered | {0, 1, 2}:
                good = self.places(self.shown["answered", name])
                yield f"| {name[:1].upper()}{name[1:]} | {good} | {self.places(self.refused([name], ''))} |"

    def causes(self) -> Iterator[str]:
        """Each cause of the tables of refusals."""
        for section, head, body in _tables(self.profile):
            if head[:1] != ["service"] or "octets of the class" not in head:
                continue
            named = [n for c in body for n in _service_names(c[0])]
            own = {n for _, h, b in _tables(self.profile) if h[1:2] == ["service"] for c in b for n in [c[1]]}
            yield from ["", f"### {section}", "", "| service | refused where | rows |", "|---|---|---|"]
            service = ""
            for c in body:
                service = c[0] or service
                if "`" in c[3]:
                    names = _service_names(service) or sorted(set(named) & own or named) + _rest(service, section)
                    error = c[2].split(",")[1].strip()
                    found = self.refused([n[:1].lower() + n[1:] for n in names], f"{c[2].split(',')[0]}: {error}")
                    yield f"| {c[0]} | {_plain(c[1])} | {self.places(found)} |"

    def refusals(self) -> Iterator[str]:
        """What is told of octets that are no request, and in an association."""
        yield "| told | rows |"
        yield "|---|---|"
        kinds = ("rejected", "initiate-Error", "conclude-Error", "cancel-Error")
        for fact in sorted(f for f in self.shown if f[0] in kinds):
            yield f"| {fact[0].replace('rejected', 'reject')}, {fact[1]} | {self.places(self.shown[fact])} |"
        yield f"| abort | {self.places(self.shown['aborted',])} |"

    def limits(self) -> Iterator[str]:
        """Each line of the table of limits."""
        yield "| of | rows |"
        yield "|---|---|"
        for section, head, body in _tables(self.profile):
            for c in body if section == "Limits" else []:
                key = next((k for k in FURTHER if c[0].startswith(k)), "")
                yield f"| {c[0]} | {self.places(self.selected(FURTHER.get(key, [])))} |"

    def rules(self) -> Iterator[str]:
        """Each rule that has a name in bold letters."""
        yield "| rule | in | rows |"
        yield "|---|---|---|"
        section = ""
        for line in self.profile.split("\n"):
            section = line.strip("# ") if line.startswith("#") else section
            for label in re.findall(r"\*\*([^*]+?)\.?\*\*", line) if re.match(r" *- ", line) else []:
                own = [f"+asked {label[:1].lower()}{label[1:]}"]
                found = self.selected(RULES.get(label, own))
                yield f"| {label} | {_plain(section)} | {self.places(found)} |"


def _service_names(cell: str) -> List[str]:
    """The services that a cell names."""
    return [] if cell.startswith("each ") else [x.strip() for x in cell.split(",") if x.strip()]


def _rest(service: str, section: str) -> List[str]:
    """The further services of a section whose table says `each other one`."""
    further = {
        "journal": "writeJournal readJournal initializeJournal reportJournalStatus deleteJournal",
        "program": "deleteProgramInvocation start stop resume reset kill getProgramInvocationAttributes",
    }
    found = next((x for k, x in further.items() if k in section), "")
    return found.split() if service.startswith("each ") else []


def index() -> str:
    """The page docs/ROWS-INDEX.md."""
    with open(PROFILE, encoding="utf-8") as f:
        one = Index(f.read(), rows())
    out = [
        "# Which rows show what",
        "",
        "Made by `tools/mms rows --index`, and held true by a test: don't edit it. A row stands in",
        "`crates/cell_rows/data/` ([ROWS.md](ROWS.md)), as `semaphores 5` for the row whose `=` is line 5 of",
        f"`semaphores.rows`; of more than {MOST_PLACES} of a file the first are named. `tools/mms rows WORD` shows",
        "rows in words.",
        "",
        "What is answered and refused is taken from the octets. Causes of one service with the same error share their",
        "rows, since octets don't tell them apart. Limits and rules are found by what is answered, or by the words in",
        "which the file tells of the row, so a row may be missing there, and one that only mentions the rule may be",
        "named.",
    ]
    parts = {
        "Services": one.services,
        "Causes": one.causes,
        "Rejects, and errors of an association": one.refusals,
        "Limits": one.limits,
        "Rules": one.rules,
    }
    for title, lines in parts.items():
        out += ["", f"## {title}", *([] if title == "Causes" else [""]), *lines()]
    return "\n".join(out) + "\n"


# ---------------------------------------------------------------- the command


def said(wanted: List[str]) -> Iterator[str]:
    """The lines of the rows that have these words, all of them where there are none; raises BadText without rows."""
    if not os.path.isdir(DATA):
        raise BadText(f"{DATA}: no rows are there")
    for row in rows():
        if row.steps or len(row.recording) + len(row.report) < 400000 or not wanted:
            text = "\n".join(shown(row))
            if all(w.lower() in text.lower() for w in wanted):
                yield text + "\n"
