"""Two reports of one recording, answer by answer: what a captured server answered, and what mmscell answers."""
from collections import Counter
from dataclasses import dataclass
from typing import Dict, List, Optional, Tuple

from .history import Output, Row, history
from .texts import BadText, Report, count
from .words import Said, say

KINDS = {
    "same": "the same octets",
    "spelling": "the same in other octets, a difference of spelling alone",
    "order": "the same octets in another order",
    "values": "the same kind of answer with other values",
    "answer": "another answer",
    "missing": "answered by the second alone",
    "more": "answered by the first alone",
}
ALIKE = ("same", "spelling")


@dataclass(eq=False)
class Difference:
    """An answer of the first report, and that of the second in its place."""

    row: Row  # of the second report, where the request is
    kind: str
    first: Optional[Output]
    second: Optional[Output]


def compare(first: Report, second: Optional[Report], rows: Optional[List[Row]] = None) -> List[Difference]:
    """Each answer of the first against that of the second, in order of place; also those that are the same."""
    a, b = history(first), rows or history(second)
    _same_events(a, b)
    if second is not None and first.end != second.end:
        raise BadText(f"the reports end otherwise: `{first.end or 'whole'}` and `{second.end or 'whole'}`")
    found: List[Difference] = []
    for x, y in zip(a, b):
        if x.answer is not None or y.answer is not None:
            found.append(Difference(y, _kind(x.answer, y.answer), x.answer, y.answer))
    ends_a, ends_b = _unasked(a), _unasked(b)
    for client in sorted(set(ends_a) | set(ends_b)):
        found += _pairs(ends_a.get(client, []), ends_b.get(client, []))
    found = _malformed(_moved(found))
    _orders(a, b, found)
    found.sort(key=lambda d: d.row.place)
    return found


def _same_events(a: List[Row], b: List[Row]) -> None:
    """Refuses reports of different events: there is nothing to be compared."""
    if [r.event for r in a] == [r.event for r in b]:
        return
    at = next((i for i, (x, y) in enumerate(zip(a, b)) if x.event != y.event), min(len(a), len(b)))
    x, y = (rows[at].event.line()[:40] if at < len(rows) else "none" for rows in (a, b))
    raise BadText(f"the reports are of different events from the {_nth(at + 1)} one on: `{x}` and `{y}`")


def _unasked(rows: List[Row]) -> Dict[int, List[Tuple[Row, Output]]]:
    """What was sent to each client without a request of it."""
    out: Dict[int, List[Tuple[Row, Output]]] = {}
    for r in rows:
        for o in r.outputs:
            if o.asked is None:
                out.setdefault(o.client, []).append((r, o))
    return out


def _pairs(first: List[Tuple[Row, Output]], second: List[Tuple[Row, Output]]) -> List[Difference]:
    """What one client was sent without a request: each with the next of the same octets, or else of its kind."""
    found, used = [], set()
    for row, o in first:
        rest = [i for i in range(len(second)) if i not in used]
        same = [i for i in rest if second[i][1].octets == o.octets]
        near = [i for i in rest if (second[i][1].said.pdu, second[i][1].said.service) == (o.said.pdu, o.said.service)]
        at = (same + near + [None])[0]
        if at is None:
            found.append(Difference(row, "more", o, None))
        else:
            used.add(at)
            found.append(Difference(second[at][0], _kind(o, second[at][1]), o, second[at][1]))
    return found + [Difference(row, "missing", None, o) for i, (row, o) in enumerate(second) if i not in used]


def _moved(found: List[Difference]) -> List[Difference]:
    """What each report alone has, to one client in the same octets, is one answer in another order."""
    out = [d for d in found if d.kind != "missing"]
    for lone in (d for d in found if d.kind == "missing"):
        what = lone.second.client, lone.second.octets
        at = next((i for i, d in enumerate(out) if d.kind == "more" and (d.first.client, d.first.octets) == what), None)
        if at is None:
            out.append(lone)
        else:
            out[at] = Difference(lone.row, "order", out[at].first, lone.second)
    return out


def _malformed(found: List[Difference]) -> List[Difference]:
    """A malformed answer of the first, which by itself answers nothing, is the one to a request that has none: to that of
    its invokeID, where it tells one, else to the client's first."""
    lone = [d for d in found if d.kind == "more" and d.first.asked is None and not d.first.said.pdu]
    for d in lone:
        unanswered = [x for x in found if x.kind == "missing" and x.second.client == d.first.client]
        invoke = d.first.said.invoke
        at = next((x for x in unanswered if invoke is None or x.second.said.invoke == invoke), None)
        if at is not None:
            found.remove(d)
            found[found.index(at)] = Difference(at.row, "answer", d.first, at.second)
    return found


def _orders(a: List[Row], b: List[Row], found: List[Difference]) -> None:
    """Answers of the same octets that a client has behind one that it has before them in the other report."""
    place_a, place_b = _numbers(a), _numbers(b)
    pairs = [d for d in found if d.first is not None and d.second is not None]
    for client in {d.second.client for d in pairs}:
        most = -1
        own = [d for d in pairs if d.second.client == client]
        for d in sorted(own, key=lambda d: place_a[d.first]):
            if place_b[d.second] > most:
                most = place_b[d.second]
            elif d.kind in ALIKE:
                d.kind = "order"


def _numbers(rows: List[Row]) -> Dict[Output, int]:
    """Each output with its number in the order of what its client was sent."""
    return {o: i for i, o in enumerate(o for r in rows for o in r.outputs)}


def _kind(a: Optional[Output], b: Optional[Output]) -> str:
    """What kind of difference there is between an answer of the first and one of the second."""
    if a is None or b is None:
        return "missing" if a is None else "more"
    if a.octets == b.octets:
        return "same"
    x, y = a.said, b.said
    if a.octets is None or b.octets is None or (x.pdu, x.service) != (y.pdu, y.service):
        return "answer"
    if x.node is not None and y.node is not None and x.pdu and _values(x) == _values(y):
        return "spelling"
    valued = x.pdu in ("confirmed-Response", "confirmed-Request", "initiate-Response", "unconfirmed")
    return "values" if x.tone == y.tone and valued else "answer"


def _values(s: Said):
    """Labels and values; what a value is in other octets is the same."""
    return [(n.label, n.element.tag, n.value) for n in s.node.walk()]


def _apart(d: Difference) -> List[str]:
    """The components whose values differ, of two answers of one form."""
    if d.kind != "values" or d.first.said.node is None or d.second.said.node is None:
        return []
    a, b = ([n for n in o.said.node.walk() if n.value] for o in (d.first, d.second))
    if [n.label for n in a] != [n.label for n in b]:
        return []
    out = []
    for x, y in zip(a, b):
        if x.value != y.value and ", " in x.value + y.value:
            p, q = x.value.split(", "), y.value.split(", ")
            mine = ", ".join(v for v in p if v not in q) or "nothing"
            yours = ", ".join(v for v in q if v not in p) or "nothing"
            out.append(f"{x.label}: the first alone has {mine}; the second alone {yours}")
        elif x.value != y.value:
            out.append(f"{x.label or 'value'}: {x.value}, {y.value}")
    return out


def _nth(n: int) -> str:
    """A number as an ordinal."""
    return "%d%s" % (n, "th" if 10 < n % 100 < 20 else {1: "st", 2: "nd", 3: "rd"}.get(n % 10, "th"))


def words(found: List[Difference], names: Tuple[str, str], quiet: frozenset = frozenset()) -> str:
    """The differences in words, and how many answers are of each kind."""
    out: List[str] = []
    for d in found:
        if d.kind != "same" and d.kind not in quiet:
            out += [*_heading(d), *_sides(d, names), *("  " + line for line in _apart(d)), ""]
    kinds = Counter(d.kind for d in found)
    told = ", ".join(f"{kinds[k]} {KINDS[k]}" for k in KINDS if kinds[k])
    out.append(f"{count(len(found), 'answer')}: {told or 'none'}")
    first = next((d for d in found if d.kind not in ALIKE and not _negotiated(d)), None)
    if first is not None:
        out.append(f"The first that differs is at place {first.row.place}; later ones may come of it.")
    return "\n".join(out) + "\n"


def _heading(d: Difference) -> List[str]:
    """Where the request stands, and what it is; then what kind of difference there is."""
    asked, client = d.row.said, d.row.event.client
    what = f"{asked.title} {asked.detail}" if asked is not None else d.row.event.line()
    who = f"client {client}" if client else "cell"
    invoke = "" if asked is None or asked.invoke is None else f", invokeID {asked.invoke}"
    guess = [] if all(o is None or o.sure for o in (d.first, d.second)) else ["  which event it came of is a guess"]
    return [f"place {d.row.place}, {who}{invoke}: {what.strip()}", f"  {KINDS[d.kind]}", *guess]


def _sides(d: Difference, names: Tuple[str, str]) -> List[str]:
    """What each of the two says, in words and octets."""
    out, size = [], max(len(n) for n in names)
    for name, o in zip(names, (d.first, d.second)):
        said = "nothing" if o is None else f"{o.said.title} {o.said.detail}".strip()
        out.append(f"  {name:{size}}  {said}")
        if o is not None and o.octets is not None:
            out.append(f"  {'':{size}}  {o.octets.hex().upper()}")
    return out


def _negotiated(d: Difference) -> bool:
    """Two associations that are open, with other values."""
    return d.kind == "values" and d.second.said.pdu == "initiate-Response"


def by_place(found: List[Difference]) -> Dict[int, List[Tuple[str, Said, Optional[bytes], int]]]:
    """For the chart: what the first report says otherwise, at the place of the second's answer."""
    out: Dict[int, List[Tuple[str, Said, Optional[bytes], int]]] = {}
    for d in found:
        if d.kind in (*ALIKE, "order"):
            continue
        late = d.second is not None and d.row.answered is not None and d.second.asked is d.row
        place = d.row.answered.place if late else d.row.place
        said = d.first.said if d.first is not None else say(None)
        octets = d.first.octets if d.first is not None else None
        out.setdefault(place, []).append((d.kind, said, octets, d.row.event.client or (d.first or d.second).client))
    return out
