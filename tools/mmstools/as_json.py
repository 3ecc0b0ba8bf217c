"""What explain, compare and run tell, as JSON of one shape, which tools/mmstools/result.schema.json describes."""

import json
from typing import Any, Dict, List, Optional

from . import explain, refusals
from .compare import Difference
from .history import Output, Row, history
from .refusals import Refusal
from .run import Result, counted
from .texts import BadText, Event, kind_of, read_recording, read_report
from .words import Said, say

FORMAT = 1  # of the shape; another one has another number


def text(command: str, status: int, **parts: Any) -> str:
    """The document of a command that ends with that status."""
    return json.dumps({"format": FORMAT, "command": command, "status": status, **parts}, indent=1) + "\n"


def pdu(octets: Optional[bytes], said: Said) -> Dict[str, Any]:
    """A PDU, or an abort, whose octets are null."""
    return {
        "octets": None if octets is None else octets.hex().upper(),
        "kind": said.pdu,
        "service": said.service,
        "invokeID": said.invoke,
        "words": explain.heading(said),
    }


def _elements(octets: Optional[bytes]) -> List[Dict[str, Any]]:
    """A PDU's elements in the order of their octets."""
    return [
        {"depth": n.depth, "tag": n.tag.replace(" ", ""), "type": n.kind, "name": n.name, "value": n.value}
        for n in explain.table(octets or b"")
    ]


def _whole(octets: Optional[bytes], said: Said) -> Dict[str, Any]:
    return {**pdu(octets, said), "elements": _elements(octets)}


def _event(one: Event, said: Optional[Said]) -> Dict[str, Any]:
    """An event, and its PDU where it has one."""
    out = {"event": one.kind, "client": one.client or None, "ms": one.ms or None, "name": one.name or None}
    return {**out, "pdu": _whole(one.octets, said or say(one.octets)) if one.kind == "heard" else None}


def _sent(o: Output) -> Dict[str, Any]:
    """What a client is sent, with the place of the request that it answers."""
    asked = o.asked.place if o.asked is not None else None
    return {"client": o.client, "asked": asked, "sure": o.sure, "pdu": _whole(o.octets, o.said)}


def _refusal(found: Optional[Refusal]) -> Optional[Dict[str, Any]]:
    """Why a recording is refused."""
    if found is None:
        return None
    here = found.broken.words() if found.broken is not None else None
    meaning = found.meaning()
    return {"told": found.told(), "status": found.status, "where": meaning.where, "look": meaning.look, "here": here}


def of_text(argument: str) -> str:
    """What explain tells of a file or of octets; raises BadText where it is nothing that explain knows."""
    text_of, found = explain.source(argument)
    if found:
        wrong = any(not say(one).pdu or "malformed" in say(one).detail for one in found)
        return text("explain", 2 if wrong else 0, of="pdus", pdus=[_whole(one, say(one)) for one in found])
    if kind_of(text_of) == "report":
        report = read_report(text_of)
        told = refusals.read_told(report.end) if report.end else None
        events = [_row(row) for row in history(report)]
        return text("explain", 2 if report.end else 0, of="report", events=events, refusal=_refusal(told))
    if "mms-recording" in text_of.split("\n", 1)[0].lower():
        return _of_recording(text_of, argument)
    if explain.ROWS.search(text_of):
        raise BadText(f"{argument} is a file of rows, which is told in words alone")
    raise BadText(f"{argument} is neither a recording nor a report, and no PDU in hexadecimal digits")


def _of_recording(text_of: str, name: str) -> str:
    """A recording: its events, none where it is refused, why it is refused, and why that is mmscell's to decide."""
    refusal = refusals.first_refusal(text_of) or explain.told_beside(text_of, name)
    doubt = refusals.doubt(text_of) if refusal is None else None
    phases = read_recording(text_of).phases if refusal is None else []
    events = [{"place": None, "phase": k, **_event(e, None), "sent": []} for k, p in enumerate(phases, 1) for e in p]
    parts = {"undecided": " ".join(refusals.undecided(doubt, ""))} if doubt is not None else {}
    status = 0 if refusal is None else 2
    return text("explain", status, of="recording", events=events, refusal=_refusal(refusal), **parts)


def _row(row: Row) -> Dict[str, Any]:
    """An event of a report with all that came of it."""
    head = {"place": row.place, "phase": row.phase}
    return {**head, **_event(row.event, row.said), "sent": [_sent(o) for o in row.outputs]}


def of_differences(status: int, found: List[Difference]) -> str:
    """What compare tells."""
    return text("compare", status, answers=[_difference(d) for d in found])


def _difference(d: Difference) -> Dict[str, Any]:
    """One answer of each report."""
    sides = {
        side: None if o is None else {"client": o.client, **pdu(o.octets, o.said)}
        for side, o in (("first", d.first), ("second", d.second))
    }
    sure = all(o is None or o.sure for o in (d.first, d.second))
    return {"place": d.row.place, "client": d.row.event.client or None, "kind": d.kind, "sure": sure, **sides}


def of_results(status: int, results: List[Result]) -> str:
    """What run tells."""
    said = [
        {"name": r.name, "kind": r.kind, "status": r.status, "seconds": round(r.seconds, 6), "words": r.words}
        for r in results
    ]
    return text("run", status, counts=counted(results), recordings=said)
