"""A PDU in a line of words: what it is, whose invokeID, what it asks or answers."""

from dataclasses import dataclass
from functools import cached_property, lru_cache
from typing import Dict, List, Optional

from . import grammar
from .grammar import Node

MOST_SIGNS, MOST_PARTS = 120, 24  # of one value and of one list in a line; what is left out is counted
NAMES = {"vmd-specific", "domain-specific", "aa-specific"}
UNNAMED = set(
    """objectClass basicObjectClass listOfVariable listOfData listOfAccessResult semaphoreName variableName name address
    variableListName numericAddress variableAccessSpecification variableSpecification domainName programInvocationName
    journalName eventConditionName eventEnrollmentName listOfIdentifier failure loadData integer unsigned boolean
    visible-string octet-string floating-point bit-string binary-time utc-time mMSString typeSpecification structure
    array listOfName specific listOfSemaphoreEntry listOfNamedTokens listOfDomainName time ap-invocation-id initDetail
    vmdSpecific listOfJournalEntry serviceSpecificInformation errorClass""".split()
)  # components whose values need no name in a line
SHORT = {
    "freeNamedToken": "free",
    "ownedNamedToken": "owned",
    "hungNamedToken": "hung",
    "mmsDeletable": "deletable",
    "namedToken": "token",
    "applicationToPreempt": "preempt client",
    "applicationReference": "client",
    "controlTimeOut": "control",
    "acceptableDelay": "delay",
    "relinquishIfConnectionLost": "relinquishIfLost",
    "remainingTimeOut": "remaining",
    "entryClass": "class",
    "numberOfTokens": "tokens",
    "numberOfOwnedTokens": "owned",
    "continueAfter": "after",
    "numberOfHungTokens": "hung",
    "numberMatched": "matched",
    "numberDeleted": "deleted",
    "scopeOfDelete": "scope",
    "entryID": "entry",
    "vmdLogicalStatus": "logical",
    "vmdPhysicalStatus": "physical",
    "vendorName": "vendor",
    "modelName": "model",
    "listOfCapabilities": "capabilities",
    "listOfProgramInvocations": "invocations",
    "uploadInProgress": "uploads",
    "ulsmID": "upload",
    "executionArgument": "argument",
    "originatingApplication": "client",
    "entryIdentifier": "entry",
}  # other components, as a line names them
ERRORS = ("confirmed-Error", "cancel-Error", "initiate-Error", "conclude-Error")
PROPOSED = ("localDetail", "maxServOutstandingCalling", "maxServOutstandingCalled", "dataStructureNestingLevel")
SENT_BY_NUMBER = {"uploadSegment", "terminateUploadSequence"}  # which ask with the number of an upload
TPKT = b"\x03\x00"


@dataclass
class Said:
    """What a PDU says. `invoke` is its invokeID where it has one; `tone` is ask, good, part, bad, abort or other."""

    pdu: str  # its name in the table, and empty where it is malformed
    title: str
    detail: str = ""
    invoke: Optional[int] = None
    service: str = ""
    tone: str = "other"
    octets: bytes = b""
    whole: Optional[Node] = None
    like: Optional["Said"] = None  # what a PDU says that differs in the invokeID alone, where there is one

    def first(self, label: str) -> Optional[Node]:
        """The first element with that name below the PDU's own, whose name isn't the invokeID's."""
        return self._labelled.get(label)

    @cached_property
    def _labelled(self) -> Dict[str, Node]:
        """The first element of each name."""
        if self.like is not None:
            return self.like._labelled
        found: Dict[str, Node] = {}
        for n in self.node.walk() if self.node is not None else ():
            if n is not self.node:
                found.setdefault(n.label, n)
        return found

    @property
    def node(self) -> Optional[Node]:
        """Its elements; None of an abort, and of no octets."""
        if self.whole is None and self.octets:
            self.whole = grammar.decode(self.octets)[0]
        return self.whole


def say(octets: Optional[bytes]) -> Said:
    """What these octets say; None is an abort."""
    if octets is None:
        return Said("abort", "abort", "the association is gone", tone="abort")
    at = grammar.numbered(octets)
    if at is None:
        return _said(octets)
    like = _like(octets[0], octets[at[1] :])
    invoke = grammar.integer(octets[at[0] : at[1]])
    return Said(like.pdu, like.title, like.detail, invoke, like.service, like.tone, octets, None, like)


@lru_cache(maxsize=1 << 14)
def _like(tag: int, octets: bytes) -> Said:
    """What a PDU of that tag says that has these octets behind its invokeID, whichever that is."""
    body = bytes([grammar.NUMBERED[tag], 1, 0]) + octets
    size = len(body).to_bytes(8, "big")
    return _said(bytes([tag, 0x88]) + size + body)


def _said(octets: bytes) -> Said:
    """What these octets say."""
    nodes = grammar.decode(octets)
    if not nodes:
        return Said("", "no octets", tone="bad")
    why = _flaw(octets, nodes)
    said = _say(nodes[0]) if nodes[0].known and (nodes[0].parts or not why) else Said("", _first(octets))
    if why:
        return Said("", said.title, "malformed: " + why, said.invoke, said.service, "bad", octets)
    if any(n.value in (grammar.NO_OCTET, grammar.NO_BITS) for n in nodes[0].walk()):
        kept = said.detail + ": " if said.detail and "(no" not in said.detail else ""
        said.detail = kept + "malformed: a value has no octets"
    return said


def hint(octets: Optional[bytes]) -> str:
    """What whoever typed these octets may have overlooked; empty where nothing is known."""
    if octets and octets.startswith(TPKT):
        return (
            "the octets begin with 03 00, as a TPKT does (RFC 1006): PDUs are bare here, without the headers of TPKT,"
            " COTP, session and presentation"
        )
    return ""


def _first(octets: bytes) -> str:
    """The first octets of what has no words."""
    return octets[:12].hex(" ").upper() + (" .." if len(octets) > 12 else "")


def _flaw(octets: bytes, nodes: List[Node]) -> str:
    """Why these elements are no PDU; empty where they are one."""
    first = nodes[0]
    flaw = next((n.element.flaw for n in first.walk() if n.element.flaw), "")
    if flaw:
        return flaw
    if not first.known:
        return "no PDU of MMS"
    behind = len(octets) - first.element.end
    return f"{behind} octets stand behind it" if len(nodes) > 1 else ""


def _number(n: Optional[Node]) -> Optional[int]:
    """The number that a node is, where it is there."""
    return grammar.integer(n.element.contents) if n is not None else None


def _say(n: Node) -> Said:
    """What a PDU of the table says."""
    pdu = n.label
    named = next((p for p in n.parts if p.label in ("invokeID", "originalInvokeID")), None)
    s = Said(pdu, pdu, invoke=_number(n if pdu in ("cancel-Request", "cancel-Response") else named), whole=n)
    if pdu in ("confirmed-Request", "confirmed-Response", "unconfirmed"):
        _say_service(s, n)
    elif pdu in ERRORS:
        s.title, s.tone, s.detail = "error" if pdu == "confirmed-Error" else pdu, "bad", _error(n)
    elif pdu == "reject":
        why = next((p for p in n.parts if p.label != "originalInvokeID"), None)
        s.tone, s.detail = "bad", f"{why.value.split(' (')[0]} ({why.label})" if why else ""
    elif pdu in ("initiate-Request", "initiate-Response"):
        numbers = ["-" if v is None else v for v in (_number(n.find(k)) for k in PROPOSED)]
        s.detail = "PDU {}, calling {}, called {}, nesting {}".format(*numbers)
        s.tone = "ask" if pdu == "initiate-Request" else "good"
    else:
        s.tone = "ask" if pdu.endswith("Request") else "good"
        s.detail = "" if s.invoke is None else f"invokeID {s.invoke}"
    return s


def _say_service(s: Said, n: Node) -> None:
    """What a request, a response or an unconfirmed PDU says, by its service."""
    service = n.parts[-1] if n.parts and n.parts[-1].label not in ("invokeID", "listOfModifier") else None
    s.tone = {"confirmed-Request": "ask", "confirmed-Response": "good"}.get(s.pdu, "other")
    if service is None:
        s.service = "no service"
        return
    s.service = service.label or f"service {service.element.number}"
    s.title = s.service[:1].upper() + s.service[1:]
    s.detail = _asked(service) if s.pdu == "confirmed-Request" else _brief(service)
    modifier = n.find("listOfModifier")
    if modifier is not None:
        s.detail = (s.detail + "; " if s.detail else "") + "attached: " + _brief(modifier)
    if s.pdu == "confirmed-Response":
        _say_answer(s, service)


def _say_answer(s: Said, service: Node) -> None:
    """What a response says: whether all, some or none of it succeeded."""
    results = (service.find("listOfAccessResult") or service).parts
    failures = sum(r.label == "failure" for r in results)
    if failures and s.service in ("read", "write"):
        s.tone = "bad" if failures == len(results) else "part"
    if s.service == "takeControl":
        s.detail = "granted" if s.detail == "noResult" else "granted " + s.detail
    elif s.service in ("deleteEventCondition", "deleteEventEnrollment") and s.detail:
        s.detail += " not deleted"
    elif s.service == "downloadSegment" and service.parts and service.find("moreFollows") is None:
        s.detail += ", more follow"  # its default
    elif s.service == "initializeJournal" and s.detail:
        s.detail += " removed"
    s.detail = s.detail or "done"


def _asked(n: Node) -> str:
    """What a request asks, where the values one after another would not say it."""
    if n.label == "status":
        return "extended" if n.value == "TRUE" else ""
    if n.label in SENT_BY_NUMBER and not n.parts:
        return "upload " + n.value
    if n.label == "write" and len(n.parts) == 2:
        return _written(n.parts[0], n.parts[1])
    if n.label == "defineNamedVariableList" and len(n.parts) == 2:
        return f"{_brief(n.parts[0])} = {_brief(n.parts[1])}"
    if n.label == "defineNamedVariable" and len(n.parts) > 1:
        kind = ", " + _type(n.parts[2]) if len(n.parts) > 2 else ""
        return f"{_brief(n.parts[0])} = {_brief(n.parts[1])}{kind}"
    if n.label == "getNameList" and len(n.parts) > 1:
        after = ", " + _labelled(n.parts[2]) if len(n.parts) > 2 else ""
        return f"{_brief(n.parts[0])} {_labelled(n.parts[1])}{after}"
    return _brief(n)


def _written(access: Node, data: Node) -> str:
    """Each variable with what it is to have."""
    names, values = ([_brief(p) for p in n.parts[:MOST_PARTS]] for n in (access, data))
    if access.label == "listOfVariable" and len(access.parts) == len(data.parts):
        return _joined([f"{name} = {value}" for name, value in zip(names, values)], ", ", len(data.parts))
    return f"{_labelled(access)} = {_joined(values, ', ', len(data.parts))}"


def _error(n: Node) -> str:
    """The class and the code of a ServiceError, and what is added to them."""
    c = n.find("errorClass")
    if c is None or not c.parts:
        return "no error class"
    code = c.parts[0]
    number = _number(code)
    name = grammar.VALUES.get(code.label, {}).get(number, f"code {number}")
    further = [_refusing(p) for p in (n.find("serviceSpecificInformation"),) if p is not None]
    return ", ".join([f"{code.label or f'class {code.element.number}'}: {name}", *further])


def _refusing(n: Node) -> str:
    """What a service adds to its error: a command of a program invocation, the state that refuses it."""
    found = n.parts[0] if n.parts else n
    if found.kind == "InvocationState":
        return f"{found.label[:1].upper()}{found.label[1:]} found it {_brief(found)}"
    return _labelled(n)


def _joined(said: List[str], between: str, count: int) -> str:
    """The first of so many parts, and how many are left out."""
    more = [f".. {count - len(said)} more"] if count > len(said) else []
    return between.join(said + more)


def _shortened(n: Node, value: str) -> str:
    """The value, cut where it is long, with how many octets it has."""
    if len(value) <= MOST_SIGNS:
        return value
    return f"{value[:MOST_SIGNS // 2].rstrip()} .. ({n.element.end - n.element.start} octets)"


def _brief(n: Node) -> str:
    """The values below a node, with the labels that they need."""
    if n.label in ("typeSpecification", "componentType", "elementType"):
        return _type(n)
    if n.label in NAMES and n.parts:
        return "/".join(p.value for p in n.parts)
    if n.label == "aa-specific":
        return "@" + n.value
    if n.parts and n.kind not in ("list", "seq", "wrap"):
        inner = _joined([_brief(p) for p in n.parts[:MOST_PARTS]], ", ", len(n.parts))
        return f"[{n.element.number}] {{{inner}}}"
    if n.label == "success":
        return "success"
    if n.label == "discard":
        return _error(n)
    if n.kind == "list" and n.label in ("structure", "array"):
        inner = _joined([_brief(p) for p in n.parts[:MOST_PARTS]], ", ", len(n.parts))
        return f"{{{inner}}}" if n.label == "structure" else f"[{inner}]"
    if n.kind in ("list", "seq", "wrap"):
        return _parts(n)
    if n.kind == "NULL":
        return ""
    if n.label == "numericAddress":
        return "cell " + n.value
    return n.value.split(" (")[0] if n.kind in grammar.VALUES else _shortened(n, n.value)


def _parts(n: Node) -> str:
    """The parts of a list, a sequence or a choice one after another."""
    said = [x for x in (_labelled(p) for p in n.parts[:MOST_PARTS]) if x]
    if n.kind == "list" and not n.parts:
        return "none"
    lists = n.kind == "list" and n.label.startswith("listOf") and len(said) > 1 and any("," in x for x in said)
    return _joined(said, "; " if lists else ", ", len(n.parts) if len(n.parts) > MOST_PARTS else len(said))


def _labelled(n: Node) -> str:
    """What is below a node, with its own name where that is needed."""
    brief = _brief(n)
    if n.label == "moreFollows":
        return "more follow" if n.value == "TRUE" else ""
    if n.label == "vmdSpecific":
        return "of the VMD"
    if n.label == "objectScope":
        return _scope(n)
    if n.label == "variableListName" and n.kind == "wrap":
        return "list " + brief
    if n.label in NAMES or n.label in UNNAMED or not n.label:
        return brief
    if n.kind == "NULL":
        return n.label
    return f"{SHORT.get(n.label, n.label)} {brief}"


def _scope(n: Node) -> str:
    """The scope of a list of names."""
    inner = n.parts[0] if n.parts else n
    if inner.label == "domainSpecific":
        return "of domain " + inner.value
    return "of the VMD" if inner.label == "vmdSpecific" else "of the association"


def _type(n: Node) -> str:
    """A TypeSpecification in words."""
    if n.label in ("typeSpecification", "componentType", "elementType", ""):
        return _type(n.parts[0]) if n.parts and n.kind != "seq" else n.value
    if n.label == "array":
        kind, count = n.find("elementType"), n.find("numberOfElements")
        return f"array of {count.value if count else '?'} {_type(kind) if kind else '?'}"
    if n.label == "structure":
        components = n.find("components")
        parts = components.parts if components else []
        inner = _joined([_typed(c) for c in parts[:MOST_PARTS]], ", ", len(parts))
        return f"structure {{{inner}}}"
    if n.label == "floating-point":
        return "floating-point " + "/".join(p.value for p in n.parts)
    if n.label == "typeName":
        return "type " + _brief(n)
    if n.parts:
        return _brief(n)
    return n.label + (" " + n.value if n.value else "")


def _typed(component: Node) -> str:
    """A component of a structure's type: its name, where it has one, and its type."""
    name, kind = (next((p for p in component.parts if p.label == x), None) for x in ("componentName", "componentType"))
    return (name.value + " " if name else "") + (_type(kind) if kind else "?")
