"""A configuration from a capture: what the answers tell of the captured server's texts, variables and pools.

It is a start, and wants to be looked through: what nobody asked for isn't known, guards and the widths of numbers
neither, and a device has no domains but those that clients load, so their variables are left out.
"""
from dataclasses import dataclass
from typing import Dict, List, Optional

from . import ber, grammar
from .texts import ABORT, LONGEST

MOST_CELLS = 4096


def learned(events, outputs, edition: str = "1") -> List[str]:
    """Lines of a configuration for these phases of events and of what was answered to each client; names too long for the
    edition are left out."""
    got = _Learned(LONGEST[edition])
    for request, answer in _pairs(events, outputs):
        got.take(request, answer)
    return got.lines()


def _pairs(events, outputs):
    """Each confirmed request with its positive answer, where there is one, client by client in order."""
    asked: Dict[int, list] = {}
    answers: Dict[int, list] = {}
    for sent in outputs:
        for client, octets in sent.items():
            answers.setdefault(client, []).extend(
                n for n in map(_whole, (o for o in octets if o is not ABORT and o[:1] == b"\xa1")) if n
            )
    for served in events:
        for e in served:
            if e.kind == "heard" and e.octets[:1] == b"\xa0":
                n = _whole(e.octets)
                if n is not None:
                    asked.setdefault(e.client, []).append(n)
    for client, requests in asked.items():
        rest = answers.get(client, [])
        for r in requests:
            at = next(
                (
                    i
                    for i, a in enumerate(rest)
                    if a.parts[0].value == r.parts[0].value and a.parts[-1].label == r.parts[-1].label
                ),
                None,
            )
            if at is not None:
                yield r.parts[-1], rest.pop(at).parts[-1]


def _whole(octets: bytes):
    """The one confirmed PDU that the octets are, with nothing wrong in it, or None."""
    nodes = grammar.decode(octets)
    whole = len(nodes) == 1 and len(nodes[0].parts) >= 2 and not any(n.element.flaw for n in nodes[0].walk())
    return nodes[0] if whole else None


@dataclass
class _Cell:
    """What is known of a variable."""

    told: Optional[ber.Element] = None  # its TypeSpecification
    guess: Optional[bytes] = None  # one that a value of it is of
    first: Optional[bytes] = None  # its value, where it was read before it was written
    written: bool = False

    def value(self) -> Optional[bytes]:
        """The first value, or a zero of its type where none was read."""
        kind = self.told or (ber.elements(self.guess)[0] if self.guess else None)
        return self.first or (_zero(kind) if kind is not None else None)


class _Learned:
    """What the answers told up to now."""

    def __init__(self, longest: int):
        self.longest = longest  # octets of a name
        self.texts: List[str] = []
        self.cells: Dict[str, _Cell] = {}
        self.pools: Dict[str, List[str]] = {}

    def take(self, request, answer) -> None:
        """What one answer tells."""
        if answer.label == "identify" and not self.texts and len(answer.parts) >= 3:
            values = [p.element.contents for p in answer.parts[:3]]
            if all(1 <= len(v) <= 32 and all(32 <= c < 127 for c in v) for v in values):
                self.texts = [f"{k} = {_toml(v)}" for k, v in zip(("vendor", "model", "revision"), values)]
        elif answer.label == "read" and answer.find("listOfAccessResult") is not None:
            self.read(request, answer.find("listOfAccessResult").parts)
        elif answer.label == "write" and request.find("listOfData") is not None:
            self.write(request, answer.parts)
        elif answer.label == "getVariableAccessAttributes" and answer.find("typeSpecification") is not None:
            kind = answer.find("typeSpecification").parts
            for name in _variables(request):
                if name and kind:
                    self.cells.setdefault(name, _Cell()).told = kind[0].element
        elif answer.label == "reportPoolSemaphoreStatus":
            pool = request.find("semaphoreName", "vmd-specific")
            found = [n.value for n in answer.walk() if n.label.endswith("NamedToken") and n.value]
            if pool is not None:
                tokens = self.pools.setdefault(pool.value, [])
                tokens += [t for t in dict.fromkeys(found) if t not in tokens]

    def read(self, request, results) -> None:
        """Values that were read; the first, where nobody wrote before, is the variable's at the start."""
        for name, d in zip(_variables(request), results):
            if name and d.label != "failure":
                c = self.cells.setdefault(name, _Cell())
                c.guess = c.guess or type_of(d.element)
                if not c.written and c.first is None:
                    c.first = _octets(d.element)

    def write(self, request, results) -> None:
        """Values that were written tell of a type alone."""
        for name, d, r in zip(_variables(request), request.find("listOfData").parts, results):
            if name and r.label == "success":
                c = self.cells.setdefault(name, _Cell())
                c.guess, c.written = c.guess or type_of(d.element), True

    def lines(self) -> List[str]:
        """The lines of the configuration."""
        cells, names = [], []
        for name, c in self.cells.items():
            kind = _octets(c.told) if c.told is not None else c.guess
            value = c.value()
            if len(name) > self.longest or kind is None or value is None or len(names) >= 3 * MOST_CELLS:
                continue
            number = len(names) // 3
            cells += [
                "[[cell]]",
                "number = %d" % number,
                "type = \"%s\"" % kind.hex().upper(),
                "value = \"%s\"" % value.hex().upper(),
            ]
            names += ["[[variable]]", "name = \"%s\"" % name, "cell = %d" % number]
        pools = []
        for name, tokens in self.pools.items():
            if tokens and all(len(t) <= self.longest for t in (name, *tokens)):
                pools += ["[[pool]]", "name = \"%s\"" % name, "tokens = [%s]" % ", ".join("\"%s\"" % t for t in tokens)]
        return self.texts + cells + names + pools


def _variables(request) -> List[str]:
    """The names of the VMD that a request reads or writes, in order; '' for every other variable."""
    if request.find("variableListName") is not None:
        return []
    listed = request.find("listOfVariable")
    places = listed.parts if listed is not None else [request]
    found = [v.find("vmd-specific") for v in places]
    return [n.value if n is not None else "" for n in found]


def type_of(e: ber.Element) -> Optional[bytes]:
    """A TypeSpecification that the data is of, or None."""
    size = len(e.contents)
    if e.number in (1, 2):
        inner = [type_of(p) for p in e.parts]
        if None in inner or e.number == 1 and len(set(inner)) != 1:
            return None
        if e.number == 1:
            return _wrap(0xA1, b"\x81" + _int(len(inner)) + _wrap(0xA2, inner[0]))
        return _wrap(0xA2, _wrap(0xA1, b"".join(_wrap(0x30, _wrap(0xA1, i)) for i in inner)))
    if e.number == 7:
        return {5: bytes.fromhex("A706020120020108"), 9: bytes.fromhex("A70602014002010B")}.get(size)
    bits = 8 * (size - 1) - e.contents[0] if e.number == 4 and size else 0
    most = _int(-255 if size < 256 else -60000)
    return {
        3: b"\x83\0",
        4: b"\x84" + _int(bits),
        5: b"\x85\1" + (b"\x20" if size <= 4 else b"\x40"),
        6: b"\x86\1\x20",
        9: b"\x89" + most,
        10: b"\x8a" + most,
        12: b"\x8c\1" + (b"\xff" if size == 6 else b"\0"),
    }.get(e.number)


def _zero(kind: ber.Element) -> Optional[bytes]:
    """A value of a type, where none was seen."""
    length = (ber.integer(kind.contents) or 0) if not kind.constructed else 0
    if kind.number == 4:
        return _wrap(0x84, bytes([-max(length, 0) % 8]) + bytes((max(length, 0) + 7) // 8))
    if kind.number in (9, 10):
        return _wrap(0x80 | kind.number, (b" " if kind.number == 10 else b"\0") * max(length, 0))
    return {3: b"\x83\1\0", 5: b"\x85\1\0", 6: b"\x86\1\0"}.get(kind.number)


def _octets(e: ber.Element) -> bytes:
    """All of an element's own octets."""
    return e.octets[e.at : e.end]


def _int(v: int) -> bytes:
    """Length and contents of an INTEGER, in the fewest octets."""
    size = 1
    while not -(1 << 8 * size - 1) <= v < 1 << 8 * size - 1:
        size += 1
    return bytes([size]) + v.to_bytes(size, "big", signed=True)


def _wrap(tag: int, body: bytes) -> bytes:
    """An element of that tag and those contents."""
    n = len(body)
    return bytes([tag]) + (bytes([n]) if n < 128 else b"\x82" + n.to_bytes(2, "big")) + body


def _toml(b: bytes) -> str:
    """A text as TOML has it."""
    return "\"%s\"" % b.decode("ascii").replace("\\", "\\\\").replace("\"", "\\\"")
