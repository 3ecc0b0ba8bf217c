"""Octets in the words that `mms write` reads (write.py): the other way. What it says is written as the same octets
again, whatever they are: where words would not be, an element stands in its octets, `<800101>`, or the whole PDU."""

import re
import struct
from typing import Iterator, List, Optional

from . import ber, grammar, write
from .ber import Element
from .grammar import Component, Form
from .texts import MADE, BadText, event, read_recording
from .write import BadWords

NAMED_TOO = ("BOOLEAN", "INTEGER", "MS", "VisibleString", "NUMBER")  # required, and said with their names
TITLES = {8: "Initiate", 11: "Conclude", 5: "Cancel", 4: "Reject"}
FIRST_WORD = {0: "", 1: "answer "}


class _Unspeakable(Exception):
    """There are no words for it."""


def say(octets: bytes, request: int = 1, answer: int = 1, edition: str = "2") -> str:
    """The words of a PDU, without the invokeID where it is the one that comes next of requests or answers."""
    for careful in (False, True):
        try:
            words = _Speaker(edition, careful).pdu(octets, request, answer)
            if write.written(words, request, answer, edition).octets == octets:
                return words
        except (_Unspeakable, BadWords, RecursionError):
            pass
    return f"<{octets.hex().upper()}>"


class _Speaker:
    """Says elements by their forms. If it is careful, one whose words are not written alike is said in octets."""

    def __init__(self, edition: str, careful: bool):
        self.edition, self.careful, self.service = edition, careful, ""

    # ------------------------------------------------------------ a PDU

    def pdu(self, octets: bytes, request: int, answer: int) -> str:
        """The words of a PDU."""
        found = ber.elements(octets)
        if len(found) != 1 or any(e.flaw for e in found[0].walk()) or found[0].cls != 2:
            raise _Unspeakable
        top = found[0]
        if top.number in (0, 1, 3) and top.parts:
            return self.of_service(top, request, answer)
        if top.number == 2:
            return self.of_error(top, answer)
        if top.number not in grammar.PDU or top.number in (0, 1, 3):
            raise _Unspeakable
        name, (form,) = grammar.PDU[top.number]
        defaults = write.PROPOSAL if top.number == 8 else {}
        said = self.top(top, Component(name, top.number, False, form, False), defaults)
        return f"{TITLES.get(top.number, name)} {said}".rstrip()

    def of_service(self, top: Element, request: int, answer: int) -> str:
        """The words of a request, of a response or of an unconfirmed PDU."""
        service, number = top.parts[-1], None
        if top.number != 3:
            if len(top.parts) != 2 or top.parts[0].tag != (0, 2):
                raise _Unspeakable
            number = ber.integer(top.parts[0].contents)
        known = grammar.UNASKED if top.number == 3 else grammar.SERVICE
        if service.cls != 2 or service.number not in known:
            raise _Unspeakable
        name, forms = known[service.number]
        self.service = name if top.number != 3 else ""
        c = Component(name, service.number, False, forms[top.number == 1], False)
        said = "" if name == "status" and service.contents == b"\0" and top.number == 0 else self.top(service, c, {})
        title = FIRST_WORD.get(top.number, "") + name[:1].upper() + name[1:]
        return " ".join(x for x in (title, said, _invoke(number, (request, answer, None, None)[top.number])) if x)

    def of_error(self, top: Element, answer: int) -> str:
        """The words of a confirmed-Error."""
        if len(top.parts) != 2 or top.parts[0].tag != (2, 0):
            raise _Unspeakable
        said = self.top(top.parts[1], Component("serviceError", 2, False, "ServiceError", False), {})
        return " ".join(x for x in ("Error", said, _invoke(ber.integer(top.parts[0].contents), answer)) if x)

    def top(self, e: Element, c: Component, defaults) -> str:
        """What stands behind the name of a PDU: components without braces around them."""
        form = grammar._resolved(c.form)
        if isinstance(form, Form) and form.kind == "seq" and e.tag == (2, c.number):
            return " ".join(self.sequence(e, form, c.form if isinstance(c.form, str) else "", defaults))
        return self.element(e, c)

    # ------------------------------------------------------------ elements

    def element(self, e: Element, c: Component) -> str:
        """The words of an element as that component."""
        raw = f"<{e.octets[e.at : e.end].hex().upper()}>"
        if not self.careful:
            return self.plain(e, c)
        try:
            words = self.plain(e, c)
            tokens = write._tokens(words)
            reader = write._Reader(tokens, len(words) + 1, self.edition, self.service)
            reader.is_open = False
            if reader.component(c) == e.octets[e.at : e.end] and reader.peek() is None:
                return words
        except (_Unspeakable, BadWords):
            pass
        return raw

    def plain(self, e: Element, c: Component) -> str:
        """The same, whether or not it is written alike."""
        form, name = grammar._resolved(c.form), c.form if isinstance(c.form, str) else ""
        if isinstance(form, Form) and form.kind == "choice":
            if c.number is not None and len(e.parts) != 1:
                raise _Unspeakable
            return self.choice(e if c.number is None else e.parts[0], form, name)
        if c.explicit:
            if len(e.parts) != 1:
                raise _Unspeakable
            e = e.parts[0]
        if isinstance(form, str):
            return _value(e, form, c.label, self.edition)
        if form.kind == "list":
            return self.listed(e, form.components[0], c.label)
        return _braced(self.sequence(e, form, name, {}))

    def choice(self, e: Element, form: Form, name: str) -> str:
        """The words of a choice."""
        found = next((c for c in form.components if grammar._fits(e, c)), None)
        if found is None:
            raise _Unspeakable
        if name == "Name":
            plain = _name(e, self.edition)
            if plain:
                return plain
        said = self.element(e, found)
        if found.form == "NULL":
            return found.label
        bare = name in ("Data", "AccessResult") and _is_plain_data(found.label, said)
        first = found is form.components[0] and name not in ("Type", "Data", "AccessResult")
        if bare or first and not said.startswith("<") and _is_first(form):
            return said
        if said.startswith("<") or found.label == "address" and name == "Variable":
            return said
        return f"{'cell' if found.label == 'numericAddress' else found.label}:{said}"

    def listed(self, e: Element, member: Component, label: str) -> str:
        """The words of a list."""
        said = [self.element(p, member) for p in e.parts]
        if label == "structure":
            return f"{{{' '.join(said)}}}"
        return said[0] if len(said) == 1 and said[0][:1] not in "[<{" else f"[{' '.join(said)}]"

    def sequence(self, e: Element, form: Form, name: str, defaults) -> List[str]:
        """The words of the components of a sequence."""
        out, parts = [], list(e.parts)
        for c in form.components:
            found = parts.pop(0) if parts and grammar._fits(parts[0], c) else None
            if found is None:
                if c.label in defaults:
                    out.append(f"{c.label}=-")
                elif not c.optional:
                    raise _Unspeakable
                continue
            if c.label in defaults and _is_default(found, c, defaults):
                continue
            said = self.element(found, c)
            kind = c.form if isinstance(c.form, str) else ""
            is_first = c.label == write.FIRST.get(name)
            is_named = not is_first and c.label and (c.optional or kind in NAMED_TOO)
            out.append(f"{c.label}={said}" if is_named else said)
        if parts:
            raise _Unspeakable
        return out


def _is_default(e: Element, c: Component, defaults) -> bool:
    """Whether the element is the one that stands there by itself."""
    said = defaults[c.label]
    reader = write._Reader(write._tokens(said), len(said) + 1, "2", "", defaults)
    reader.is_open = False
    return reader.component(c) == e.octets[e.at : e.end]


def _invoke(number: Optional[int], expected: Optional[int]) -> str:
    """`invoke=N`, where it isn't the expected one."""
    return "" if number is None or number == expected else f"invoke={number}"


def _braced(said: List[str]) -> str:
    """The words of a sequence; without braces, where they are of its first value alone."""
    alone = len(said) == 1 and not re.match(r"[<{]|[A-Za-z][\w-]*=", said[0])
    return said[0] if alone else f"{{{' '.join(said)}}}"


def _is_first(form: Form) -> bool:
    """Whether a value of the first alternative needs no label."""
    c = form.components[0]
    return len(form.components) == 1 or isinstance(grammar._resolved(c.form), Form)


# ---------------------------------------------------------------- values


def _name(e: Element, edition: str) -> str:
    """An ObjectName by its signs, empty where it isn't one."""
    parts = e.parts if e.constructed else [e]
    texts = [p.contents.decode("latin-1") for p in parts]
    if any(not write.is_name(x, edition) for x in texts) or e.tag == (2, 1) and len(texts) != 2:
        return ""
    return {0: texts[0], 1: "/".join(texts), 2: "@" + texts[0]}.get(e.number, "") if texts else ""


def _is_plain_data(kind: str, said: str) -> bool:
    """Whether data of that kind is told by its signs."""
    if kind in ("boolean", "integer"):
        return not said.startswith("0x")
    if kind == "floating-point":
        return not said.startswith("0x") and not re.fullmatch(r"-?[0-9]+", said)
    return kind in ("array", "structure") and said[:1] in "[{" or kind == "visible-string" and said[:1] == '"'


def _value(e: Element, form: str, label: str, edition: str) -> str:
    """The words of a value; its octets where no words are written alike."""
    b = e.contents
    if e.constructed or form == "ANY":
        raise _Unspeakable
    if form == "NULL":
        if b:
            raise _Unspeakable
        return ""
    if form == "Id" and write.is_name(b.decode("latin-1"), edition):
        return b.decode("latin-1")
    words = _words(b, form, label) if form != "Id" else ""
    return words or "0x" + b.hex().upper()


def _words(b: bytes, form: str, label: str) -> str:
    """The words of contents, empty where there are none."""
    if form in ("VisibleString", "GraphicString"):
        signs = b.decode("latin-1")
        is_text = all(32 <= o < 127 for o in b)
        return '"' + signs.replace("\\", "\\\\").replace('"', '\\"') + '"' if is_text else ""
    if form == "BOOLEAN":
        return {b"\xff": "TRUE", b"\0": "FALSE"}.get(b, "")
    if form == "NUMBER":
        return str(int.from_bytes(b, "big")) if len(b) == 8 else ""
    if form == "OCTETS":
        return b.hex().upper() or '""'
    if form == "TIME":
        return _moment(b)
    if form == "FLOAT":
        return _real(b)
    if form == "BITS" or form in grammar.BITS_OF:
        return _bits(b, form)
    if form in ("UTF8", "UTC"):
        return ""
    return _number(b, form, label)


def _number(b: bytes, form: str, label: str) -> str:
    """A number, or its word."""
    n = ber.integer(b)
    if n is None or write.integer(n) != b:
        return ""
    named = grammar.VALUES.get(form) or (grammar.VALUES.get(label, {}) if form == "INTEGER" else {})
    return named.get(n, str(n))


def _moment(b: bytes) -> str:
    """A time of day, and the day."""
    ms = int.from_bytes(b[:4], "big")
    if len(b) not in (4, 6) or ms >= 86400000:
        return ""
    return grammar._clock(ms) + (f"/{int.from_bytes(b[4:], 'big')}" if len(b) == 6 else "")


def _real(b: bytes) -> str:
    """A floating-point number."""
    if (len(b), b[:1]) not in ((5, b"\x08"), (9, b"\x0b")):
        return ""
    said = grammar._number_of(b[1:])
    if not re.match(r"-?[0-9]", said):
        return ""
    said = said if re.search(r"[.e]", said) else said + ".0"
    return said + "d" * (len(b) == 9) if _packed(said, len(b)) == b[1:] else ""


def _packed(said: str, size: int) -> bytes:
    """The octets of a number of 32 or 64 bits."""
    return struct.pack(">f" if size == 5 else ">d", float(said))


def _bits(b: bytes, form: str) -> str:
    """Bits: by their names, where these are written alike, or one after another."""
    if not b or b[0] > 7 or len(b) == 1 and b[0]:
        return ""
    bits = "".join(f"{o:08b}" for o in b[1:])
    bits = bits[: len(bits) - b[0]]
    if write._bit_string(bits) != b:
        return ""
    names = grammar.BITS_OF.get(form)
    if names is None or len(bits) != max(names) + 1:
        return bits or ('""' if names is None else "")
    shown = (names[i] if names.get(i, "-") != "-" else str(i) for i, x in enumerate(bits) if x == "1")
    return f"[{' '.join(shown)}]"


# ---------------------------------------------------------------- a recording


def recording(text: str) -> str:
    """The text of a recording with its PDUs in words, which `mms write` writes again; those that have no words stay as
    they are, and comments that `explain --comments` made are left out. Raises BadText where it is none."""
    read_recording(text)
    lines = [line.rstrip("\r") for line in text.split("\n")]
    body = lines.index("end", 2) + 1
    return "\n".join([*lines[:body], *_lines(lines[body:], lines[0][-1])])


def _lines(lines: List[str], edition: str) -> Iterator[str]:
    """The lines behind the configuration."""
    numbers = write.Numbers()
    for line in lines:
        one = event(line.strip(" \t"), edition)
        if one is None or one.kind != "heard":
            if not line.startswith(MADE):
                yield line
            continue
        words = say(one.octets, *numbers.of(one.client), edition)
        numbers.heard(one)
        yield line if words.startswith("<") else f"{one.client}: {words}"


# ---------------------------------------------------------------- the command


def command(said: str, text: Optional[str]) -> str:
    """What `mms write --back` writes: of digits, or of the text of a recording."""
    if text is not None:
        return recording(text)
    digits = re.sub(r"\s+", "", said)
    if not re.fullmatch(r"(?:[0-9A-Fa-f]{2})+", digits):
        raise BadText(f"{said[:60]}: no file, and no PDU in hexadecimal digits")
    return say(bytes.fromhex(digits)) + "\n"
