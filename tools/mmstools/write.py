"""PDUs from words, and recordings from recordings in words, by the table of forms that `explain` reads by.

    mms write WORDS     one PDU: `mms write TakeControl T acceptableDelay=5 --invoke 2` gives A0..
    mms write FILE      a recording in which a line may say a PDU in words, `1: Read Speed`; - for standard input
    mms write --back X  the other way: a PDU in hexadecimal digits, or a recording, in words

A PDU is a service with what it asks (`Read Speed`), `answer` and a service with what it is answered (`answer
DownloadSegment 0102 moreFollows=FALSE`), `Initiate`, `Conclude`, `Cancel N`, `Error CLASS:CODE`, `Reject PDU=WORD`, or
the name that `explain` has for it; or a whole line of `explain`, `TakeControl T, delay 5 ms, request, invokeID 2`, of
which what it doesn't say stands as mmscell spells it. A component is `name=value`; those that may not be missing need no name where they
come in their order, and `name=-` leaves out what would be there by itself. Blanks and commas part values:

    T, D/T, @T          a name of the VMD, of the domain D, of the association
    7, TRUE, "text"     an integer, a boolean, a text; as Data also 1.5 (32 bits) and 1.5d (64 bits)
    0102, 010           octets; bits
    12:00:00.000/14562  a moment: the time of day, and the day behind it where there is one
    kind:value          one of a choice: unsigned:7, numericAddress:0, domainSpecific:D, access:object-non-existent
    [a b], {a b=c}      a list, a sequence; of one value the brackets may be left out. As Data an array, a structure
    0x0102, <800101>    octets as they are: the contents of a value, and a whole element (or a whole PDU)
    invoke=7            the invokeID. Else it is 1, and in a recording each client's requests count from 1 on, and so do
                        its answers, anew behind each Initiate

In the recording that is written, the words stand as a comment above their PDU. Status 0: it is written. 2: it isn't,
and a sentence says which sign of which line is wrong, and how.
"""

import difflib
import re
import struct
from dataclasses import dataclass
from typing import Callable, Dict, Iterator, List, Optional, Tuple, Union

from . import grammar, words
from .grammar import Component, Form
from .texts import LONGEST, MOST_PDU, BadText, Event, event, is_name

DEEPEST = 64  # brackets in brackets
TOKEN = re.compile(
    r'(?P<raw><[0-9A-Fa-f \t]*>)|"(?P<text>(?:[^"\\]|\\.)*)"|(?P<name>[A-Za-z][\w-]*)=|(?P<label>[A-Za-z][\w-]*):(?=\S)'
    r'|(?P<mark>[{}\[\]])|(?P<word>[^\s,{}\[\]<>"]+)',
    re.ASCII,
)
SHORT = {
    **{label: short for label, short in words.SHORT.items() if " " not in short},
    "maxServOutstandingCalling": "calling",
    "maxServOutstandingCalled": "called",
    "dataStructureNestingLevel": "nesting",
    "variableListName": "list",
    "numericAddress": "cell",
}  # components that may be given by a shorter name, too
FIRST = {"Application": "ap-invocation-id", "Deletion": "listOfName"}  # what a value without a name is there
PROPOSAL = {
    "localDetail": "65000",
    "maxServOutstandingCalling": "10",
    "maxServOutstandingCalled": "10",
    "dataStructureNestingLevel": "5",
    "initDetail": "{}",
    "versionNumber": "1",
    "parameterCBB": "0x05F100",
    "servicesSupported": "0x03EE1C00000408000079EF18",
}  # what Initiate proposes where it says nothing else
U32, I32, I16 = (0, 2**32 - 1), (-(2**31), 2**31 - 1), (-(2**15), 2**15 - 1)
I64, COUNT, SIZE = (-(2**63), 2**63 - 1), (0, 65535), (-60000, 60000)
RANGES: Dict[str, Tuple[int, int]] = {
    "localDetail": I32,
    "maxServOutstandingCalling": I16,
    "maxServOutstandingCalled": I16,
    "dataStructureNestingLevel": (-128, 127),
    "versionNumber": I16,
    "numericAddress": U32,
    "ap-invocation-id": U32,
    "priority": (0, 127),
    "severity": (0, 255),
    "numberOfTokens": (1, 65535),
    "numberOfOwnedTokens": COUNT,
    "numberOfHungTokens": COUNT,
    "ulsmID": I32,
    "uploadSegment": I32,
    "terminateUploadSequence": I32,
    "uploadInProgress": (-128, 127),
    "numberOfEntries": (1, 2**31 - 1),
    "numberOfElements": (0, 4096),
    "additionalCode": I32,
    "Data unsigned": U32,
    "Type bit-string": SIZE,
    "Type octet-string": SIZE,
    "Type visible-string": SIZE,
    "Type integer": (8, 64),
    "Type unsigned": (8, 32),
}  # of numbers, by the component, where it matters behind the type that it is of; others have 64 bits
WIDTHS = {"Type integer": (8, 16, 32, 64), "Type unsigned": (8, 16, 32)}
LENGTHS: Dict[str, Tuple[int, int]] = {
    "listOfVariable": (1, 1024),
    "defineNamedVariableList listOfVariable": (1, 64),
    "createProgramInvocation listOfDomainName": (1, 16),
    "listOfCapabilities": (0, 16),
    "writeJournal listOfJournalEntry": (1, 64),
    "specific": (0, 65000),
}  # of lists, by the component, where it matters behind the service
SERVICES = {name.lower(): (k, name) for k, (name, _) in grammar.SERVICE.items()}
UNASKED = {name.lower(): (k, name) for k, (name, _) in grammar.UNASKED.items()}
PDUS = {name.lower(): k for k, (name, _) in grammar.PDU.items()}
PDUS.update({"initiate": 8, "conclude": 11, "cancel": 5, "error": 2})
INVOKED = (0, 1, 2)  # PDUs that have an invokeID, whatever they say


class BadWords(BadText):
    """Words that say no PDU: at which sign, counted from 1, and why."""

    def __init__(self, at: int, why: str):
        super().__init__(f"sign {at}: {why}")
        self.at, self.why = at, why


@dataclass(frozen=True)
class Token:
    """What stands between blanks. `kind` is that of the pattern, and of a bracket the bracket."""

    kind: str
    text: str
    at: int  # its first sign, from 1

    def shown(self) -> str:
        """As a message has it."""
        shown = {"name": f"{self.text}=", "label": f"{self.text}:", "text": f'"{self.text}"'}.get(self.kind, self.text)
        return f"`{shown[:40]}{' ..' if len(shown) > 40 else ''}`"


@dataclass(frozen=True)
class Written:
    """A PDU: its octets, its number in the table, and its invokeID where it has one."""

    octets: bytes
    pdu: int = -1
    invoke: Optional[int] = None


# ---------------------------------------------------------------- octets


def spelled(cls: int, constructed: bool, number: int, contents: bytes) -> bytes:
    """An element with the shortest tag and length."""
    first, size = cls << 6 | constructed << 5, len(contents)
    tag = bytes([first | number]) if number < 31 else bytes([first | 31]) + _base_128(number)
    octets = size.to_bytes((size.bit_length() + 7) // 8, "big")
    return tag + (bytes([size]) if size < 128 else bytes([128 | len(octets)]) + octets) + contents


def _base_128(number: int) -> bytes:
    """The octets of a tag's number from 31 on."""
    out = [number & 127]
    while number > 127:
        number >>= 7
        out.append(128 | number & 127)
    return bytes(out[::-1])


def integer(number: int) -> bytes:
    """The contents of an INTEGER, in the fewest octets."""
    return number.to_bytes((number if number >= 0 else ~number).bit_length() // 8 + 1, "big", signed=True)


def _bit_string(bits: str) -> bytes:
    """The contents of a bit string."""
    unused = -len(bits) % 8
    return bytes([unused]) + bytes(int(bits[i : i + 8].ljust(8, "0"), 2) for i in range(0, len(bits), 8))


# ---------------------------------------------------------------- words, read


def _tokens(said: str) -> List[Token]:
    """The tokens of the words; raises BadWords where a sign begins none."""
    out, at = [], 0
    while at < len(said):
        if said[at] in " \t,":
            at += 1
            continue
        m = TOKEN.match(said, at)
        if m is None:
            raise BadWords(at + 1, _unread(said[at]))
        kind = m.lastgroup or "word"
        out.append(Token(m[kind] if kind == "mark" else kind, m[kind], at + 1))
        at = m.end()
    return out


def _unread(sign: str) -> str:
    """Why no token begins with that sign."""
    why = {'"': "a text that has no second `\"`", "<": "`<` without pairs of hexadecimal digits and `>` behind it"}
    return why.get(sign, f"`{sign}` begins no word" if sign.isprintable() else "a sign that isn't printed")


class _Reader:
    """Reads values from tokens, left to right, each by its form."""

    def __init__(self, tokens: List[Token], end: int, edition: str, service: str = "", defaults=None):
        self.tokens, self.end, self.edition, self.service = tokens, end, edition, service
        self.defaults: Dict[str, str] = defaults or {}
        self.at, self.depth, self.is_open, self.within = 0, 0, True, ""

    def peek(self) -> Optional[Token]:
        """The next token, None where there is none."""
        return self.tokens[self.at] if self.at < len(self.tokens) else None

    def take(self, kind: str) -> bool:
        """Takes the next token, where it is of that kind."""
        t = self.peek()
        found = t is not None and t.kind == kind
        self.at += found
        return found

    def bad(self, why: str) -> BadWords:
        """What is wrong at the next token."""
        t = self.peek()
        return BadWords(t.at if t else self.end, why)

    def component(self, c: Component) -> bytes:
        """The element that the next tokens say, as that component."""
        t, form = self.peek(), grammar._resolved(c.form)
        if t is not None and t.kind == "raw":
            return _raw(self.pop(c.label))
        name = c.form if isinstance(c.form, str) else ""
        if isinstance(form, Form) and form.kind == "choice":
            inner = self.deeper(lambda: self.choice(form, name, c.label))
            return inner if c.number is None else spelled(2, True, c.number, inner)
        contents = self.deeper(lambda: self.contents(form, name, c.label))
        constructed = isinstance(form, Form)
        universal = 16 if isinstance(form, Form) else grammar.UNIVERSAL.get(form, 2)
        if c.number is None or c.explicit:
            contents = spelled(0, constructed, universal, contents)
        if c.number is None:
            return contents
        return spelled(2, constructed or c.explicit, c.number, contents)

    def deeper(self, read: Callable[[], bytes]) -> bytes:
        """What a value is whose parts stand one deeper."""
        self.depth += 1
        if self.depth > DEEPEST:
            raise self.bad(f"more than {DEEPEST // 2} brackets in brackets")
        out = read()
        self.depth -= 1
        return out

    def contents(self, form: Union[str, Form], name: str, label: str) -> bytes:
        """The contents of a value, a sequence or a list."""
        if isinstance(form, str):
            self.is_open = False
            return self.simple(form, label)
        if form.kind == "seq":
            return self.sequence(form, name, label)
        return self.listed(form.components[0], label)

    def listed(self, member: Component, label: str) -> bytes:
        """The members of a list: in brackets, or one; of a service's own list also without them."""
        is_open, self.is_open = self.is_open, False
        start, out = self.at, []
        close = "}" if label == "structure" and self.take("{") else "]" if self.take("[") else ""
        while close or not out or is_open and self.peek():
            if close and self.take(close):
                break
            if self.peek() is None or self.peek().kind in "}]":
                what = label or "a list"
                raise self.bad(f"the `{close}` of {what} is missing" if close else f"{what} is missing")
            out.append(self.component(member))
        least, most = LENGTHS.get(f"{self.service} {label}") or LENGTHS.get(label) or (0, MOST_PDU)
        if not least <= len(out) <= most:
            raise BadWords(self.tokens[start].at, f"{label} has {len(out)} members, and may have {least} to {most}")
        return b"".join(out)

    # ------------------------------------------------------------ a sequence

    def sequence(self, form: Form, name: str, label: str) -> bytes:
        """The components of a sequence: in braces, or one; of a service's own also without them."""
        is_open, self.is_open = self.is_open, False
        braced = not is_open and self.take("{")
        given: Dict[int, bytes] = {}
        while True:
            t = self.peek()
            if braced and self.take("}"):
                break
            if t is None or t.kind in "}]" or t.kind == "name" and not (is_open or braced):
                if braced:
                    raise self.bad(f"the `}}` of {label or 'a sequence'} is missing")
                break
            at = self.which(form, name, given, label)
            self.within = name
            given[at] = self.component_or_none(form.components[at])
            if not (is_open or braced):
                break
        return b"".join(given[i] if i in given else self.left_out(c, label) for i, c in enumerate(form.components))

    def component_or_none(self, c: Component) -> bytes:
        """The element of a component; nothing where `-` leaves it out."""
        t = self.peek()
        if t is None or (t.kind, t.text) != ("word", "-"):
            return self.component(c)
        if not c.optional:
            raise self.bad(f"{c.label} may not be left out")
        self.at += 1
        return b""

    def which(self, form: Form, name: str, given: Dict[int, bytes], label: str) -> int:
        """Which component the next tokens say; a name in front of it is taken."""
        t = self.peek()
        if t.kind == "name":
            labels = [c.label for c in form.components]
            at = next((i for i, x in enumerate(labels) if t.text in (x, SHORT.get(x))), None)
            if at is None:
                raise self.bad(f"{label or 'this'} has no `{t.text}`; it has {', '.join(labels)}")
            if at in given:
                raise self.bad(f"{t.text} stands twice")
            self.at += 1
            return at
        first = FIRST.get(name)
        for i, c in enumerate(form.components):
            if i not in given and (not c.optional or c.label == first):
                return i
        further = [c.label for i, c in enumerate(form.components) if i not in given]
        said = f"; what may still come has a name: {', '.join(f'{x}=' for x in further)}" if further else ""
        raise self.bad(f"{t.shown()} is one too many for {label or 'this'}; several in one list stand in `[ ]`{said}")

    def left_out(self, c: Component, label: str) -> bytes:
        """What stands for a component that isn't said."""
        if c.label in self.defaults:
            said = self.defaults[c.label]
            reader = _Reader(_tokens(said), len(said) + 1, self.edition, self.service, self.defaults)
            reader.is_open = False
            return reader.component(c)
        if not c.optional:
            raise self.bad(f"{label or 'this'} lacks {c.label or c.form}")
        return b""

    # ------------------------------------------------------------ a choice

    def choice(self, form: Form, name: str, label: str) -> bytes:
        """The alternative that the next token says, or that it can only be."""
        t = self.peek()
        if t is None or t.kind in "}]" or t.kind == "name":
            raise self.bad(f"{label or name or 'a choice'} is missing")
        self.within, found = ("Data" if name == "AccessResult" else name), None
        if t.kind == "label":
            found = next((c for c in form.components if t.text in (c.label, SHORT.get(c.label))), None)
            if found is None:
                return self.component(self.within_choice(form, name, label))
            self.at, self.is_open = self.at + 1, False
            return self.component(found)
        found = next((c for c in form.components if c.form == "NULL" and c.label == t.text), None)
        if found is not None:
            self.at += 1
            return spelled(2, False, found.number or 0, b"")
        if name == "Name":
            return self.name(label)
        found = self.by_its_signs(form) if name in ("Data", "AccessResult") else self.first(form, name)
        if found is None:
            raise self.none_of(form, name, label)
        return self.component(found)

    def within_choice(self, form: Form, name: str, label: str) -> Component:
        """The alternative that is a choice itself, of which the next token says an alternative; or that is a list."""
        said, first = self.peek().text, self.first(form, name)
        for c in form.components:
            inner = grammar._resolved(c.form)
            if isinstance(inner, Form) and inner.kind == "choice" and name != "Type":
                if any(said in (x.label, SHORT.get(x.label)) for x in inner.components):
                    return c
        if first is not None and getattr(grammar._resolved(first.form), "kind", "") == "list":
            return first
        raise self.none_of(form, name, label)

    def none_of(self, form: Form, name: str, label: str) -> BadWords:
        """That the next token is none of a choice."""
        kinds = ", ".join(c.label + ("" if c.form == "NULL" else ":") for c in form.components)
        what = " ".join(x for x in (label, f"({name})" if name and name != label else "") if x)
        return self.bad(f"{self.peek().shown()} is none of {what or 'the choice'}, which is one of {kinds}")

    def first(self, form: Form, name: str) -> Optional[Component]:
        """The alternative that a value is which doesn't say one."""
        c = form.components[0]
        has_parts = isinstance(grammar._resolved(c.form), Form)
        return c if len(form.components) == 1 or has_parts and name != "Type" else None

    def by_its_signs(self, form: Form) -> Optional[Component]:
        """The kind of data that a value is which doesn't say one."""
        t = self.peek()
        kind = {"{": "structure", "[": "array", "text": "visible-string"}.get(t.kind, "")
        if t.kind == "word":
            number = "integer" if re.fullmatch(r"-?[0-9]+", t.text) else ""
            real = "floating-point" if re.fullmatch(FLOAT, t.text) else ""
            kind = "boolean" if t.text in ("TRUE", "FALSE") else number or real
        return next((c for c in form.components if c.label == kind), None)

    def name(self, label: str) -> bytes:
        """An ObjectName by its signs: `T`, `D/T` or `@T`."""
        self.is_open = False
        t = self.pop(label or "a name")
        domain, slash, item = t.text.rpartition("/")
        own = t.text.startswith("@")
        parts = [t.text[1:]] if own else [domain, item] if slash else [t.text]
        if t.kind != "word":
            raise BadWords(t.at, f"{t.shown()} is no name")
        octets = [self.identifier(t, x) for x in parts]
        if slash and not own:
            return spelled(2, True, 1, b"".join(spelled(0, False, 26, x) for x in octets))
        return spelled(2, False, 2 if own else 0, octets[0])

    # ------------------------------------------------------------ one value

    def pop(self, label: str) -> Token:
        """The next token, which has to be there and to be a value."""
        t = self.peek()
        if t is None or t.kind in "}]":
            raise self.bad(f"{label or 'a value'} is missing")
        self.at += 1
        return t

    def simple(self, form: str, label: str) -> bytes:
        """The contents of a value that has no components."""
        if form == "NULL":
            return b""
        if form in grammar.BITS_OF and self.take("["):
            return self.named_bits(form, label)
        within, t = self.within, self.pop(label)
        if t.kind not in ("word", "text"):
            raise BadWords(t.at, f"{t.shown()} is no value of {label or form}")
        if t.kind == "word" and re.fullmatch(r"0x(?:[0-9A-Fa-f]{2})*", t.text):
            return bytes.fromhex(t.text[2:])
        if form == "Id":
            return self.identifier(t, t.text)
        return _read_value(t, form, label, within)

    def named_bits(self, form: str, label: str) -> bytes:
        """Bits by their names or numbers, behind a `[`."""
        numbers, on = {name: i for i, name in grammar.BITS_OF[form].items()}, set()
        while not self.take("]"):
            t = self.pop(f"the `]` of {label}")
            known = t.kind == "word" and (t.text in numbers or re.fullmatch(r"[0-9]{1,3}", t.text, re.ASCII))
            if not known:
                close = difflib.get_close_matches(t.text, numbers, 1)
                hint = f"; is it `{close[0]}`?" if close else ""
                raise BadWords(t.at, f"{t.shown()} is no bit of {label}{hint}")
            on.add(numbers[t.text] if t.text in numbers else int(t.text))
        most = max([*on, *grammar.BITS_OF[form]])
        return _bit_string("".join("1" if i in on else "0" for i in range(most + 1)))

    def identifier(self, t: Token, text: str) -> bytes:
        """The octets of an Identifier of the edition."""
        if t.kind != "word" or not is_name(text, self.edition):
            of = f"1 to {LONGEST[self.edition]} letters, digits, `_` and `$`, no digit first"
            raise BadWords(t.at, f"{t.shown()} is no name: a name has {of}")
        return text.encode("ascii")


FLOAT = r"-?[0-9]{1,400}(?:\.[0-9]{0,400})?(?:[eE][+-]?[0-9]{1,4})?d?"
CLOCK = r"([0-9]{2}):([0-9]{2}):([0-9]{2})\.([0-9]{3})(?:/([0-9]{1,5}))?"


def _raw(t: Token) -> bytes:
    """The octets of a raw element."""
    try:
        return bytes.fromhex(t.text[1:-1].replace("\t", " "))
    except ValueError:
        raise BadWords(t.at, f"{t.shown()} isn't pairs of hexadecimal digits") from None


def _read_value(t: Token, form: str, label: str, within: str) -> bytes:
    """The contents of a value of a type of the table, but for names of objects and named bits in brackets."""
    if form in ("VisibleString", "GraphicString", "UTF8"):
        return _text(t, form)
    if form == "OCTETS" and t.kind == "text":
        return _unescaped(t)
    if t.kind == "text" and (t.text or form != "BITS"):
        raise BadWords(t.at, f"{t.shown()} is a text, and {label or form} is none")
    if form == "BOOLEAN":
        return bytes([0xFF if _among(t, ("TRUE", "FALSE"), label) == "TRUE" else 0])
    if form == "BITS" or form in grammar.BITS_OF:
        if not re.fullmatch(r"[01]*", t.text):
            raise BadWords(t.at, f"{t.shown()} isn't a row of bits, 0 and 1")
        return _bit_string(t.text)
    if form in ("OCTETS", "TIME", "FLOAT", "UTC"):
        return _octets(t, form)
    if form == "NUMBER":
        return _number(t, label, (0, 2**64 - 1)).to_bytes(8, "big")
    if form == "ANY":
        raise BadWords(t.at, f"{label or 'this'} has no words: its element stands in octets, `<..>`")
    return integer(_enumerated(t, form, label, within))


def _among(t: Token, known, label: str) -> str:
    """The word, which has to be one of these."""
    if t.text in known:
        return t.text
    close = difflib.get_close_matches(t.text, known, 1)
    hint = f"is it `{close[0]}`?" if close else f"known are {', '.join(known)}"
    raise BadWords(t.at, f"{t.shown()} is no {label or 'word'} that is known; {hint}")


def _enumerated(t: Token, form: str, label: str, within: str) -> int:
    """A number, by its word where its type has words."""
    named = grammar.VALUES.get(form) or (grammar.VALUES.get(label, {}) if form == "INTEGER" else {})
    is_number = re.fullmatch(r"-?[0-9]+", t.text)
    if named and not is_number:
        word = _among(t, tuple(named.values()), label)
        return next(k for k, x in named.items() if x == word)
    if named:
        return _number(t, label, (0, 255 if form == "INTEGER" else max(named)))
    key = f"{within} {label}"
    number = _number(t, label, U32 if form == "MS" else RANGES.get(key) or RANGES.get(label) or I64)
    if key in WIDTHS and number not in WIDTHS[key]:
        raise BadWords(t.at, f"{number} is out of range: {label} has {', '.join(map(str, WIDTHS[key]))} bits")
    return number


def _number(t: Token, label: str, limits: Tuple[int, int]) -> int:
    """A number within limits."""
    digits = t.text[:-2] if t.text.endswith("ms") else t.text
    if not re.fullmatch(r"-?[0-9]+", digits):
        raise BadWords(t.at, f"{t.shown()} is no number, which {label or 'it'} is")
    number = int(digits) if len(digits) < 40 else limits[1] + 1
    if not limits[0] <= number <= limits[1]:
        raise BadWords(t.at, f"{t.shown()} is out of range: {label or 'it'} is {limits[0]} to {limits[1]}")
    return number


def _octets(t: Token, form: str) -> bytes:
    """The octets of a string of octets, of a time or of a floating-point number."""
    clock = re.fullmatch(CLOCK, t.text) if form == "TIME" else None
    if clock:
        h, m, s, ms = (int(x) for x in clock.groups()[:4])
        if h > 23 or m > 59 or s > 59 or int(clock[5] or 0) > 65535:
            most = "a time is at most 23:59:59.999, a day 65535"
            raise BadWords(t.at, f"{t.shown()} is out of range: {most}")
        octets = (((h * 60 + m) * 60 + s) * 1000 + ms).to_bytes(4, "big")
        return octets + (int(clock[5]).to_bytes(2, "big") if clock[5] else b"")
    if form == "FLOAT" and re.fullmatch(FLOAT, t.text):
        return _float(t)
    if form != "FLOAT" and re.fullmatch(r"(?:[0-9A-Fa-f]{2})+", t.text):
        return bytes.fromhex(t.text)
    what = {"TIME": "no time, hh:mm:ss.mmm or hh:mm:ss.mmm/day", "FLOAT": "no number, such as 1.5 or 1.5d"}
    raise BadWords(t.at, f"{t.shown()} is {what.get(form, 'not pairs of hexadecimal digits')}")


def _float(t: Token) -> bytes:
    """A floating-point number of 32 bits, and of 64 where `d` ends it."""
    number = float(t.text.rstrip("d"))
    try:
        out = b"\x0b" + struct.pack(">d", number) if t.text[-1] == "d" else b"\x08" + struct.pack(">f", number)
    except OverflowError:
        out = b""
    if not out or number in (float("inf"), -float("inf")):
        raise BadWords(t.at, f"{t.shown()} is out of range: too large for its bits")
    return out


def _text(t: Token, form: str) -> bytes:
    """The octets of a text, quoted or one word."""
    if form == "UTF8":
        return t.text.encode("utf-8", "replace")
    octets = _unescaped(t)
    if any(not 32 <= o < 127 for o in octets):
        raise BadWords(t.at, f"{t.shown()} has signs that are not ASCII from 20 to 7E")
    return octets


def _unescaped(t: Token) -> bytes:
    """The octets of a text in which a sign behind `\\` stands for itself, and `\\x41` for an octet."""
    if t.kind == "word":
        return t.text.encode("latin-1", "replace") if t.text.isascii() else b"\xff"
    out = re.sub(r"\\x([0-9A-Fa-f]{2})|\\(.)", lambda m: chr(int(m[1], 16)) if m[1] else m[2], t.text)
    try:
        return out.encode("latin-1")
    except UnicodeEncodeError:
        raise BadWords(t.at, f"{t.shown()} has signs that are no octets") from None


# ---------------------------------------------------------------- a PDU


def written(said: str, request: int = 1, answer: int = 1, edition: str = "2") -> Written:
    """The PDU that these words say; the invokeID, where they have none, is the one of requests or of answers. A line of
    `explain` says its own."""
    from . import told

    line = told.pdu(said, edition)
    if line is not None:
        return line
    tokens, invoke = _without_invoke(_tokens(said), len(said) + 1)
    if not tokens:
        raise BadWords(1, "no words: a PDU is a service, Initiate, Conclude, Cancel, Error, Reject or answer")
    if tokens[0].kind == "raw" and len(tokens) == 1:
        return _bounded(Written(_raw(tokens[0])))
    pdu, c, used = _kind(tokens, len(said) + 1)
    if invoke is not None and pdu not in INVOKED:
        raise BadWords(1, f"{tokens[0].shown()} has no invoke=; what it names has a component of its own")
    service = grammar.SERVICE[c.number][0] if pdu in (0, 1) else ""
    reader = _Reader(tokens[used:], len(said) + 1, edition, service, PROPOSAL if pdu == 8 else None)
    number = invoke if invoke is not None else answer if pdu in (1, 2) else request
    if service == "status" and pdu == 0 and reader.peek() is None:
        octets = spelled(2, False, 0, b"\0")
    else:
        octets = reader.component(c)
    if reader.peek() is not None:
        raise reader.bad(f"{reader.peek().shown()} is one too many; several in one list stand in `[ ]`")
    return _bounded(_framed(pdu, octets, number, invoke))


def _framed(pdu: int, octets: bytes, number: int, invoke: Optional[int]) -> Written:
    """The PDU round what was read."""
    if pdu in (0, 1):
        return Written(spelled(2, True, pdu, spelled(0, False, 2, integer(number)) + octets), pdu, number)
    if pdu == 2:
        return Written(spelled(2, True, 2, spelled(2, False, 0, integer(number)) + octets), 2, number)
    if pdu == 3:
        return Written(spelled(2, True, 3, octets), 3)
    return Written(octets, pdu, invoke)


def _bounded(w: Written) -> Written:
    """The PDU, which may not be longer than a line of a recording takes."""
    if not 1 <= len(w.octets) <= MOST_PDU:
        raise BadWords(1, f"the PDU has {len(w.octets)} octets, and may have 1 to {MOST_PDU}")
    return w


def _without_invoke(tokens: List[Token], end: int) -> Tuple[List[Token], Optional[int]]:
    """The tokens without `invoke=N`, and N."""
    out, invoke, depth, skip = [], None, 0, False
    for i, t in enumerate(tokens):
        depth += (t.kind in "{[") - (t.kind in "}]")
        if skip:
            skip = False
        elif depth == 0 and (t.kind, t.text) == ("name", "invoke"):
            if invoke is not None:
                raise BadWords(t.at, "invoke stands twice")
            if i + 1 == len(tokens) or tokens[i + 1].kind != "word":
                raise BadWords(end if i + 1 == len(tokens) else tokens[i + 1].at, "the number of invoke is missing")
            invoke, skip = _number(tokens[i + 1], "invoke", U32), True
        else:
            out.append(t)
    return out, invoke


def _kind(tokens: List[Token], end: int) -> Tuple[int, Component, int]:
    """The number of the PDU, what is behind its name, and how many tokens its name has."""
    t, head = tokens[0], tokens[0].text.lower() if tokens[0].kind == "word" else ""
    if head == "answer":
        if len(tokens) < 2:
            raise BadWords(end, "the service that is answered is missing")
        t, head = tokens[1], tokens[1].text.lower()
        if head not in SERVICES or t.kind != "word":
            raise BadWords(t.at, _unknown(t, SERVICES, "service"))
        k, name = SERVICES[head]
        return 1, Component(name, k, False, grammar.SERVICE[k][1][1], False), 2
    if head in SERVICES:
        k, name = SERVICES[head]
        return 0, Component(name, k, False, grammar.SERVICE[k][1][0], False), 1
    if head in UNASKED:
        k, name = UNASKED[head]
        return 3, Component(name, k, False, grammar.UNASKED[k][1][0], False), 1
    if head in PDUS and PDUS[head] not in (0, 1, 3):
        pdu = PDUS[head]
        name, (form,) = grammar.PDU[pdu]
        if pdu == 2:
            return 2, Component("serviceError", 2, False, "ServiceError", False), 1
        return pdu, Component(name, pdu, False, form, False), 1
    raise BadWords(t.at, _unknown(t, {**SERVICES, **UNASKED, **PDUS}, "service and no PDU"))


def _unknown(t: Token, known, what: str) -> str:
    """That a word is none of these, and which of them it may be meant for."""
    close = difflib.get_close_matches(t.text[:60].lower(), list(known), 1)
    hint = ""
    if close:
        found = known[close[0]]
        name = found[1] if isinstance(found, tuple) else close[0]
        hint = f"; is it `{name[:1].upper()}{name[1:]}`?"
    return f"{t.shown()} is no {what}{hint}"


# ---------------------------------------------------------------- a recording


def recording(text: str) -> str:
    """The text of a recording whose lines in words are PDUs, each below its words; raises BadText with the line."""
    return _changed(text, Numbers())


class Numbers:
    """The invokeIDs that the requests and the answers of each client have next."""

    def __init__(self) -> None:
        self.next: Dict[int, List[int]] = {}

    def of(self, client: int) -> List[int]:
        return self.next.setdefault(client, [1, 1])

    def note(self, client: int, pdu: int, invoke: Optional[int]) -> None:
        """That the client sent such a PDU."""
        if pdu == 8:
            self.next[client] = [1, 1]
        elif pdu in INVOKED and invoke is not None:
            self.of(client)[pdu > 0] = (invoke + 1) % 2**32

    def heard(self, one: Event) -> None:
        """That such octets were sent."""
        s = words.say(one.octets)
        self.note(one.client, PDUS.get(s.pdu.lower(), -1), s.invoke)


def _changed(text: str, numbers: Numbers) -> str:
    """The same, with the numbers that come next."""
    lines = text.split("\n")
    first = lines[0].rstrip("\r")
    if first not in ("mms-recording 1", "mms-recording 2"):
        raise BadText("line 1: no recording, which begins with `mms-recording 1` or `mms-recording 2`")
    plain = [line.rstrip("\r") for line in lines]
    if "config" not in plain[1:2] or "end" not in plain[2:]:
        raise BadText("line 2: `config` and, behind the configuration, `end` are missing")
    body = plain.index("end", 2) + 1
    out = lines[:body]
    for n, line in enumerate(plain[body:], body + 1):
        out += _line(line, n, numbers, first[-1])
    return "\n".join(out)


def _line(line: str, n: int, numbers: Numbers, edition: str) -> Iterator[str]:
    """The line, or the words of a PDU as a comment, and the PDU."""
    m = re.match(r"[ \t]*([0-9]{1,9})[ \t]*:", line)
    if not m:
        bare = line.strip(" \t")
        one = event(bare, edition)
        if bare and bare != "phase" and bare[0] != "#" and one is None:
            raise BadText(f"line {n}: {bare[:60]}: neither an event nor a PDU in words, `1: Read Speed`")
        if one is not None and one.kind == "heard":
            numbers.heard(one)
        yield line
        return
    client = int(m[1])
    request, answer = numbers.of(client)
    try:
        w = written(line[m.end() :], request, answer, edition)
    except BadWords as bad:
        raise BadText(f"line {n}, sign {bad.at + m.end()}: {bad.why}") from None
    numbers.note(client, w.pdu, w.invoke)
    yield "# " + line.strip(" \t")
    yield f"{client} {w.octets.hex().upper()}"


# ---------------------------------------------------------------- the command


def command(said: str, text: Optional[str], invoke: Optional[int], edition: str) -> str:
    """What `mms write` writes: of words, or of the text of a recording."""
    if text is not None:
        if invoke is not None:
            raise BadText("--invoke is of one PDU; a line of a recording has `invoke=N`")
        out = recording(text)
        return out if out.endswith("\n") else out + "\n"
    if re.fullmatch(r"\S*(?:\.mms|/\S*\.\w+)", said):
        raise BadText(f"{said}: no such file")
    number = 1 if invoke is None else invoke
    if not 0 <= number < 2**32:
        raise BadText(f"--invoke {number} is out of range: an invokeID is 0 to {2**32 - 1}")
    return written(said, number, number, edition).octets.hex().upper() + "\n"
