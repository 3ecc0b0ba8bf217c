"""A line of `explain`, written again: `TakeControl T, delay 5 ms, request, invokeID 2`, as it stands above a PDU's elements.

What a line doesn't say stands as mmscell spells it: data are integers where unsigned ones look alike, a proposal has the
options of `Initiate`. Values that a line shortens (`..`) can't be written."""

import re
from typing import Dict, List, Optional, Set

from . import grammar, words, write
from .grammar import Component, Form
from .write import BadWords, Token, Written, spelled

LINE = re.compile(r"(?P<said>.+?)(?:, (?P<kind>request|response))?, invokeID (?P<invoke>[0-9]{1,10})\s*")
UNNUMBERED = re.compile(r"(?P<said>initiate-Request PDU .+)(?P<kind>)(?P<invoke>)")
REFUSALS = (
    (r"reject", lambda n: f"Reject originalInvokeID={n}"),
    (r"reject (\S+) \((\S+)\)", lambda n, why, of: f"Reject originalInvokeID={n} {of}={why}"),
    (r"cancel-Error (\S+)", lambda n, why: f"cancel-Error originalInvokeID={n} {why}"),
    (r"error (\S+)", lambda n, why: f"Error {why}"),
    (
        r"error (\S+), (\w+) found it (\w+)",
        lambda n, why, of, state: f"Error {why} serviceSpecificInformation={of.lower()}:{state}",
    ),
)  # what is refused, and how it is written in the words of `mms write`
NAMED = ("Name", "Variable", "VariableDef", "Access")  # forms whose values are names
CLASSES = "|".join(c.label for c in grammar.NAMED["ServiceError"].components[0].form.components)
WORDS = {**words.SHORT, "applicationToPreempt": "preempt", "localDetail": "PDU", **write.SHORT}
BEHIND = {"ms", "not", "deleted", "removed", "done"}  # words that say no value
OWN = {("uploadSegment", "upload"), ("terminateUploadSequence", "upload"), ("cancel-Request", "invokeID")}
OWN |= {("cancel-Response", "invokeID"), ("Application", "client")}
RARE = {"bcd", "booleanArray", "objId", "generalized-time"}  # kinds of data that a line names
SCOPES = {"VMD": 0, "association": 2}


def pdu(said: str, edition: str) -> Optional[Written]:
    """The PDU of a line of `explain`, None where the words aren't one; raises BadWords where it can't be written."""
    line = LINE.fullmatch(said) or UNNUMBERED.fullmatch(said)
    if line is None:
        return None
    body, number = re.sub(rf"\b({CLASSES}): (?=[a-z])", r"\1:", line["said"]), int(line["invoke"] or 0)
    for pattern, again in REFUSALS:
        found = re.fullmatch(pattern, body)
        if found:
            return write.written(again(number, *found.groups()), number, number, edition)
    tokens = _tokens(("answer " if line["kind"] == "response" else "") + body)
    kind, c, used = write._kind(tokens, len(said) + 1)
    reader = _Told(tokens[used:], len(said) + 1, edition, c.label if kind in (0, 1) else "", kind)
    octets = reader.whole(c)
    reader.skip(BEHIND)
    if reader.peek() is not None:
        raise reader.bad(f"{reader.peek().shown()} can't be written as a line of `explain`")
    return write._bounded(write._framed(kind, octets, number, None))


def _tokens(said: str) -> List[Token]:
    """The tokens of a line; a `;` stands alone."""
    out: List[Token] = []
    for t in write._tokens(said):
        parts = [t.text[:-1], ";"] if t.kind == "word" and len(t.text) > 1 and t.text.endswith(";") else [t.text]
        out += [t] if len(parts) == 1 else [Token("word", x, t.at) for x in parts]
    return out


class _Told(write._Reader):
    """Reads the values of a line of `explain`."""

    def __init__(self, tokens: List[Token], end: int, edition: str, service: str, pdu: int):
        super().__init__(tokens, end, edition, service, write.PROPOSAL if pdu == 8 else None)
        self.pdu, self.labels = pdu, [set()]  # the words that name a component of what is being read
        self.kept = 0  # how many words a list leaves

    # ------------------------------------------------------------ words

    def word(self, ahead: int = 0) -> str:
        """The next word, or the one behind it; empty where it is none."""
        t = self.tokens[self.at + ahead] if self.at + ahead < len(self.tokens) else None
        return t.text if t is not None and t.kind == "word" else ""

    def skip(self, known: Set[str]) -> bool:
        """Skips words that are among these."""
        first = self.at
        while self.word() in known:
            self.at += 1
        return self.at > first

    def left(self) -> int:
        """How many words are left."""
        return len(self.tokens) - self.at

    def names(self, c: Component) -> Set[str]:
        """The words that name a component in a line."""
        return {x for x in (c.label, WORDS.get(c.label)) if x}

    # ------------------------------------------------------------ forms

    def whole(self, c: Component) -> bytes:
        """What a service asks with or is answered with."""
        if self.service == "write" and self.pdu == 0:
            return spelled(2, True, 5, self.write())
        if self.service == "status" and self.pdu == 0:
            return spelled(2, False, 0, b"\xff" if self.skip({"extended"}) else b"\0")
        if self.service == "takeControl" and self.pdu == 1:
            self.skip({"granted"})
            inner = spelled(2, False, 1, self.named()) if self.skip({"token"}) else spelled(2, False, 0, b"")
            return spelled(2, True, 19, inner)
        return self.component(c)

    def named(self) -> bytes:
        """An Identifier."""
        t = self.pop("a name")
        return self.identifier(t, t.text)

    def write(self) -> bytes:
        """What a Write asks: each variable with what it is to have, or all of them with all data."""
        pairs = sum(t.text == "=" for t in self.tokens) > 1
        variable, data = Component("", None, False, "VariableDef", False), Component("", None, False, "Data", False)
        names, values = [], []
        listed = self.component(Component("", 1, False, "Name", False)) if self.skip({"list"}) else b""
        while self.peek() is not None:
            while self.peek() is not None and self.word() != "=" and not listed:
                names.append(self.component(variable))
            if not self.skip({"="}):
                raise self.bad("`=` is missing")
            while self.peek() is not None and (not pairs or len(values) < len(names)):
                values.append(self.component(data))
        access = listed or spelled(2, True, 0, b"".join(names))
        return access + spelled(2, True, 0, b"".join(values))

    def sequence(self, form: Form, name: str, label: str) -> bytes:
        """The components of a sequence, of which a line names most."""
        given: Dict[int, bytes] = {}
        self.labels.append({x for c in form.components for x in self.names(c)})
        while self.peek() is not None and self.peek().kind not in "}]":
            if given and label.startswith("defineNamedVariable"):
                self.skip({"="})
            at = self.which_told(form, name, given)
            if at is None:
                break
            given[at] = self.component_or_none(form.components[at])
        self.labels.pop()
        follows = next((i for i, c in enumerate(form.components) if c.label == "moreFollows"), None)
        if follows is not None and follows not in given:
            more = self.skip({"more", "follow"})
            if not (more and self.service == "downloadSegment"):
                given[follows] = spelled(2, False, form.components[follows].number or 0, b"\xff" if more else b"\0")
        return b"".join(given[i] if i in given else self.left_out(c, label) for i, c in enumerate(form.components))

    def which_told(self, form: Form, name: str, given: Dict[int, bytes]) -> Optional[int]:
        """Which component comes next, whose name is skipped; None where none does."""
        said, first = self.word(), write.FIRST.get(name)
        if said == "more" and self.word(1) == "follow":
            return None
        left = [(i, c) for i, c in enumerate(form.components) if i not in given]
        free = next((i for i, c in left if not c.optional or c.label == first), None)
        named = next((i for i, c in left if said in self.names(c)), None)
        if named is not None and (free is None or not self.may_be_name(form.components[free], named == free)):
            self.at += 1
            return named
        self.skip({own for of, own in OWN if of == name})
        if name == "Deletion" and given.get(0, b"").endswith(b"\2"):  # of a domain, whose name stands last
            self.kept = 1
            free = next((i for i, c in left if c.label == "domainName"), free) if self.left() == 1 else free
        if self.is_type():
            free = next((i for i, c in left if c.form == "Type"), free)
        if said == "list":
            free = next((i for i, c in left if c.form == "Access"), free)
        if said == "cell":
            free = next((i for i, c in left if c.form in ("Address", "Variable")), free)
        return free

    def may_be_name(self, c: Component, is_own: bool) -> bool:
        """Whether the next word is a value of the component, and not the name of one."""
        behind = self.word(1)
        if behind in ("TRUE", "FALSE") or behind in grammar.VALUES["ScopeOfDelete"].values():
            return False
        if is_own:
            return c.label in words.UNNAMED or c.label in words.NAMES
        form = grammar._resolved(c.form)
        while isinstance(form, Form) and form.kind == "list":
            c, form = form.components[0], grammar._resolved(form.components[0].form)
        return form == "Id" or c.form in NAMED

    def listed(self, member: Component, label: str) -> bytes:
        """The members of a list, up to the name of a component."""
        out, close = [], "}" if self.take("{") else "]" if self.take("[") else ""
        if not close and self.word() == "none":
            self.at += 1
            return b""
        while not (close and self.take(close)):
            if self.peek() is None:
                if close:
                    raise self.bad(f"the `{close}` of {label or 'a list'} is missing")
                break
            first = self.at
            ends = out and (self.is_label(member) or self.left() <= self.kept) or self.peek().kind in "}]"
            if not close and (ends or self.follows()):
                break
            out.append(self.component(member))
            if self.at == first:
                raise self.bad(f"{self.peek().shown()} is no member of {label or 'a list'}")
            self.skip({";"})
        return b"".join(out)

    def follows(self) -> bool:
        """Whether a line ends so."""
        return (self.word(), self.word(1)) == ("more", "follow")

    def is_label(self, member: Component) -> bool:
        """Whether the next word names a component of what holds the list."""
        form = grammar._resolved(member.form)
        own = {x for c in form.components for x in self.names(c)} if isinstance(form, Form) and form.kind == "seq" else set()
        return self.word() == "=" or self.word() not in own and any(self.word() in some for some in self.labels)

    def choice(self, form: Form, name: str, label: str) -> bytes:
        """The alternative that a line shows, by its name or by its sign."""
        if label == "objectScope":
            return self.scope()
        if name == "Type":
            return self.type_of()
        if name in ("Variable", "Address") and self.word() == "cell" and self.word(1).isdigit():
            self.at += 1
            number = self.component(grammar.NAMED["Address"].components[0])
            return spelled(2, True, 1, number) if name == "Variable" else number
        if name == "EventTime" and re.fullmatch(write.CLOCK, self.word()):
            return self.component(form.components[0])
        kind = self.by_its_look() if name in ("Data", "AccessResult") else ""
        if name in ("Data", "AccessResult") and self.word() in RARE and self.left() > 1:
            kind = self.pop("a kind").text
        if kind:
            return self.component(next(c for c in form.components if c.label == kind))
        failure = next((c for c in form.components if c.form == "DataAccessError"), None)
        if failure is not None and self.word() in grammar.VALUES["DataAccessError"].values():
            return self.component(failure)
        if name == "Access" and self.word() == "list" and self.word(1):
            self.at += 1
            return self.component(form.components[1])
        found = next((c for c in form.components if self.word() in self.names(c)), None)
        if found is not None and name not in ("Name", "Data", "AccessResult", "Variable", "Access") and found.form != "NULL":
            self.at += self.tokens[self.at + 1 : self.at + 2] != []
            return self.component(found)
        self.is_open = False
        return super().choice(form, name, label)

    def by_its_look(self) -> str:
        """The kind of data that the next words are, where a line shows it otherwise than `mms write` has it."""
        said, pair = self.word(), r"[0-9A-F]{2}"
        if re.fullmatch(write.CLOCK, said):
            return "binary-time"
        if said == "(no" or re.fullmatch(r"0[01]{2,}", said):
            return "bit-string"
        if said == "(empty)" or re.fullmatch(r"0[0-9]|" + pair + r"(?<!\d\d)", said):
            return "octet-string"
        if not re.fullmatch(pair, said) or not re.fullmatch(pair, self.word(1)):
            return ""
        return "octet-string" if self.tokens[self.at + 1].at == self.tokens[self.at].at + 3 else ""

    def scope(self) -> bytes:
        """The scope of a list of names: `of the VMD`, `of domain D`, `of the association`."""
        self.skip({"of", "the"})
        t = self.pop("a scope")
        if t.text == "domain":
            return spelled(2, False, 1, self.named())
        if t.text not in SCOPES:
            raise BadWords(t.at, f"{t.shown()} is no scope")
        return spelled(2, False, SCOPES[t.text], b"")

    # ------------------------------------------------------------ types and values

    def is_type(self) -> bool:
        """Whether a type of data is next."""
        return any(self.word() == c.label for c in grammar.NAMED["Type"].components)

    def type_of(self) -> bytes:
        """A type of data: `integer 32`, `array of 3 boolean`, `structure {a boolean}`."""
        t = self.pop("a type")
        c = next((c for c in grammar.NAMED["Type"].components if c.label == t.text), None)
        if c is None or c.label == "typeName":
            raise BadWords(t.at, f"{t.shown()} is no type")
        if c.label == "array":
            self.skip({"of"})
            count = spelled(2, False, 1, write.integer(write._number(self.pop("a count"), "numberOfElements", (0, 4096))))
            return spelled(2, True, 1, count + spelled(2, True, 2, self.type_of()))
        if c.label == "structure":
            return spelled(2, True, 2, spelled(2, True, 1, self.components()))
        if c.label == "floating-point":
            t = self.pop("widths")
            widths = [write._number(Token("word", x, t.at), "a width", write.I32) for x in t.text.split("/")]
            return spelled(2, True, 7, b"".join(spelled(0, False, 2, write.integer(x)) for x in widths))
        self.within = "Type"
        return self.component(c)

    def components(self) -> bytes:
        """The components of the type of a structure."""
        out = []
        if not self.take("{"):
            raise self.bad("the `{` of structure is missing")
        while not self.take("}"):
            name = b"" if self.is_type() else spelled(2, False, 0, self.named())
            out.append(spelled(0, True, 16, name + spelled(2, True, 1, self.type_of())))
        return b"".join(out)

    def simple(self, form: str, label: str) -> bytes:
        """The contents of a value that has no components, with what a line says behind it."""
        self.skip({own for of, own in OWN if of == label})
        if form == "OCTETS":
            return self.octets()
        if form in grammar.BITS_OF and self.peek() is not None and self.peek().kind != "[":
            return self.bits(form)
        if form == "BITS" and (self.word(), self.word(1)) == ("(no", "bits)"):
            self.at += 2
            return b"\0"
        out = super().simple(form, label)
        if form == "MS":
            self.skip({"ms"})
        elif form == "TIME" and self.word() == "day" and len(out) == 4:
            self.at += 1
            out += write._number(self.pop("a day"), "day", (0, 65535)).to_bytes(2, "big")
        return out

    def octets(self) -> bytes:
        """Octets, with blanks between them."""
        out = b""
        if self.skip({"(empty)"}):
            return out
        while re.fullmatch(r"(?:[0-9A-F]{2})+", self.word()):
            out += bytes.fromhex(self.pop("octets").text)
        return out

    def bits(self, form: str) -> bytes:
        """Bits by their names."""
        numbers = {name: i for i, name in grammar.BITS_OF[form].items()}
        on: Set[int] = set()
        self.skip({"(none)"})
        while self.word() in numbers:
            on.add(numbers[self.pop("a bit").text])
        return write._bit_string("".join("1" if i in on else "0" for i in range(max(numbers.values()) + 1)))

