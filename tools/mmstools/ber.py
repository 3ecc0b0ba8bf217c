"""Elements of the basic encoding rules (ITU-T X.690), read as far as they can be read and never with an exception."""

from dataclasses import dataclass, field
from typing import Iterator, List, Optional, Tuple

DEEPEST = 64  # parts below that depth are not looked at
LONGEST_LENGTH = 8  # octets behind 81 to 88
END_OF_CONTENTS = b"\0\0"
UNENDED = "an indefinite length that does not end"
UNFIT = "an indefinite length, which no primitive element has"


@dataclass(slots=True)
class Element:
    """One element: where it stands in its octets, its tag, and its parts where it is constructed."""

    octets: bytes  # the octets in which `at` and the others count
    at: int  # of the first octet of the tag
    tag_end: int  # behind the tag
    start: int  # of the contents, behind the length
    end: int  # behind the contents
    cls: int  # 0 universal, 1 application, 2 context, 3 private
    constructed: bool
    number: int
    parts: List["Element"] = field(default_factory=list)
    flaw: str = ""  # what is wrong with it, where something is
    is_ended: bool = False  # its length is indefinite, and its end stands behind the contents

    @property
    def contents(self) -> bytes:
        return self.octets[self.start : self.end]

    @property
    def tag(self) -> Tuple[int, int]:
        return self.cls, self.number

    @property
    def is_indefinite(self) -> bool:
        return self.octets[self.tag_end : self.start] == b"\x80"

    def walk(self) -> Iterator["Element"]:
        """The element and all parts of it, each before its own."""
        yield self
        for part in self.parts:
            yield from part.walk()

    def find(self, number: int, cls: int = 2) -> Optional["Element"]:
        """The first part with that tag."""
        return next((p for p in self.parts if p.tag == (cls, number)), None)


def elements(octets: bytes, at: int = 0, end: Optional[int] = None, depth: int = 0) -> List[Element]:
    """The elements that stand in octets[at:end]. Where one can't be read, it reaches to the end and says its flaw."""
    end = len(octets) if end is None else end
    out = []
    while at < end:
        one = _element(octets, at, end)
        if one.constructed and not (one.flaw and one.start >= one.end):
            if depth >= DEEPEST:
                one.flaw = one.flaw or "nests too deep to be shown"
            else:
                one.parts = elements(octets, one.start, one.end, depth + 1)
        out.append(one)
        at = max(one.end, at + 1)
        if one.is_ended:
            at = one.end + 2
    return out


def _element(octets: bytes, at: int, end: int) -> Element:
    """The element that begins at octets[at], without its parts."""
    first = octets[at]
    one = Element(octets, at, at + 1, end, end, first >> 6, bool(first & 0x20), first & 0x1F)
    number, one.tag_end = _number(octets, at, end)
    if number is None:
        one.flaw = "the tag ends too early"
        return one
    one.number = number
    size, start, flaw = _length(octets, one.tag_end, end)
    if not flaw and size is None:
        size = _before_end_of_contents(octets, start, end) if one.constructed else None
        one.is_ended = size is not None
        flaw = "" if one.is_ended else UNENDED if one.constructed else UNFIT
    if flaw or size is None:
        one.flaw = flaw
        return one
    one.start, one.end = start, min(start + size, end)
    if start + size > end:
        one.flaw = f"says {size} octets, and there are {end - start}"
    return one


def _number(octets: bytes, at: int, end: int) -> Tuple[Optional[int], int]:
    """The number of the tag at octets[at], None where it is cut off, and where the tag ends."""
    if octets[at] & 0x1F != 0x1F:
        return octets[at] & 0x1F, at + 1
    number = 0
    for i in range(at + 1, end):
        number = number << 7 | octets[i] & 0x7F
        if octets[i] < 0x80:
            return number, i + 1
        if number >= 1 << 63:
            return None, i + 1
    return None, end


def _length(octets: bytes, at: int, end: int) -> Tuple[Optional[int], int, str]:
    """The length at octets[at], None where it is indefinite; where the contents begin; and what is wrong with it."""
    if at >= end:
        return None, end, "there is no length"
    count = octets[at] & 0x7F
    if octets[at] < 0x80:
        return octets[at], at + 1, ""
    if count == 0:
        return None, at + 1, ""
    if count > LONGEST_LENGTH:
        return None, end, "the length has too many octets"
    if at + 1 + count > end:
        return None, end, "the length is cut off"
    return int.from_bytes(octets[at + 1 : at + 1 + count], "big"), at + 1 + count, ""


def _before_end_of_contents(octets: bytes, at: int, end: int) -> Optional[int]:
    """How many octets stand before the end-of-contents that ends the element whose contents begin at octets[at]."""
    start, opened = at, 1
    while at < end:
        if octets[at : at + 2] == END_OF_CONTENTS:
            opened -= 1
            if opened == 0:
                return at - start
            at += 2
            continue
        number, tag_end = _number(octets, at, end)
        size, inner, flaw = _length(octets, tag_end, end)
        if number is None or flaw or size is not None and inner + size > end:
            return None
        if size is None:
            opened += 1
        at = inner + (size or 0)
    return None


def integer(contents: bytes) -> Optional[int]:
    """The number in two's complement, None where there is no octet."""
    return int.from_bytes(contents, "big", signed=True) if contents else None
