"""Elements of the basic encoding rules (X.690) as these layers write and read them, one level at a time.

A level is read without what is in it: so a PDU of MMS in it may be any octets, and a message takes a time that grows
with its length alone."""
from typing import List, NamedTuple, Optional, Tuple

MOST_PARTS = 4096  # of one level; no message of these layers has as many
MOST_OPENED = 64  # indefinite lengths within one another
CUT = "an element ends behind its octets"
MANY = "more elements than any message has"


class Broken(Exception):
    """What came breaks the rules of a layer, which is named; the connection ends. `code` is what that layer tells."""

    def __init__(self, layer: str, words: str, code: int = 0):
        super().__init__(f"{layer}: {words}")
        self.layer, self.words, self.code = layer, words, code


class Ended(Exception):
    """The other end ended or refused the connection, in the layer that is named."""

    def __init__(self, layer: str, words: str):
        super().__init__(f"{layer}: {words}")
        self.layer, self.words = layer, words


class Part(NamedTuple):
    """An element: the octets of its tag as a number, and its contents."""

    tag: int
    contents: bytes


def tlv(tag: int, *parts: bytes) -> bytes:
    """An element with a tag of one octet, in the fewest octets."""
    body = b"".join(parts)
    n = len(body)
    if n < 128:
        return bytes((tag, n)) + body
    size = (n.bit_length() + 7) // 8
    return bytes((tag, 0x80 | size)) + n.to_bytes(size, "big") + body


def integer(n: int, tag: int = 2) -> bytes:
    """An INTEGER, or what stands for one under another tag."""
    return tlv(tag, n.to_bytes(n.bit_length() // 8 + 1, "big", signed=True))


def number(contents: Optional[bytes]) -> Optional[int]:
    """The number of an INTEGER's contents, None where there is none."""
    return int.from_bytes(contents, "big", signed=True) if contents else None


def cut(octets: bytes) -> Tuple[List[Part], str]:
    """The elements that stand in the octets, up to the first that can't be read, and what is wrong with that."""
    out: List[Part] = []
    at = 0
    while at < len(octets):
        head = _head(octets, at)
        if head is None:
            return out, CUT
        tag, start, size = head
        end = _ended(octets, start) if size is None else start + size
        if end is None or end > len(octets):
            return out, CUT
        if len(out) >= MOST_PARTS:
            return out, MANY
        out.append(Part(tag, octets[start:end]))
        at = end + (2 if size is None else 0)
    return out, ""


def parts(octets: Optional[bytes], layer: str, what: str) -> List[Part]:
    """The elements that stand in the octets of a message of this layer; raises Broken where one can't be read."""
    if octets is None:
        raise Broken(layer, f"{what} is missing")
    found, flaw = cut(octets)
    if flaw:
        raise Broken(layer, f"{what}: {flaw}")
    return found


def first(found: List[Part], tag: int) -> Optional[bytes]:
    """The contents of the first element with that tag."""
    return next((p.contents for p in found if p.tag == tag), None)


def _head(octets: bytes, at: int) -> Optional[Tuple[int, int, Optional[int]]]:
    """The tag at octets[at], where its contents begin, and how many they are, None where the length is indefinite."""
    end, tag = len(octets), octets[at]
    at += 1
    if tag & 0x1F == 0x1F:
        while at < end and tag < 1 << 40:
            tag = tag << 8 | octets[at]
            at += 1
            if not tag & 0x80:
                break
        else:
            return None
    if at >= end:
        return None
    size = octets[at]
    at += 1
    if size < 0x80:
        return tag, at, size
    count = size & 0x7F
    if count == 0:
        return tag, at, None
    if count > 8 or at + count > end:
        return None
    return tag, at + count, int.from_bytes(octets[at : at + count], "big")


def _ended(octets: bytes, at: int) -> Optional[int]:
    """Where the end-of-contents stands that ends the element whose contents begin at octets[at]."""
    opened, looked = 1, 0
    while at < len(octets):
        if octets[at : at + 2] == b"\0\0":
            opened -= 1
            if not opened:
                return at
            at += 2
            continue
        head = _head(octets, at)
        looked += 1
        if head is None or opened > MOST_OPENED or looked > MOST_PARTS:
            return None
        _, at, size = head
        opened, at = (opened + 1, at) if size is None else (opened, at + size)
    return None
