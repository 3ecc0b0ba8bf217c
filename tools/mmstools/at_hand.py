"""Octets as a person has them at hand: pairs of digits, a line of a recording or a report, `a0:06`, `0xA006`, a C array,
`\\xA0\\x06`, or a hexdump as hexdump, xxd, od and Wireshark print it."""

import re
from typing import Iterator, List, Optional

from .words import say

PAIRS = r"[0-9A-Fa-f]{2}(?:[ \t]*[0-9A-Fa-f]{2})*"
LINE = re.compile(rf"[ \t]*(?:>|(?:[0-9]{{1,9}}[ \t]+)?[0-9]{{1,9}})[ \t]+({PAIRS})[ \t]*")
MARKED = re.compile(r"[ \t]*(?:client [0-9]+|phase(?: [0-9]+)?|> abort)?[ \t]*")  # beside such lines, and skipped
DUMPED = re.compile(r"[ \t]*([0-9A-Fa-f]{4,8})(:?)[ \t]+(\S.*)")
MOST_IN_A_LINE = 32  # octets of a hexdump


def pdus(text: str) -> List[bytes]:
    """The PDUs that a text holds, in the first of these forms in which they are PDUs; none where it has none of them."""
    found = list(_readings(text.replace("\r", "")))
    sound = (some for some in found if all(say(one).pdu for one in some))
    return next(sound, found[0] if found else [])


def _readings(text: str) -> Iterator[List[bytes]]:
    """What the text is in each of the forms that it has."""
    for read in (_pairs, _parted, _prefixed, _array, _escaped):
        octets = read(text.strip())
        if octets:
            yield [octets]
    lines = _lines(text)
    if lines:
        yield lines
    dumped = _dumped(text)
    if dumped:
        yield [dumped]


def _pairs(text: str) -> Optional[bytes]:
    """Pairs of digits, blanks between them or not."""
    digits = re.sub(r"\s+", "", text)
    return bytes.fromhex(digits) if re.fullmatch(r"(?:[0-9A-Fa-f]{2})+", digits) else None


def _parted(text: str) -> Optional[bytes]:
    """Pairs with colons, hyphens, dots or commas between them."""
    parts = re.split(r"[\s:,.-]+", text)
    return bytes.fromhex("".join(parts)) if all(re.fullmatch(r"[0-9A-Fa-f]{2}", p) for p in parts) else None


def _prefixed(text: str) -> Optional[bytes]:
    """One hexadecimal number that begins with 0x, or one that ends with h, of pairs of digits."""
    m = re.fullmatch(r"0[xX]((?:[0-9A-Fa-f]{2})+)|((?:[0-9A-Fa-f]{2})+)[hH]", text)
    return bytes.fromhex(m[1] or m[2]) if m else None


def _array(text: str) -> Optional[bytes]:
    """A C array, or numbers that begin with 0x, one for each octet."""
    m = re.search(r"\{([^{}]*)\}", text)
    words = re.sub(r"/\*.*?\*/|//[^\n]*", " ", m[1] if m else text)
    parts = [p for p in re.split(r"[\s,;]+", words) if p]
    fits = parts and all(re.fullmatch(r"0[xX][0-9A-Fa-f]{1,2}", p) for p in parts)
    return bytes(int(p, 16) for p in parts) if fits else None


def _escaped(text: str) -> Optional[bytes]:
    """Escapes of C and Python, in quotes or not."""
    inner = re.sub(r"\bb?[\"']|[\"']|[\s;]", "", text)
    return bytes.fromhex(inner.replace("\\x", "")) if re.fullmatch(r"(?:\\x[0-9A-Fa-f]{2})+", inner) else None


def _lines(text: str) -> List[bytes]:
    """The octets of lines of a recording or a report, beside which no other lines stand."""
    out = []
    for line in text.split("\n"):
        m = LINE.fullmatch(line)
        if m:
            out.append(bytes.fromhex(re.sub(r"\s", "", m[1])))
        elif not MARKED.fullmatch(line):
            return []
    return out


def _dumped(text: str) -> Optional[bytes]:
    """A hexdump: each line has where it begins, octets, and signs behind them or not."""
    out, last = b"", None
    for line in text.split("\n"):
        m = DUMPED.fullmatch(line)
        if m is None:
            if line.strip() and not re.fullmatch(r"[ \t]*[0-9A-Fa-f]{4,8}:?[ \t]*", line):
                return None
            continue
        at = int(m[1], 16)
        if last is not None and at - last != len(out) - before:
            out = out[: before + at - last]  # the line before has signs that look like octets
        before, last = len(out), at
        shown = re.split(r"[ \t]{2,}" if m[2] else r"[ \t]{3,}|[ \t]*\|", m[3])[0]
        digits = re.match(r"(?:[0-9A-Fa-f]{2}(?:[0-9A-Fa-f]{2})*(?:[ \t]+|$))*", shown)[0]
        octets = bytes.fromhex(re.sub(r"\s", "", digits))
        if not octets or len(octets) > MOST_IN_A_LINE:
            return None
        out += octets
    return out or None
