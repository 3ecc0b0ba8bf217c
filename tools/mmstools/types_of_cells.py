"""Types and values of cells, by the forms of docs/PROFILE.md: which of the two is wrong in a configuration."""

import re
from dataclasses import dataclass
from typing import Iterator, List, Optional, Tuple

from .ber import Element, elements, integer
from .texts import is_name

DEEPEST, MOST_PARTS, MOST_SIZE = 10, 4096, 60000
ARRAY, STRUCTURE, BOOLEAN, BITS, INTEGER, UNSIGNED, FLOAT = 1, 2, 3, 4, 5, 6, 7
OCTETS, TEXT, TIME = 9, 10, 12
CONSTRUCTED = {ARRAY, STRUCTURE}
WIDTHS = {INTEGER: (8, 16, 32, 64), UNSIGNED: (8, 16, 32)}
FLOATS = {(32, 8): 5, (64, 11): 9}  # format and exponent, and the octets of a value
SIZES = (BITS, OCTETS, TEXT)


@dataclass
class Type:
    """A type: its number, what its element says of it, and its parts where it has some."""

    number: int
    size: int = 0  # a width, a length, a count of elements, octets of a floating-point number or a time
    parts: Optional[List["Type"]] = None  # of an array the one of its elements


def wrong(type_digits: str, value_digits: str, edition: str = "1") -> Iterator[Tuple[str, str]]:
    """Which of the two keys is wrong in that edition, and why."""
    kind, data = _whole(type_digits, edition), _whole(value_digits, edition)
    told = None if kind is None else type_of(kind, edition)
    if kind is None or told is None:
        yield "type", f"{_cut(type_digits)} is not one whole element that is a TypeSpecification"
    if data is None:
        yield "value", f"{_cut(value_digits)} is not one whole element"
    elif told is not None and not is_of(data, told):
        yield "value", f"{_cut(value_digits)} is not Data of the type {_cut(type_digits)}"


def _cut(digits: str) -> str:
    """The first digits, and how many there are."""
    return f"`{digits[:40]}`" + (f" .. ({len(digits)} digits)" if len(digits) > 40 else "")


def _whole(digits: str, edition: str) -> Optional[Element]:
    """The one element that the digits are, in edition 1 all of it definite; None otherwise."""
    if not re.fullmatch(r"(?:[0-9A-Fa-f]{2})+", digits):
        return None
    found = elements(bytes.fromhex(digits))
    return found[0] if len(found) == 1 and _is_sound(found[0], edition) else None


def _is_sound(e: Element, edition: str) -> bool:
    """Whether it and its parts are whole and have lengths of that edition."""
    return not e.flaw and (edition != "1" or not e.is_indefinite) and all(_is_sound(p, edition) for p in e.parts)


def _number(e: Optional[Element], tag: Tuple[int, int]) -> Optional[int]:
    """The INTEGER of 1 to 8 octets under that tag."""
    fits = e is not None and e.tag == tag and not e.constructed and 1 <= len(e.contents) <= 8
    return integer(e.contents) if fits else None


def type_of(e: Element, edition: str = "1", depth: int = 0) -> Optional[Type]:
    """The type that a TypeSpecification says in that edition; None where it is none of the profile's."""
    if e.cls != 2 or e.constructed != (e.number in CONSTRUCTED or e.number == FLOAT):
        return None
    if e.number in CONSTRUCTED:
        if depth >= DEEPEST:
            return None
        return (_array if e.number == ARRAY else _structure)(e, edition, depth + 1)
    if e.number == FLOAT:
        widths = tuple(_number(p, (0, 2)) for p in e.parts)
        return Type(FLOAT, FLOATS[widths]) if widths in FLOATS else None
    if e.number == BOOLEAN:
        return Type(BOOLEAN) if not e.contents else None
    if e.number == TIME:
        return Type(TIME, 6 if e.contents[0] else 4) if len(e.contents) == 1 else None
    size = _number(e, (2, e.number))
    fits = size in WIDTHS.get(e.number, ()) or e.number in SIZES and size is not None and abs(size) <= MOST_SIZE
    return Type(e.number, size or 0) if fits else None


def _unpacked(parts: List[Element]) -> List[Element]:
    """The components without `packed`, which is a BOOLEAN [0] in front where it is there."""
    packed = bool(parts) and parts[0].tag == (2, 0) and not parts[0].constructed and len(parts[0].contents) == 1
    return parts[1:] if packed else parts


def _explicit(e: Element, number: int, edition: str, depth: int) -> Optional[Type]:
    """The type in the component with that number."""
    fits = e.tag == (2, number) and e.constructed and len(e.parts) == 1
    return type_of(e.parts[0], edition, depth) if fits else None


def _array(e: Element, edition: str, depth: int) -> Optional[Type]:
    """The type of an array."""
    parts = _unpacked(e.parts)
    count = _number(parts[0], (2, 1)) if len(parts) == 2 else None
    element = _explicit(parts[1], 2, edition, depth) if count is not None else None
    return Type(ARRAY, count, [element]) if element is not None and 0 <= count <= MOST_PARTS else None


def _structure(e: Element, edition: str, depth: int) -> Optional[Type]:
    """The type of a structure."""
    parts = _unpacked(e.parts)
    if len(parts) != 1 or parts[0].tag != (2, 1) or not parts[0].constructed:
        return None
    types = [_typed(p, edition, depth) for p in parts[0].parts]
    return None if None in types else Type(STRUCTURE, len(types), types)


def _typed(e: Element, edition: str, depth: int) -> Optional[Type]:
    """The type of a structure's component, whose name is an Identifier where it has one."""
    if e.tag != (0, 16) or not e.constructed or not e.parts:
        return None
    named = e.parts[0].tag == (2, 0)
    name = e.parts[0].contents if named and not e.parts[0].constructed else b""
    if named and not is_name(name.decode("latin-1"), edition):
        return None
    rest = e.parts[named:]
    return _explicit(rest[0], 1, edition, depth) if len(rest) == 1 else None


def is_of(e: Element, kind: Type) -> bool:
    """Whether the element is Data of the type."""
    if e.tag != (2, kind.number) or e.constructed != (kind.number in CONSTRUCTED):
        return False
    b = e.contents
    if kind.number == ARRAY:
        return len(e.parts) == kind.size and all(is_of(p, kind.parts[0]) for p in e.parts)
    if kind.number == STRUCTURE:
        return len(e.parts) == kind.size and all(is_of(p, part) for p, part in zip(e.parts, kind.parts))
    if kind.number == BOOLEAN:
        return len(b) == 1
    if kind.number in WIDTHS:
        return 1 <= len(b) <= 8 and _in_width(integer(b), kind)
    if kind.number in (FLOAT, TIME):
        return len(b) == kind.size
    if kind.number == BITS:
        bits = 8 * (len(b) - 1) - b[0] if b and b[0] <= 7 else -1
        return bits >= 0 and _in_size(bits, kind.size)
    return _in_size(len(b), kind.size) and (kind.number == OCTETS or all(0x20 <= c <= 0x7E for c in b))


def _in_width(number: int, kind: Type) -> bool:
    """Whether a number is in the range of its width."""
    if kind.number == UNSIGNED:
        return 0 <= number < 1 << kind.size
    return -(1 << kind.size - 1) <= number < 1 << kind.size - 1


def _in_size(size: int, wanted: int) -> bool:
    """A length that isn't negative is exact, and of a negative one the opposite is the greatest."""
    return size == wanted if wanted >= 0 else size <= -wanted
