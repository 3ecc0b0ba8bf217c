"""The presentation protocol (X.226) in its normal mode: which data is of which context, by the client's numbers."""
from dataclasses import dataclass, field
from typing import Dict, List, Optional, Tuple

from .elements import Broken, Part, cut, first, integer, number, parts, tlv

LAYER = "presentation"
ACSE, MMS, BER = bytes.fromhex("52010001"), bytes.fromhex("28CA220201"), bytes.fromhex("5101")
FULLY, SIMPLY = 0x61, 0x40  # fully-encoded-data, a list of values; simply-encoded-data, octets
SEQUENCE, NORMAL = 0x30, b"\1"
ACSE_NUMBER, MMS_NUMBER = 1, 3  # as a client proposes them here
SELECTOR = b"\0\0\0\1"
MOST_SELECTOR = 64
BROKEN = "presentation data that is not whole: what is in it is left out"
EMPTY = "presentation data without a PDU"
UNSPECIFIED, PARAMETER = 0, 6  # reasons of the provider: none told, the value of a parameter
Value = Tuple[Optional[int], bytes]  # the number of a context, None in simply-encoded-data; and octets


def pdv(context: int, value: bytes) -> bytes:
    """One value of a context, in fully-encoded-data."""
    return tlv(FULLY, tlv(SEQUENCE, integer(context), tlv(0xA0, value)))


def simple(value: bytes) -> bytes:
    """One value in simply-encoded-data."""
    return tlv(SIMPLY, value)


def values(user: bytes) -> Tuple[List[Value], str]:
    """The values of the user's data, and what is wrong with it, where something is."""
    quick = _one(user)
    if quick is not None:
        return [quick], ""
    found, flaw = cut(user)
    if flaw or len(found) != 1 or found[0].tag not in (FULLY, SIMPLY, 0x60):
        return [], BROKEN
    if found[0].tag == FULLY:
        return lists(found[0].contents)
    return ([(None, found[0].contents)], "") if found[0].contents else ([], EMPTY)


def _one(user: bytes) -> Optional[Value]:
    """One value of fully-encoded-data whose lengths have one octet or three and whose number has one; else None."""
    at, end = 0, len(user)
    for tag in (0x61, 0x30):
        if end - at < 12 or user[at] != tag:
            return None
        size, at = (user[at + 1], at + 2) if user[at + 1] < 128 else _long(user, at)
        if at + size != end:
            return None
    if user[at : at + 2] != b"\2\1" or user[at + 2] > 127 or user[at + 3] != 0xA0:
        return None
    size, start = (user[at + 4], at + 5) if user[at + 4] < 128 else _long(user, at + 3)
    return (user[at + 2], user[start:]) if size and start + size == end else None


def _long(user: bytes, at: int) -> Tuple[int, int]:
    """The length behind the tag at user[at] that is told in two octets, and where the contents begin."""
    return (user[at + 2] << 8 | user[at + 3], at + 4) if user[at + 1] == 0x82 else (-1, at)


def lists(contents: bytes) -> Tuple[List[Value], str]:
    """The values of lists: { transfer-syntax-name OPTIONAL, INTEGER context, values [0], [1] or [2] }."""
    found, flaw = cut(contents)
    out: List[Value] = []
    told = "" if found else EMPTY
    for one in found:
        inner, broken = cut(one.contents)
        context = first(inner, 2)
        value = next((p.contents for p in inner if p.tag in (0xA0, 0x81)), None)
        if one.tag != SEQUENCE or broken or not context or value is None:
            told = told or BROKEN
        elif not value:
            told = told or EMPTY
        else:
            out.append((number(context), value))
    return out, told if told and told != EMPTY or not flaw else BROKEN


@dataclass
class Contexts:
    """What a client proposes, and what is agreed on: contexts by their numbers."""

    proposed: List[Tuple[int, bytes, bool]] = field(default_factory=list)  # number, abstract syntax, with BER
    called: Optional[bytes] = None  # the selector

    def _of(self, syntax: bytes) -> Optional[int]:
        return next((n for n, name, is_ber in self.proposed if name == syntax and is_ber), None)

    @property
    def acse(self) -> Optional[int]:
        """The number of ACSE's context."""
        return self._of(ACSE)

    @property
    def mms(self) -> Optional[int]:
        """The number of MMS's context."""
        return self._of(MMS)

    def results(self) -> bytes:
        """What is answered to the proposals, in their order: accepted with BER, or refused and why."""
        out, accepted = [], (self.acse, self.mms)
        for n, name, is_ber in self.proposed:
            if n in accepted:
                out.append(tlv(SEQUENCE, b"\x80\1\0", tlv(0x81, BER)))
            else:
                out.append(tlv(SEQUENCE, b"\x80\1\2", integer(2 if name in (ACSE, MMS) and not is_ber else 1, 0x82)))
        return tlv(0xA5, *out)


OWN = Contexts([(ACSE_NUMBER, ACSE, True), (MMS_NUMBER, MMS, True)], SELECTOR)


def connect(apdu: bytes, called: bytes = SELECTOR, calling: bytes = SELECTOR) -> bytes:
    """The request for a connection (CP), whose data is ACSE's."""
    listed = [
        tlv(SEQUENCE, integer(n), tlv(6, name), tlv(SEQUENCE, tlv(6, BER))) for n, name, _ in OWN.proposed
    ]
    body = tlv(0xA2, tlv(0x81, calling), tlv(0x82, called), tlv(0xA4, *listed), pdv(ACSE_NUMBER, apdu))
    return tlv(0x31, tlv(0xA0, b"\x80\1" + NORMAL), body)


def read_connect(user: bytes) -> Tuple[Contexts, bytes]:
    """What a CP proposes, and the octets of ACSE in it."""
    normal = _normal(user, "the request for a connection")
    out = Contexts(called=first(normal, 0x82))
    if out.called is not None and len(out.called) > MOST_SELECTOR:
        raise Broken(LAYER, f"a selector of more than {MOST_SELECTOR} octets")
    for item in parts(first(normal, 0xA4), LAYER, "the list of contexts"):
        inner = parts(item.contents, LAYER, "a context")
        n, name = number(first(inner, 2)), first(inner, 6)
        if n is None or name is None or not -(1 << 31) < n < 1 << 31:
            raise Broken(LAYER, "a context without its number or its name")
        syntaxes = parts(first(inner, SEQUENCE), LAYER, "the transfer syntaxes of a context")
        out.proposed.append((n, name, Part(6, BER) in syntaxes))
    if out.acse is None:
        raise Broken(LAYER, "no context of ACSE is proposed")
    return out, _of_context(normal, out.acse)


def accept(contexts: Contexts, apdu: bytes) -> bytes:
    """The acceptance of a connection (CPA)."""
    return tlv(0x31, tlv(0xA0, b"\x80\1" + NORMAL), tlv(0xA2, *_answered(contexts), pdv(contexts.acse or 0, apdu)))


def refuse(contexts: Optional[Contexts], apdu: Optional[bytes], reason: int = UNSPECIFIED) -> bytes:
    """The refusal of a connection (CPR): by the user, with ACSE's data, or by the provider."""
    if contexts is None or apdu is None:
        return tlv(SEQUENCE, integer(reason, 0x8A))
    return tlv(SEQUENCE, *_answered(contexts), pdv(contexts.acse or 0, apdu))


def _answered(contexts: Contexts) -> List[bytes]:
    """The selector that was called, and the results of the proposals."""
    selector = [] if contexts.called is None else [tlv(0x83, contexts.called)]
    return [*selector, contexts.results()]


def read_accept(user: bytes) -> bytes:
    """The octets of ACSE in a CPA; raises Broken where a context isn't accepted."""
    normal = _normal(user, "the acceptance of a connection")
    for item in parts(first(normal, 0xA5), LAYER, "the results of contexts"):
        if number(first(parts(item.contents, LAYER, "a result"), 0x80)):
            raise Broken(LAYER, "a context isn't accepted")
    return _of_context(normal, ACSE_NUMBER)


def read_refuse(user: bytes) -> Optional[bytes]:
    """The octets of ACSE in a CPR, None where there are none."""
    found, _ = cut(user)
    inner, _ = cut(found[0].contents) if found and found[0].tag == SEQUENCE else ([], "")
    listed = first(inner, FULLY)
    got = lists(listed)[0] if listed is not None else []
    return got[0][1] if got else None


def abort(contexts: Contexts, apdu: bytes) -> bytes:
    """An abort by the user (ARU), with ACSE's data."""
    context = contexts.acse or 0
    return tlv(0xA0, tlv(0xA0, tlv(SEQUENCE, integer(context), tlv(6, BER))), pdv(context, apdu))


def provider_abort(reason: int) -> bytes:
    """An abort by the provider (ARP)."""
    return tlv(SEQUENCE, integer(reason, 0x80))


def _normal(user: bytes, what: str) -> List[Part]:
    """The parts of the normal mode's parameters in a CP or a CPA."""
    whole = parts(user, LAYER, what)
    if len(whole) != 1 or whole[0].tag != 0x31:
        raise Broken(LAYER, f"{what} isn't one SET")
    inner = parts(whole[0].contents, LAYER, what)
    mode = first(parts(first(inner, 0xA0), LAYER, "the mode"), 0x80)
    if mode != NORMAL:
        raise Broken(LAYER, "a mode that isn't the normal one")
    return parts(first(inner, 0xA2), LAYER, "the parameters of the normal mode")


def _of_context(normal: List[Part], context: int) -> bytes:
    """The one value in a CP or a CPA that is of a context."""
    listed = first(normal, FULLY)
    if listed is None:
        raise Broken(LAYER, "no user's data")
    got, flaw = lists(listed)
    if flaw:
        raise Broken(LAYER, flaw)
    value = next((v for n, v in got if n == context), None)
    if value is None:
        raise Broken(LAYER, "user's data of a context that wasn't agreed on")
    return value

