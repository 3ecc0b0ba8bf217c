"""The session protocol (X.225) as MMS has it: duplex, in version 2 or 1, with no segments of its own.

An SPDU is an octet of its kind, the length of its parameters, these, and of data (DT) the user's octets."""
from dataclasses import dataclass, field
from typing import Dict, Tuple

from .elements import Broken

LAYER = "session"
CONNECT, ACCEPT, REFUSE, FINISH, DISCONNECT, NOT_FINISHED = 0x0D, 0x0E, 0x0C, 0x09, 0x0A, 0x08
ABORT, ABORTED, DATA, GIVE_TOKENS, PLEASE_TOKENS = 0x19, 0x1A, 1, 1, 2  # the first two of octet 1 by where they stand
GROUPS = (0x01, 0x05)  # of parameters: connection identifier, connect and accept item
REASON, VERSION, REQUIREMENTS, TOKENS, OVERFLOW = 0x32, 0x16, 0x14, 0x1A, 0x3C
CALLING, CALLED = 0x33, 0x34
USER, EXTENDED = 0xC1, 0xC2  # the user's data, and that of a CN of more than 512 octets
MOST_USER = 512
MOST_SELECTOR = 16
DUPLEX, NEGOTIATED_RELEASE = 0x02, 0x80
BY_USER, BY_PROVIDER = 0x02, 0x04  # who aborts, with 1 for a transport connection that isn't kept
UNKNOWN_SELECTOR, UNKNOWN_VERSION, UNSPECIFIED = 0x81, 0x84, 0x85  # reasons of a refusal by the provider
ITEM = bytes.fromhex("0506130100160102")  # connect and accept item: version 2, no options
REASONS = {0: "by its user", 1: "congestion", 2: "by its user", 0x81: "an unknown selector", 0x84: "the version"}


@dataclass
class Spdu:
    """One SPDU: its kind, its parameters by code, those of groups too, and the user's data."""

    kind: int
    values: Dict[int, bytes] = field(default_factory=dict)
    user: bytes = b""

    @property
    def is_data(self) -> bool:
        """Whether it is a DT, behind the SPDU of tokens that stands before each."""
        return self.kind == DATA

    def reason(self) -> str:
        """Why a connection was refused, in words."""
        code = (self.values.get(REASON) or b"\0")[0]
        return f"refused, {REASONS.get(code, f'reason {code}')}"


def _length(n: int) -> bytes:
    """A length as SPDUs have it."""
    if n > 65535:
        raise Broken(LAYER, f"{n} octets of parameters, and an SPDU has at most 65535")
    return bytes((n,)) if n < 255 else b"\xff" + n.to_bytes(2, "big")


def parameter(code: int, value: bytes) -> bytes:
    """A parameter, or a group of them."""
    return bytes((code,)) + _length(len(value)) + value


def spdu(kind: int, *found: bytes) -> bytes:
    """An SPDU of these parameters."""
    body = b"".join(found)
    return bytes((kind,)) + _length(len(body)) + body


def connect(user: bytes, requirements: int = DUPLEX, called: bytes = b"\0\1", calling: bytes = b"\0\1") -> bytes:
    """The request for a connection (CN)."""
    head = ITEM + parameter(REQUIREMENTS, requirements.to_bytes(2, "big"))
    data = parameter(USER if len(user) <= MOST_USER else EXTENDED, user)
    return spdu(CONNECT, head, parameter(CALLING, calling), parameter(CALLED, called), data)


def accept(user: bytes, asked: Dict[int, bytes]) -> bytes:
    """The acceptance of a connection (AC) that was asked for with these parameters."""
    version = 2 if asked.get(VERSION, b"\1")[0] & 2 else 1
    item = parameter(GROUPS[1], bytes.fromhex("130100") + parameter(VERSION, bytes((version,))))
    found = [item]
    if asked.get(TOKENS) and agreed(asked) & NEGOTIATED_RELEASE:
        found.append(parameter(TOKENS, b"\0"))
    found.append(parameter(REQUIREMENTS, agreed(asked).to_bytes(2, "big")))
    if CALLED in asked:
        found.append(parameter(CALLED, asked[CALLED]))
    return spdu(ACCEPT, *found, parameter(USER, user))


def agreed(asked: Dict[int, bytes]) -> int:
    """The functional units that both have: duplex, and negotiated release where the client keeps its token."""
    bits = int.from_bytes(asked.get(REQUIREMENTS, b"\0\2"), "big")
    side = (asked.get(TOKENS) or b"\0")[0] >> 6  # of the token of release: 0 the client, 1 the server, 2 as it likes
    return DUPLEX | (bits & NEGOTIATED_RELEASE if side != 1 else 0)


def check(asked: Dict[int, bytes]) -> None:
    """Raises Broken where a connection that is asked for can't be had."""
    if not asked.get(VERSION, b"\1")[:1].strip(b"\0") or not asked.get(VERSION, b"\1")[0] & 3:
        raise Broken(LAYER, "neither version 1 nor 2 is proposed", UNKNOWN_VERSION)
    if len(asked.get(CALLED, b"")) > MOST_SELECTOR:
        raise Broken(LAYER, f"a selector of more than {MOST_SELECTOR} octets", UNKNOWN_SELECTOR)
    if OVERFLOW in asked:
        raise Broken(LAYER, "the user's data goes on in another SPDU, which isn't served")
    if not int.from_bytes(asked.get(REQUIREMENTS, b"\0\2"), "big") & DUPLEX:
        raise Broken(LAYER, "duplex isn't proposed, and nothing else is served")


def refuse(reason: int, user: bytes = b"") -> bytes:
    """The refusal of a connection (RF): 2 by the user, with its data; 128 and more by the provider."""
    return spdu(REFUSE, parameter(REASON, bytes((reason,)) + user))


def data(user: bytes) -> bytes:
    """Data (DT), behind an SPDU that gives no tokens."""
    return b"\1\0\1\0" + user


def finish(user: bytes) -> bytes:
    """The request to release a connection (FN)."""
    return spdu(FINISH, parameter(USER, user))


def disconnect(user: bytes) -> bytes:
    """The release of a connection (DN)."""
    return spdu(DISCONNECT, parameter(USER, user))


def not_finished(user: bytes) -> bytes:
    """The refusal of a release (NF), where negotiated release was agreed on."""
    return spdu(NOT_FINISHED, parameter(USER, user))


def abort(by: int, user: bytes = b"") -> bytes:
    """The abort of a connection (AB), whose transport connection isn't kept."""
    return spdu(ABORT, bytes((0x11, 1, by | 1)), *([parameter(USER, user)] if user else []))


def read(message: bytes) -> Spdu:
    """The SPDU that a message is: of several, the last, behind that of tokens."""
    kind, values, at = _spdu(message, 0)
    if kind not in (GIVE_TOKENS, PLEASE_TOKENS):
        if at != len(message):
            raise Broken(LAYER, f"{len(message) - at} octets behind an SPDU of the kind {kind}")
        return Spdu(kind, values, values.get(USER, values.get(EXTENDED, b"")))
    if at == len(message):
        return Spdu(PLEASE_TOKENS, values)
    kind, values, at = _spdu(message, at)
    if kind != DATA:
        raise Broken(LAYER, f"an SPDU of the kind {kind} behind that of tokens")
    if values.get(0x19, b"\3") != b"\3":  # an enclosure that isn't whole
        raise Broken(LAYER, "a segment of data, and segments weren't agreed on")
    return Spdu(DATA, values, message[at:])


def _spdu(message: bytes, at: int) -> Tuple[int, Dict[int, bytes], int]:
    """The kind and the parameters of the SPDU at message[at], and where it ends."""
    if at >= len(message):
        raise Broken(LAYER, "a message without an SPDU")
    kind = message[at]
    start, end = _sized(message, at + 1, len(message))
    return kind, _parameters(message, start, end), end


def _sized(message: bytes, at: int, end: int) -> Tuple[int, int]:
    """Where what stands behind the length at message[at] begins and ends, which is within `end`."""
    size, start = (message[at], at + 1) if at < end else (0, end + 1)
    if size == 255:
        size, start = int.from_bytes(message[at + 1 : at + 3], "big"), at + 3
    if start + size > end:
        raise Broken(LAYER, "a length that goes behind the end of its SPDU")
    return start, start + size


def _parameters(message: bytes, at: int, end: int) -> Dict[int, bytes]:
    """The parameters in message[at:end], those of groups too; of several of one code the first."""
    out: Dict[int, bytes] = {}
    while at < end:
        code = message[at]
        start, at = _sized(message, at + 1, end)
        if code in GROUPS:
            for inner, value in _parameters(message, start, at).items():
                out.setdefault(inner, value)
        else:
            out.setdefault(code, message[start:at])
    return out
