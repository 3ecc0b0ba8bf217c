"""ACSE (X.227): associations for the application MMS, with an MMS PDU in their user information."""
from dataclasses import dataclass, field
from typing import List, Optional

from .elements import Broken, Part, cut, first, integer, number, parts, tlv
from .presentation import BER, MMS_NUMBER

LAYER = "ACSE"
CONTEXT_NAME = bytes.fromhex("28CA220203")  # of the application context of MMS
AARQ, AARE, RLRQ, RLRE, ABRT = 0x60, 0x61, 0x62, 0x63, 0x64
INFORMATION = 0xBE
BY_USER, BY_PROVIDER = 0, 1  # the source of an abort
NORMAL, NOT_FINISHED = 0, 1  # the reason of an RLRE
NO_REASON, OTHER_CONTEXT = 1, 2  # the diagnostic of a refusal
MOST_TITLE = 64  # octets of one that comes back
ECHOED = {0xA2: 0xA4, 0xA3: 0xA5}  # AP-title and AE-qualifier, as called and as responding


@dataclass
class Apdu:
    """One APDU: its tag, and its components."""

    kind: int
    components: List[Part] = field(default_factory=list)

    def pdu(self) -> Optional[bytes]:
        """The octets of MMS in its user information, None where there are none."""
        return information(first(self.components, INFORMATION))

    def number(self, tag: int) -> Optional[int]:
        """The INTEGER of a component."""
        return number(first(self.components, tag))


def user_information(pdu: Optional[bytes], context: int = MMS_NUMBER) -> bytes:
    """User information with a PDU of MMS; nothing where there is none."""
    if pdu is None:
        return b""
    return tlv(INFORMATION, tlv(0x28, tlv(6, BER), integer(context), tlv(0xA0, pdu)))


def information(contents: Optional[bytes]) -> Optional[bytes]:
    """The octets in the first EXTERNAL of user information, None where there are none."""
    listed = cut(contents)[0] if contents else []
    inner = cut(listed[0].contents)[0] if listed else []
    return next((p.contents for p in inner if p.tag in (0xA0, 0x81)), None) or None


def request(pdu: bytes) -> bytes:
    """The request for an association (AARQ)."""
    return tlv(AARQ, tlv(0xA1, tlv(6, CONTEXT_NAME)), user_information(pdu))


def answer(pdu: Optional[bytes], context: int, asked: Optional[Apdu] = None, diagnostic: int = 0) -> bytes:
    """The answer to it (AARE): accepted, or refused for good where the diagnostic is one."""
    result = tlv(0xA2, integer(1 if diagnostic else 0))
    source = tlv(0xA3, tlv(0xA1, integer(diagnostic)))
    given = asked.components if asked else []
    echoed = [tlv(ECHOED[p.tag], p.contents) for p in given if p.tag in ECHOED and len(p.contents) <= MOST_TITLE]
    name = tlv(0xA1, tlv(6, CONTEXT_NAME))
    return tlv(AARE, name, result, source, *echoed, user_information(pdu, context))


def release(pdu: Optional[bytes] = None, context: int = MMS_NUMBER) -> bytes:
    """The request to release an association (RLRQ)."""
    return tlv(RLRQ, b"\x80\1\0", user_information(pdu, context))


def released(pdu: Optional[bytes] = None, context: int = MMS_NUMBER, reason: int = NORMAL) -> bytes:
    """The answer to it (RLRE)."""
    return tlv(RLRE, bytes((0x80, 1, reason)), user_information(pdu, context))


def abort(source: int) -> bytes:
    """An abort (ABRT)."""
    return tlv(ABRT, bytes((0x80, 1, source)))


def read(octets: bytes) -> Apdu:
    """The APDU that these octets are; raises Broken where they aren't one."""
    whole = parts(octets, LAYER, "an APDU")
    if len(whole) != 1 or not AARQ <= whole[0].tag <= ABRT:
        raise Broken(LAYER, f"no APDU begins with {octets[:4].hex().upper()}")
    return Apdu(whole[0].tag, parts(whole[0].contents, LAYER, "an APDU"))


def check(asked: Apdu) -> bytes:
    """The PDU of MMS in a request for an association; raises Broken where it isn't one for MMS."""
    if asked.kind != AARQ:
        raise Broken(LAYER, f"an APDU of the tag {asked.kind:02X} where an association is asked for")
    name = first(cut(first(asked.components, 0xA1) or b"")[0], 6)
    if name != CONTEXT_NAME:
        raise Broken(LAYER, "the application context isn't that of MMS", OTHER_CONTEXT)
    pdu = asked.pdu()
    if pdu is None:
        raise Broken(LAYER, "a request for an association without a PDU of MMS")
    return pdu
