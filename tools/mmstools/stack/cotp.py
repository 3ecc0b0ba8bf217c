"""COTP, the transport protocol of class 0 (X.224): one connection, whose messages go in pieces of a size agreed on.

A TPDU is an octet of its header's length, that header, which begins with the TPDU's code, and data."""
from typing import Callable, Dict, List, Optional, Tuple

from .elements import Broken, Ended

LAYER = "COTP"
CONNECT, CONFIRM, DISCONNECT, DATA, ERROR = 0xE0, 0xD0, 0x80, 0xF0, 0x70  # codes of TPDUs: CR, CC, DR, DT and ER
SIZE, CALLING, CALLED, PREFERRED = 0xC0, 0xC1, 0xC2, 0xF0  # codes of parameters
SIZES = range(7, 14)  # as logarithms: 128 to 8,192 octets
UNLIMITED = 65531  # octets of a TPDU in a TPKT, where nothing is said
UNIT = 128  # octets of a preferred size
HEAD = 3  # octets of a DT in front of its data
LARGEST = 1 << 20  # octets of a message that is put together
REASONS = {0: "without a reason", 1: "congestion", 2: "no session entity there", 3: "an unknown address"}
SELECTORS = bytes.fromhex("C2020001C1020000")  # as many servers expect: called 1, calling 0


def connect(size: int = 13, selectors: bytes = SELECTORS) -> bytes:
    """A request for a connection (CR), that proposes a size."""
    body = b"\xe0\0\0\0\1\0" + bytes((SIZE, 1, size)) + selectors
    return bytes((len(body),)) + body


def confirm(reference: bytes, options: bytes) -> bytes:
    """The acceptance of a connection (CC) to the end of that reference."""
    body = b"\xd0" + reference + b"\0\2\0" + options
    return bytes((len(body),)) + body


def disconnect(reference: bytes, reason: int) -> bytes:
    """The refusal of a connection (DR)."""
    return b"\6\x80" + reference + b"\0\0" + bytes((reason,))


def error(refused: bytes, cause: int = 2) -> bytes:
    """What is told of a TPDU that breaks the rules (ER): 2 of an unexpected code, 0 of all else."""
    shown = refused[:64]
    body = b"\x70\0\1" + bytes((cause, 0xC1, len(shown))) + shown
    return bytes((len(body),)) + body


def data(message: bytes, most: int) -> List[bytes]:
    """The TPDUs (DT) of a message, each of at most so many octets with its head."""
    step = most - HEAD
    pieces = [message[i : i + step] for i in range(0, len(message), step)] or [b""]
    return [b"\2\xf0\0" + piece for piece in pieces[:-1]] + [b"\2\xf0\x80" + pieces[-1]]


def parameters(octets: bytes) -> Dict[int, bytes]:
    """The parameters of a TPDU's header, by their codes."""
    out: Dict[int, bytes] = {}
    at = 0
    while at < len(octets):
        if at + 2 > len(octets) or at + 2 + octets[at + 1] > len(octets):
            raise Broken(LAYER, "a parameter ends behind the header of its TPDU")
        out[octets[at]] = octets[at + 2 : at + 2 + octets[at + 1]]
        at += 2 + octets[at + 1]
    return out


class Transport:
    """One end of a transport connection. `put` writes a TPDU."""

    def __init__(self, put: Callable[[bytes], None], is_server: bool):
        self._put, self._is_server = put, is_server
        self.is_open = False
        self.refusal: Optional[int] = None  # the reason for which a connection is refused
        self.peer = b"\0\0"  # the reference of the other end
        self.most = UNLIMITED  # octets of a TPDU, as agreed on
        self._pieces: List[bytes] = []
        self._size = 0

    @property
    def is_partial(self) -> bool:
        """Whether pieces of a message are there, and not its last one."""
        return bool(self._pieces)

    def connect(self, size: int = 13) -> None:
        """Asks for a connection, as a client."""
        self.most = 1 << size
        self._put(connect(size))

    def send(self, message: bytes) -> None:
        """Sends a message."""
        for tpdu in data(message, self.most):
            self._put(tpdu)

    def take(self, tpdu: bytes) -> Optional[bytes]:
        """The message that a TPDU completes, or None. Raises Broken, and Ended where the other end disconnects."""
        size = tpdu[0]
        if size < 2 or size >= len(tpdu):
            raise Broken(LAYER, f"a header of {size} octets in a TPDU of {len(tpdu)}")
        code = tpdu[1] & 0xF0
        if code == DISCONNECT:
            reason = tpdu[6] if len(tpdu) > 6 else 0
            raise Ended(LAYER, f"disconnected, {REASONS.get(reason, 'for a reason of its own')}")
        if code == ERROR:
            raise Ended(LAYER, "an error is told of what was sent")
        if not self.is_open:
            self._open(tpdu, code)
            return None
        if code != DATA:
            raise Broken(LAYER, f"a TPDU of the code {tpdu[1]:02X} in an open connection")
        return self._data(tpdu)

    def _data(self, tpdu: bytes) -> Optional[bytes]:
        """The message of which a DT is the last piece."""
        if tpdu[0] != 2 or len(tpdu) > self.most:
            raise Broken(LAYER, f"a DT of {len(tpdu)} octets with a head of {tpdu[0]}, of at most {self.most} with 2")
        is_last = bool(tpdu[2] & 0x80)
        if is_last and not self._pieces:
            return tpdu[HEAD:]
        self._pieces.append(tpdu[HEAD:])
        self._size += len(tpdu) - HEAD
        if self._size > LARGEST or len(self._pieces) > LARGEST // 16:
            raise Broken("session", f"a message of more than {LARGEST} octets")
        if not is_last:
            return None
        message = b"".join(self._pieces)
        self._pieces, self._size = [], 0
        return message

    def _open(self, tpdu: bytes, code: int) -> None:
        """Answers the request for a connection, or takes the answer to it."""
        if code != (CONNECT if self._is_server else CONFIRM):
            raise Broken(LAYER, f"a TPDU of the code {tpdu[1]:02X} where no connection is open")
        if tpdu[0] < 6:
            raise Broken(LAYER, f"a connection TPDU with a header of {tpdu[0]} octets")
        self.peer = tpdu[4:6]
        if self.refusal is not None:
            raise Broken(LAYER, f"no connection is had: {REASONS[self.refusal]}", self.refusal)
        given = parameters(tpdu[7 : tpdu[0] + 1])
        if tpdu[6] & 0xF0 and not any(c & 0xF0 == 0 for c in given.get(0xC7, b"\xf0")):
            raise Broken(LAYER, f"class {tpdu[6] >> 4}, and class 0 alone is served")
        options = self._agree(given)
        self.is_open = True
        if self._is_server:
            self._put(confirm(self.peer, options))

    def _agree(self, given: Dict[int, bytes]) -> bytes:
        """The parameters of the answer to these: a size that both take, and the selectors as they came."""
        size, preferred = given.get(SIZE), given.get(PREFERRED)
        options: List[Tuple[int, bytes]] = []
        if preferred is not None:
            units = int.from_bytes(preferred, "big")
            if not 1 <= units or len(preferred) > 4:
                raise Broken(LAYER, "a preferred size that isn't 1 or more")
            self.most = min(self.most, units * UNIT)
            options.append((PREFERRED, preferred))
        elif size is not None:
            if len(size) != 1 or size[0] not in SIZES:
                raise Broken(LAYER, f"the size {size.hex().upper()}, which isn't 07 to 0D")
            self.most = min(self.most, 1 << size[0])
            options.append((SIZE, size))
        options += [(code, given[code]) for code in (CALLED, CALLING) if code in given]
        return b"".join(bytes((code, len(value))) + value for code, value in options)
