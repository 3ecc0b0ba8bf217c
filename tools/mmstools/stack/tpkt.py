"""TPKT (RFC 1006): TPDUs in a stream of octets, each behind the version 3, an octet of 0 and two of its length."""
from typing import Iterator

from .elements import Broken

LAYER = "TPKT"
VERSION, HEAD, LEAST = 3, 4, 7  # the least TPKT has a TPDU of three octets
MOST = 65535


def wrap(tpdu: bytes) -> bytes:
    """A TPDU as it goes into the stream."""
    return b"\3\0" + (HEAD + len(tpdu)).to_bytes(2, "big") + tpdu


class Frames:
    """Takes TPDUs out of what comes, in pieces of any size."""

    def __init__(self) -> None:
        self._rest = b""

    @property
    def is_partial(self) -> bool:
        """Whether the beginning of a TPKT is there, and not its end."""
        return bool(self._rest)

    def feed(self, octets: bytes) -> Iterator[bytes]:
        """Each TPDU that is whole with these octets; raises Broken where a TPKT would have to begin and none does."""
        data = self._rest + octets if self._rest else octets
        self._rest = b""
        at, end = 0, len(data)
        while at < end:
            if data[at] != VERSION:
                raise Broken(LAYER, f"no TPKT begins with {data[at : at + 4].hex().upper()}")
            if end - at < HEAD:
                break
            size = data[at + 2] << 8 | data[at + 3]
            if size < LEAST:
                raise Broken(LAYER, f"a TPKT of {size} octets, which is less than one has")
            if end - at < size:
                break
            yield data[at + HEAD : at + size]
            at += size
        self._rest = data[at:]
