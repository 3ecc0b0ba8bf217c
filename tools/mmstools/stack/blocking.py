"""A client over a TCP connection without asyncio: for tests and small scripts."""
import socket
import time
from collections import deque
from typing import Deque, Optional

from .association import ClientEnd, Item, Kind, State
from .elements import Broken, Ended

SECONDS = 5.0  # for which an answer may take


class Client:
    """A client's end, which waits for what it is told.

    with Client("127.0.0.1", 10102) as c:
        c.open(bytes.fromhex("A826.."))    # the initiate-Response
        c.ask(bytes.fromhex("A006.."))     # the answer, or what else comes next
    """

    def __init__(self, host: str, port: int, seconds: float = SECONDS):
        self.seconds = seconds
        self._items: Deque[Item] = deque()
        self.socket = self._connect(host, port)
        self.socket.setsockopt(socket.IPPROTO_TCP, socket.TCP_NODELAY, 1)
        self.end = ClientEnd(self.socket.sendall)
        self.end.connect()
        self._take()

    def __enter__(self) -> "Client":
        return self

    def __exit__(self, *_) -> None:
        self.close()

    def open(self, pdu: bytes) -> Optional[bytes]:
        """Asks for an association, and tells the answer."""
        self.end.open(pdu)
        return self.receive()

    def send(self, pdu: bytes) -> None:
        """Sends a PDU."""
        self.end.send(pdu)

    def ask(self, pdu: bytes) -> Optional[bytes]:
        """Sends a PDU, and tells what comes next."""
        self.end.send(pdu)
        return self.receive()

    def receive(self, seconds: Optional[float] = None) -> Optional[bytes]:
        """The PDU that comes next; None where the association is gone. Raises TimeoutError where nothing comes."""
        item = self._take(seconds)
        if item.kind is Kind.BROKEN:
            raise Broken(item.layer, item.words)
        return item.octets if item.kind is Kind.PDU else None

    def release(self, pdu: Optional[bytes] = None) -> Optional[bytes]:
        """Releases the association, with a conclude in it or without; tells the answer to that conclude."""
        self.end.release(pdu)
        return self.receive()

    def abort(self) -> None:
        """Aborts the association."""
        self.end.abort()

    def close(self) -> None:
        """Closes the connection."""
        self.end.state = State.OVER
        self.socket.close()

    def _connect(self, host: str, port: int) -> socket.socket:
        """The TCP connection."""
        return socket.create_connection((host, port), self.seconds)

    def _take(self, seconds: Optional[float] = None) -> Item:
        """What comes next. Raises Ended where the connection ends first."""
        until = time.monotonic() + (self.seconds if seconds is None else seconds)
        while not self._items:
            rest = until - time.monotonic()
            if rest <= 0:
                raise TimeoutError("nothing came")
            self.socket.settimeout(rest)
            got = self.socket.recv(1 << 16)
            if not got:
                raise Ended("TCP", "the connection is closed")
            self._items.extend(self.end.feed(got))
        return self._items.popleft()
