"""An end of the layers on a TCP connection, over asyncio: what comes is fed to it, what it says is written, and who
doesn't read has its own connection wait alone."""
import asyncio
import socket
from typing import Callable, Optional, Tuple

from .association import Item, State, End

HIGH = 1 << 16  # octets that wait to be read, from which on nothing more is heard of whom they wait for
AT_ONCE = 1 << 14  # octets that are read before others have their turn
IN_SYSTEM = 1 << 17  # octets that the system keeps for who doesn't read, beside those here
MOST_WAITING = 1 << 20  # and with which the connection is given up
LINGERING = 1.0  # seconds for which an ended connection is kept for the other end to read what was said last
Watch = Callable[[str, bytes], None]


class Link(asyncio.Protocol):
    """A connection with its end. What comes is handed to `received`, and `gone` is called once, when it is over."""

    def __init__(self, end_of: Callable[[Callable[[bytes], None]], End]):
        self.end = end_of(self._write)
        self.transport: Optional[asyncio.Transport] = None
        self.peer: Tuple[str, int] = ("?", 0)
        self.own: Tuple[str, int] = ("?", 0)
        self.since = 0.0  # when something last came to completion, on the loop's clock
        self.is_closing = False
        self.is_paused = False  # nothing is heard until what was said is read
        self.watch: Optional[Watch] = None  # is told what goes by: "<" from the other end, ">" to it

    def received(self, item: Item) -> None:
        """Something came."""
        raise NotImplementedError

    def gone(self, words: str) -> None:
        """The connection is over, and why."""
        raise NotImplementedError

    def connection_made(self, transport) -> None:
        """Called by asyncio."""
        self.transport = transport
        self.peer = (transport.get_extra_info("peername") or ("?", 0))[:2]
        self.own = (transport.get_extra_info("sockname") or ("?", 0))[:2]
        transport.set_write_buffer_limits(high=HIGH)
        transport.max_size = AT_ONCE
        transport.get_extra_info("socket").setsockopt(socket.SOL_SOCKET, socket.SO_SNDBUF, IN_SYSTEM)
        self.since = asyncio.get_running_loop().time()

    def data_received(self, data: bytes) -> None:
        """Called by asyncio."""
        if self.watch:
            self.watch("<", data)
        if self.is_closing:
            return
        count = self.end.count
        for item in self.end.feed(data):
            self.received(item)
        if self.end.count != count or not self.end.is_partial:
            self.since = asyncio.get_running_loop().time()
        if self.end.state is State.OVER:
            self.close()

    def eof_received(self) -> bool:
        """Called by asyncio: the other end says no more, and the connection is closed."""
        return False

    def connection_lost(self, exc: Optional[Exception]) -> None:
        """Called by asyncio."""
        self.end.state = State.OVER
        was_closing, self.is_closing = self.is_closing, True
        if not was_closing:
            self.gone("reset" if exc else "closed")

    def pause_writing(self) -> None:
        """Called by asyncio: much waits to be read."""
        self.is_paused = True
        if not self.is_closing:
            self.transport.pause_reading()

    def resume_writing(self) -> None:
        """Called by asyncio: it was read."""
        self.is_paused = False
        self.since = asyncio.get_running_loop().time()
        if not self.is_closing:
            self.transport.resume_reading()

    def is_idle(self, now: float, most: float) -> bool:
        """Whether the connection has had no association, or half a message, for so many seconds."""
        waits = self.end.state in (State.NEW, State.IDLE) or self.end.is_partial
        return waits and not self.is_closing and not self.is_paused and now - self.since >= most

    def close(self, words: str = "") -> None:
        """Ends the connection, once what was said is written."""
        if self.is_closing or self.transport is None:
            return
        self.is_closing = True
        self.end.state = State.OVER
        self.gone(words)
        if self.transport.is_closing():
            return
        self.transport.resume_reading()
        if self.transport.can_write_eof():
            self.transport.write_eof()
        asyncio.get_running_loop().call_later(LINGERING, self.transport.abort)

    def drop(self, words: str) -> None:
        """Ends the connection at once."""
        if not self.is_closing:
            self.is_closing = True
            self.end.state = State.OVER
            self.gone(words)
        if self.transport is not None:
            self.transport.abort()

    def _write(self, octets: bytes) -> None:
        if self.transport is None or self.transport.is_closing():
            return
        if self.watch:
            self.watch(">", octets)
        self.transport.write(octets)
        waiting = self.transport.get_write_buffer_size()
        if waiting > MOST_WAITING:
            asyncio.get_running_loop().call_soon(self.drop, f"doesn't read: {waiting} octets wait for it")
