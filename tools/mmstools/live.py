"""A device that listens on TCP: the program behind a port. Every answer is the program's; what is here carries octets.

A connection is a client, by the least number that is free. What came together is served as one phase of one growing
recording. The clock is real, or stands still but for the ticks that are asked for.
"""

import asyncio
import heapq
import time
from dataclasses import dataclass
from typing import Callable, Dict, List, Optional, Sequence, Set, Union

from . import texts
from .due import Due
from .explain import heading
from .pcap import Flow, Writer
from .program import Ended, Program, Told, ticks
from .stack import Broken, Item, Kind, ServerEnd, State
from .stack.association import CONCLUDED, MMS
from .stack.link import Link
from .texts import Event
from .words import say

ACCEPTED = 0xA9  # the first octet of an initiate-Response
MOST_REFUSED = 64  # connections beyond the clients that are told so in their own layer, all at once
REFUSING = 1.0  # seconds for which such a connection may ask
ENDING = 0.1  # seconds for which connections are kept when the server ends
CONGESTION = 1  # COTP's reason
MOST_WORDS = 4096  # octets of a PDU that is told in words
Log = Callable[[str], None]


@dataclass
class Options:
    """How a device listens."""

    idle: float = 60.0  # seconds for which a connection may have no association, or half a message
    is_still: bool = False  # no time goes by but what is asked for
    log: Optional[Log] = None  # is told each event in words
    pcap: Optional[Writer] = None


def in_words(pdu: Optional[bytes]) -> str:
    """What a PDU says, in letters that a terminal shows."""
    if pdu is not None and len(pdu) > MOST_WORDS:
        return f"a PDU of {len(pdu)} octets"
    return "".join(c if c.isprintable() else "?" for c in heading(say(pdu)))


class Connection(Link):
    """A client of the device."""

    def __init__(self, server: "Server"):
        super().__init__(ServerEnd)
        self.server, self.number = server, 0
        self.flow: Optional[Flow] = None

    def connection_made(self, transport) -> None:
        """Called by asyncio."""
        super().connection_made(transport)
        if self.server.options.pcap:
            self.flow = self.server.options.pcap.opened(self.peer, self.own, self.server.stamp())
            self.watch = self._seen
        self.server.connected(self)

    def connection_lost(self, exc: Optional[Exception]) -> None:
        """Called by asyncio."""
        if self.flow:
            self.server.options.pcap.closed(self.flow, int(self.is_closing), bool(exc), self.server.stamp())
        super().connection_lost(exc)
        self.server.connections.discard(self)

    def received(self, item: Item) -> None:
        """Something came."""
        self.server.received(self, item)

    def gone(self, words: str) -> None:
        """The connection is over."""
        self.server.gone(self, words)

    def name(self) -> str:
        """Who it is, in words."""
        return f"client {self.number}" if self.number else "%s:%s" % self.peer

    def _seen(self, way: str, octets: bytes) -> None:
        self.server.options.pcap.said(self.flow, 0 if way == "<" else 1, octets, self.server.stamp())


class Server:
    """The device behind a port."""

    def __init__(self, program: Program, clients: int, options: Options, taken: Sequence[int] = ()):
        self.program, self.options = program, options
        self.free = [n for n in range(1, clients + 1) if n not in taken]
        self.links: Dict[int, Connection] = {}  # by client
        self.connections: Set[Connection] = set()  # also those that are over and linger
        self.associated: Set[int] = set()  # the clients whose associations are open, by what they were told
        self.due = Due()
        self.ended: Optional[Ended] = None
        self.done = asyncio.Event()
        self._pending: List[Event] = []
        self._is_scheduled = False
        self._began, self._start = time.monotonic(), time.time()
        self._asked = 0  # milliseconds that were asked for
        self._listener: Optional[asyncio.AbstractServer] = None
        self._timer: Optional[asyncio.TimerHandle] = None
        self._loop = asyncio.get_running_loop()

    async def listen(self, host: str, port: int) -> int:
        """Begins to listen, and tells the port."""
        self._listener = await self._loop.create_server(lambda: Connection(self), host, port, backlog=256)
        self._loop.call_later(self._often(), self._look)
        return self._listener.sockets[0].getsockname()[1]

    def stop(self) -> None:
        """Ends all connections and the program, in order."""
        if self._listener is not None:
            self._listener.close()
        self._pending_first()
        for link in list(self.connections):
            link.end.abort()
            link.close("the server ends")
            self._loop.call_later(ENDING, link.transport.abort)
        if self._timer is not None:
            self._timer.cancel()
        self.done.set()

    def reserve(self, number: int) -> bool:
        """Gives a client to nobody who connects; tells whether nobody has it."""
        is_free = number in self.free
        if is_free:
            self.free.remove(number)
            heapq.heapify(self.free)
        return is_free

    def cell(self, events: Sequence[Event]) -> Told:
        """Serves events that are asked for, such as ticks and ends of programs, and tells what came of them."""
        self._pending_first()
        told = self._serve(list(events))
        for one in events:
            if one.kind == "lost":
                self.associated.discard(one.client)
                if one.client in self.links:
                    self.links[one.client].drop("lost, as it was asked for")
        return told

    def stamp(self) -> int:
        """The time of a frame, in microseconds: that of the device's clock."""
        began = int(self._start * 1000) * 1000
        if self.options.is_still:
            return began + self.program.clock * 1000
        real = int((time.monotonic() - self._began) * 10**6) + self._asked * 1000
        return began + max(self.program.clock * 1000, real)

    # ------------------------------------------------------------ connections

    def connected(self, link: Connection) -> None:
        """A connection opens: the least number that is free is its client."""
        self.connections.add(link)
        if self.free and self.ended is None:
            link.number = heapq.heappop(self.free)
            self.links[link.number] = link
            self.say(link, "connected from %s:%s" % link.peer)
            return
        link.end.refuse_connection(CONGESTION)
        self.say(link, "refused, as there are no more clients")
        waiting = sum(not one.number for one in self.connections)
        if waiting > MOST_REFUSED:
            link.drop("refused")
        else:
            self._loop.call_later(REFUSING, link.drop, "refused")

    def received(self, link: Connection, item: Item) -> None:
        """Something came from a client."""
        if item.kind is Kind.OPEN:
            return
        if not link.number:
            return
        if item.kind is Kind.PDU:
            self._heard(link, item.octets)
        elif item.kind is Kind.RELEASE:
            self.say(link, "> release")
            self._leave(link)
            link.end.release()
        elif item.kind is Kind.BROKEN:
            self.say(link, f"refused by {item.layer}: {item.words}")
        else:
            self.say(link, f"> {item.words} ({item.layer})")

    def _heard(self, link: Connection, pdu: bytes) -> None:
        """A client sends a PDU."""
        if len(pdu) > texts.MOST_PDU:
            bad = Broken(MMS, f"a PDU of {len(pdu)} octets, of which the device takes {texts.MOST_PDU}")
            link.end.refuse(bad)
            self.say(link, f"refused by {bad.layer}: {bad.words}")
            return
        if self.options.log:
            self.say(link, f"> {in_words(pdu)}")
        self._pending.append(Event("heard", link.number, pdu))
        if link.end.state is not State.OPEN:
            self.flush()  # what is answered in ACSE is answered before anything behind it is looked at
        elif not self._is_scheduled:
            self._is_scheduled = True
            self._loop.call_soon(self.flush)

    def gone(self, link: Connection, words: str) -> None:
        """A connection is over: what it sent is served, then its association is lost, and its number is free."""
        if words and link.number:
            self.say(link, words)
        self._leave(link)

    def _leave(self, link: Connection) -> None:
        """A connection is no client any more."""
        number = link.number
        if not number:
            return
        self._pending_first()
        if not link.number:
            return
        link.number = 0
        del self.links[number]
        if number in self.associated and self.ended is None:
            self._serve([Event("lost", number)])
            self.associated.discard(number)
        self.due.lost(number)
        heapq.heappush(self.free, number)

    # ------------------------------------------------------------ the program

    def flush(self) -> None:
        """Serves what came."""
        self._is_scheduled = False
        events, self._pending = self._pending, []
        if events:
            self._serve(events)

    def _pending_first(self) -> None:
        """Serves what came before an event of another kind."""
        if self._pending:
            self.flush()

    def _serve(self, events: List[Event]) -> Told:
        """Serves these events, at the time that it is, and sends what comes of them."""
        if self.ended is not None:
            return {}
        before = self._time()
        self._asked += sum(one.ms for one in events if one.kind == "tick")
        try:
            told = self.program.serve([*before, *events])
        except Ended as ended:
            self._end(ended)
            return {}
        now = self.program.clock
        self.due.met(now)
        for one in events:
            if one.kind == "heard":
                self.due.heard(one.client, one.octets, now)
        for client, sent in told.items():
            self._tell(client, sent)
        for link in [self.links[client] for client in told if client in self.links]:
            if link.end.state is State.OVER:
                link.close()
        self._set_timer()
        return told

    def _time(self) -> List[Event]:
        """The ticks up to now, where the clock is real."""
        if self.options.is_still:
            return []
        asked = self._asked
        return ticks(max(0, int((time.monotonic() - self._began) * 1000) + asked - self.program.clock))

    def _tell(self, client: int, sent: List[Optional[bytes]]) -> None:
        """Sends a client what it is told."""
        link = self.links.get(client)
        for pdu in sent:
            if self.options.log and link:
                self.say(link, f"< {in_words(pdu)}")
            if pdu is None or pdu[0] == CONCLUDED:
                self.associated.discard(client)
            elif pdu[0] == ACCEPTED:
                self.associated.add(client)
            if pdu is not None:
                self.due.told(client, pdu, self.program.clock)
            if link is None:
                continue
            if pdu is None:
                link.end.abort()
            else:
                link.end.tell(pdu)

    def _end(self, ended: Ended) -> None:
        """The program ended by itself."""
        self.ended = ended
        self.say(None, str(ended))
        self.associated.clear()
        self.stop()

    # ------------------------------------------------------------ time

    def _set_timer(self) -> None:
        """Sets the timer to the next moment at which something may come of time, while somebody may be told."""
        if self._timer is not None:
            self._timer.cancel()
            self._timer = None
        if self.options.is_still or not self.associated:
            return
        next_ = self.due.next(self.program.clock)
        if next_ is not None:
            seconds = (next_ - self._asked) / 1000 + self._began - time.monotonic()
            self._timer = self._loop.call_later(max(seconds, 0), self._tick)

    def _tick(self) -> None:
        """Time goes by unasked."""
        self._timer = None
        self._pending_first()
        if self._time():
            self._serve([])
        else:
            self._set_timer()

    def _often(self) -> float:
        return max(0.05, min(1.0, self.options.idle / 4))

    def _look(self) -> None:
        """Ends the connections that say nothing."""
        if self.done.is_set():
            return
        now = self._loop.time()
        for link in [one for one in self.connections if one.number and one.is_idle(now, self.options.idle)]:
            what = "half a message" if link.end.is_partial else "nothing"
            link.drop(f"has said {what} for {self.options.idle:g} seconds")
        self._loop.call_later(self._often(), self._look)

    def say(self, who: Union[Connection, None], words: str) -> None:
        """Tells the log."""
        if self.options.log:
            self.options.log(f"{who.name()}: {words}" if who else words)
