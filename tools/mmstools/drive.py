"""Plays a recording's clients against a device that listens on TCP, and tells what came back.

    mms drive RECORDING --port 10102 -o SEEN     SEEN is a report, for `mms compare SEEN REPORT`
    mms drive RECORDING --port 10102 --check     also replays the recording, and compares

An event is sent once the one before it is answered, or --wait seconds are silent; a phase ends when they are. A tick is
waited for, and nobody but the device ends a program: with --cell both are written there in place of that, as lines that
`mms serve --still` takes on standard input. A client that was aborted, or has concluded, or is lost opens anew with its
next PDU. So that a client has its number of the recording at `mms serve` too, connections are opened in the order of
these numbers before the first event, and again when one ends, without an association; with --late each is opened when
its client first sends. What ends without an abort is told as one.

Status 0: the recording was played, and with --check all octets are the same. 1: with --check some answers differ. 2: it
can't be played: nobody listens, or it is no recording.
"""

import asyncio
import gc
import os
import subprocess
import sys
from typing import Callable, Dict, List, Optional, Tuple

from . import compare, texts
from .program import clients_of, command_of
from .stack import ClientEnd, Item, Kind, State
from .stack.elements import cut, first, number
from .stack.link import Link
from .texts import BadText, Event, Phase, Recording, Report

CONFIRMED, INITIATE, CONCLUDE, CANCEL = 0xA0, 0xA8, 0x8B, 0x85  # what a client asks
CONCLUDED, UNCONFIRMED, REJECT = 0x8C, 0xA3, 0xA4
MOST_OPENING = 65000  # octets of a PDU in the request for an association
STALLED = 0.25  # of a wait: where it ends so much later, the machine stood still, and the wait says nothing
CONNECTING = 5.0  # seconds for which a connection may take to open
Cell = Callable[[Event], None]


class Peer(Link):
    """A connection of a client to the device."""

    def __init__(self, driver: "Driver", client: int):
        super().__init__(ClientEnd)
        self.driver, self.client = driver, client
        self.is_there, self.is_gone = asyncio.Event(), asyncio.Event()
        self.was_lost = False  # by the recording

    def connection_made(self, transport) -> None:
        """Called by asyncio."""
        super().connection_made(transport)
        self.end.connect()

    def connection_lost(self, exc: Optional[Exception]) -> None:
        """Called by asyncio."""
        super().connection_lost(exc)
        self.is_there.set()
        self.is_gone.set()

    def received(self, item: Item) -> None:
        """Something came."""
        if item.kind is Kind.OPEN:
            self.is_there.set()
        else:
            self.driver.received(self, item)

    def gone(self, words: str) -> None:
        """The connection is over."""
        self.driver.gone(self, words)


class Driver:
    """Plays recordings."""

    def __init__(self, host: str, port: int, wait: float = 0.2, cell: Optional[Cell] = None, is_late: bool = False):
        self.host, self.port, self.wait, self.cell, self.is_late = host, port, wait, cell, is_late
        self.remarks: List[str] = []
        self._peers: Dict[int, Peer] = {}
        self._outputs: Dict[int, List[Optional[bytes]]] = {}
        self._open: Dict[int, bool] = {}  # clients to which an end that isn't told yet is owed
        self._asked: Tuple[int, bytes] = (0, b"")
        self._answered = asyncio.Event()
        self._heard = 0.0
        self._place = ""

    async def play(self, recording: Recording) -> Report:
        """Plays a recording, and tells what was seen."""
        out, place, drains = Report(), 1, clients_of(recording.config)
        heard = [e.client for events in recording.phases for e in events if e.kind == "heard"]
        if not self.is_late:
            for client in range(1, max(heard, default=0) + 1):
                self._peers[client] = await self._connect(client)
        for k, events in enumerate(recording.phases, 1):
            phase = Phase(k, [], {})
            self._outputs = phase.outputs
            for one in events:
                self._place = f"place {place}"
                await self._event(one)
                phase.served.append((place, one))
                place += 1
            if events:
                await self._silence()
            place += drains
            out.phases.append(phase)
        for peer in self._peers.values():
            peer.was_lost = True
            peer.close()
        for peer in self._peers.values():
            await self._until(peer.is_gone)
        return out

    async def _event(self, one: Event) -> None:
        """Plays one event."""
        if one.kind == "heard":
            await self._send(one.client, one.octets)
        elif one.kind == "lost":
            await self._lose(one.client)
        elif self.cell is not None:
            self.cell(one)
            await self._silence()
        elif one.kind == "tick":
            await asyncio.sleep(one.ms / 1000)
        else:
            self.remarks.append(f"{self._place}: {one.line()}: a device ends its programs by itself; nothing is done")

    async def _connect(self, client: int) -> Peer:
        """A transport connection to the device."""
        try:
            opened = asyncio.get_running_loop().create_connection(lambda: Peer(self, client), self.host, self.port)
            _, peer = await asyncio.wait_for(opened, CONNECTING)
            await asyncio.wait_for(peer.is_there.wait(), CONNECTING)
        except asyncio.TimeoutError:
            raise BadText(f"{self.host}:{self.port} doesn't answer within {CONNECTING:g} seconds") from None
        except ConnectionRefusedError:
            raise BadText(f"{self.host}:{self.port}: nobody listens there") from None
        except OSError as bad:
            raise BadText(f"{self.host}:{self.port}: {bad.strerror or bad}") from None
        return peer

    async def _send(self, client: int, pdu: bytes) -> None:
        """Has a client send a PDU, in its association or with a new one, and waits for the answer."""
        peer = self._peers.get(client)
        if peer is None or peer.end.state is State.OVER:
            peer = self._peers[client] = await self._connect(client)
        self._asked = client, pdu
        self._answered.clear()
        self._open[client] = True
        if peer.end.state is State.IDLE and len(pdu) > MOST_OPENING:
            self.remarks.append(f"{self._place}: {len(pdu)} octets, which no request for an association holds")
            self._tell(client, None)
        elif peer.end.state is State.IDLE:
            peer.end.open(pdu)
        elif peer.end.state is State.OPEN:
            peer.end.send(pdu)
        else:
            self.remarks.append(f"{self._place}: client {client} has no connection: its PDU isn't sent")
            self._tell(client, None)
        if await self._is_answered():
            await self._after(client)

    async def _is_answered(self) -> bool:
        """Waits for the answer to what was sent last. Where the machine stood still meanwhile, the wait begins anew."""
        loop = asyncio.get_running_loop()
        while True:
            until = loop.time() + self.wait
            try:
                await asyncio.wait_for(self._answered.wait(), self.wait)
                return True
            except asyncio.TimeoutError:
                if loop.time() - until < self.wait * STALLED:
                    return False

    async def _after(self, client: int) -> None:
        """Where a client has concluded, or was aborted or refused, its connection is released, and a new one opened."""
        peer, sent = self._peers[client], self._outputs.get(client, [b""])
        if peer.end.state is State.OPEN and sent[-1] and sent[-1][0] == CONCLUDED:
            peer.was_lost = True
            peer.end.release()
            await self._until(peer.is_gone)
            peer.close()
        if peer.end.state is State.OVER and not self.is_late:
            await self._until(peer.is_gone)
            self._peers[client] = await self._connect(client)

    async def _lose(self, client: int) -> None:
        """Loses a client's connection, and waits for the device to see it."""
        peer = self._peers.get(client)
        if peer is None or peer.end.state in (State.NEW, State.IDLE):
            return
        self._open[client] = False
        peer.was_lost = True
        peer.close()
        await self._until(peer.is_gone)
        if not self.is_late:
            self._peers[client] = await self._connect(client)

    async def _until(self, event: asyncio.Event) -> None:
        """Waits for an event, as long as for an answer, and for half a second at least."""
        try:
            await asyncio.wait_for(event.wait(), max(self.wait, 0.5))
        except asyncio.TimeoutError:
            pass

    async def _silence(self) -> None:
        """Waits until nothing has come for so many seconds."""
        loop = asyncio.get_running_loop()
        self._heard = loop.time()
        while (until := self._heard + self.wait) > loop.time():
            await asyncio.sleep(until - loop.time())
            if loop.time() - until > self.wait * STALLED:
                self._heard = loop.time()

    def received(self, peer: Peer, item: Item) -> None:
        """Something came to a client."""
        if item.kind is Kind.PDU:
            self._tell(peer.client, item.octets)
        elif item.kind is not Kind.RELEASE:
            if item.kind is not Kind.ABORT:
                self.remarks.append(f"{self._place}: client {peer.client}: {item.layer}: {item.words}")
            self.gone(peer, "")

    def gone(self, peer: Peer, words: str) -> None:
        """A client's connection is over: an abort, unless the recording ended it, or it was refused or concluded."""
        if peer.was_lost or not self._open.get(peer.client) or self._peers.get(peer.client) is not peer:
            return
        if words:
            self.remarks.append(f"{self._place}: client {peer.client}: the connection is {words}")
        self._tell(peer.client, None)

    def _tell(self, client: int, pdu: Optional[bytes]) -> None:
        """A client was told something."""
        self._heard = asyncio.get_running_loop().time()
        self._outputs.setdefault(client, []).append(pdu)
        if pdu is None or pdu[0] in (CONCLUDED, 0xAA):
            self._open[client] = False
        if client == self._asked[0] and answers(self._asked[1], pdu):
            self._answered.set()


def answers(asked: bytes, got: Optional[bytes]) -> bool:
    """Whether a PDU may be the answer to another: to a request what has its invokeID, or none."""
    if got is None:
        return True
    if asked[0] not in (CONFIRMED, INITIATE, CONCLUDE, CANCEL):
        return True
    if got[0] in (CONFIRMED, UNCONFIRMED):
        return False
    mine = _invoke(asked) if asked[0] == CONFIRMED else None
    return mine is None or _invoke(got) in (None, mine)


def _invoke(pdu: bytes) -> Optional[int]:
    """The invokeID of a confirmed PDU, an error or a reject, where it has one."""
    whole = cut(pdu)[0]
    found = cut(whole[0].contents)[0] if whole else []
    return number(first(found, 2 if pdu[0] in (0xA0, 0xA1) else 0x80))


def to_file(path: str) -> Cell:
    """Writes ticks and ends to a file."""

    def cell(one: Event) -> None:
        with open(path, "ab" if os.path.isfile(path) else "wb", buffering=0) as f:
            f.write(f"{one.line()}\n".encode())

    return cell


def replayed(recording: Recording, device: List[str]) -> Report:
    """The report of the program."""
    text = texts.write_recording(recording).encode("latin-1")
    done = subprocess.run([*device, "replay"], input=text, stdout=subprocess.PIPE, check=False)
    return texts.read_report(done.stdout.decode("latin-1"))


def command(a) -> int:
    """`mms drive`."""
    gc.enable()
    if not 0 < a.port <= 65535 or not a.wait > 0:
        raise BadText("--port goes from 1 to 65535, and --wait is more than 0")
    try:
        with open(a.recording, "rb") as f:
            text = f.read().decode("latin-1")
        recording = texts.read_recording(text)
    except BadText as bad:
        raise BadText(f"{a.recording}, {bad}") from None
    device = command_of(a.program) if a.check else []

    async def play() -> Report:
        driver = Driver(a.host, a.port, a.wait, to_file(a.cell) if a.cell else None, a.late)
        seen = await driver.play(recording)
        for line in driver.remarks:
            print(f"mms drive: {line}", file=sys.stderr)
        return seen

    seen = asyncio.run(play())
    if a.output or not a.check:
        with open(a.output, "w", encoding="latin-1", newline="\n") if a.output else os.fdopen(os.dup(1), "w") as f:
            f.write(texts.write_report(seen))
    if not a.check:
        return 0
    return checked(seen, replayed(recording, device))


def checked(seen: Report, wanted: Report) -> int:
    """Says how what was seen differs from what the program answers; the status."""
    found = compare.compare(seen, wanted)
    sys.stdout.write(compare.words(found, ("seen", "replayed")))
    return int(any(d.kind != "same" for d in found))
