"""The proved device in a test: `Device` serves a growing recording, event by event, and listens on TCP where it is
asked to. No time goes by but by `tick`.

    with Device(config) as device:
        press = device.client(1)
        press.open()
        assert press.send("Read Speed")[0].words == "Read 7"
        assert press.send("A006020101800100") == [bytes.fromhex("A10B020101A006800100810100")]
        device.tick(20)
        port = device.listen()      # and clients connect to it by TCP, too
    print(device.recording)         # replays to the same

The program is that of the variable MMSCELL, or the one that the gate left, or is named.
"""

import asyncio
import io
import os
import re
import threading
from functools import partial
from typing import Callable, Dict, List, Optional, Sequence, TypeVar, Union

from . import texts
from .explain import heading
from .live import Options, Server
from .program import Program, Told, clients_of, command_of, ticks
from .serve import read_config
from .texts import BadText, Event
from .words import say
from .write import written

INITIATE = bytes.fromhex("A826800300FDE881010A82010A830105A416800101810305F100820C03EE1C00000408000079EF18")
Octets = Union[str, bytes]
Found = TypeVar("Found")


class Pdu(bytes):
    """A PDU that a client was sent."""

    @property
    def words(self) -> str:
        """What it says, as `mms explain` heads it, without its invokeID."""
        return re.sub(r"(, response)?(, invokeID -?\d+)?$", "", heading(say(self)))

    def __repr__(self) -> str:
        return f"Pdu({self.hex().upper()}: {self.words})"


Sent = List[Optional[Pdu]]  # None is an abort


class Client:
    """A client of the device, without a network."""

    def __init__(self, device: "Device", number: int):
        self.device, self.number = device, number
        self._invoke = 0

    def open(self, pdu: Octets = INITIATE) -> Sent:
        """Opens its association, and tells what it is sent by that."""
        return self.send(pdu)

    def send(self, pdu: Octets) -> Sent:
        """Sends a PDU: octets, hexadecimal digits, or words as `mms write` has them. Tells what it is sent by that.

        In words a request has the next invokeID, from 1 on."""
        return self.device.serve([Event("heard", self.number, self._octets(pdu))]).get(self.number, [])

    def lose(self) -> None:
        """Loses its association."""
        self.device.lose(self.number)

    @property
    def sent(self) -> Sent:
        """All that it was sent so far."""
        return self.device.sent.get(self.number, [])

    def _octets(self, pdu: Octets) -> bytes:
        if not isinstance(pdu, str):
            return bytes(pdu)
        if re.fullmatch(r"\s*([0-9A-Fa-f]{2}\s*)+", pdu):
            return bytes.fromhex(pdu)
        self._invoke += 1
        return written(pdu, self._invoke, 1, self.device.edition).octets


class Device:
    """The device: one process of the program."""

    def __init__(self, config: Union[str, os.PathLike, Sequence[str]] = "", edition: str = "", program: str = ""):
        """A configuration is a text in TOML, its lines, or the path of a file, also of a recording."""
        if isinstance(config, os.PathLike) or isinstance(config, str) and os.path.exists(config):
            lines, own = read_config(os.fspath(config), None, False)
        else:
            lines, own = (config.split("\n") if isinstance(config, str) else list(config)), "1"
        self.edition = edition or own
        self.sent: Dict[int, Sent] = {}  # what each client was sent so far, over TCP too
        self._kept, self._listening = io.StringIO(), None
        self._clients: Dict[int, Client] = {}
        self._program = Program(command_of(program or None), lines, self.edition, self._kept)
        self._program.watch = self._watch
        self._process = self._program  # also when it is closed
        self.most = clients_of(lines)  # clients

    def __enter__(self) -> "Device":
        return self

    def __exit__(self, *_) -> None:
        self.close()

    def close(self) -> None:
        """Ends it; the recording stays."""
        if self._listening is not None:
            self._listening.close()
            self._listening = None
        if self._program is not None:
            program, self._program = self._program, None
            status = program.close()
            if status and program.ended is None:
                raise BadText(f"the program ended with status {status}")

    def client(self, number: int = 1) -> Client:
        """A client by its number; one that is connected by TCP has its own."""
        if not 1 <= number <= self.most:
            raise BadText(f"client {number} isn't one of 1 to {self.most}")
        if number not in self._clients:
            if self._listening is not None and not self._listening.call(lambda s: s.reserve(number)):
                raise BadText(f"client {number} is connected by TCP")
            self._clients[number] = Client(self, number)
        return self._clients[number]

    def serve(self, events: Sequence[Event]) -> Dict[int, Sent]:
        """Serves these events as one phase, and tells what each client is sent."""
        if self._program is None:
            raise BadText("the device is closed")
        if self._listening is not None:
            told: Told = self._listening.call(lambda s: s.cell(events))
        else:
            told = self._program.serve(events)
        return {client: _sent(pdus) for client, pdus in told.items()}

    def tick(self, ms: int) -> Dict[int, Sent]:
        """Lets time go by, and tells what comes of it."""
        return self.serve(ticks(ms))

    def ends(self, name: str) -> Dict[int, Sent]:
        """Has a program invocation end by itself."""
        if not texts.is_name(name, self.edition):
            raise BadText(f"`{name}` is no name")
        return self.serve([Event("ends", name=name)])

    def lose(self, client: int) -> Dict[int, Sent]:
        """Loses a client, and tells what comes of it to others."""
        return self.serve([Event("lost", client)])

    @property
    def clock(self) -> int:
        """The milliseconds that went by."""
        return self._process.clock

    @property
    def recording(self) -> str:
        """What came so far, as a recording, whose replay has the same outputs."""
        return self._kept.getvalue() + "".join(f"{one.line()}\n" for one in ticks(self._process.silent))

    def listen(self, host: str = "127.0.0.1", port: int = 0, options: Optional[Options] = None) -> int:
        """Listens on TCP, and tells the port, which is any that is free where none is named."""
        if self._listening is None:
            options = options or Options(is_still=True)
            server = partial(Server, self._program, self.most, options, list(self._clients))
            self._listening = _Listening(server, host, port)
        return self._listening.port

    def _watch(self, _, told: Told) -> None:
        for client, pdus in told.items():
            self.sent.setdefault(client, []).extend(_sent(pdus))


def _sent(pdus: Sequence[Optional[bytes]]) -> Sent:
    return [None if pdu is None else Pdu(pdu) for pdu in pdus]


class _Listening:
    """The device's port, in a thread of its own, which alone feeds the program from then on."""

    def __init__(self, server: Callable[[], Server], host: str, port: int):
        self._loop = asyncio.new_event_loop()
        self._server: Optional[Server] = None
        self._thread = threading.Thread(target=self._loop.run_forever, daemon=True)
        self._thread.start()

        async def start() -> int:
            self._server = server()
            return await self._server.listen(host, port)

        try:
            self.port = asyncio.run_coroutine_threadsafe(start(), self._loop).result()
        except OSError:
            self._end()
            raise

    def call(self, what: Callable[[Server], Found]) -> Found:
        """Does something with the server in its thread. Raises Ended where the program has ended."""

        async def done() -> Found:
            found = what(self._server)
            if self._server.ended is not None:
                raise self._server.ended
            return found

        return asyncio.run_coroutine_threadsafe(done(), self._loop).result()

    def close(self) -> None:
        """Ends all connections."""

        async def stop() -> None:
            self._server.stop()
            until = self._loop.time() + 1.5
            while self._server.connections and self._loop.time() < until:
                await asyncio.sleep(0.005)

        asyncio.run_coroutine_threadsafe(stop(), self._loop).result()
        self._end()

    def _end(self) -> None:
        self._loop.call_soon_threadsafe(self._loop.stop)
        self._thread.join()
        self._loop.close()
