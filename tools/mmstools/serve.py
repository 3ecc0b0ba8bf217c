"""A device to connect to: one process of `mmscell replay` behind a TCP port (docs/LIVE.md).

    mms serve --config press.toml --port 10102 --keep press.mms

Each connection (TPKT, COTP, session, presentation, ACSE) is a client, by the least number that is free; its end is the
loss of that client. Every answer is the program's. Time is real: ticks stand before each event, and come by themselves
where a wait, a control or an evaluation may end. With --still no time goes by but what is asked for.

On standard input, which may be a terminal or a pipe, it takes lines, and says each again when it is served:

    tick MS      lets so many milliseconds go by
    ends NAME    has the program invocation of that name end by itself
    quit         ends it, as SIGINT does

SIGUSR1 does what --usr1 says. There is no authentication and no TLS: who reaches the port is served.

Status 0: ended by SIGINT, SIGTERM or `quit`. 1: the program ended by itself, for the reason that is told; what came is
kept. 2: it can't listen: the port is taken or not allowed, there is no program, or the configuration is broken.
"""

import asyncio
import contextlib
import errno
import gc
import os
import re
import shlex
import signal
import socket
import sys
from datetime import datetime, timezone
from typing import IO, List, Optional, Tuple

from . import texts
from .live import Options, Server
from .pcap import Writer
from .program import Ended, Program, clients_of, command_of
from .texts import BadText, Event, count

EPOCH_1984 = datetime(1984, 1, 1, tzinfo=timezone.utc)
ALLOWED = 1024  # the least port for which nobody needs a right
QUIT = "quit"
MOST_PORT = 65535


def read_config(path: Optional[str], edition: Optional[str], is_now: bool) -> Tuple[List[str], str]:
    """The lines of a configuration and its edition; a recording has both. With `is_now` the clock begins now."""
    lines, own = [], "1"
    if path:
        try:
            with open(path, encoding="utf-8") as f:
                text = f.read()
        except UnicodeDecodeError:
            raise BadText(f"{path} isn't UTF-8") from None
        lines = text.rstrip("\n").split("\n") if text.strip() else []
        if texts.kind_of(text) == "recording":
            recording = texts.read_recording(text)
            lines, own = recording.config, recording.edition
    if is_now:
        lines = _now() + [line for line in lines if not re.match(r"(day|ms)\s*=", line)]
    return lines, edition or own


def _now() -> List[str]:
    """The lines that say when the clock begins."""
    since = datetime.now(timezone.utc) - EPOCH_1984
    return [f"day = {since.days}", f"ms = {since.seconds * 1000 + since.microseconds // 1000}"]


def order(line: str) -> Optional[Event]:
    """The event that a line on standard input asks for, None for QUIT; raises BadText where it is no order."""
    said = line.strip()
    if said == QUIT:
        return None
    one = texts.event(said)
    if one is None or one.kind not in ("tick", "ends") or not one.ms <= texts.MOST_TICK or said == "tick 0":
        raise BadText(f"`{said[:60]}` is none of: tick MS, with 1 to {texts.MOST_TICK}; ends NAME; {QUIT}")
    return one


def cannot_listen(bad: OSError, host: str, port: int) -> str:
    """Why a port can't be had, and what can be done."""
    if bad.errno == errno.EADDRINUSE:
        return f"{host}:{port} is taken: another server listens there; name another port with --port"
    if bad.errno in (errno.EACCES, errno.EPERM):
        below = f"; ports below {ALLOWED} need a right, such as --port 10102 doesn't" if port < ALLOWED else ""
        return f"{host}:{port} is not allowed{below}"
    if bad.errno == errno.EADDRNOTAVAIL or isinstance(bad, socket.gaierror):
        return f"{host} is no address of this machine"
    return f"{host}:{port}: {bad.strerror}"


def _close(file: IO) -> None:
    """Closes a file; that it isn't whole was told."""
    with contextlib.suppress(OSError):
        file.close()


class Serving:
    """The command, while it runs."""

    def __init__(self, a):
        self.a = a
        self.keep: Optional[IO] = None
        self.log: Optional[IO] = None
        self.pcap: Optional[IO] = None
        self.writer: Optional[Writer] = None
        self.server: Optional[Server] = None
        self._rest = b""

    def say(self, words: str) -> None:
        """Says something on standard output."""
        print(words, flush=True)

    def tell(self, words: str) -> None:
        """Tells what happens, to the log and on a terminal."""
        self.note(words)
        if sys.stdout.isatty():
            self.say(words)

    def note(self, words: str) -> None:
        """Tells what happens to the log alone."""
        if self.log:
            now = datetime.now().isoformat(" ", "milliseconds")
            try:
                self.log.write(f"{now} {words}\n")
                self.log.flush()
            except OSError as bad:
                self.log = None
                print(f"mms serve: the log ends here: {bad.strerror}", file=sys.stderr)

    async def run(self) -> int:
        """Serves until it ends."""
        a = self.a
        order(a.usr1)
        if not 0 <= a.port <= MOST_PORT or not a.idle > 0:
            raise BadText(f"--port goes from 0 to {MOST_PORT}, and --idle is more than 0")
        config, edition = read_config(a.config, a.edition, a.now)
        with contextlib.ExitStack() as files:
            self._open(files)
            try:
                program = Program(command_of(a.program), config, edition, self.keep)
            except Ended as ended:
                raise BadText(str(ended)) from None
            log = self.tell if self.log or sys.stdout.isatty() else None
            self.writer = Writer(self.pcap) if self.pcap else None
            options = Options(a.idle, a.still, log, self.writer)
            self.server = Server(program, clients_of(config), options)
            try:
                port = await self.server.listen(a.host, a.port)
            except OSError as bad:
                program.close()
                raise BadText(cannot_listen(bad, a.host, a.port)) from None
            shown = f"[{a.host}]" if ":" in a.host else a.host
            self.say(f"listening on {shown}:{port} for {count(clients_of(config), 'client')}")
            self._signals()
            await self.server.done.wait()
            await self._end(program)
            return self._last(program)

    def _open(self, files: contextlib.ExitStack) -> None:
        """Opens the files that are written."""
        for name, mode in (("keep", "w"), ("log", "a"), ("pcap", "wb")):
            path = getattr(self.a, name)
            if path:
                kind = {} if "b" in mode else {"encoding": "utf-8", "newline": "\n"}
                file = open(path, mode, **kind)
                files.callback(_close, file)
                setattr(self, name, file)

    async def _end(self, program: Program) -> None:
        """Waits for what was said last to be read, and ends the program."""
        loop = asyncio.get_running_loop()
        until = loop.time() + 1.5
        while self.server.connections and loop.time() < until:
            await asyncio.sleep(0.01)
        status = program.close()
        if status and self.server.ended is None:
            self.server.ended = Ended(status, f"the program ended with status {status}")

    def _last(self, program: Program) -> int:
        """The last words."""
        kept = f"; kept in {self.a.keep}" if self.a.keep else ""
        self.say(f"served {count(program.events, 'event')} in {program.clock} ms of its clock{kept}")
        if self.a.keep:
            device = shlex.join(program.command)
            self.say(f"replay it by: {device} replay < {shlex.quote(self.a.keep)}")
        if self.writer:
            self.writer.flush()
        if self.writer and self.writer.failed:
            print(f"mms serve: the capture isn't whole: {self.writer.failed}", file=sys.stderr)
        if self.server.ended is None:
            return 0
        print(f"mms serve: {self.server.ended}", file=sys.stderr)
        return 1

    def _signals(self) -> None:
        """Listens to signals and to standard input."""
        loop = asyncio.get_running_loop()
        for one in (signal.SIGINT, signal.SIGTERM):
            loop.add_signal_handler(one, self.server.stop)
        loop.add_signal_handler(signal.SIGUSR1, self.ordered, self.a.usr1)
        with contextlib.suppress(OSError, ValueError, AttributeError):
            loop.add_reader(sys.stdin.fileno(), self._typed)

    def _typed(self) -> None:
        """Something stands on standard input."""
        fd = sys.stdin.fileno()
        if os.isatty(fd) and os.tcgetpgrp(fd) != os.getpgrp():
            return asyncio.get_running_loop().remove_reader(fd)  # in the background: the terminal isn't ours
        got = os.read(fd, 4096)
        *lines, self._rest = (self._rest + got).split(b"\n")
        for line in lines:
            if line.strip():
                self.ordered(line.decode("latin-1"))
        if not got:
            asyncio.get_running_loop().remove_reader(fd)
        return None

    def ordered(self, line: str) -> None:
        """Does what a line says, and says that it is done."""
        try:
            one = order(line)
        except BadText as bad:
            return self.say(f"mms serve: {bad}")
        if one is None:
            return self.server.stop()
        self.note(one.line())
        self.server.cell([one])
        return self.say(f"served {one.line()}")


def command(a) -> int:
    """`mms serve`."""
    gc.enable()  # it may run for days
    return asyncio.run(Serving(a).run())
