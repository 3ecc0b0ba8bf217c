"""The program as a live device: one process of `mmscell replay`, fed phase by phase.

`replay` writes the report of a phase before it waits for anything behind the line `phase` (docs/RECORDING.md). An empty
phase behind each makes plain that its report is whole. What was fed is kept as a recording, whose replay has the same
outputs; ticks of which nothing came are joined there, since two ticks with nothing between are as one.
"""

import os
import select
import subprocess
import tempfile
import tomllib
from typing import Callable, Dict, IO, List, Optional, Sequence

from . import chart
from .configuration import broken
from .texts import CLIENTS, MOST_EVENTS, MOST_TICK, BadText, Event
from .toml_1_1 import as_1_0

Told = Dict[int, List[Optional[bytes]]]  # by client: PDUs, None for an abort
SILENT = 30.0  # seconds after which a program that says nothing is given up
READ = 1 << 16
SENTENCES = {
    2: "a line was refused",
    3: "memory is wanting",
    4: "its input failed",
    5: "its output failed",
    6: "a rule of the configuration is broken",
    7: "the recording is too much",
}  # of statuses (docs/RECORDING.md)


class Ended(Exception):
    """The program ended by itself; its status, None where it was given up, and why."""

    def __init__(self, status: Optional[int], words: str):
        super().__init__(words)
        self.status = status


class Program:
    """One process that serves a growing recording."""

    def __init__(self, command: List[str], config: Sequence[str] = (), edition: str = "1", keep: Optional[IO] = None):
        self.config, self.edition, self.command = list(config), edition, command
        self.clock = 0  # milliseconds that went by
        self.silent = 0  # of which the last ones, of which nothing came, aren't kept yet
        self.events = 0  # events that were served, ticks not counted
        self.ended: Optional[Ended] = None
        self.watch: Optional[Callable[[List[Event], Told], None]] = None  # is told of each phase that isn't silent
        self._keep, self._is_first = keep, True
        self._phase, self._stderr = 0, tempfile.TemporaryFile()
        pipe = subprocess.PIPE
        try:
            self._process = subprocess.Popen(
                [*command, "replay"], bufsize=0, stdin=pipe, stdout=pipe, stderr=self._stderr, start_new_session=True
            )
        except OSError as bad:
            raise BadText(f"{command[0]}: {bad.strerror}") from None
        self._in, self._out = self._process.stdin.fileno(), self._process.stdout.fileno()
        self._poll = select.poll()
        self._poll.register(self._out, select.POLLIN)
        head = "".join(f"{line}\n" for line in [f"mms-recording {edition}", "config", *self.config, "end"])
        try:
            self._write(head.encode() + b"phase\n")
            self._report(1)
            self._kept(head)
        except Ended:
            self.close()
            raise

    def serve(self, events: Sequence[Event]) -> Told:
        """Serves these events as a phase, and tells what each client is sent. Raises Ended."""
        told: Told = {}
        for at in range(0, len(events), MOST_EVENTS):
            for client, sent in self._serve(events[at : at + MOST_EVENTS]).items():
                told.setdefault(client, []).extend(sent)
        return told

    def _serve(self, events: Sequence[Event]) -> Told:
        lines = "".join(f"{one.line()}\n" for one in events)
        is_quiet = all(one.kind == "tick" for one in events)
        if not is_quiet:
            self._keep_phase(lines)  # before it is served: so what ends the program is in it
        try:
            self._write(f"{lines}phase\nphase\n".encode())
            told = outputs(self._report(self._phase + 2))
        except Ended as ended:
            if is_quiet:
                self.ended = None  # what ended it is kept, too
                self._keep_phase(lines)
                self.ended = ended
            raise
        gone = sum(one.ms for one in events if one.kind == "tick")
        self.clock += gone
        if is_quiet and not told:
            self.silent += gone
            return told
        if is_quiet:
            self._keep_phase(lines)
        self.events += sum(one.kind != "tick" for one in events)
        if self.watch:
            self.watch(list(events), told)
        return told

    def close(self) -> int:
        """Ends the input, and tells the status of the program. Time that went by last is kept."""
        if self.ended is None:
            if self.silent:
                self._keep_phase("")
            self._process.stdin.close()
            while os.read(self._out, READ):
                pass
        status = self._process.wait()
        for file in (self._process.stdin, self._process.stdout, self._stderr):
            file.close()
        return status

    def _keep_phase(self, lines: str) -> None:
        """Keeps a phase, behind the time that went by in silence."""
        self._kept(("" if self._is_first else "phase\n") + "".join(f"{t.line()}\n" for t in ticks(self.silent)) + lines)
        self.silent, self._is_first = 0, False

    def _kept(self, text: str) -> None:
        if self._keep is None or self.ended is not None:
            return
        try:
            self._keep.write(text)
            self._keep.flush()
        except OSError as bad:
            self._process.stdin.close()
            self._process.kill()
            self.ended = Ended(None, f"what comes can't be kept: {bad.strerror}")
            raise self.ended from None

    def _write(self, octets: bytes) -> None:
        view = memoryview(octets)
        while view:
            try:
                view = view[os.write(self._in, view) :]
            except BrokenPipeError:
                self._give_up(b"")

    def _report(self, phase: int) -> bytes:
        """What the program writes up to the end of the report of that phase, which has no events and no outputs."""
        mark = b"phase %d\n" % phase
        got = b""
        while not got.endswith(mark) or len(got) > len(mark) and got[-len(mark) - 1] != 10:
            if not self._poll.poll(SILENT * 1000):
                self._process.kill()
                self._give_up(got, f"the program said nothing for {SILENT:g} seconds")
            more = os.read(self._out, READ)
            if not more:
                self._give_up(got)
            got = got + more if got else more
            if got.endswith(b"\n") and got[:-1].rpartition(b"\n")[2].startswith((b"bad ", b"too much ")):
                self._give_up(got)
        self._phase = phase
        return got

    def _give_up(self, got: bytes, words: str = "") -> None:
        """Raises Ended, with the status and what the program said last."""
        self._process.stdin.close()
        while not words and (more := os.read(self._out, READ)):
            got += more
        status = self._process.wait()
        self._stderr.seek(0)
        said = self._stderr.read()[-2000:].decode("utf-8", "replace").strip()
        last = got.decode("latin-1").rstrip("\n").rpartition("\n")[2]
        told = [last] if last.startswith(("bad ", "too much ")) else []
        if status == 6:
            text = "".join(f"{line}\n" for line in self.config).encode().decode("latin-1")
            found = broken(text, self.edition)[0]
            told += [found.words()] if found is not None else []
        more_words = "; ".join([SENTENCES.get(status, "it isn't known why"), *told, *([said] if said else [])])
        self.ended = Ended(None if words else status, words or f"the program ended with status {status}: {more_words}")
        raise self.ended


def command_of(given: Optional[str] = None) -> List[str]:
    """The words that begin the program: those given, else MMSCELL's, else the gate's program."""
    try:
        return chart.program(given)
    except BadText:
        raise BadText(
            "there is no program to serve: name one with --program PATH or by the variable MMSCELL, or build"
            " crates/mmscell/out/mmscell by the script mmscell"
        ) from None


def clients_of(config: Sequence[str]) -> int:
    """How many clients a configuration without a broken rule has."""
    try:
        return int(tomllib.loads(as_1_0("\n".join(config))).get("clients", CLIENTS))
    except (tomllib.TOMLDecodeError, TypeError, ValueError):
        return CLIENTS


def ticks(ms: int) -> List[Event]:
    """The ticks that let so many milliseconds go by."""
    out = [Event("tick", ms=MOST_TICK)] * (ms // MOST_TICK)
    return out + [Event("tick", ms=ms % MOST_TICK)] * bool(ms % MOST_TICK)


def outputs(report: bytes) -> Told:
    """What each client is sent, by the report of a phase."""
    told: Told = {}
    at = report.find(b"\nclient ")
    if at < 0:
        return told
    sent: List[Optional[bytes]] = []
    for line in report[at + 1 :].split(b"\n"):
        if line[:2] == b"> ":
            sent.append(None if line == b"> abort" else bytes.fromhex(line[2:].decode()))
        elif line[:7] == b"client ":
            sent = told.setdefault(int(line[7:]), [])
    return told
