#!/usr/bin/env python3
"""Measures a live device over the loopback, and tries it harder than the tests do.

    bench/live.py [--program PATH] WHAT ..

    speed      one client's status requests, one after the other: how many a second, the median and the 99th of a
               hundred of 1,000 each; 64 clients at once; and what of a round trip is the program, and the layers
    many       64 clients at once with 1,000 requests each, of tokens and variables: every answer is the one that the
               replay of what was kept has
    late       how late waits end by themselves, of 200, beside how late as many sleeps do
    damage     10,000 conversations whose octets are changed, left out, doubled or cut: the server lives, and a second
               client's answers are the same
    rows       every recording of the rows and the examples with fewer than 400 events, driven: its report, to the octet
    captures   every example, without `ends`, captured by --pcap: what tshark objects to, and whether `mms capture`
               gives the events again, whose replay has the same answers

All where none is named. Status 0: all that was tried held. 1: something didn't."""
import argparse
import asyncio
import collections
import io
import os
import random
import re
import select
import socket
import statistics
import subprocess
import sys
import tempfile
import time

HERE = os.path.dirname(os.path.abspath(__file__))
TOP = os.path.dirname(HERE)
TOOLS = os.path.join(TOP, "tools")
sys.path[:0] = [TOOLS, os.path.join(TOOLS, "tests")]
from mmstools import capture, chart, drive, texts  # noqa: E402
from mmstools.device import INITIATE  # noqa: E402
from mmstools.live import Options, Server  # noqa: E402
from mmstools.pcap import Writer  # noqa: E402
from mmstools.program import Program, clients_of  # noqa: E402
from mmstools.stack import ClientEnd, Kind, ServerEnd, acse, cotp, presentation, session, tpkt  # noqa: E402
from mmstools.stack.blocking import Client  # noqa: E402
from mmstools.stack.link import Link  # noqa: E402
from mmstools.write import written  # noqa: E402

STATUS, OPERATIONAL = bytes.fromhex("A006020101800100"), bytes.fromhex("A10B020101A006800100810100")
PRESS = ["[[cell]]", "number = 0", 'type = "850120"', 'value = "850100"', "[[variable]]", 'name = "V"', "cell = 0"]


class Serving:
    """`mms serve` in a process of its own."""

    def __init__(self, program, config, *words):
        self.folder = tempfile.TemporaryDirectory()
        path = os.path.join(self.folder.name, "config")
        with open(path, "w", encoding="utf-8") as f:
            f.write("\n".join(config) + "\n")
        self.kept = os.path.join(self.folder.name, "kept")
        command = [sys.executable, os.path.join(TOOLS, "mms"), "serve", "--program", program, "--port", "0"]
        command += ["--config", path, "--keep", self.kept, *words]
        self.process = subprocess.Popen(command, stdin=subprocess.DEVNULL, stdout=subprocess.PIPE, text=True)
        self.port = int(re.search(r":(\d+) ", self.process.stdout.readline())[1])

    def __enter__(self):
        return self

    def __exit__(self, *_):
        self.end()
        self.folder.cleanup()

    def end(self):
        """Ends it, and tells its status."""
        if self.process.poll() is None:
            self.process.terminate()
        self.process.stdout.read()
        return self.process.wait()

    def replayed(self, program):
        """What each client is sent by the replay of what was kept."""
        with open(self.kept, "rb") as f:
            done = subprocess.run([program, "replay"], stdin=f, stdout=subprocess.PIPE, check=True)
        return per_client(texts.read_report(done.stdout.decode()))


def per_client(report):
    """What each client is sent, whatever the phase."""
    out = collections.defaultdict(list)
    for phase in report.phases:
        for client, sent in phase.outputs.items():
            out[client].extend(sent)
    return dict(out)


def data_frame(pdu):
    """A PDU as it goes over TCP."""
    return b"".join(map(tpkt.wrap, cotp.data(session.data(presentation.pdv(3, pdu)), 8192)))


# ------------------------------------------------------------ speed


def speed(program):
    """Round trips, and of what they are made."""
    with Serving(program, ["clients = 64"]) as serving:
        with Client("127.0.0.1", serving.port) as one:
            one.open(INITIATE)
            ask, answer = data_frame(STATUS), data_frame(OPERATIONAL)
            medians, lasts, began = [], [], time.perf_counter()
            for _ in range(100):
                took = sorted(round_trip(one.socket, ask, answer) for _ in range(1000))
                medians.append(took[500])
                lasts.append(took[990])
            whole = time.perf_counter() - began
        print(f"one client: {100000 / whole:,.0f} round trips a second")
        print(f"  median {1e6 * statistics.median(medians):.0f} us, 99th {1e6 * statistics.median(lasts):.0f} us"
              f" (medians of a hundred of 1,000; the 99th of the hundred medians {1e6 * sorted(medians)[98]:.0f} us)")
        count, took = together(serving.port, 64, 1000, ask, answer)
        print(f"64 clients at once: {count / took:,.0f} answers a second, {count} in {took:.2f} s")
        parts(program)
        return serving.end() == 0


def round_trip(sock, ask, answer):
    """The seconds of one."""
    began = time.perf_counter()
    sock.sendall(ask)
    got = sock.recv(4096)
    while len(got) < len(answer):
        got += sock.recv(4096)
    took = time.perf_counter() - began
    assert got == answer
    return took


def together(port, clients, each, ask, answer):
    """Clients that each ask again as soon as they are answered: how many answers there were, and in which time."""
    opened = [Client("127.0.0.1", port) for _ in range(clients)]
    poll, left, by = select.epoll(), {}, {}
    for one in opened:
        one.open(INITIATE)
        fd = one.socket.fileno()
        poll.register(fd, select.EPOLLIN)
        by[fd], left[fd] = one.socket, each
    began = time.perf_counter()
    for sock in by.values():
        sock.sendall(ask)
    going = len(by)
    while going:
        for fd, _ in poll.poll(10):
            assert by[fd].recv(4096) == answer
            left[fd] -= 1
            if left[fd]:
                by[fd].sendall(ask)
            else:
                going -= 1
    took = time.perf_counter() - began
    for one in opened:
        one.close()
    return clients * each, took


def parts(program, count=20000):
    """What of a round trip is what, in microseconds."""
    device = Program([program], ["clients = 64"])
    device.serve([texts.Event("heard", 1, INITIATE)])
    took = time.perf_counter()
    for _ in range(count):
        device.serve([texts.Event("heard", 1, STATUS)])
    print(f"  of which {1e6 * (time.perf_counter() - took) / count:.1f} us are the program with its two pipes,")
    device.close()
    text = ["mms-recording 1", "config", "end", f"1 {INITIATE.hex()}"] + [f"1 {STATUS.hex()}"] * 10000
    again = "\n".join(text + ["phase"] + text[4:] * 1).encode()
    took = time.perf_counter()
    subprocess.run([program, "replay"], input=again, stdout=subprocess.DEVNULL, check=True)
    print(f"  {1e6 * (time.perf_counter() - took) / 20000:.2f} us the program alone, by the replay of 20,000,")
    end = ServerEnd(lambda _: None)
    list(end.feed(b"".join([tpkt.wrap(cotp.connect()), *opening_frames()])))
    end.tell(bytes.fromhex("A926800300FDE881010A82010A830105A416800101810305E100820C03EF3C1FFF0FFDB8607E0098"))
    frame = data_frame(STATUS)
    took = time.perf_counter()
    for _ in range(count):
        for _ in end.feed(frame):
            end.tell(OPERATIONAL)
    print(f"  and {1e6 * (time.perf_counter() - took) / count:.1f} us the five layers, in and out")


def opening_frames():
    """The frames of the request for an association."""
    user = session.connect(presentation.connect(acse.request(INITIATE)))
    return [tpkt.wrap(t) for t in cotp.data(user, 8192)]


# ------------------------------------------------------------ many


class Asking(Link):
    """A client that keeps what it is sent."""

    def __init__(self):
        super().__init__(ClientEnd)
        self.items, self.sent, self.there = asyncio.Queue(), [], asyncio.Event()

    def received(self, item):
        """Something came."""
        if item.kind is Kind.OPEN:
            self.there.set()
        elif item.kind is Kind.PDU:
            self.sent.append(item.octets)
            self.items.put_nowait(item.octets)

    def gone(self, words):
        """The connection is over."""
        self.items.put_nowait(None)


def request(number, n, rng):
    """A client's request, and whether it is answered whatever happens."""
    said = ("Status", "Read V", f"Write V {n}", "TakeControl T acceptableDelay=0", "RelinquishControl T", "Identify",
            f"TakeControl T acceptableDelay={rng.randrange(1, 20)}")[rng.randrange(7)]
    return written(said, n).octets


async def asks(port, number, each):
    """One client's whole talk; a wait is answered in its time, so no more than one is open."""
    rng = random.Random(number)
    _, link = await asyncio.get_running_loop().create_connection(Asking, "127.0.0.1", port)
    link.end.connect()
    await link.there.wait()
    link.end.open(INITIATE)
    await link.items.get()
    for n in range(1, each + 1):
        link.end.send(request(number, n, rng))
        await link.items.get()
    link.close()
    return link.sent


async def all_ask(port, clients, each):
    """What each client was sent, in the order in which they were opened."""
    first = asyncio.create_task(asks(port, 0, 1))
    await first
    with_token = Client("127.0.0.1", port)  # who makes the semaphore, and goes
    with_token.open(INITIATE)
    assert with_token.ask(written("DefineSemaphore T 3").octets)[:1] == b"\xa1"
    with_token.close()
    await asyncio.sleep(0.2)
    return await asyncio.gather(*[asks(port, number, each) for number in range(clients)])


def many(program, clients=64, each=1000):
    """64 clients at once."""
    with Serving(program, ["clients = 64", *PRESS]) as serving:
        began = time.perf_counter()
        sent = asyncio.run(all_ask(serving.port, clients, each))
        took = time.perf_counter() - began
        status = serving.end()
        wanted = serving.replayed(program)
        size = os.path.getsize(serving.kept)
    whole = collections.Counter(tuple(s) for s in sent)
    kept = collections.Counter(tuple(s[-len(sent[0]):]) for s in wanted.values() if len(s) >= len(sent[0]))
    answers = sum(map(len, sent))
    print(f"{clients} clients, {answers:,} answers in {took:.1f} s ({answers / took:,.0f} a second), kept in {size:,}"
          f" octets: {'the same' if whole == kept else 'NOT the same'} by replay; status {status}")
    return whole == kept and status == 0


# ------------------------------------------------------------ late


def late(program, count=200, delay=20):
    """How late waits end."""
    with Serving(program, ["clients = 2"]) as serving:
        with Client("127.0.0.1", serving.port) as one, Client("127.0.0.1", serving.port) as two:
            one.open(INITIATE)
            two.open(INITIATE)
            one.ask(written("DefineSemaphore T 1").octets)
            one.ask(written("TakeControl T").octets)
            took = []
            for n in range(count):
                said = written(f"TakeControl T acceptableDelay={delay}", 1 + n % 100).octets
                began = time.perf_counter()
                answer = two.ask(said)
                took.append(1000 * (time.perf_counter() - began) - delay)
                assert answer[0] == 0xA2, answer
    alone = []
    for _ in range(count):
        began = time.perf_counter()
        time.sleep(delay / 1000)
        alone.append(1000 * (time.perf_counter() - began) - delay)
    took.sort()
    alone.sort()
    print(f"{count} sleeps of {delay} ms: {statistics.median(alone):.1f} ms late in the median, 99th {alone[-3]:.1f},"
          f" most {alone[-1]:.1f}")
    print(f"{count} waits of {delay} ms: {statistics.median(took):.1f} ms late in the median, 99th {took[-3]:.1f},"
          f" most {took[-1]:.1f}")
    return True


# ------------------------------------------------------------ damage


def damaged(frames, rng, n):
    """A conversation with something changed; each octet in turn, way by way."""
    octets = b"".join(frames)
    at, way = n // 5 % len(octets), n % 5
    if way == 0:
        return octets[:at] + bytes((octets[at] ^ rng.randrange(1, 256),)) + octets[at + 1 :]
    if way == 1:
        return octets[:at] + octets[at + rng.randrange(1, 9) :]
    if way == 2:
        return octets[:at] + octets[at : at + rng.randrange(1, 9)] * 2 + octets[at + 8 :]
    if way == 3:
        return octets[:at]
    i = rng.randrange(len(frames))
    return b"".join(frames[:i] + frames[i : i + 1] * rng.choice((0, 2, 3)) + frames[i + 1 :])


def damage(program, count=10000):
    """Damaged conversations."""
    with Serving(program, ["clients = 8", *PRESS], "--log", os.devnull) as serving:
        frames = [tpkt.wrap(cotp.connect()), *opening_frames(), data_frame(STATUS)]
        frames.append(data_frame(written("Read V", 2).octets))
        release = session.finish(presentation.pdv(1, acse.release(b"\x8b\0")))
        frames += [data_frame(written("DefineSemaphore S 1", 3).octets), *map(tpkt.wrap, cotp.data(release, 8192))]
        rng, ends, began = random.Random(1), collections.Counter(), time.perf_counter()
        with Client("127.0.0.1", serving.port) as other:
            other.open(INITIATE)
            wanted = [other.ask(STATUS), other.ask(written("Read V", 2).octets)]
            for n in range(count):
                ends[said(serving.port, damaged(frames, rng, n))] += 1
                if n % 50 == 0:
                    assert [other.ask(STATUS), other.ask(written("Read V", 2).octets)] == wanted, n
        took, lives = time.perf_counter() - began, serving.process.poll() is None
        status = serving.end()
        serving.replayed(program)
    print(f"{count} damaged conversations in {took:.1f} s; the server {'lives' if lives else 'is GONE'}, status"
          f" {status}; the other client's answers are the same; the last that they got: "
          + ", ".join(f"{name} {number}" for name, number in ends.most_common()))
    return lives and status == 0


KINDS = {0x0E: "session accept", 0x0C: "session refuse", 0x19: "session abort", 0x0A: "session disconnect", 1: "data"}


def said(port, octets):
    """What the server said last to these octets, by its kind."""
    with socket.create_connection(("127.0.0.1", port), 10) as s:
        got = b""
        try:
            s.sendall(octets)
            s.shutdown(socket.SHUT_WR)
            while more := s.recv(65536):
                got += more
        except ConnectionError:
            return "reset"
    tpdus = list(tpkt.Frames().feed(got))
    if not tpdus:
        return "nothing"
    code = tpdus[-1][1] & 0xF0
    if code != cotp.DATA:
        return {cotp.CONFIRM: "COTP confirm", cotp.DISCONNECT: "COTP refuse", cotp.ERROR: "COTP error"}[code]
    return KINDS.get(tpdus[-1][3], "?")


# ------------------------------------------------------------ rows and captures


async def driven(program, recording, wait=0.15, options=None, is_late=False):
    """What is seen of a recording over the loopback, with time that stands still; what is kept; and the port."""
    keep = io.StringIO()
    device = Program([program], recording.config, recording.edition, keep)
    server = Server(device, clients_of(recording.config), options or Options(is_still=True))
    port = await server.listen("127.0.0.1", 0)
    seen = await drive.Driver("127.0.0.1", port, wait, lambda one: server.cell([one]), is_late).play(recording)
    server.stop()
    while server.connections:
        await asyncio.sleep(0.01)
    device.close()
    return seen, keep.getvalue(), port


def rows(program):
    """All recordings of rows and examples."""
    os.environ["MMSCELL"] = program
    import common  # the rows as the tests read them

    every = [r for _, r in common.recordings_of_rows() if sum(map(len, r.phases)) < 400]

    async def all_of_them():
        at_once = asyncio.Semaphore(16)

        async def one(recording):
            async with at_once:
                return (await driven(program, recording))[0]

        return await asyncio.gather(*map(one, every))

    began = time.perf_counter()
    same = sum(texts.write_report(seen) == common.replayed(r) for seen, r in zip(asyncio.run(all_of_them()), every))
    took = time.perf_counter() - began
    print(f"{same} of {len(every)} recordings give their report, driven over TCP, in {took:.1f} s")
    return same == len(every)


def captures(program):
    """All examples, captured."""
    folder, is_good = tempfile.mkdtemp(), True
    examples = os.path.join(TOP, "crates", "cell_rows", "data", "examples")
    for name in sorted(n for n in os.listdir(examples) if n.endswith(".mms")):
        with open(os.path.join(examples, name), encoding="latin-1") as f:
            recording = texts.read_recording(f.read())
        said = {line.split("=")[0].strip() for line in recording.config}
        recording.config = [f"{key} = 0" for key in ("day", "ms") if key not in said] + recording.config
        recording.phases = [[e for e in events if e.kind != "ends"] for events in recording.phases]  # not on a wire
        path = os.path.join(folder, name + ".pcap")
        with open(path, "wb") as f:
            _, kept, port = asyncio.run(driven(program, recording, 0.05, Options(is_still=True, pcap=Writer(f)), True))
        got = capture.capture(path, capture.Options(learn=False, decode_as=port, config=recording.config))
        ours, theirs = ([e for p in r.phases for e in p if e.kind == "heard"]
                        for r in (texts.read_recording(kept), got.recording))
        again = per_client(drive.replayed(got.recording, [program]))
        words = ["tshark", "-n", "-r", path, "-d", f"tcp.port=={port},tpkt", "-T", "fields", "-e", "frame.number"]
        words += ["-e", "_ws.expert.message", "-e", "_ws.malformed"]
        words += ["-Y", "_ws.expert.severity >= 6291456 || _ws.malformed"]
        done = subprocess.run(words, stdout=subprocess.PIPE, stderr=subprocess.DEVNULL, text=True, check=False)
        objections = [line.replace("\t", " ") for line in done.stdout.split("\n") if line.strip()]
        wanted = per_client(drive.replayed(texts.read_recording(kept), [program]))
        same = ours == theirs and not got.warnings and again == wanted
        is_good = is_good and same
        told = "again" if same else f"NOT again {got.warnings}"
        print(f"{name}: {len(ours)} events {told}; tshark objects {len(objections)} times"
              + "".join(f"\n    frame {line[:150]}" for line in objections))
    return is_good


def main():
    every = {f.__name__: f for f in (speed, many, late, damage, rows, captures)}
    ap = argparse.ArgumentParser(description=__doc__, formatter_class=argparse.RawDescriptionHelpFormatter)
    ap.add_argument("what", nargs="*", choices=[*every, []], metavar="WHAT")
    ap.add_argument("--program", help="MMSCELL's or the gate's, where it is left out")
    a = ap.parse_args()
    program = chart.program(a.program)[0]
    results = []
    for name in a.what or every:
        print(f"== {name}")
        results.append(every[name](program))
    return 0 if all(results) else 1


if __name__ == "__main__":
    sys.exit(main())
