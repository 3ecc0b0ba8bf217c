"""Tests of a device that listens, of what drives one, and of the device in a test."""
import asyncio
import errno
import importlib.util
import inspect
import select
import shlex
import signal
import socket

from common import *  # noqa: F403
from mmstools import drive, pcap, program, serve
from mmstools.device import INITIATE, Device
from mmstools.live import Options, Server
from mmstools.stack import Broken, ClientEnd, acse, cotp, presentation, session, tpkt
from mmstools.stack.blocking import Client
from mmstools.stack.elements import Ended
from mmstools.stack.link import Link
from mmstools.write import written

MMS = os.path.join(TOP, "tools", "mms")
STATUS, OPERATIONAL = bytes.fromhex("A006020101800100"), bytes.fromhex("A10B020101A006800100810100")
RECORDINGS = sorted(glob.glob(os.path.join(EXAMPLES, "*.mms")))
PROGRAM = shlex.join(DEVICE)
WAIT = 0.15  # seconds of silence, with all examples at once


def name_of(path):
    return os.path.basename(path)[: -len(".mms")]


def per_client(report):
    """What each client is sent, whatever the phase."""
    out = {}
    for phase in report.phases:
        for client, sent in phase.outputs.items():
            out.setdefault(client, []).extend(sent)
    return out


def kept_gives(text):
    """What each client is sent by the replay of a recording that was kept."""
    return per_client(texts.read_report(replayed(texts.read_recording(text))))


def words(said, invoke=1):
    return written(said, invoke).octets


@needs_program
class Pipe(unittest.TestCase):
    """What docs/RECORDING.md promises of a pipe."""

    def start(self, *command):
        pipe = subprocess.PIPE
        process = subprocess.Popen([*DEVICE, *command], stdin=pipe, stdout=pipe, bufsize=0)
        self.addCleanup(lambda: (process.stdin.close(), process.wait(), process.stdout.close()))
        return process

    def read(self, process, size, seconds=20.0):
        """So many octets that the program wrote."""
        got = b""
        while len(got) < size and select.select([process.stdout], [], [], seconds)[0]:
            more = os.read(process.stdout.fileno(), size - len(got))
            if not more:
                break
            got += more
        return got

    def phases(self, recording, report):
        """The input up to each line `phase`, with it, and the report of each phase."""
        text = recording.rstrip("\n") + "\nphase\n"
        head, _, events = text.partition("\nend\n")
        inputs = re.findall(r"(?ms).*?^phase$\n", events)
        inputs[0] = f"{head}\nend\n{inputs[0]}"
        reports = re.findall(r"(?ms)^phase.*?(?=^phase|\Z)", report)
        self.assertEqual(len(inputs), len(reports))
        return list(zip(inputs, reports))

    def test_replay(self):
        """The report of a phase comes whole when its line `phase` was written, and nothing of the next one."""
        for path in RECORDINGS:
            process = self.start("replay")
            for text, report in self.phases(text_of(path), text_of(path[:-4] + ".report")):
                process.stdin.write(text.encode("latin-1"))
                self.assertEqual(self.read(process, len(report)).decode(), report, path)
                self.assertFalse(select.select([process.stdout], [], [], 0)[0])
                self.assertIsNone(process.poll())
            process.stdin.write(b"nonsense\n")
            line = text_of(path).rstrip("\n").count("\n") + 3
            refused = f"bad {line} event\n"
            self.assertEqual(self.read(process, len(refused)).decode(), refused, path)

    def test_run(self):
        """`run` reads a phase ahead: the report of a phase comes with the line `phase` of the next one."""
        status = f"1 {STATUS.hex()}\n"
        recording = f"mms-recording 1\nconfig\nclients = 1\nend\n1 {INITIATE.hex()}\n" + f"phase\n{status}{status}" * 5
        process, before = self.start("run", "--workers", "2"), ""
        for text, report in self.phases(recording, replayed(texts.read_recording(recording))):
            process.stdin.write(text.encode("latin-1"))
            self.assertEqual(self.read(process, len(before)).decode(), before)
            self.assertFalse(select.select([process.stdout], [], [], 0.05)[0])
            before = report
        process.stdin.close()
        self.assertEqual(self.read(process, len(before)).decode(), before)


async def driven(path, is_still, keep, kind=program.Program, wait=WAIT):
    """What is seen of a recording that is driven against a server, over the loopback; and what is told besides."""
    recording = texts.read_recording(text_of(path))
    served_by = kind(DEVICE, recording.config, recording.edition, keep)
    server = Server(served_by, program.clients_of(recording.config), Options(is_still=is_still))
    port = await server.listen("127.0.0.1", 0)
    driver = drive.Driver("127.0.0.1", port, wait, lambda one: server.cell([one]) if is_still else None)
    seen = await driver.play(recording)
    server.stop()
    return seen, driver.remarks, served_by.close()


@needs_program
class Examples(unittest.TestCase):
    """The examples, driven over the loopback."""

    def drive_all(self, paths, is_still):
        kept = [io.StringIO() for _ in paths]

        async def every():
            return await asyncio.gather(*[driven(p, is_still, k) for p, k in zip(paths, kept)])

        for path, keep, (seen, remarks, status) in zip(paths, kept, asyncio.run(every())):
            self.assertEqual(texts.write_report(seen), text_of(path[:-4] + ".report"), path)
            self.assertEqual((remarks, status), ([], 0))
            self.assertEqual(kept_gives(keep.getvalue()), per_client(seen), path)

    def test_still(self):
        """Each gives its report, octet by octet, and what is kept replays to what was sent."""
        self.drive_all(RECORDINGS, True)

    def test_real_time(self):
        """So does each without a tick where time is real."""
        timed = re.compile(r"(?m)^\d+ (tick|ends) ")
        without = [p for p in RECORDINGS if not timed.search(text_of(p[:-4] + ".report"))]
        self.assertGreaterEqual(len(without), 9)
        self.drive_all(without, False)


class Live(unittest.TestCase):
    """A device that listens, in a thread."""

    def listen(self, config="", **options):
        self.log = []
        self.device = Device(config, program=PROGRAM)
        self.addCleanup(self.device.close)
        options = {"is_still": True, "log": self.log.append, **options}
        self.port = self.device.listen(options=Options(**options))

    def client(self, opened=True, seconds=10.0):
        client = Client("127.0.0.1", self.port, seconds)
        self.addCleanup(client.close)
        if opened:
            self.assertEqual(client.open(INITIATE), YES)
        return client

    def wait_for(self, what, seconds=10.0):
        until = time.monotonic() + seconds
        while not what() and time.monotonic() < until:
            time.sleep(0.005)
        self.assertTrue(what())

    def told(self, words_):
        self.wait_for(lambda: any(words_ in line for line in self.log))

    def raw(self, octets, seconds=5.0):
        """What comes back on a connection of these octets, which then says no more."""
        with socket.create_connection(("127.0.0.1", self.port), seconds) as s:
            try:
                s.sendall(octets)
                s.shutdown(socket.SHUT_WR)
                got = b""
                while more := s.recv(65536):
                    got += more
            except ConnectionError:
                pass
            return got

    def replays_to_what_was_sent(self):
        self.device.close()
        sent = {c: [None if o is None else bytes(o) for o in s] for c, s in self.device.sent.items()}
        self.assertEqual(kept_gives(self.device.recording), sent)


class Deaf(Client):
    """A client for which little can wait."""

    def _connect(self, host, port):
        s = socket.socket()
        s.setsockopt(socket.SOL_SOCKET, socket.SO_RCVBUF, 4096)
        s.connect((host, port))
        return s


def opening():
    """What a client sends up to its association, as frames."""
    connect = session.connect(presentation.connect(acse.request(INITIATE)))
    return [tpkt.wrap(cotp.connect()), *map(tpkt.wrap, cotp.data(connect, 8192))]


def message(user):
    return b"".join(map(tpkt.wrap, cotp.data(user, 8192)))


@needs_program
class Refusals(Live):
    """One connection that breaks the rules ends alone."""

    def test_each_layer(self):
        self.listen("clients = 3")
        other = self.client()
        start = b"".join(opening())
        mebibyte = tpkt.wrap(b"\2\xf0\0" + bytes(8000)) * 140
        for octets, layer, kind in (
            (start + b"GET / HTTP/1.1\r\n\r\n", "TPKT", None),
            (start + tpkt.wrap(b"\x20\xf0\x80"), "COTP", b"\x70"),
            (start + opening()[0], "COTP", b"\x70"),
            (start + mebibyte, "session", b"\x19"),
            (start + opening()[1], "session", b"\x19"),
            (start + message(session.data(pdv(5, STATUS))), "presentation", b"\x19"),
            (opening()[0] + message(session.connect(presentation.connect(acse.request(b"")))), "ACSE", b"\x0c"),
            (start + message(session.data(pdv(3, b"\xa0" + bytes(65000)))), "MMS", b"\x19"),
        ):
            self.log.clear()
            got = list(tpkt.Frames().feed(self.raw(octets)))
            self.told(f"refused by {layer}: ")
            at = 1 if layer == "COTP" else 3
            if kind and layer != "session":  # behind much that isn't read, TCP may lose what is said last
                self.assertEqual(got[-1][at : at + 1], kind, layer)
            self.assertEqual(other.ask(STATUS), OPERATIONAL)
        self.replays_to_what_was_sent()

    def test_second_connect_alone(self):
        self.listen("clients = 1")
        got = list(tpkt.Frames().feed(self.raw(b"".join(opening()) + opening()[1])))
        self.assertEqual([t[1] & 0xF0 for t in got][:1] + [got[-1][3]], [0xD0, 0x19])

    def test_more_connections_than_clients(self):
        """Who is one too many is refused at once, and told; and when a client goes, its number is free."""
        self.listen("clients = 1")
        first = self.client()
        with self.assertRaises((Ended, AssertionError, IndexError)) as refused:
            Client("127.0.0.1", self.port).open(INITIATE)
        del refused
        self.told("refused, as there are no more clients")
        self.assertEqual(self.raw(opening()[0])[5:6], b"\x80")
        self.assertEqual(first.ask(STATUS), OPERATIONAL)
        first.close()
        self.wait_for(lambda: "lost 1" in self.device.recording)
        self.assertEqual(self.client().ask(STATUS), OPERATIONAL)

    def test_idle(self):
        """Who says nothing, or half a message, is ended; who has an association may be silent."""
        self.listen("clients = 4", idle=0.3)
        silent = self.client()
        half = self.client()
        half.socket.sendall(b"\3\0\0")
        with socket.create_connection(("127.0.0.1", self.port), 5) as nothing:
            self.assertEqual(nothing.recv(10), b"")
        self.told("has said nothing for 0.3 seconds")
        self.told("has said half a message for 0.3 seconds")
        self.assertEqual(silent.ask(STATUS), OPERATIONAL)
        self.assertEqual(self.device.recording.count("lost"), 1)

    def test_who_does_not_read(self):
        """Its connection alone waits, and is lost with a mebibyte that waits."""
        self.listen(os.path.join(EXAMPLES, "events.mms"), log=None)
        other = self.client()
        deaf = Deaf("127.0.0.1", self.port)
        self.addCleanup(deaf.close)
        deaf.open(INITIATE)
        name = "E" * 32
        define = words(f"DefineEventCondition {name} network-triggered")
        self.assertEqual(other.ask(define)[:1], b"\xa1")
        for n in range(100):
            said = words(f"DefineEventEnrollment {'N' * 28}{n} {name} 0001011 none", 2)
            self.assertEqual(deaf.ask(said)[:1], b"\xa1", n)
        trigger = words(f"TriggerEvent {name}", 3)
        for n in range(2000):
            self.assertEqual(other.ask(trigger)[:1], b"\xa1")
            if "lost 2" in self.device.recording[-200:]:
                break
        self.assertIn("lost 2", self.device.recording)
        self.assertEqual(other.ask(STATUS), OPERATIONAL)
        self.replays_to_what_was_sent()

    def test_the_program_ends(self):
        """Each connection is aborted, status and sentence are told, and what is kept has all that came."""
        self.listen("clients = 2\nday = 65535\nms = 86399999")
        one, two = self.client(), self.client()
        self.assertEqual(one.ask(STATUS), OPERATIONAL)
        with self.assertRaisesRegex(program.Ended, "status 2: a line was refused; bad [0-9]+ clock"):
            self.device.tick(1)
        self.assertIsNone(one.receive())
        self.assertIsNone(two.receive())
        self.assertTrue(self.device.recording.endswith("phase\ntick 1\n"))
        self.assertTrue(any("status 2" in line for line in self.log))


@needs_program
class Layers(Live):
    """What goes out in which layer, and in which order."""

    def test_a_refused_initiate_and_a_client_that_comes_back(self):
        self.listen("clients = 1")
        for n in range(3):
            client = self.client(False)
            self.assertEqual(client.open(INITIATE.replace(b"\x80\1\1", b"\x80\1\0")).hex(), "aa05a003880101")
            client = self.client(False)
            self.assertIsNone(client.open(STATUS))  # an abort
            client = self.client()
            self.assertEqual(client.ask(STATUS), OPERATIONAL)
            client.send(b"\x8b\0")
            self.assertEqual(client.receive(), b"\x8c\0")
            self.assertIsNone(client.release())
        self.replays_to_what_was_sent()

    def test_releases(self):
        """With a conclude in it; without one, which is a loss; and one that a waiting request refuses."""
        self.listen("clients = 2")
        client = self.client()
        self.assertEqual(client.release(b"\x8b\0"), b"\x8c\0")
        client = self.client()
        self.assertIsNone(client.release())
        self.wait_for(lambda: "lost 1" in self.device.recording)
        first, second = self.client(), self.client()
        first.ask(words("DefineSemaphore T 1"))
        first.ask(words("TakeControl T"))
        second.send(words("TakeControl T", 9))
        self.assertEqual(second.ask(b"\x8b\0").hex(), "ad05a003890101")
        self.assertEqual(second.release(b"\x8b\0").hex(), "ad05a003890101")
        self.wait_for(lambda: "lost 2" in self.device.recording)
        self.replays_to_what_was_sent()

    def test_ends_of_a_connection(self):
        """An abort, a disconnect, an end and a reset of the transport are each the loss of the client."""
        self.listen("clients = 2")
        other = self.client()
        for n, end in enumerate(("abort", "disconnect", "close", "reset"), 1):
            client = self.client()
            if end == "abort":
                client.abort()
            elif end == "disconnect":
                client.socket.sendall(tpkt.wrap(cotp.disconnect(b"\0\2", 0)))
            elif end == "reset":
                client.socket.setsockopt(socket.SOL_SOCKET, socket.SO_LINGER, b"\1\0\0\0\0\0\0\0")
                client.close()
            else:
                client.close()
            self.wait_for(lambda: self.device.recording.count("lost 2") == n)
            self.assertEqual(other.ask(STATUS), OPERATIONAL)
        self.replays_to_what_was_sent()

    def test_an_answer_to_another_client(self):
        """A loss grants a token to who waits; the server's own requests come behind the answer."""
        self.listen("clients = 2")
        first, second = self.client(), self.client()
        first.ask(words("DefineSemaphore T 1"))
        first.ask(words("TakeControl T"))
        second.send(words("TakeControl T", 9))
        self.assertEqual(second.ask(STATUS), OPERATIONAL)
        first.abort()
        self.assertEqual(second.receive().hex(), "a107020109b3028000")
        self.assertEqual(second.ask(words("InitiateDownloadSequence D [] TRUE", 10))[:1], b"\xa1")
        self.assertEqual(second.receive()[:1], b"\xa0")
        self.replays_to_what_was_sent()

    def test_real_time(self):
        """A wait ends by itself, and what is kept has the time that went by."""
        self.listen("clients = 2", is_still=False)
        first, second = self.client(), self.client()
        first.ask(words("DefineSemaphore T 1"))
        first.ask(words("TakeControl T"))
        began = time.monotonic()
        second.send(words("TakeControl T acceptableDelay=300", 9))
        self.assertEqual(second.receive().hex(), "a20a800109a205a003850101")
        self.assertGreaterEqual(time.monotonic() - began, 0.29)
        late = sum(int(ms) for ms in re.findall(r"tick (\d+)", self.device.recording.rpartition("B3")[2])) - 300
        self.assertLess(late, 200)  # 10 on a machine that does nothing else
        self.replays_to_what_was_sent()

    def test_ticks_in_real_time(self):
        """What is asked for goes by once, besides what does by itself; and a client by TCP can be lost."""
        self.listen("clients = 2", is_still=False)
        client, began = self.client(), time.monotonic()
        before = self.device.clock
        self.device.tick(100000)
        self.assertEqual(client.ask(STATUS), OPERATIONAL)
        went = self.device.clock - before - 100000
        self.assertGreaterEqual(went, 0)
        self.assertLess(went, 1000 * (time.monotonic() - began) + 500)
        self.device.lose(1)
        with self.assertRaises((Ended, ConnectionError)):
            client.ask(STATUS)
        self.assertEqual(self.client().ask(STATUS), OPERATIONAL)
        self.assertEqual(self.device.recording.count("lost"), 1)
        self.replays_to_what_was_sent()

    def test_evaluations_in_real_time(self):
        """A condition is evaluated by itself while somebody is there to be told."""
        self.listen(os.path.join(EXAMPLES, "events.mms"), is_still=False)
        client = self.client()
        for n, said in enumerate(
            (
                "DefineEventCondition Door monitored monitoredVariable=Switch evaluationInterval=50",
                "DefineEventEnrollment N Door 000101 none",
                "AlterEventConditionMonitoring Door enabled=TRUE",
                "Write Switch TRUE",
            ),
            1,
        ):
            self.assertEqual(client.ask(words(said, n))[:1], b"\xa1", said)
        self.assertEqual(client.receive()[:1], b"\xa3")
        self.replays_to_what_was_sent()

    def test_many_clients(self):
        """Sixteen clients at once: each answer is the one that the replay of what is kept has."""
        self.listen("clients = 16")

        async def play():
            async def one(number):
                queue = asyncio.Queue()

                class One(Link):
                    def __init__(self):
                        super().__init__(ClientEnd)

                    def received(self, item):
                        queue.put_nowait(item.octets)

                    def gone(self, words_):
                        queue.put_nowait(words_)

                loop = asyncio.get_running_loop()
                _, link = await loop.create_connection(One, "127.0.0.1", self.port)
                link.end.connect()
                await queue.get()
                link.end.open(INITIATE)
                await queue.get()
                for n in range(50):
                    said = words(("Status", "Identify", f"DefineSemaphore S{number} 1", "TakeControl S0")[n % 4], n + 1)
                    link.end.send(said)
                    if n % 4 != 3:
                        await queue.get()
                link.close()

            await asyncio.gather(*[one(n) for n in range(16)])

        asyncio.run(play())
        self.wait_for(lambda: self.device.recording.count("lost") == 16)
        self.replays_to_what_was_sent()


@needs_program
class Damage(Live):
    """Conversations whose octets are changed, left out, doubled or cut: the server lives, and others never notice."""

    def test_damaged(self):
        self.listen("clients = 3")
        other = self.client()
        start = opening()
        release = session.finish(pdv(1, acse.release(b"\x8b\0")))
        frames = [*start, message(session.data(pdv(3, STATUS))), message(release)]
        octets, rng = b"".join(frames), random.Random(3)
        for n in range(300):
            at = rng.randrange(len(octets))
            cut = octets[at : at + rng.randrange(1, 6)]
            put = {0: bytes((rng.randrange(256),)), 1: b"", 2: cut * 2}.get(n % 4, None)
            damaged = octets[:at] if put is None else octets[:at] + put + octets[at + max(1, len(cut)) :]
            self.raw(damaged)
            if n % 25 == 0:
                self.assertEqual(other.ask(STATUS), OPERATIONAL)
        self.assertEqual(other.ask(STATUS), OPERATIONAL)
        self.assertFalse([line for line in self.log if "Traceback" in line])
        self.replays_to_what_was_sent()


FAILING = """
import sys
n = 0
for line in sys.stdin:
    n += line == "phase\\n"
    if line == "phase\\n" and n < 4:
        print("phase", n, flush=True)
    elif n >= 3 and line[0] in "1t":
        print("too much 9" if sys.argv[1] == "7" else "phase", flush=True)
        sys.stderr.write("it can't go on")
        sys.exit(int(sys.argv[1]))
"""


class Failing(unittest.TestCase):
    """A program that ends by itself."""

    def test_what_cannot_be_kept(self):
        """A full disk ends it: nothing is served that isn't kept."""
        if not os.path.exists("/dev/full"):
            self.skipTest("no /dev/full")
        full = open("/dev/full", "w", buffering=1)
        self.addCleanup(serve._close, full)
        with self.assertRaisesRegex(program.Ended, "what comes can't be kept: No space left"):
            program.Program([sys.executable, "-c", FAILING, "3"], [], "1", full)

    def test_statuses(self):
        """Each status is told with its sentence, and what ended it is kept."""
        for status, said in (("3", "memory"), ("4", "input"), ("5", "output"), ("7", "too much; too much 9")):
            keep = io.StringIO()
            failing = program.Program([sys.executable, "-c", FAILING, status], [], "1", keep)
            self.assertEqual(failing.serve([texts.Event("tick", ms=5)]), {})
            with self.assertRaisesRegex(program.Ended, f"status {status}: .*{said}.*it can't go on") as got:
                failing.serve([texts.Event("heard", 1, STATUS)])
            self.assertEqual(got.exception.status, int(status))
            self.assertTrue(keep.getvalue().endswith("end\ntick 5\n1 A006020101800100\n"), keep.getvalue())
            self.assertEqual(failing.close(), int(status))


class Planted(program.Program):
    """A device that is wrong in three places."""

    def __init__(self, *args):
        super().__init__(*args)
        self.places, self.late = ["swapped", "missing", "late"], None

    def serve(self, events):
        told = super().serve(events)
        for client, sent in told.items():
            if self.late and self.late[0] == client:
                sent.append(self.late[1])
                self.late = None
            for i, pdu in enumerate(sent):
                if pdu and pdu[:2] == b"\xa1\x06" and "swapped" in self.places:
                    sent[i] = b"\xa2\x0a\x80\1" + pdu[4:5] + bytes.fromhex("A205A003870102")
                    self.places.remove("swapped")
            notices = [p for p in sent if p and p[0] == 0xA3]
            if notices and "missing" in self.places:
                sent.remove(notices[0])
                self.places.remove("missing")
            elif notices and "late" in self.places:
                sent.remove(notices[0])
                self.late = client, notices[0]
                self.places.remove("late")
        return told


@needs_program
class Driving(unittest.TestCase):
    """`drive` against a device that is wrong."""

    def test_planted(self):
        """Each of the three is named by compare, at its place."""
        path = os.path.join(EXAMPLES, "events.mms")
        seen, _, _ = asyncio.run(driven(path, True, None, Planted))
        found = compare.compare(seen, texts.read_report(text_of(path[:-4] + ".report")))
        kinds = sorted(d.kind for d in found if d.kind != "same")
        self.assertEqual(kinds, ["answer", "missing", "order"], compare.words(found, ("seen", "report")))

    def test_nobody_listens(self):
        with socket.socket() as s:
            s.bind(("127.0.0.1", 0))
            port = s.getsockname()[1]
        with self.assertRaisesRegex(texts.BadText, f"127.0.0.1:{port}: "):
            asyncio.run(drive.Driver("127.0.0.1", port).play(texts.read_recording(text_of(RECORDINGS[0]))))


@needs_program
class Commands(unittest.TestCase):
    """`mms serve` and `mms drive`, as processes."""

    def setUp(self):
        folder = tempfile.TemporaryDirectory()
        self.addCleanup(folder.cleanup)
        self.folder = folder.name

    def serve(self, *args):
        self.fifo = os.path.join(self.folder, "cell")
        os.mkfifo(self.fifo)
        fd = os.open(self.fifo, os.O_RDWR)
        self.addCleanup(os.close, fd)
        command = [sys.executable, MMS, "serve", "--program", PROGRAM, "--port", "0", *args]
        pipe = subprocess.PIPE
        process = subprocess.Popen(command, stdin=fd, stdout=pipe, stderr=pipe, text=True, cwd=self.folder)
        self.addCleanup(lambda: (process.kill(), process.wait(), process.stdout.close(), process.stderr.close()))
        self.first = process.stdout.readline()
        self.assertRegex(self.first, r"listening on 127\.0\.0\.1:\d+ for \d+ clients?\n")
        self.port = re.search(r":(\d+) ", self.first)[1]
        return process

    def mms(self, *args):
        """A command in this process."""
        out, err = io.StringIO(), io.StringIO()
        with contextlib.redirect_stdout(out), contextlib.redirect_stderr(err):
            status = cli.main(list(args))
        return status, out.getvalue(), err.getvalue()

    def path(self, name):
        return os.path.join(self.folder, name)

    def test_a_session(self):
        """A recording is driven with ticks and compared; SIGUSR1, lines, SIGINT; and what is kept is whole."""
        path = os.path.join(EXAMPLES, "semaphores.mms")
        files = ("--keep", "k", "--log", "l", "--pcap", "p")
        process = self.serve("--config", path, "--still", *files, "--usr1", "tick 7")
        status, out, err = self.mms(
            "drive", path, "--port", self.port, "--cell", self.fifo, "--check", "-o", self.path("seen"), "--program", PROGRAM
        )
        self.assertEqual((status, err), (0, ""), out)
        self.assertRegex(out, r"^(\d+) answers: \1 the same octets\n$")
        self.assertEqual(text_of(self.path("seen")), text_of(path[:-4] + ".report"))
        process.send_signal(signal.SIGUSR1)
        said = [process.stdout.readline() for _ in range(2)]
        self.assertEqual(said, ["served tick 10\n", "served tick 7\n"])
        with open(self.fifo, "w") as f:
            f.write("ends P\nnonsense\n")
        self.assertEqual(process.stdout.readline(), "served ends P\n")
        self.assertIn("`nonsense` is none of", process.stdout.readline())
        process.send_signal(signal.SIGINT)
        out, err = process.communicate(timeout=20)
        self.assertEqual((process.returncode, err), (0, ""))
        self.assertRegex(out, r"served \d+ events in 17 ms of its clock; kept in k\nreplay it by: .* replay < k\n")
        kept = text_of(self.path("k"))
        self.assertEqual(kept_gives(kept), per_client(texts.read_report(text_of(path[:-4] + ".report"))))
        log = text_of(self.path("l"))
        self.assertRegex(log, r"client 1: > TakeControl .*, request, invokeID \d+\n")
        self.assertRegex(log, r"client 2: connected from 127\.0\.0\.1:\d+\n")

    def test_the_program_ends(self):
        """Status 1, the sentence, and the recording is kept."""
        with open(self.path("c"), "w") as f:
            f.write("day = 65535\nms = 86399999\n")
        process = self.serve("--config", "c", "--keep", "k", "--still")
        with open(self.fifo, "w") as f:
            f.write("tick 1\n")
        out, err = process.communicate(timeout=20)
        self.assertEqual(process.returncode, 1)
        self.assertRegex(err, r"^mms serve: the program ended with status 2: a line was refused; bad \d+ clock\n$")
        self.assertTrue(text_of(self.path("k")).endswith("end\ntick 1\n"))

    def test_it_cannot_listen(self):
        """Status 2 and a sentence."""
        with socket.socket() as s:
            s.bind(("127.0.0.1", 0))
            s.listen()
            status, out, err = self.mms("serve", "--program", PROGRAM, "--port", str(s.getsockname()[1]))
        self.assertEqual((status, out), (2, ""))
        self.assertRegex(err, r"^mms serve: 127\.0\.0\.1:\d+ is taken: .*\n$")
        said = serve.cannot_listen(OSError(errno.EACCES, "Permission denied"), "127.0.0.1", 102)
        self.assertRegex(said, "^127.0.0.1:102 is not allowed; ports below 1024 need a right")
        with open(self.path("c"), "w") as f:
            f.write("clients = 99\n")
        status, out, err = self.mms("serve", "--program", PROGRAM, "--port", "0", "--config", self.path("c"))
        self.assertEqual((status, out), (2, ""))
        self.assertIn("clients", err)


@needs_program
@unittest.skipUnless(shutil.which("tshark"), "tshark is missing")
class Captured(Live):
    """What --pcap writes."""

    def test_capture_gives_the_recording_again(self):
        """tshark takes each frame apart up to MMS and objects to nothing; capture gives the events again."""
        path, file = os.path.join(EXAMPLES, "pools-and-guards.mms"), os.path.join(tempfile.mkdtemp(), "a.pcap")
        self.addCleanup(shutil.rmtree, os.path.dirname(file))
        recording, keep = texts.read_recording(text_of(path)), io.StringIO()

        async def play(f):
            served_by = program.Program(DEVICE, recording.config, recording.edition, keep)
            options = Options(is_still=True, pcap=pcap.Writer(f))
            server = Server(served_by, program.clients_of(recording.config), options)
            port = await server.listen("127.0.0.1", 0)
            await drive.Driver("127.0.0.1", port, 0.05, lambda one: server.cell([one])).play(recording)
            server.stop()
            while server.connections:
                await asyncio.sleep(0.01)
            served_by.close()
            return port

        with open(file, "wb") as f:
            port = asyncio.run(play(f))
        got = capture.capture(file, capture.Options(learn=False, decode_as=port, config=recording.config))
        events = [e for p in texts.read_recording(keep.getvalue()).phases for e in p]
        back = [e for p in got.recording.phases for e in p]
        self.assertEqual(conversation.ticks(back), conversation.ticks(events))
        self.assertEqual(got.warnings, [])
        self.assertEqual(per_client(got.seen), kept_gives(keep.getvalue()))


@needs_program
class InATest(unittest.TestCase):
    """`Device`, the fixtures of pytest, and the example of them."""

    def test_device(self):
        with Device("clients = 2", program=PROGRAM) as device:
            one, two = device.client(1), device.client(2)
            self.assertEqual(one.open(), [YES])
            self.assertEqual(two.send(INITIATE.hex()), [YES])
            self.assertEqual(one.send("A006020101800100"), [OPERATIONAL])
            self.assertEqual(one.send(b"\xa0")[0].words, "reject invalid-pdu (pdu-error)")
            one.send("DefineSemaphore T 1")
            one.send("TakeControl T")
            self.assertEqual(two.send("TakeControl T acceptableDelay=20"), [])
            self.assertEqual(device.tick(19), {})
            self.assertEqual([p.words for p in device.tick(1)[2]], ["error service-preempt: timeout"])
            two.send("TakeControl T")
            self.assertEqual(list(device.lose(1)), [2])
            self.assertEqual(device.ends("P"), {})
            self.assertEqual(two.send(INITIATE), [None])
            self.assertEqual(two.sent[-1], None)
            self.assertEqual(device.clock, 20)
            for bad in (lambda: device.client(3), lambda: device.ends("1")):
                self.assertRaises(texts.BadText, bad)
        self.assertEqual(kept_gives(device.recording), device.sent)

    def test_beside_tcp(self):
        """A client of the test and one by TCP have numbers of their own."""
        with Device("clients = 2", program=PROGRAM) as device:
            device.client(1).open()
            with Client("127.0.0.1", device.listen()) as other:
                self.assertEqual(other.open(INITIATE), YES)
                with self.assertRaisesRegex(texts.BadText, "client 2 is connected by TCP"):
                    device.client(2)
                self.assertEqual(device.client(1).send(STATUS), [OPERATIONAL])
                self.assertEqual(other.ask(STATUS), OPERATIONAL)
        self.assertEqual(kept_gives(device.recording), device.sent)

    def example(self):
        path = os.path.join(TOP, "tools", "examples", "test_press.py")
        spec = importlib.util.spec_from_file_location("test_press_example", path)
        module = importlib.util.module_from_spec(spec)
        spec.loader.exec_module(module)
        return path, module

    def test_example(self):
        """The tests of the example hold, each with a device of its own, without pytest."""
        path, module = self.example()
        tests = [f for name, f in vars(module).items() if name.startswith("test_")]
        self.assertGreaterEqual(len(tests), 3)
        config = os.path.join(os.path.dirname(path), "press.toml")
        for test in tests:
            with Device(config, program=PROGRAM) as device:
                values = {"mms_device": lambda d=device: d, "mms_port": device.listen}
                test(**{name: values[name]() for name in inspect.signature(test).parameters})

    @unittest.skipUnless(importlib.util.find_spec("pytest"), "pytest is missing")
    def test_pytest(self):
        """The same with pytest."""
        path, _ = self.example()
        tools = os.path.join(TOP, "tools")
        known = {**os.environ, "PYTHONPATH": os.pathsep.join([tools, *sys.path]), "MMSCELL": PROGRAM}
        command = [sys.executable, "-m", "pytest", "-q", "-p", "mmstools.pytest_plugin", "-p", "no:cacheprovider", path]
        done = subprocess.run(command, capture_output=True, text=True, env=known)
        self.assertEqual(done.returncode, 0, done.stdout + done.stderr)
        self.assertIn("3 passed", done.stdout)
