"""A packet capture of MMS to a recording, and to a report of what the captured server answered.

tshark reassembles TCP, TPKT and COTP, and takes session and presentation apart. From its PDML the user data of each
presentation PDU is read, of which ACSE's user information and the MMS PDUs are taken as they stand, malformed or not.
What the capture lacks is told with the frame's number. Nothing is known of a PDU whose presentation data is itself
broken, cut, encrypted or in another encoding than BER: its frame is told, and the PDU is left out.
"""
import subprocess
import xml.etree.ElementTree as ET
from dataclasses import dataclass, field
from typing import Dict, Iterator, List, Optional, Set, Tuple

from . import ber, grammar, texts
from .configuration import broken
from .learn import learned
from .stack import Kind, acse, presentation
from .stack.elements import cut, first
from .stack.presentation import BROKEN, EMPTY
from .texts import ABORT, Event, Phase, Recording, Report

SHOWN = (
    "cotp || tcp.flags.fin == 1 || tcp.flags.reset == 1 || tcp.analysis.ack_lost_segment"
    " || (tcp && frame.cap_len < frame.len)"
)
LAYERS = "frame ip ipv6 tcp cotp ses pres"
REASSEMBLED = ["-o", "tcp.desegment_tcp_streams:TRUE", "-o", "tpkt.desegment:TRUE"]
TSHARK = ["-n", *REASSEMBLED, "-Y", SHOWN, "-T", "pdml", "-J", LAYERS]
PORT = 102
EPOCH_1984 = 441763200  # seconds from 1970 to 1984
INITIATE = bytes.fromhex("A826800300FDE881010A82010A830105A416800101810305F100820C03EE1C00000408000079EF18")
MARK = "# What follows is what the captured server's answers tell; look it through."
WANTED = {
    "frame.number",
    "frame.time_epoch",
    "frame.len",
    "frame.cap_len",
    "ip.src",
    "ip.dst",
    "ipv6.src",
    "ipv6.dst",
    "tcp.srcport",
    "tcp.dstport",
    "tcp.stream",
}
ENDS = {"tcp.flags.reset", "tcp.flags.fin"}
CUT = "the frame was cut when it was captured"
GAP = "octets before it are not in the capture"
ASSOCIATION = b"AARQ"  # of an OPEN that asks for an association too
FULLY, SIMPLY = 1, 0  # the alternatives of presentation's user data
UNANSWERED = (b"\xa0", b"\x85", b"\xa8", b"\x8b")  # what a client sends to be answered
ANSWERS = (b"\xa1", b"\xa2", b"\xa4")  # what a client sends to answer a request of the server


class Unread(Exception):
    """The capture gives no recording; says why."""


@dataclass
class Packet:
    """What one frame brought to completion, in order, and what it lacks, where it lacks something."""

    frame: int
    time: int  # microseconds since 1970
    stream: int
    source: Tuple[str, int]
    target: Tuple[str, int]
    items: List[Tuple[Kind, bytes]] = field(default_factory=list)
    flaw: str = ""


# ---------------------------------------------------------------- tshark


def packets(path: str, said: List[str], decode_as: Optional[int] = None, in_order: bool = False) -> Iterator[Packet]:
    """The packets of TCP, one by one. Segments out of order are put in order, unless `in_order` says that none are.

    What tshark complains of, where it fails, is appended to `said`."""
    words = ["tshark", "-r", path, "-o", f"tcp.reassemble_out_of_order:{'FALSE' if in_order else 'TRUE'}", *TSHARK]
    if decode_as:
        words += ["-d", f"tcp.port=={decode_as},tpkt"]
    try:
        run = subprocess.Popen(words, stdout=subprocess.PIPE, stderr=subprocess.PIPE)
    except FileNotFoundError:
        raise Unread("the command tshark is missing (Debian: apt-get install tshark)") from None
    contexts: Dict[int, Dict[int, str]] = {}  # by stream: the names of presentation contexts
    try:
        for _, e in ET.iterparse(run.stdout, events=("end",)):
            if e.tag == "packet":
                p = _packet(e, contexts)
                if p is not None:
                    yield p
                e.clear()
    except ET.ParseError:
        pass  # tshark ended early, and says why
    finally:
        run.stdout.close()
        lines = [line.strip() for line in run.stderr.read().decode(errors="replace").split("\n")]
        run.stderr.close()
        if run.wait() not in (0, -13):
            said += [line for line in lines if line and "Running as user" not in line][:1]


def _packet(e, contexts) -> Optional[Packet]:
    """The packet of one element of the PDML, or None where it has no TCP."""
    got: Dict[str, str] = {}
    over = False
    flaw = CUT if any(p.get("name") == "_ws.short" for p in e.iter("proto")) else ""
    for f in e.iter("field"):
        name = f.get("name")
        if name in WANTED:
            got.setdefault(name, f.get("show") or "")
        elif name in ENDS and f.get("show") in ("1", "True"):
            over = True
        elif name == "tcp.analysis.ack_lost_segment":
            flaw = flaw or GAP
    if "tcp.stream" not in got:
        return None
    if got.get("frame.cap_len") != got.get("frame.len"):
        flaw = CUT
    ip = "ip" if "ip.src" in got else "ipv6"
    stream = int(got["tcp.stream"])
    items, broken = _items(e, contexts.setdefault(stream, {}))
    return Packet(
        int(got["frame.number"]),
        _microseconds(got["frame.time_epoch"]),
        stream,
        (got.get(ip + ".src", "?"), int(got["tcp.srcport"])),
        (got.get(ip + ".dst", "?"), int(got["tcp.dstport"])),
        items + [(Kind.GONE, b"")] * over,
        flaw or broken,
    )


def _microseconds(epoch: str) -> int:
    """A time as tshark prints it, in seconds with decimals or (later versions) by the calendar."""
    seconds, _, rest = epoch.partition(".")
    if not seconds.isdigit():
        raise Unread(f"tshark prints times in a form that isn't known here: {epoch[:40]}")
    return int(seconds) * 10**6 + int((rest + "000000")[:6])


def _items(e, contexts: Dict[int, str]) -> Tuple[List[Tuple[Kind, bytes]], str]:
    """What the layers above TCP bring, in order, and what is wrong with them."""
    items: List[Tuple[Kind, bytes]] = []
    flaw = ""
    for f in e.iter("field"):
        name, show = f.get("name"), f.get("show")
        if name == "pres.user_data":
            found, broken = _user_data(f, contexts)
            items += found
            flaw = flaw or broken
        elif name == "ses.type" and show == "25":
            items.append((Kind.ABORT, b""))
        elif name == "cotp.type" and show in ("0x08", "8"):
            items.append((Kind.GONE, b""))
        elif name == "cotp.type" and show in ("0x0e", "14"):
            items.append((Kind.OPEN, b""))
    return items, flaw


def _user_data(f, contexts: Dict[int, str]) -> Tuple[List[Tuple[Kind, bytes]], str]:
    """The PDUs in the user data of a presentation PDU, by its own octets: so a malformed PDU hides none behind it.

    tshark hands on the contents with the alternative's number; of less than 4 octets all of them, with the tag."""
    for x in f.iter("field"):
        if x.get("name") == "pres.presentation_context_identifier" and (x.get("show") or "").isdigit():
            contexts[int(x.get("show"))] = x.get("showname") or ""
    try:
        octets = bytes.fromhex(f.get("value") or "")
    except ValueError:
        return [], BROKEN
    if len(octets) < int(f.get("size") or 0):
        return [], CUT
    if f.get("show") == str(SIMPLY):
        found, flaw = ([(None, octets)], "") if octets else ([], EMPTY)
    elif f.get("show") == str(FULLY):
        found, flaw = presentation.lists(octets)
    else:
        found, flaw = presentation.values(octets)
    items: List[Tuple[Kind, bytes]] = []
    for context, value in found:
        items += _value(value, "mms" if context is None else contexts.get(context, ""))
    return items, flaw


def _value(octets: bytes, context: str) -> List[Tuple[Kind, bytes]]:
    """What a presentation data value is: an APDU of ACSE, whose user information may hold an MMS PDU, or an MMS PDU.

    Where the capture lacks the definition of the context, its first tag decides."""
    if not acse.AARQ <= octets[0] <= acse.ABRT or "mms" in context:
        return [(Kind.PDU, octets)]
    whole = cut(octets)[0]
    if not whole or whole[0].tag == acse.ABRT:  # the session's abort says it
        return []
    inside = acse.information(first(cut(whole[0].contents)[0], acse.INFORMATION))
    if inside:
        return [(Kind.OPEN, ASSOCIATION)] * (whole[0].tag == acse.AARQ) + [(Kind.PDU, inside)]
    return [(Kind.RELEASE, b"")] if whole[0].tag == acse.RLRQ else []


# ---------------------------------------------------------------- packets to events


@dataclass
class Options:
    """How a capture becomes a recording, as the command's words have it."""

    server: Optional[Tuple[Optional[str], Optional[int]]] = None
    decode_as: Optional[int] = None
    tick: int = 1  # the least gap in ms that becomes a tick; 0 for none
    quiet: float = 1.0  # seconds without a PDU, and nothing unanswered, after which a phase ends
    each: bool = False  # a phase for each event
    learn: bool = True
    config: Optional[List[str]] = None  # lines of a configuration in place of what is learned
    edition: str = ""  # of the recording; empty for the least one that takes what is sent


@dataclass
class Captured:
    """What comes of a capture."""

    recording: Recording
    seen: Report
    warnings: List[str]  # what the capture lacks, by frame
    clients: List[str]  # who was client 1, 2, ..
    remarks: List[str]  # what mmscell can't answer as the captured server did
    broken: str = ""  # why tshark read no further, where it did not


def capture(path: str, options: Options) -> Captured:
    """The recording of a capture, and what its server answered."""
    said: List[str] = []
    found = _found(path, options, said)
    if not found and said:
        raise Unread(said[0])
    server = options.server or _server(found)
    mine = [p for p in found if _is(p.target, server) or _is(p.source, server)]
    if not any(kind is Kind.PDU for p in mine for kind, _ in p.items):
        raise Unread(f"no MMS PDU of {_name(server)} is in it" + _lacking(mine))
    if not any(kind is Kind.PDU for p in mine if _is(p.target, server) for kind, _ in p.items):
        raise Unread(f"what the clients sent is not in it, and {_name(server)}'s side alone gives no recording")
    got = _Build(mine, server, options).done()
    if said:
        got.broken = f"{said[0].rstrip('.')} (behind frame {max(p.frame for p in found)} nothing of MMS is read)"
    return got


def _found(path: str, options: Options, said: List[str]) -> List[Packet]:
    """The packets that say something. Behind a gap tshark goes on only where it doesn't wait for what is missing."""
    found = [p for p in packets(path, said, options.decode_as) if p.items or p.flaw]
    gaps = {p.stream for p in found if p.flaw == GAP}
    if gaps:
        found = [p for p in found if p.stream not in gaps]
        found += [p for p in packets(path, [], options.decode_as, True) if (p.items or p.flaw) and p.stream in gaps]
        found.sort(key=lambda p: p.frame)
    return found


def _name(server) -> str:
    """The server in words, of whose address and port either may not be known."""
    return f"{server[0] or 'the server'}:{server[1]}" if server[1] else server[0] or "the server"


def _lacking(found: List[Packet]) -> str:
    """How many frames lack octets, and the first of them."""
    flaws = [p for p in found if p.flaw]
    lack = "1 frame lacks" if len(flaws) == 1 else f"{len(flaws)} frames lack"
    return f"; {lack} octets, such as frame {flaws[0].frame}: {flaws[0].flaw}" if flaws else ""


def _is(end, server) -> bool:
    """Whether that end of a connection is the server's."""
    return (server[0] in (None, end[0])) and (server[1] in (None, end[1]))


def _server(found: List[Packet]) -> Tuple[str, int]:
    """The one end that is asked for an association, by COTP or by an initiate-Request, or else that has port 102."""
    asked = {
        p.target for p in found for k, o in p.items if k is Kind.OPEN or k is Kind.PDU and o[:1] == INITIATE[:1]
    }
    if not asked:
        asked = {
            end
            for p in found
            if any(k is Kind.PDU for k, _ in p.items)
            for end in (p.source, p.target)
            if end[1] == PORT
        }
    if not asked:
        raise Unread(
            "no MMS PDU is in it; is the port another one than 102 (--port), or its link type unknown to tshark?"
            + _lacking(found)
        )
    if len(asked) > 1:
        servers = ", ".join("%s:%d" % s for s in sorted(asked))
        raise Unread(f"several servers are in it: {servers}; name one with --server")
    return asked.pop()


@dataclass
class _Talk:
    """One TCP connection to the server."""

    client: int
    host: str
    open: bool = False  # an association was asked for
    over: bool = False
    told: bool = False  # that its beginning isn't there
    waiting: int = 0  # requests of the client that aren't answered
    asked: int = 0  # requests of the server that aren't answered


class _Build:
    """Packets become events, client by client, and the server's PDUs what was answered in each phase."""

    def __init__(self, found, server, options):
        self.found, self.server, self.options = found, server, options
        self.talks: Dict[int, _Talk] = {}
        self.names: List[str] = []
        self.asked: Set[int] = set()  # streams in which an association is asked for, whatever the PDU in that
        self.events: List[List[Event]] = [[]]
        self.outputs: List[Dict[int, List[Optional[bytes]]]] = [{}]
        self.notes: Dict[Tuple[int, int], List[str]] = {}
        self.warnings: List[str] = []
        self.clock, self.last, self.octets = 0, 0, 0
        self.start = found[0].time

    def done(self) -> Captured:
        """All packets, one after the other."""
        for p in self.found:
            from_client = _is(p.target, self.server)
            if p.flaw:
                self.warn(p, p.flaw)
            for kind, octets in p.items:
                if kind is not Kind.OPEN:
                    self.item(p, from_client, kind, octets)
                elif octets == ASSOCIATION:
                    self.asked.add(p.stream)
        if any(self.outputs[-1].values()):  # an answer that a deadline made needs the time up to it
            self.tick_to(self.last)
        while len(self.events) > 1 and not self.events[-1] and not self.outputs[-1]:
            self.events.pop()
            self.outputs.pop()
        edition = self.options.edition or edition_of(self.events, self.outputs)
        recording = Recording(edition, self.config(edition), self.events, self.notes)
        self.given_is_sound(recording)
        if recording.clients() < len(self.names):
            there = texts.count(len(self.names), "client")
            raise Unread(f"the capture has {there}, and the configuration {recording.clients()}")
        seen = seen_report(self.events, self.outputs, recording.clients())
        return Captured(recording, seen, self.warnings, self.names, remarks(self.events, edition))

    def given_is_sound(self, recording: Recording) -> None:
        """Refuses a given configuration with a broken rule."""
        text = "".join(f"{line}\n" for line in recording.config).encode().decode("latin-1")
        found = broken(text, recording.edition)[0] if self.options.config is not None else None
        if found is not None:
            raise Unread(f"the configuration breaks rule {found.rule} (docs/RECORDING.md): {found.words()}")

    def config(self, edition: str) -> List[str]:
        """The lines of the configuration: the clients, the moment of the start, and what is given or learned."""
        given = self.options.config
        rest = given if given is not None else []
        if given is None and self.options.learn:
            lines = learned(self.events, self.outputs, edition)
            rest = [MARK, *lines] if lines else []
        day, ms = divmod(self.start // 1000 - EPOCH_1984 * 1000, 86400000)
        said = {line.split("=")[0].strip() for line in rest}
        head = [] if "clients" in said else [f"clients = {max(len(self.names), 1)}"]
        if 0 <= day <= 65535 and not said & {"day", "ms"}:
            head += [f"day = {day}", f"ms = {ms}"]
        return head + rest

    def warn(self, p: Packet, what: str) -> None:
        """Tells what the capture lacks."""
        self.warnings.append(f"frame {p.frame}: {what}")

    def item(self, p: Packet, from_client: bool, kind: Kind, octets: bytes) -> None:
        """One thing that a frame brought."""
        host = (p.source if from_client else p.target)[0]
        talk = self.talks.get(p.stream)
        if talk is None:
            if kind is not Kind.PDU:
                return
            talk = self.talks[p.stream] = _Talk(self.number(host), host)
        if talk.over:
            if kind is Kind.PDU:
                self.warn(p, "a PDU behind the end of its association, left out")
        elif kind is Kind.PDU and from_client:
            self.heard(p, talk, octets)
        elif kind is Kind.PDU:
            self.answered(p, talk, octets)
        elif kind is Kind.ABORT and not from_client:
            self.answered(p, talk, ABORT)
            self.gone(p, talk)
        else:  # the client's abort or release, the end of the transport
            self.gone(p, talk)

    def number(self, host: str) -> int:
        """A client whose association is over has its number again; else the least one that no open connection has."""
        taken = {t.client for t in self.talks.values() if not t.over}
        for n, name in enumerate(self.names, 1):
            if name == host and n not in taken:
                return n
        if len(self.names) < texts.MOST_CLIENTS:
            self.names.append(host)
            return len(self.names)
        free = [n for n in range(1, texts.MOST_CLIENTS + 1) if n not in taken]
        if not free:
            raise Unread("more than 64 associations are open at once, which a recording can not hold")
        self.names[free[0] - 1] = host
        return free[0]

    def heard(self, p: Packet, talk: _Talk, octets: bytes) -> None:
        """A PDU of a client: an event."""
        if len(octets) > texts.MOST_PDU:
            self.warn(p, f"a PDU of {len(octets)} octets, left out")
            return
        initiate = octets[:1] == INITIATE[:1]
        if not talk.open and not initiate and p.stream not in self.asked:
            self.warn(p, "the capture lacks the beginning of an association; an initiate-Request stands for it")
            note = f"not in the capture: the association of {talk.host} was open before it"
            self.add(p.time, Event("heard", talk.client, INITIATE), note)
        note = "client %d: %s port %d" % (talk.client, *p.source) if initiate else ""
        self.add(p.time, Event("heard", talk.client, octets), note)
        talk.open = True
        talk.waiting += octets[:1] in UNANSWERED
        if octets[:1] in ANSWERS:
            talk.asked = max(0, talk.asked - 1)

    def answered(self, p: Packet, talk: _Talk, octets: Optional[bytes]) -> None:
        """A PDU of the server, or its abort."""
        if not talk.open:
            if not talk.told and octets is not ABORT:
                self.warn(p, "an answer whose request is not in the capture, left out, as any up to the first request")
                talk.told = True
            return
        self.outputs[-1].setdefault(talk.client, []).append(octets)
        self.last = p.time
        if octets is ABORT:
            return
        if octets[:1] == b"\xa0":
            talk.asked += 1
        elif octets[:1] != b"\xa3":
            talk.waiting = max(0, talk.waiting - 1)
        if octets[:1] in (b"\x8c", b"\xaa"):  # concluded, or refused
            talk.over = True

    def gone(self, p: Packet, talk: _Talk) -> None:
        """The end of an association without a conclude."""
        talk.over, talk.waiting, talk.asked = True, 0, 0
        if talk.open:
            self.add(p.time, Event("lost", talk.client))

    def add(self, time: int, event: Event, note: str = "") -> None:
        """An event at its time, in the next phase where the one before it ends."""
        idle = not any(t.waiting or t.asked for t in self.talks.values() if not t.over)
        self.octets += len(event.octets)
        quiet = idle and time - self.last >= self.options.quiet * 10**6
        full = len(self.events[-1]) >= texts.MOST_EVENTS - 8 or self.octets > texts.MOST_OCTETS
        if self.events[-1] and (self.options.each or quiet or full):
            self.phase()
            self.octets = len(event.octets)
        self.tick_to(time)
        if note:
            self.notes[len(self.events) - 1, len(self.events[-1])] = [note]
        self.events[-1].append(event)
        self.last = time

    def phase(self) -> None:
        """The next phase begins."""
        self.events.append([])
        self.outputs.append({})

    def tick_to(self, time: int) -> None:
        """Ticks up to that time, which is in microseconds."""
        ms = (time - self.start) // 1000 - self.clock
        if not self.options.tick or ms < self.options.tick:
            return
        self.clock += ms
        while ms:
            if self.options.each and self.events[-1]:
                self.phase()
            self.events[-1].append(Event("tick", ms=min(ms, texts.MOST_TICK)))
            ms -= min(ms, texts.MOST_TICK)
        if self.options.each:
            self.phase()


# ---------------------------------------------------------------- what the device can't have


def edition_of(events, outputs) -> str:
    """The edition that takes what clients send and servers name: 2 where a PDU has an element of indefinite length, or a
    name of more octets than edition 1 has; else 1."""
    heard = (e.octets for p in events for e in p if e.kind == "heard")
    said = (o for p in outputs for sent in p.values() for o in sent if o is not ABORT)
    return "2" if any(map(_is_of_two, heard)) or any(map(_has_long_name, said)) else "1"


def _is_of_two(octets: bytes) -> bool:
    """Whether a client's octets are a PDU of edition 2 and none of edition 1, or the same with a name too long."""
    found = ber.elements(octets)
    whole = len(found) == 1 and not any(e.flaw for e in found[0].walk())
    return whole and any(e.is_indefinite for e in found[0].walk()) or _has_long_name(octets)


def _has_long_name(octets: bytes) -> bool:
    """Whether a name in these octets has more octets than edition 1 allows, and no more than edition 2 does."""
    names = (n.element.contents for top in grammar.decode(octets) for n in top.walk() if n.kind == "Id")
    return any(texts.LONGEST["1"] < len(name) <= texts.LONGEST["2"] for name in names)


def remarks(events, edition: str) -> List[str]:
    """What in these requests a device that is configured can't have, each said once with how many there are."""
    of_domains, loaded, long, most = set(), set(), set(), texts.LONGEST[edition]
    for e in (e for p in events for e in p if e.kind == "heard" and e.octets[:1] == b"\xa0"):
        for n in (n for top in grammar.decode(e.octets) for n in top.walk()):
            if n.label == "domain-specific" and n.find("domainId") is not None:
                item = n.find("itemId")
                of_domains.add((n.find("domainId").value, item.value if item is not None else ""))
            elif n.label == "initiateDownloadSequence" and n.find("domainName") is not None:
                loaded.add(n.find("domainName").value)
            if n.kind == "Id" and len(n.element.contents) > most:
                long.add(n.value)
    missing = {name for name in of_domains if name[0] not in loaded}
    out = []
    if missing:
        domains = sorted({d for d, _ in missing})
        some = ", ".join(domains[:4]) + (" and %d more" % (len(domains) - 4) if len(domains) > 4 else "")
        out.append(
            f"{texts.count(len(missing), 'object')} of domains ({some}) {'is' if len(missing) == 1 else 'are'} named that no"
            " client of the capture loads; mmscell has no"
            " domains but those that clients load, and answers object-non-existent"
        )
    if long:
        name = sorted(long)[0]
        have = "1 name has" if len(long) == 1 else f"{len(long)} names have"
        out.append(f"{have} more than {most} octets, such as {name}; mmscell takes no such name")
    if edition != "1":
        out.append(f"the recording is of edition {edition}, which takes indefinite lengths and names of {most} octets")
    return out


def seen_report(events, outputs, clients: int) -> Report:
    """The report that mmscell would print, had it answered as the captured server did."""
    out, place = Report(), 1
    for k, (served, sent) in enumerate(zip(events, outputs), 1):
        out.phases.append(Phase(k, [(place + i, e) for i, e in enumerate(served)], sent))
        place += len(served) + clients
    return out
