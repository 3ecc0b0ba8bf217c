"""A report as one history: which event made each output, and which request each output answers.

A report tells the outputs of a phase client by client, not event by event. Most find their event by kind and invokeID.
An answer that came later, of a TakeControl that waited, belongs to the event that freed the token or ended the wait:
which one that was is worked out from the answers themselves. Reports with a phase for each event leave no doubt.
"""
import subprocess
from collections import Counter, deque
from dataclasses import dataclass, field
from functools import cached_property, lru_cache
from typing import Deque, Dict, Iterator, List, Optional, Set, Tuple

from . import grammar
from .texts import BadText, Event, Phase, Recording, Report, read_report, write_recording
from .words import Said, say


@dataclass(eq=False)
class Output:
    """A PDU for a client, or an abort."""

    client: int
    octets: Optional[bytes]
    said: Said
    asked: Optional["Row"] = None  # the request that it answers
    sure: bool = True  # False where its event is a guess
    tracked: bool = False  # whether its event follows of what is known of its semaphore


@dataclass(eq=False)
class Row:
    """An event with what came of it."""

    place: int
    phase: int
    event: Event
    said: Optional[Said]
    now: int  # milliseconds since the start, behind the event
    outputs: List[Output] = field(default_factory=list)
    answer: Optional[Output] = None  # to its own request, wherever that came
    answered: Optional["Row"] = None  # the event in which that came

    @cached_property
    def semaphore(self) -> str:
        """The semaphore that a request names; names of an association are the client's own."""
        return _semaphore(self.said, self.event.client)

    @cached_property
    def token(self) -> str:
        """The token that a request names; empty where it names none."""
        named = self.said.first("namedToken")
        return named.value if named is not None else ""


@dataclass(eq=False)
class _Wait:
    """A TakeControl that may wait."""

    row: Row
    semaphore: str
    token: str
    until: Optional[int]
    control: int
    stays: bool
    priority: int


@dataclass(eq=False)
class _Owner:
    """A client that has a token."""

    client: int
    token: str
    until: Optional[int]
    stays: bool
    hung: bool = False


ANSWERS = {
    "initiate-Request": ("initiate-Response", "initiate-Error"),
    "conclude-Request": ("conclude-Response", "conclude-Error"),
    "confirmed-Request": ("confirmed-Response", "confirmed-Error", "reject"),
    "cancel-Request": ("cancel-Response", "cancel-Error", "reject"),
}
NOTIFYING = ("triggerEvent", "alterEventConditionMonitoring", "deleteEventCondition")
ASKING = (b"\xa0", b"\x85", b"\xa8", b"\x8b")  # the first octets of what a client sends to be answered


@lru_cache(maxsize=1 << 17)
def _heard(octets: bytes) -> Said:
    """What a client says; it is heard again in the other one of two reports."""
    return say(octets)


def history(report: Report) -> List[Row]:
    """The rows of a report in order of place, each output in the row of its event."""
    return _History(report).rows


def served(recording: Recording, device: List[str]) -> List[Row]:
    """The rows of a recording as the device serves it, with a phase for each event, so that nothing is guessed."""
    flat = [(p, e) for p, events in enumerate(recording.phases, 1) for e in events]
    if not flat:
        return []
    each = Recording(recording.edition, recording.config, [[e] for _, e in flat])
    try:
        run = subprocess.run(device + ["replay"], input=write_recording(each).encode(), stdout=subprocess.PIPE)
    except OSError as e:
        raise BadText("%s: %s" % (device[0], e.strerror)) from None
    if not run.stdout.startswith((b"phase ", b"bad ", b"too much ")):
        raise BadText("%s ends with status %d, and gives no report" % (" ".join(device), run.returncode))
    report = read_report(run.stdout.decode("latin-1"))
    if report.end or len(report.phases) != len(flat):
        raise BadText(
            "the device ends with status %d: %s" % (run.returncode, report.end or "its report is not whole")
        )
    rows = history(report)
    for i, (row, (phase, _)) in enumerate(zip(rows, flat)):
        row.phase, row.place = phase, 1 + i + recording.clients() * (phase - 1)
    return rows


class _Queue:
    """What a client is sent in a phase, of which the first part has found its events."""

    def __init__(self, outs: List[Output]):
        self.outs, self.taken = outs, 0
        self.by_invoke: Dict[Optional[int], Dict[tuple, Deque[int]]] = {}  # and by what tells answers apart
        for n, out in enumerate(outs):
            says = out.said
            told = says.detail if says.service == "takeControl" or says.pdu == "confirmed-Error" else ""
            like = self.by_invoke.setdefault(says.invoke, {})
            like.setdefault((says.pdu, says.service, told), deque()).append(n)

    def head(self) -> Optional[Output]:
        """The first that has found no event."""
        return self.outs[self.taken] if self.taken < len(self.outs) else None

    def take(self) -> Output:
        """That one, which now has found its event."""
        self.taken += 1
        return self.outs[self.taken - 1]

    def alike(self, invoke: Optional[int]) -> Iterator[Tuple[int, Output]]:
        """Of those with an invokeID that have found no event the first of each kind, with how many stand before it."""
        for like in self.by_invoke.get(invoke, {}).values() if invoke is not None else ():
            while like and like[0] < self.taken:
                like.popleft()
            if like:
                yield like[0] - self.taken, self.outs[like[0]]


class _History:
    """Follows a report event by event, with what its answers tell of associations, semaphores and loads."""

    def __init__(self, report: Report):
        self.rows: List[Row] = []
        self.now = 0
        self.open: Dict[int, bool] = {}
        self.pending: Dict[int, Dict[int, Row]] = {}  # by client and invokeID
        self.waits: Dict[int, Dict[int, _Wait]] = {}
        self.owners: Dict[str, List[_Owner]] = {}
        self.tokens: Dict[str, int] = {}
        self.loose: Set[str] = set()  # semaphores of which it isn't known who has which token
        self.asked: Dict[int, set] = {}  # invokeIDs of the server's requests, by client
        known = _Known()
        for phase in report.phases:
            told = {c: [Output(c, o, say(o)) for o in os] for c, os in phase.outputs.items()}
            aside = _set_aside(phase, told)
            self.queue = {c: _Queue([o for o in os if o not in aside]) for c, os in told.items()}
            first = len(self.rows)
            for place, event in phase.served:
                if event.kind == "tick":
                    self.now += event.ms
                said = _heard(event.octets) if event.kind == "heard" else None
                row = Row(place, phase.number, event, said, self.now)
                self.rows.append(row)
                self.serve(row)
            self.left_over(self.rows[first:])
            known.take(self.rows[first:])
            aside |= _place(self.rows[first:], known)
            _beside(self.rows[first:], told, aside)

    # ---- one event
    def serve(self, row: Row) -> None:
        """Gives an event what it sent, as far as that shows event by event."""
        c = row.event.client
        if row.event.kind == "heard":
            self.heard(row, c)
        elif row.event.kind == "lost":
            self.lose(row, c)
        elif row.event.kind == "tick":
            self.tick(row)
        self.notices(row)

    def heard(self, row: Row, c: int) -> None:
        """What a client sent, and its answer where that comes at once."""
        asks, head = row.said, self.head(c)
        if asks.pdu == "confirmed-Request" and asks.invoke is not None:
            if self.open.get(c) and asks.invoke not in self.pending.setdefault(c, {}):
                self.pending[c][asks.invoke] = row
                if asks.service == "takeControl":
                    wait = self.waits.setdefault(c, {})[asks.invoke] = self.wait(row)
                    if wait.token or wait.semaphore not in self.tokens:
                        self.loose.add(wait.semaphore)
        if head is None or not self.own(row, head) and not self.skip_to(row, c):
            return
        head = self.head(c)
        self.put(row, c, row)
        if head.octets is None:
            self.lose(row, c)
            return
        if asks.pdu == "cancel-Request":
            other = self.head(c)
            if (
                head.said.pdu == "cancel-Response"
                and other is not None
                and other.said.pdu == "confirmed-Error"
                and other.said.invoke == asks.invoke
            ):
                self.settle(row, c)
        elif head.said.pdu == "conclude-Response":
            self.lose(row, c)
        elif (
            asks.service == "initiateDownloadSequence"
            and head.said.pdu == "confirmed-Response"
            and self.asks(self.head(c))
        ):
            self.put(row, c, None)

    def own(self, row: Row, head: Output) -> bool:
        """Whether the head of the client's outputs is the answer to this very event."""
        asks, says, c = row.said, head.said, head.client
        if head.octets is None:
            return not self.open.get(c) or asks.pdu == "initiate-Request"
        if says.pdu == "reject" and says.invoke is None:
            return not self.in_order(asks, c)
        if asks.pdu in ("confirmed-Response", "confirmed-Error", "reject"):
            return self.asks(head) and asks.invoke in self.asked.get(c, ())
        if not asks.pdu:
            return says.pdu == "reject" and says.invoke == asks.invoke
        if asks.pdu not in ANSWERS or says.pdu not in ANSWERS[asks.pdu]:
            return False
        if asks.pdu not in ("confirmed-Request", "cancel-Request"):
            return True
        if says.invoke != asks.invoke or says.service not in ("", asks.service):
            return False
        if asks.service == "takeControl" and says.pdu != "reject":
            return self.at_once(self.wait(row), says)
        return True

    def in_order(self, asks: Said, c: int) -> bool:
        """Whether a client may send that, so that it is answered with something better than a reject of a PDU."""
        if asks.pdu in ("confirmed-Response", "confirmed-Error"):
            return asks.invoke in self.asked.get(c, ())
        if asks.pdu in ("confirmed-Request", "cancel-Request"):
            whole = asks.tone == "ask" and asks.invoke is not None and 0 <= asks.invoke < 1 << 32
            return whole and (asks.pdu != "confirmed-Request" or asks.service != "no service") and _spelled(asks)
        return asks.pdu in (
            "reject",
            "unconfirmed",
            "cancel-Response",
            "cancel-Error",
            "conclude-Request",
            "initiate-Request",
        )

    @staticmethod
    def asks(head: Optional[Output]) -> bool:
        """Whether that is a request of the server."""
        return head is not None and head.said.pdu == "confirmed-Request"

    def skip_to(self, row: Row, c: int) -> bool:
        """Where the answer to this event is behind others that found no event, these stand at the event before."""
        asks = row.said
        alike = self.queue[c].alike(asks.invoke) if asks.pdu in ANSWERS else []
        own = [n for n, o in alike if o.said.pdu in ANSWERS[asks.pdu] and self.own(row, o)]
        at = min(own, default=None)
        if at is None:
            return False
        earlier = self.rows[-2] if len(self.rows) > 1 and self.rows[-2].phase == row.phase else row
        for _ in range(at):
            head = self.head(c)
            asked = (
                self.pending.get(c, {}).get(head.said.invoke)
                if head.said.pdu in ANSWERS["confirmed-Request"]
                else None
            )
            self.put(earlier, c, asked).sure = False
        return True

    # ---- semaphores
    def wait(self, row: Row) -> _Wait:
        """What a TakeControl says of its wait and of its control."""
        first = row.said.first
        delay, control, stays = (first(k) for k in ("acceptableDelay", "controlTimeOut", "relinquishIfConnectionLost"))
        number = grammar.integer(delay.element.contents) if delay is not None else None
        return _Wait(
            row,
            row.semaphore,
            row.token,
            None if number is None else self.now + number,
            (grammar.integer(control.element.contents) or 0) if control is not None else 0,
            stays is not None and stays.value == "FALSE",
            _number(first("priority"), 64),
        )

    def at_once(self, wait: _Wait, says: Said) -> bool:
        """Whether that answer comes in the event of the request, by what is known of the owners."""
        if says.pdu == "confirmed-Error":
            late = (
                says.detail.startswith("service-preempt: timeout")
                and wait.until != self.now
                or says.detail.startswith("service-preempt: cancel")
            )
            return not late
        owners = self.owners.get(wait.semaphore, [])
        if _preempted(wait.row.said, owners) is not None:
            return True
        if wait.token or says.detail.startswith("granted token"):
            token = wait.token or says.detail.split()[-1]
            return all(o.token != token for o in owners)
        return len(owners) < self.tokens.get(wait.semaphore, len(owners) + 1)

    def granted(self, wait: _Wait, says: Said, at: int) -> None:
        """A client has a token from that moment on."""
        token = wait.token or (says.detail.split()[-1] if says.detail.startswith("granted token") else "")
        self.owners.setdefault(wait.semaphore, []).append(
            _Owner(wait.row.event.client, token, at + wait.control if wait.control else None, wait.stays)
        )

    def freed(self, row: Row, semaphore: str, token: str, at: int) -> bool:
        """Gives a freed token to the waiter of least priority and number. Whether its answer comes next.

        Where it isn't, the semaphore is followed no more, and any waiter whose answer comes next has the token."""
        waits = [
            w
            for waits in self.waits.values()
            for w in waits.values()
            if w.semaphore == semaphore and (not w.token or w.token == token)
        ]
        for w in sorted(waits, key=lambda w: (w.priority, w.row.place)):
            c, head = w.row.event.client, self.head(w.row.event.client)
            if head is not None and head.said.pdu == "confirmed-Response" and head.said.invoke == w.row.said.invoke:
                self.settle(row, c, at)
                return True
            self.loose.add(semaphore)
        return False

    def tick(self, row: Row) -> None:
        """Meets the deadlines that answers tell of, in order of their moments."""
        for _ in range(10000):
            due = [
                (o.until, 0, s, o)
                for s, os in self.owners.items()
                for o in os
                if o.until is not None and o.until <= self.now
            ]
            due += [
                (w.until, 1, w.semaphore, w)
                for ws in self.waits.values()
                for w in ws.values()
                if w.until is not None and w.until <= self.now
            ]
            if not due:
                return
            at, kind, semaphore, what = min(due, key=lambda d: d[:3])
            if kind == 0:
                self.owners[semaphore].remove(what)
                head = self.head(what.client)
                self.freed(row, semaphore, what.token, at)
                if not what.hung and head is not None and head.octets is None and self.open.get(what.client):
                    self.put(row, what.client, None).tracked = semaphore not in self.loose
                    self.lose(row, what.client, at)
            else:
                what.until = None
                c = what.row.event.client
                head = self.head(c)
                if (
                    head is not None
                    and head.said.invoke == what.row.said.invoke
                    and head.said.pdu == "confirmed-Error"
                ):
                    self.settle(row, c)

    def lose(self, row: Row, c: int, at: Optional[int] = None) -> None:
        """The association of a client is over: its requests wait no more, and its tokens are freed or hung."""
        self.open[c] = False
        self.pending[c], self.waits[c], self.asked[c] = {}, {}, set()
        for semaphore in sorted(self.owners):
            for o in [o for o in self.owners[semaphore] if o.client == c and not o.hung]:
                if o.stays:
                    o.hung = True
                else:
                    self.owners[semaphore].remove(o)
                    self.freed(row, semaphore, o.token, self.now if at is None else at)

    # ---- outputs
    def head(self, c: int) -> Optional[Output]:
        """The client's next output."""
        q = self.queue.get(c)
        return q.head() if q else None

    def put(self, row: Row, c: int, asked: Optional[Row]) -> Output:
        """The client's next output is this row's."""
        out = self.queue[c].take()
        row.outputs.append(out)
        out.asked = asked
        if out.said.pdu == "confirmed-Request":
            self.asked.setdefault(c, set()).add(out.said.invoke)
        if (
            row.event.client == c
            and row.said is not None
            and row.said.pdu in ("confirmed-Response", "confirmed-Error")
        ):
            self.asked.get(c, set()).discard(row.said.invoke)
        if asked is not None:
            wait = self.waits.get(c, {}).get(out.said.invoke)
            out.tracked = wait is not None and wait.row is asked and wait.semaphore not in self.loose
            asked.answer, asked.answered = out, row
            self.account(asked, out, row)
        return out

    def settle(self, row: Row, c: int, at: Optional[int] = None) -> None:
        """The client's next output is this row's, and answers an earlier request."""
        head = self.head(c)
        asked = self.pending.get(c, {}).get(head.said.invoke)
        wait = self.waits.get(c, {}).get(head.said.invoke)
        followed = wait is not None and wait.semaphore not in self.loose
        if wait is not None and at is not None and head.said.pdu == "confirmed-Response":
            self.granted(wait, head.said, at)
            del self.waits[c][head.said.invoke]
        self.put(row, c, asked).tracked = followed

    def account(self, asked: Row, out: Output, row: Row) -> None:
        """What the answer to a request tells of associations, semaphores and what is pending."""
        c = out.client
        if out.said.pdu == "initiate-Response":
            self.open[c] = True
        if self.pending.get(c, {}).get(out.said.invoke) is asked:
            del self.pending[c][out.said.invoke]
        wait = self.waits.get(c, {}).get(out.said.invoke)
        if wait is not None and wait.row is asked:
            del self.waits[c][out.said.invoke]
            if out.said.pdu == "confirmed-Response":
                hung = _preempted(asked.said, self.owners.get(wait.semaphore, []))
                if hung is not None:
                    self.owners[wait.semaphore].remove(hung)
                self.granted(wait, out.said, self.now)
        if out.said.pdu != "confirmed-Response":
            return
        if asked.said.service == "defineSemaphore":
            number = asked.said.first("numberOfTokens")
            if number is not None:
                self.tokens[asked.semaphore] = grammar.integer(number.element.contents) or 0
        elif asked.said.service == "relinquishControl":
            is_named = asked.said.first("namedToken") is not None
            mine = [
                o
                for o in self.owners.get(asked.semaphore, [])
                if o.client == c and not o.hung and (not is_named or o.token == asked.token)
            ]
            if mine:
                self.owners[asked.semaphore].remove(mine[0])
            self.freed(row, asked.semaphore, asked.token, self.now)

    def notices(self, row: Row) -> None:
        """Event notifications come of ticks, and of what changes an event condition."""
        if _notifies(row):
            for c in sorted(self.queue):
                while self.head(c) is not None and self.head(c).said.pdu == "unconfirmed":
                    self.put(row, c, None)

    def left_over(self, rows: List[Row]) -> None:
        """What found no event stands at the phase's last one, marked as a guess."""
        here = {id(row) for row in rows}
        for c in sorted(self.queue):
            own = [r for r in rows if r.event.client == c]
            while rows and self.head(c) is not None:
                head = self.head(c)
                asked = (
                    self.pending.get(c, {}).get(head.said.invoke)
                    if head.said.pdu.startswith("confirmed-") or head.said.pdu == "reject"
                    else None
                )
                if head.said.pdu == "initiate-Response":
                    self.open[c] = True
                while own and own[-1].answer is not None:
                    own.pop()
                out = self.put(asked if id(asked) in here else (own or rows)[-1], c, asked)
                out.sure = len(rows) == 1


# ---------------------------------------------------------------- which event an output may have come of


def _place(rows: List[Row], known: "_Known") -> Set[Output]:
    """Marks what outputs of a phase may have come of more than one of its events, and moves what stands where it can't.

    An event answers its own request first, then come grants and ends of waits. What an event may send says `_Ways`; an
    output is sure where all ways to cut the client's outputs into those of the events give it to the same event. Where
    there is no way, notifications are left out, and told."""
    by_client: Dict[int, List[Tuple[Row, Output]]] = {}
    at = {id(row): i for i, row in enumerate(rows)}
    for row in rows:
        for out in row.outputs:
            by_client.setdefault(out.client, []).append((row, out))
        row.outputs = []
    aside: Set[Output] = set()
    others = [i for i, row in enumerate(rows) if _may_free(row) or _notifies(row)]
    for client, placed in by_client.items():
        may = _Ways(client, [out for _, out in placed], known).of(rows, others)
        notices = {out for _, out in placed if out.said.pdu == "unconfirmed"}
        if notices and not may.some:
            aside |= notices
            placed = [(row, out) for row, out in placed if out not in notices]
            may = _Ways(client, [out for _, out in placed], known).of(rows, others)
        least = 0
        for j, (row, out) in enumerate(placed):
            own = at[id(row)]
            stands = may.may_send(own, j)
            out.sure = may.is_of_one(j) or out.tracked and stands
            least = own if stands and own >= least else may.next(least, j)
            rows[least].outputs.append(out)
            if out.asked is not None and out.asked.answer is out:
                out.asked.answered = rows[least]
    for row in rows:
        row.outputs.sort(key=lambda o: o.client != row.event.client)
    return aside


def _set_aside(phase: Phase, told: Dict[int, List[Output]]) -> Set[Output]:
    """What is sent unasked and comes of no event of the phase, such as an InformationReport, which mmscell never sends."""
    unasked = [o for os in told.values() for o in os if o.said.pdu == "unconfirmed"]
    notified = bool(unasked) and any(_may_notify(event) for _, event in phase.served)
    return {o for o in unasked if o.said.service != "eventNotification" or not notified}


def _may_notify(event: Event) -> bool:
    """Whether event conditions may come to another state in that event."""
    return event.kind == "tick" or event.kind == "heard" and _heard(event.octets).service in NOTIFYING


def _beside(rows: List[Row], told: Dict[int, List[Output]], aside: Set[Output]) -> None:
    """Puts what was set aside behind the output that its client was sent before it, as a guess."""
    at = {o: row for row in rows for o in row.outputs}
    for client, outs in told.items() if rows and aside else ():
        own = next((row for row in rows if row.event.client == client), rows[0])
        before = None
        for o in outs:
            if o in aside:
                row = at[before] if before in at else own
                row.outputs.insert(row.outputs.index(before) + 1 if before in at else len(row.outputs), o)
                at[o], o.sure = row, len(rows) == 1
            before = o


class _Senders:
    """Which events of a phase may have sent which outputs of a client.

    `sent` has a set of outputs for each event, as the bits of a number."""

    def __init__(self, sent: List[int]):
        self.sent = sent
        self.some = self.several = 0  # outputs that some event may have sent, and more than one
        for outs in sent:
            self.several |= self.some & outs
            self.some |= outs
        self.last: Dict[int, int] = {}  # of each output the last event that may have sent it
        left = self.some
        for i in reversed([i for i, outs in enumerate(sent) if outs]):
            for j in _members(left & sent[i]):
                self.last[j] = i
            left &= ~sent[i]
        self.of_one = f"{self.some & ~self.several:b}"[::-1]

    def may_send(self, event: int, output: int) -> bool:
        """Whether the event may have sent the output."""
        return self.sent[event] >> output & 1 == 1

    def is_of_one(self, output: int) -> bool:
        """Whether exactly one event may have sent the output."""
        return self.of_one[output : output + 1] == "1"

    def next(self, least: int, output: int) -> int:
        """The first event from that one on that may have sent the output; where there is none, that one."""
        if self.last.get(output, -1) < least:
            return least
        return next(i for i in range(least, len(self.sent)) if self.may_send(i, output))


class _Ways:
    """What each event of a phase may have sent to one client, as far as single outputs tell.

    A set of outputs is a number, whose bit j is 1 where the output j belongs to it. So is a set of cuts, whose bit j
    stands for the cut behind the first j outputs. All cuts of an event are followed at once, so that 10,000 events, of
    which each may have sent many outputs, take seconds."""

    def __init__(self, client: int, outs: List[Output], known: "_Known"):
        self.client, self.count, self.known = client, len(outs), known
        self.anything = 0  # what may answer anything: aborts, and rejects without an invokeID
        self.answering: Dict[tuple, int] = {}  # other outputs, by what they have to fit
        self.late = self.by_tick = 0  # what any event may send behind its own answer, and what any tick may
        self.notices = 0  # what comes of transitions of event conditions
        self.grants: Dict[str, Dict[str, int]] = {}  # by semaphore and token: what an event sends that frees one
        for j, out in enumerate(outs):
            self._answers(1 << j, out)
            self._late(1 << j, out)

    def _note(self, bit: int, *key) -> None:
        self.answering[key] = self.answering.get(key, 0) | bit

    def _found(self, *key) -> int:
        return self.answering.get(key, 0)

    def _answers(self, bit: int, out: Output) -> None:
        """Notes what an output may answer, by what kind it is and by its invokeID."""
        says = out.said
        self._note(bit, "invokeID", says.invoke)
        self._note(bit, says.pdu)
        if out.octets is None or says.pdu == "reject" and says.invoke is None:
            self.anything |= bit
        elif says.pdu == "confirmed-Request":
            self._note(bit, "domain", _domain(says))
        elif says.pdu == "reject":
            self._note(bit, "reject", says.invoke)
        elif says.pdu != "initiate-Error":
            self._note(bit, says.pdu, says.invoke, says.service)

    def _late(self, bit: int, out: Output) -> None:
        """Notes which events may send an output that another one asked for: the end of a wait, or of control."""
        says = out.said
        if out.octets is None:
            self.by_tick |= bit
        elif says.pdu == "unconfirmed":
            self.notices |= bit
        elif says.pdu == "confirmed-Error" and says.detail.startswith("service-preempt: timeout"):
            self.by_tick |= bit
        elif says.pdu == "confirmed-Response" and says.service == "takeControl":
            if out.asked is None or self.known.used[self.client, says.invoke] > 1:
                self.late |= bit
            else:
                tokens = self.grants.setdefault(out.asked.semaphore, {})
                token = _token(out.asked, says)
                tokens[token] = tokens.get(token, 0) | bit

    def of(self, rows: List[Row], others: List[int]) -> _Senders:
        """Which outputs each event may have sent; beside the client's own events those others alone may send it any that
        not any event may."""
        own = {i for i, row in enumerate(rows) if row.event.client == self.client}
        steps = [(i, self._steps(rows[i])) for i in (range(len(rows)) if self.late else sorted(own.union(others)))]
        ahead = [1]  # the cuts that the events so far may lead to
        for _, (none, one, two, late) in steps:
            firsts = (ahead[-1] if none else 0) | (ahead[-1] & one) << 1 | (ahead[-1] & two) << 2
            ahead.append(_along(firsts, late))
        sent = [0] * len(rows)
        back = ahead[-1] & 1 << self.count  # the cuts from which the events left may send all that is left
        for before, (i, (none, one, two, late)) in zip(ahead[-2::-1], reversed(steps)):
            ends = _back_along(back, late, self.count)
            none, one, two = before & ends if none else 0, before & one & ends >> 1, before & two & ends >> 2
            behind = _along(none | one << 1 | two << 2, late) & late & ends >> 1
            sent[i] = one | two | two << 1 | behind
            back = none | one | two
        return _Senders(sent)

    def _steps(self, row: Row) -> Tuple[bool, int, int, int]:
        """Whether an event may send no answer of its own; which outputs may be its one answer, and which the first of
        two; and what may come behind."""
        late = self.late | (self.by_tick if row.event.kind == "tick" else 0) | (self._freed(row) if self.grants else 0)
        late |= self.notices if self.notices and _notifies(row) else 0
        if row.event.client != self.client or row.event.kind != "heard":
            return True, 0, 0, late
        asks, answers = row.said, self._answering(row)
        if row.event.octets[:1] in ASKING:
            none = asks.service == "takeControl"
        else:
            none = not self.known.loads_on(row)
        if asks.service == "initiateDownloadSequence":
            begun = answers & self._found("confirmed-Response")
            return none, answers & ~begun, begun & self._found("confirmed-Request") >> 1, late
        if asks.pdu == "cancel-Request":
            other = self._found("invokeID", asks.invoke) >> 1
            return none, answers, answers & self._found("cancel-Response") & other, late
        return none, answers, 0, late

    def _answering(self, row: Row) -> int:
        """The outputs that may answer what the client sent."""
        asks = row.said
        found = self.anything | self._found("reject", asks.invoke)
        if row.event.octets[:1] not in ASKING:
            found |= self._found("domain", self.known.domain(self.client, asks.invoke))
        if asks.pdu in ("", "initiate-Request"):
            found |= self._found("initiate-Error")
        if asks.pdu == "initiate-Request":
            return found | self._found("initiate-Response")
        if asks.pdu == "conclude-Request":
            return found | self._found("conclude-Response") | self._found("conclude-Error")
        for pdu in ANSWERS.get(asks.pdu, ()):
            found |= self._found(pdu, asks.invoke, "") | self._found(pdu, asks.invoke, asks.service)
        return found

    def _freed(self, row: Row) -> int:
        """The grants of tokens that an event may have freed."""
        known, said, c = self.known, row.said, row.event.client
        if row.event.kind == "tick":
            return sum(self._of(s) for s in self.grants if known.aborts or s in known.timed)
        if row.event.kind == "heard" and said.service == "relinquishControl":
            one = known.used[c, said.invoke] == 1  # else it isn't known which answer is this request's
            if one and row.answer is not None and row.answer.said.pdu != "confirmed-Response":
                return 0
            token, tokens = row.token, self.grants.get(row.semaphore, {})
            return sum(bits for other, bits in tokens.items() if not token or not other or token == other)
        if row.event.kind == "lost" or row.event.octets[:1] in (b"\x8b", b"\xa8"):
            return sum(self._of(s) for s in self.grants if c != self.client and c in known.takers.get(s, ()))
        return 0

    def _of(self, semaphore: str) -> int:
        """The grants of tokens of a semaphore."""
        return sum(self.grants[semaphore].values())


def _along(cuts: int, outs: int) -> int:
    """These cuts, and all that they lead to by outputs of that set, one after the other."""
    on = cuts & outs  # added to a run of bits, one of them carries behind its end, and turns all from there on
    return cuts | (outs + on) ^ outs


def _back_along(cuts: int, outs: int, count: int) -> int:
    """All cuts from which outputs of that set, one after the other, lead to one of these, of so many outputs."""
    if not outs:
        return cuts
    return _mirrored(_along(_mirrored(cuts, count + 1), _mirrored(outs, count)), count + 1)


def _mirrored(bits: int, count: int) -> int:
    """So many bits in the other order."""
    return int(f"{bits:0{count}b}"[::-1], 2)


def _members(bits: int) -> Iterator[int]:
    """The places of the bits that are 1."""
    while bits:
        yield (bits & -bits).bit_length() - 1
        bits &= bits - 1


def _may_free(row: Row) -> bool:
    """Whether tokens may be freed, or waits end, in that event."""
    if row.event.kind == "heard":
        return row.said.service == "relinquishControl" or row.event.octets[:1] in (b"\x8b", b"\xa8")
    return True


def _notifies(row: Row) -> bool:
    """Whether event conditions may come to another state in that event."""
    return row.event.kind == "tick" or row.said is not None and row.said.service in NOTIFYING


def _token(asks: Row, says: Said) -> str:
    """The token that a request names, or that it was granted; empty where neither says one."""
    if asks.said.first("namedToken") is not None:
        return asks.token
    return says.detail.split()[-1] if says.detail.startswith("granted token") else ""


def _domain(said: Said) -> str:
    """The domain whose load a request of the server is of."""
    service = said.node.parts[-1]
    return next((n.value for n in service.walk() if n.kind == "Id"), "")


class _Known:
    """What the report tells of semaphores and loads up to the end of a phase."""

    def __init__(self):
        self.used: Counter = Counter()  # how often a client used an invokeID in the phase
        self.takers: Dict[str, Set[int]] = {}  # by semaphore: the clients that asked for a token of it
        self.timed: Set[str] = set()  # semaphores of which somebody asked for control with an end
        self.aborts = False  # whether the device aborted a client in the phase
        self.loads: Dict[int, Dict[Optional[int], Said]] = {}  # the server's requests, by client and invokeID

    def take(self, rows: List[Row]) -> None:
        """The rows of one more phase."""
        self.used = Counter((r.event.client, r.said.invoke) for r in rows if r.said is not None)
        self.aborts = any(o.octets is None for r in rows for o in r.outputs)
        for r in rows:
            if r.said is not None and r.said.service == "takeControl":
                semaphore = r.semaphore
                self.takers.setdefault(semaphore, set()).add(r.event.client)
                if r.said.first("controlTimeOut") is not None:
                    self.timed.add(semaphore)
            for o in r.outputs:
                if o.said.pdu == "confirmed-Request":
                    self.loads.setdefault(o.client, {})[o.said.invoke] = o.said

    def domain(self, client: int, invoke: Optional[int]) -> str:
        """The domain that the server's request of that invokeID is of."""
        said = self.loads.get(client, {}).get(invoke)
        return _domain(said) if said is not None else ""

    def loads_on(self, row: Row) -> bool:
        """Whether a client's PDU is a segment of a load, behind which the server asks for more or for the end."""
        said = self.loads.get(row.event.client, {}).get(row.said.invoke)
        return row.said.pdu == "confirmed-Response" and said is not None and said.service == "downloadSegment"

def _preempted(said: Said, owners) -> Optional[_Owner]:
    """The hung entry of the client that a TakeControl names."""
    client = said.first("applicationToPreempt")
    number = (
        next((grammar.integer(x.element.contents) for x in client.walk() if x.kind == "INTEGER"), None)
        if client is not None
        else None
    )
    return next((o for o in owners if o.hung and o.client == number), None)


def _spelled(asks: Said) -> bool:
    """Whether the parts of a request that come before its service are spelled as they have to be."""
    parts = asks.node.parts if asks.node is not None else []
    if asks.pdu == "cancel-Request":
        return not asks.node.element.constructed and len(asks.node.element.contents) <= 8
    return (
        2 <= len(parts) <= 3
        and parts[0].element.tag == (0, 2)
        and not parts[0].element.constructed
        and len(parts[0].element.contents) <= 8
        and parts[-1].element.cls == 2
    )


def _number(n, default: int) -> int:
    """The number of an element that may be left out."""
    found = grammar.integer(n.element.contents) if n is not None else default
    return default if found is None else found


def _semaphore(said: Said, client: int) -> str:
    """The semaphore that a request names; names of an association are the client's own."""
    name = said.first("semaphoreName")
    for kind in ("vmd-specific", "domain-specific", "aa-specific"):
        found = name.find(kind) if name is not None else None
        if found is not None:
            own = "@%d" % client if kind == "aa-specific" else ""
            return own + kind[0] + "/".join(x.value for x in found.walk() if x.value)
    return ""
