"""A recording as a capture: each event and each answer of a device as frames on a wire."""
import random

from frames import Connection, Wire, abort, cotp_data, data, finish, simple_data
from mmstools.texts import Event


def wire_of(rows, seed=0, trouble=True):
    """The wire, and the events that can be on it: all but what a client sends in no association, and `ends`."""
    rng = random.Random(seed)
    wire, open_, events, number = Wire(), {}, [], 0
    for row in rows:
        e = row.event
        if e.kind == "tick":
            wire.now += e.ms * 1000
            events.append(e)
        elif e.kind == "lost" and e.client in open_:
            _end(open_.pop(e.client), rng)
            events.append(e)
        elif e.kind == "heard":
            c = open_.get(e.client)
            if c is None and not e.octets.startswith(b"\xa8"):
                continue
            events.append(e)
            outputs = list(row.outputs)
            if c is None:
                number += 1
                c = Connection(
                    wire,
                    "10.0.0.%d" % (10 + e.client),
                    40000 + number,
                    most=rng.choice([7, 40, 1000, 8000]) if trouble else 8000,
                )
                own = next(o for o in outputs if o.client == e.client)
                outputs.remove(own)
                c.open(e.octets, own.octets)
                if own.octets is None or own.octets[:1] == b"\xaa":
                    c.close()
                    if own.octets is None:
                        events.append(Event("lost", e.client))
                    continue
                open_[e.client] = c
            else:
                send(c, 0, e.octets, rng, trouble)
            _answers(outputs, open_, events, rng, trouble)
            continue
        else:
            continue
        _answers(row.outputs, open_, events, rng, trouble)
    return wire, events


def _answers(outputs, open_, events, rng, trouble):
    for o in outputs:
        c = open_.get(o.client)
        if c is None:
            continue
        if o.octets is None:
            c.abort(1)
            c.close()
            del open_[o.client]
            events.append(Event("lost", o.client))
            continue
        send(c, 1, o.octets, rng, trouble)
        if o.octets[:1] == b"\x8c":
            c.send(0, cotp_data(finish()), gap=0)
            c.send(1, cotp_data(finish(True)), gap=0)
            c.close()
            del open_[o.client]


def send(c, side, octets, rng, trouble):
    """One PDU, now and then in several segments, again, in wrong order, or in the other encoding of user data."""
    payload = cotp_data(data(octets) if rng.random() < 0.9 or octets[:1] == b"\0" else simple_data(octets), c.most)
    way = rng.random() if trouble else 1
    if way < 0.2 and len(payload) > 12:
        c.send(side, payload, sorted(rng.sample(range(1, len(payload)), 2)), gap=0)
    elif way < 0.3 and len(payload) < 1400:
        c.wire.put(c.segment(side, payload, again=True), 0)
        c.wire.put(c.segment(side, payload), 0)
    elif way < 0.4 and 12 < len(payload) < 1400:
        cut = rng.randrange(1, len(payload))
        a = c.segment(side, payload[:cut])
        b = c.segment(side, payload[cut:])
        c.wire.put(b, 0)
        c.wire.put(a, 0)
    else:
        c.send(side, payload, gap=0)


def _end(c, rng):
    way = rng.randrange(3)
    if way == 0:
        c.reset(rng.randrange(2))
    elif way == 1:
        c.close()
    else:
        c.send(0, cotp_data(abort()), gap=0)
        c.reset()


def ticks(events):
    """Ticks that follow one another as one."""
    out = []
    for e in events:
        if e.kind == "tick" and out and out[-1].kind == "tick":
            out[-1] = Event("tick", ms=out[-1].ms + e.ms)
        else:
            out.append(e)
    while out and out[-1].kind == "tick":
        out.pop()
    return out
