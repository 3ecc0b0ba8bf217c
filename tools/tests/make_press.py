#!/usr/bin/env python3
"""Writes data/press.pcap, the capture of one conversation at a press: tools/tests/make_press.py [FILE]

Three clients, a pool of two robots that guards the press's speed, and waits, ends of control, a loss and a preemption.
The server on the wire answers as PROFILE has it, but for three planted differences:

- the Write of a client whose control ended is served (PROFILE: object-access-denied);
- the status of the pool comes with a length and an INTEGER of more octets than needed: a difference of spelling alone;
- a pool that can't be deleted is said not to be there (PROFILE: object-access-denied).

The file is the same at each run."""
import os
import sys

HERE = os.path.dirname(os.path.abspath(__file__))
sys.path[:0] = [os.path.dirname(HERE), HERE]
from frames import Connection, Wire  # noqa: E402

ASK = "A826800300FDE881010A82010A830105A416800101810305F100820C03EE1C00000408000079EF18"
YES = "A926800300FDE881010A82010A830105A416800101810305E100820C03EF3C1FFF0FFDB8607E0098"
TALK = [  # milliseconds, the client, what it sends, and what comes of it: to the client, or to another one
    (1, 1, "A012020101B30DA0088006526F626F747384010A", [(1, "A109020101B30481025231")]),
    (1, 2, "A016020101B311A0088006526F626F747381025232860100", [(2, "A107020101B3028000")]),
    (1, 3, "A013020101B30EA0088006526F626F747381025232", []),
    (0, 1, "A00F020102B80AA0088006526F626F7473", [(1, "A112020102B80DA0088102523181025232810100")]),
    (
        1,
        1,
        "A012020103B90DA0088006526F626F7473810100",
        [(1, "A124020103B91FA01A301880080000000000000003810100A205A10302010383025232810100")],
    ),
    (1, 1, "A017020104A512A00B3009A00780055370656564A003850107", [(1, "A107020104A5028100")]),
    (1, 3, "A017020102A512A00B3009A00780055370656564A003850108", [(3, "A108020102A503800103")]),
    (1, 3, "A014020103A40FA10DA00B3009A00780055370656564", [(3, "A10A020103A405A103850107")]),
    (11, 1, "A017020105A512A00B3009A00780055370656564A003850109", [(1, "A107020105A5028100")]),  # planted
    (0, 1, "A00F020106B80AA0088006526F626F7473", [(1, "A112020106B80DA0088002523181025232810100")]),
    (1, 2, "", []),
    (1, 1, "A00F020107B80AA0088006526F626F7473", [(1, "A112020107B80DA0088002523182025232810100")]),
    (1, 1, "A01A020108B315A0088006526F626F747381025232A705A103020102", [(1, "A107020108B3028000")]),
    (1, 1, "A00F020109B40AA0088006526F626F7473", [(1, "A20A800109A205A003820104")]),
    (
        1,
        1,
        "A01302010AB40EA0088006526F626F747381025232",
        [(1, "A10502010A9400"), (3, "A107020101B3028000")],
    ),
    (2, 3, "A017020104A512A00B3009A00780055370656564A003850109", [(3, "A107020104A5028100")]),
    (1, 1, "A00D02010BB7088006526F626F7473", [(1, "A11502010BB71080010081010182010283020001840100")]),  # planted
    (1, 1, "A00D02010CB6088006526F626F7473", [(1, "A20A80010CA205A003870102")]),  # planted
]


def press() -> Wire:
    """The conversation on a wire. A client that sends nothing resets its connection."""
    wire, clients = Wire(), {}
    for n in (1, 2, 3):
        clients[n] = Connection(wire, f"10.0.0.{10 + n}", 40000 + n)
        clients[n].open(bytes.fromhex(ASK), bytes.fromhex(YES))
        wire.now += 2000 if n < 3 else 0
    for ms, n, sent, answers in TALK:
        wire.now += ms * 1000
        if not sent:
            clients[n].reset()
        else:
            clients[n].pdu(0, bytes.fromhex(sent))
        for to, octets in answers:
            clients[to].pdu(1, bytes.fromhex(octets))
    return wire


def main():
    """Writes the file."""
    path = sys.argv[1] if len(sys.argv) > 1 else os.path.join(HERE, "data", "press.pcap")
    os.makedirs(os.path.dirname(os.path.abspath(path)), exist_ok=True)
    with open(path, "wb") as f:
        f.write(press().pcap())


if __name__ == "__main__":
    main()
