#!/usr/bin/env python3
"""Counts what the dearest PDUs cost, by callgrind, and prints a table.

    bench/dear.py [--only WORD] [--program PATH] [--jobs N]

Each row is one PDU that makes the device work as much as it can: deletions of as many names as fill a PDU, each against
a full table; reads and writes of 1,024 variables; a read by as many tags as fill a PDU, of a full journal; types and data
ten deep and thousands wide; an unknown service; lengths of eight octets. Told are the instructions that it takes more than
a request for the status, for each of its octets, at most 400. What a recording takes beyond what it takes with its last
phase empty is counted, once; what is done and answered is counted with it. At last phases of 16,384 events: what each
reject costs beside a status request. --only counts the rows whose name has that word. Needs valgrind. Nothing here is a
test.
"""

import argparse
import concurrent.futures
import itertools
import os

from entries import VARIABLE, full
from grow import refs
from run import HERE
from spelling import length

OPEN = "A826800300FDE881010A82010A83010AA416800101810305F100820C03EE1C00000408000079EF18"
HEAD = ["mms-recording 1", "config", "end", f"1 {OPEN}"]
STATUS = bytes.fromhex("A006020101800100")
MOST = 64_900  # octets of a PDU
FIRST, LATER = "ABCDEFGHIJKLMNOPQRSTUVWXYZ", "0123456789ABCDEFGHIJKLMNOPQRSTUVWXYZ"
CELL = ["[[cell]]", "number = 0", 'type = "850120"', 'value = "850100"']


def element(tag, *contents):
    """An element of that identifier and of definite length."""
    body = b"".join(contents)
    return bytes.fromhex(tag) + length(len(body)) + body


def request(*contents):
    return element("A0", element("02", b"\1"), *contents)


def names(count):
    """So many names of three letters, each once, as a name of the device."""
    signs = itertools.islice(itertools.product(FIRST, LATER, LATER), count)
    return [element("80", "".join(it).encode()) for it in signs]


def line(pdu, client=1):
    return f"{client} {pdu.hex().upper()}"


def with_cell(*config):
    return [*HEAD[:2], *CELL, *config, *HEAD[2:]]


SPEC_OF_CELL = element("A1", element("80", b"\0"))  # variable 0, by its address


def full_variables():
    return with_cell() + [line(request(element("A7", element("A0", name), SPEC_OF_CELL))) for name in names(4096)]


def full_lists():
    member = element("A0", element("30", SPEC_OF_CELL))
    return with_cell() + [line(request(element("AB", name, member))) for name in names(256)]


def full_conditions():
    return HEAD + [line(request(element("BF2F", element("A0", name), element("81", b"\0")))) for name in names(256)]


def full_enrolments():
    conditions = names(256)
    made = [element("BF39", element("A0", name), element("A1", conditions[at % 256]), bytes.fromhex("82020104830100"))
            for at, name in enumerate(names(1024))]
    return full_conditions() + [line(request(it)) for it in made]


TABLES = [
    ("variables", "AA", "A1", full_variables, 4096),
    ("lists", "AD", "A1", full_lists, 256),
    ("conditions", "BF30", "A0", full_conditions, 256),
    ("enrolments", "BF3A", "A0", full_enrolments, 1024),
]


def deletions():
    """Of each table lists of names that are there or aren't, all of one name or each of another."""
    short, other = element("80", b"X"), names(4096 + MOST // 5)[4096:]
    found = []
    for name, service, tag, head, size in TABLES:
        there = names(size)
        lists = [
            ("one name that isn't there", [short] * (MOST // 3 - 10)),
            ("others, none there", other[: MOST // 5 - 10]),
            ("one name that is there", [there[0]] * (MOST // 5 - 10)),
            ("all that are there, and others", (there + other)[: MOST // 5 - 10]),
        ]
        found += [(f"deletion of {name}: {what}", head, request(element(service, element(tag, *said)))) for what, said in lists]
    return found


def specifications():
    """Reads and writes of 1,024 variables."""
    none = element("30", element("A0", element("80", b"X")))
    there = element("30", SPEC_OF_CELL)
    data = element("A0", bytes.fromhex("850107") * 1024)

    def read(one):
        return request(element("A4", element("A1", element("A0", one * 1024))))

    def write(one):
        return request(element("A5", element("A0", one * 1024), data))

    return [(f"{what} of 1,024 variables{which}", head, made(one))
            for which, one, head in ((", none there", none, lambda: HEAD), ("", there, with_cell))
            for what, made in (("a read", read), ("a write", write))]


def by_tags():
    """Reads of a journal by as many tags as fill a PDU."""
    def read(tags):
        return request(element("BF41", element("A0", element("80", b"J")), element("A4", *tags)))

    one = [element("1A", b"A")] * (MOST // 3 - 10)
    others = [element("1A", name[2:]) for name in names(MOST // 5 - 10)]
    variables = b"".join(element("30", element("80", name[2:]), bytes.fromhex("A103850107")) for name in names(4000))
    wide = element("30", bytes.fromhex("8006000000050000"), element("A2", element("A1", variables)))
    made = line(request(element("BF45", element("A0", element("80", b"J")))))
    entry = line(request(element("BF42", element("A0", element("80", b"J")), element("A1", wide))))
    absent = [element("1A", b"Z" + name[2:]) for name in names(MOST // 6 - 10)]
    return [
        ("a read by one tag, of 65,536 entries", lambda: full(VARIABLE, 65_536), read(one)),
        ("a read by many tags, of 65,536 entries", lambda: full(VARIABLE, 65_536), read(others)),
        ("a read by many tags, of an entry of 4,000", lambda: [*HEAD, made, entry], read(absent)),
    ]


def deep_and_wide():
    """Types and data, ten deep and wide within."""
    def ten(inner, around):
        for _ in range(9):
            inner = around(inner)
        return inner

    def array(of):
        return element("A1", element("81", b"\1"), element("A2", of))

    def define(of):
        return request(element("A7", element("A0", element("80", b"V")), SPEC_OF_CELL, element("A2", of)))

    def write(data):
        return request(element("A5", element("A0", element("30", SPEC_OF_CELL)), element("A0", data)))

    part = bytes.fromhex("3004A1028300")
    wide = element("A2", element("A1", part * 10_000))
    flat = element("A2", element("A1", part * 4096))
    data = element("A2", bytes.fromhex("8301FF") * 4096)
    cell = ["[[cell]]", "number = 0", f'type = "{flat.hex().upper()}"', f'value = "{data.hex().upper()}"']
    own = [*HEAD[:2], *cell, *HEAD[2:]]
    return [
        ("a type of 10,000, ten deep, not the cell's", with_cell, define(ten(wide, array))),
        ("a type of 4,096, the cell's", lambda: own, define(flat)),
        ("data of 21,000, ten deep, not the cell's", with_cell,
         write(ten(element("A2", bytes.fromhex("8301FF") * 21_000), lambda it: element("A2", it)))),
        ("data of 4,096, the cell's", lambda: own, write(data)),
    ]


def others():
    """What isn't of its form or of this profile."""
    long = bytes.fromhex("A0880000000000000006020101800100")
    return [
        ("an unknown service of 64,000 octets", lambda: HEAD, request(element("83", bytes(64_000)))),
        ("an unknown service of 16,000 elements", lambda: HEAD, request(element("A3", b"\x30\2\5\0" * 16_000))),
        ("no PDU, of 64,000 octets", lambda: HEAD, element("8E", bytes(64_000))),
        ("modifiers, 32,000 of them", lambda: HEAD, request(element("30", b"\5\0" * 32_000), element("80", b"\0"))),
        ("a Status with a length of eight octets", lambda: HEAD, long),
        ("a reject of 32,000 elements", lambda: HEAD, element("A4", b"\5\0" * 32_000)),
        ("an unconfirmed PDU of 32,000 elements", lambda: HEAD, element("A3", b"\5\0" * 32_000)),
    ]


def more_than_status(program, head, pdu):
    """The instructions of a PDU for each of its octets, beyond those of a request for the status."""
    lines = "".join(f"{it}\n" for it in [*head(), "phase"])
    one, status = (refs(program, f"{lines}{line(it)}\n".encode()) for it in (pdu, STATUS))
    return one - status, len(pdu)


REJECTED = ["8E00", "A0", "A003020101", "A0050201018300", "A0080201013000800100", "A005020101A200", "850109"]
PHASE = 16_384


def a_phase(program, pdu):
    """The instructions of each event of a phase of as many as one may have."""
    head = "".join(f"{it}\n" for it in [*HEAD, "phase"])
    return (refs(program, (head + f"{line(pdu)}\n" * PHASE).encode()) - refs(program, head.encode())) / PHASE


def main():
    parser = argparse.ArgumentParser(description=__doc__, formatter_class=argparse.RawDescriptionHelpFormatter)
    parser.add_argument("--only", default="")
    parser.add_argument("--program", default=os.path.join(HERE, "..", "crates", "mmscell", "out", "mmscell"))
    parser.add_argument("--jobs", type=int, default=os.cpu_count())
    asked = parser.parse_args()
    rows = [it for it in others() + specifications() + deep_and_wide() + deletions() + by_tags() if asked.only in it[0]]
    with concurrent.futures.ThreadPoolExecutor(asked.jobs) as pool:
        told = [pool.submit(more_than_status, asked.program, head, pdu) for _, head, pdu in rows]
        phases = [pool.submit(a_phase, asked.program, it) for it in [STATUS, *map(bytes.fromhex, REJECTED)]]
        print(f"{'a PDU':>58} {'octets':>7} {'instructions':>14} {'an octet':>9}")
        for (name, _, _), one in zip(rows, told):
            count, octets = one.result()
            print(f"{name:>58} {octets:>7,} {count:>14,} {count / octets:>9.1f}{' !' * (count > 400 * octets)}", flush=True)
        status = phases[0].result()
        print(f"\n{'each of 16,384 in a phase':>58} {'instructions':>14} {'to a status request':>20}")
        for said, one in zip(["a request for the status", *REJECTED], phases):
            print(f"{said:>58} {one.result():>14,.0f} {one.result() / status:>20.2f}", flush=True)


if __name__ == "__main__":
    main()
