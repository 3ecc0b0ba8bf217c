#!/usr/bin/env python3
"""Counts what lengths cost in edition 2, by callgrind, and prints two tables.

    bench/lengths.py [--only WORD] [--program PATH] [--jobs N]

The first: PDUs of some 64,000 octets that nest, the instructions of one for each of its octets, and the same of a PDU
half as long. Elements that hold one another and end, and the same that don't end; and data ten deep: numbers of four
octets within the tenth structure, and empty structures for the tenth, of four octets with indefinite lengths and of two
with definite ones, each where what is around them is definite and where it is indefinite. An octet is also two digits
of the recording and of the report. At most 400, however long the PDU is.

The second: the instructions of an event in edition 1, of the same octets in edition 2, and of the same PDUs in edition 2
with indefinite lengths wherever elements stand within; the events are those of bench/grow.py, events.py, programs.py and
entries.py, among few. At most 1.005 and 2 times edition 1.

Each is what a recording of some of them takes beyond what it takes with its last phase empty. --only counts the rows
whose name has that word. Needs valgrind. Nothing here is a test.
"""

import argparse
import concurrent.futures
import os

import entries
import events
import grow
import programs
from run import HERE
from spelling import END, indefinite, length

TEN = b"1 A826800300FDE881010A82010A83010AA416800101810305F100820C03EE1C00000408000079EF18\n"
HEADS = {edition: b"mms-recording %d\nconfig\nend\n" % edition + TEN for edition in (1, 2)}
OCTETS = 64_000
INVOKE, CELL_0 = bytes.fromhex("020101"), bytes.fromhex("A0073005A103800100")  # the variable that the data is for


def element(tag, contents, is_open=False):
    """An element of that identifier, of definite or of indefinite length."""
    tag = bytes.fromhex(tag)
    return tag + b"\x80" + contents + END if is_open else tag + length(len(contents)) + contents


def write(data, is_open=False):
    """A Write of data to one variable."""
    listed = element("A0", data, is_open)
    return element("A0", INVOKE + element("A5", CELL_0 + listed, is_open), is_open)


def ten_deep(part, size, is_open):
    """So many octets of these in structures, ten deep: a structure is the tenth itself, and others stand in the tenth."""
    part = bytes.fromhex(part)
    data = part * (size // len(part))
    for _ in range(9 if part[0] == 0xA2 else 10):
        data = element("A2", data, is_open)
    return write(data, is_open)


def nested():
    """Of each row its name, the edition, and the PDU of so many octets."""
    def data(part, is_open):
        return lambda size: ten_deep(part, size, is_open)

    return [
        ("A3 80, each with its end", 2, lambda size: b"\xA3\x80" * (size // 4) + END * (size // 4)),
        ("A3 80, none with its end", 2, lambda size: b"\xA3\x80" * (size // 2)),
        ("numbers", 1, data("85020007", False)),
        ("numbers", 2, data("85020007", False)),
        ("numbers, in indefinite lengths", 2, data("85020007", True)),
        ("A2 00", 1, data("A200", False)),
        ("A2 00", 2, data("A200", False)),
        ("A2 00, in indefinite lengths", 2, data("A200", True)),
        ("A2 80 00 00", 2, data("A2800000", False)),
        ("A2 80 00 00, in indefinite lengths", 2, data("A2800000", True)),
    ]


def of_octet(program, edition, pdu):
    """The instructions of an octet of a PDU, and the first octets that answer it."""
    line = b"1 %s\n" % pdu.hex().upper().encode()
    return grow.of_one(program, HEADS[edition], line, 1) / len(pdu)


def open_lines(lines):
    """Lines of a recording, whose PDUs have indefinite lengths wherever elements stand within."""
    out = []
    for line in lines.splitlines():
        client, _, digits = line.partition(b" ")
        if client.isdigit():
            line = client + b" " + indefinite(bytes.fromhex(digits.decode())).hex().upper().encode()
        out.append(line + b"\n")
    return b"".join(out)


def joined(lines):
    return "".join(f"{line}\n" for line in lines).encode()


def counted_events():
    """Of each row its name, the head of the recording, the lines of its last phase, and how many events these are."""
    rows = [(name, *made(few)) for name, (few, _), made in grow.rows()]
    rows += [(it.name, joined(it.head), joined(it.lines), len(it.lines)) for it in events.rows()[:3]]
    rows += [(name, joined(head), joined(lines), len(lines)) for name, head, lines, *_ in programs.rows()[:4]]
    short = ("one is written, text", "64 are, each, text", "one is written, variable", "64 are, each, variable",
             "the last 16 of 16, text", "the last 16 of 16, variable")
    rows += [(it.name, joined(it.head), joined([it.line]), 1) for it in entries.rows() if it.name in short]
    return [row for row in rows if any(line[:1].isdigit() for line in row[2].splitlines())]


def in_two(head):
    """The head of a recording, of edition 2."""
    return head.replace(b"mms-recording 1\n", b"mms-recording 2\n", 1)


def main():
    parser = argparse.ArgumentParser(description=__doc__, formatter_class=argparse.RawDescriptionHelpFormatter)
    parser.add_argument("--only", default="")
    parser.add_argument("--program", default=os.path.join(HERE, "..", "crates", "mmscell", "out", "mmscell"))
    parser.add_argument("--jobs", type=int, default=os.cpu_count())
    asked = parser.parse_args()
    deep = [row for row in nested() if asked.only in row[0]]
    plain = [row for row in counted_events() if asked.only in row[0]]
    with concurrent.futures.ThreadPoolExecutor(asked.jobs) as pool:
        each = [[pool.submit(of_octet, asked.program, edition, made(size)) for size in (OCTETS // 2, OCTETS)]
                for _, edition, made in deep]
        of_events = [[pool.submit(grow.of_one, asked.program, head, lines, count),
                      pool.submit(grow.of_one, asked.program, in_two(head), lines, count),
                      pool.submit(grow.of_one, asked.program, in_two(head), open_lines(lines), count)]
                     for _, head, lines, count in plain]
        if deep:
            print(f"{'a PDU, each octet':>36} {'edition':>8} {OCTETS // 2:>8,} {OCTETS:>8,} {'at most':>8}")
        for (name, edition, _), counts in zip(deep, each):
            half, whole = (one.result() for one in counts)
            print(f"{name:>36} {edition:>8} {half:>8.1f} {whole:>8.1f} {400:>8}", flush=True)
        if plain:
            print(f"{'an event of':>36} {'1':>8} {'2':>8} {'ratio':>7} {'indefinite':>11} {'ratio':>6}")
        for (name, *_), counts in zip(plain, of_events):
            one, two, opened = (it.result() for it in counts)
            print(f"{name:>36} {one:>8,.0f} {two:>8,.0f} {two / one:>7.4f} {opened:>11,.0f} {opened / one:>6.2f}", flush=True)


if __name__ == "__main__":
    main()
