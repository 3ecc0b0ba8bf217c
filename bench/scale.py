#!/usr/bin/env python3
"""Runs the program at its limits, and prints a table: the status, the time and the peak of memory.

    bench/scale.py [--only WORD] [--small] [--program PATH]

Served by `replay` and by `run --workers 4`, from a pipe into which the recording is made as it is read: one of exactly
4,294,967,296 octets, which is served, and one of an octet more, which is refused at the line in which that octet stands;
a phase of exactly 67,108,864 octets of PDUs, and one of an octet more; 64 clients with 1,000,000 requests; 10,000,000
requests of one client. Told are the exit status, the octets in and out, seconds of processor time and by the clock, and
the peak of memory by GNU time. Ends with status 1 where a status or the end of a report is another one than it has to be.
--small takes a hundredth of the requests, and leaves out what has no smaller form. --only takes what has that word in
its name. The whole takes some minutes. Nothing here is a test.
"""

import argparse
import os
import subprocess
import sys
import tempfile
import threading
import time

from run import HEAD, HEAD_OF_64, HERE, OPEN, STATUS

INPUT = 2**32  # octets of a recording
PHASE, EVENTS, PDU = 67_108_864, 16_384, 65_000  # octets of PDUs and events of a phase, octets of a PDU
NO_PDU = b"8E82%04X" % (PDU - 4) + b"00" * (PDU - 4)
LONG = b"1 %s\n" % NO_PDU
PAUSE = b"phase\n"


def of_octets(count):
    """A PDU of so many octets that is none of MMS: at least 4."""
    return b"1 8E82%04X%s\n" % (count - 4, b"00" * (count - 4))


def whole_input(more):
    """A recording of 4,294,967,296 octets and so many more, in phases of 1,000 long PDUs."""
    left = INPUT + more - len(HEAD) - len(OPEN % 1)
    yield HEAD + OPEN % 1
    block = PAUSE + LONG * 1000
    while left > len(block) + 3 * len(LONG):
        yield block
        left -= len(block)
    yield PAUSE
    left -= len(PAUSE)
    while left > 2 * len(LONG):
        yield LONG
        left -= len(LONG)
    if left % 2 == 0:  # lines of PDUs have an odd number of octets: three or two of them are left
        half = left // 2
        yield from (of_octets((half - (1 - half % 2) - 3) // 2), of_octets((left - half + (1 - half % 2) - 3) // 2))
    else:
        third = left // 3 - (1 - left // 3 % 2)
        rest = (left - third) // 2
        rest -= 1 - rest % 2
        yield from (of_octets((it - 3) // 2) for it in (third, rest, left - third - rest))


def whole_phase(more):
    """A phase of 67,108,864 octets of PDUs and so many more."""
    count = PHASE // PDU - 1
    yield HEAD + OPEN % 1 + PAUSE
    yield LONG * count
    left = PHASE + more - PDU * count
    yield of_octets(left // 2)
    yield of_octets(left - left // 2)


def requests(count):
    """So many requests of one client, in phases of as many as one may have."""
    yield HEAD + OPEN % 1
    for at in range(0, count, EVENTS):
        yield PAUSE + STATUS % 1 * min(EVENTS, count - at)


def of_64(count):
    """So many requests of 64 clients in turn."""
    clients = range(1, 65)
    yield HEAD_OF_64 + b"".join(OPEN % it for it in clients)
    turn = b"".join(STATUS % it for it in clients)
    for at in range(0, count, EVENTS):
        yield PAUSE + turn * (min(EVENTS, count - at) // 64)


class Fed:
    """What a program was given."""

    def __init__(self, pieces):
        self.pieces, self.octets, self.lines = pieces, 0, 0

    def into(self, pipe):
        for piece in self.pieces:
            self.octets += len(piece)
            self.lines += piece.count(b"\n")
            try:
                pipe.write(piece)
            except BrokenPipeError:
                break
        try:
            pipe.close()
        except BrokenPipeError:
            pass


def ran(words, pieces):
    """What was fed, the status, the octets of the report, its last line, and seconds and octets of memory."""
    fed = Fed(pieces)
    with tempfile.NamedTemporaryFile("r") as told:
        began = time.monotonic()
        timed = ["/usr/bin/time", "-o", told.name, "-f", "%U %S %M", *words]
        process = subprocess.Popen(timed, stdin=subprocess.PIPE, stdout=subprocess.PIPE)
        feeder = threading.Thread(target=fed.into, args=(process.stdin,))
        feeder.start()
        octets, last = 0, b""
        while piece := process.stdout.read(2**20):
            octets += len(piece)
            last = (last + piece)[-200:]
        feeder.join()
        status = process.wait()
        clock = time.monotonic() - began
        user, system, peak = told.read().split()[-3:]
    return fed, status, octets, last.rstrip(b"\n").split(b"\n")[-1], float(user) + float(system), clock, int(peak) * 1024


def line_of_the_limit(pieces, limit):
    """The number of the line in which the octet behind that limit of a recording stands."""
    lines = 0
    for piece in pieces:
        if len(piece) > limit:
            return lines + piece[:limit].count(b"\n") + 1
        limit -= len(piece)
        lines += piece.count(b"\n")
    return None


def trials(is_small):
    """Each with its name, what makes the recording, the status and the line that is too much."""
    share = 100 if is_small else 1
    phase = PHASE // PDU + 6  # three lines of the head, the proposal, `phase`, and the PDUs
    found = [
        ("a phase of 67,108,864 octets", lambda: whole_phase(0), 0, None),
        ("and of one octet more", lambda: whole_phase(1), 7, phase),
        (f"64 clients, {1_000_000 // share:,} requests", lambda: of_64(1_000_000 // share), 0, None),
        (f"{10_000_000 // share:,} requests", lambda: requests(10_000_000 // share), 0, None),
    ]
    if not is_small:
        found += [
            ("an input of 4,294,967,296 octets", lambda: whole_input(0), 0, None),
            ("and of one octet more", lambda: whole_input(1), 7, line_of_the_limit(whole_input(1), INPUT)),
        ]
    return found


def main():
    parser = argparse.ArgumentParser(description=__doc__, formatter_class=argparse.RawDescriptionHelpFormatter)
    parser.add_argument("--only", default="")
    parser.add_argument("--small", action="store_true")
    parser.add_argument("--program", default=os.path.join(HERE, "..", "crates", "mmscell", "out", "mmscell"))
    asked = parser.parse_args()
    wrong = 0
    print("| a recording | by | status | octets | of the report | processor, s | by the clock, s | peak, MB |")
    print("|---|---|---|---|---|---|---|---|")
    for name, pieces, status, line in trials(asked.small):
        if asked.only not in name:
            continue
        for words in (["replay"], ["run", "--workers", "4"]):
            fed, ended, octets, last, used, clock, peak = ran([asked.program, *words], pieces())
            is_right = ended == status and (line is None or last == b"too much %d" % line)
            wrong += not is_right
            print(f"| {name} | {words[0]} | {ended} | {fed.octets:,} | {octets:,} | {used:.1f} | {clock:.1f} | "
                  f"{peak / 1e6:.1f} |" + ("" if is_right else f" not as it has to be: {last!r}, line {line}"), flush=True)
    return wrong > 0


if __name__ == "__main__":
    sys.exit(main())
