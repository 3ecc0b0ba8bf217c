#!/usr/bin/env python3
"""Measures what the greatest answers take: what goes out isn't bounded by what comes in.

    bench/answers.py [--share N] [--program PATH]

A phase has at most 16,384 events. Of each request that has one of the greatest answers the N-th part of so many is served in
one phase (a hundredth, where nothing else is said): told are the octets of one answer, those of all of them if the phase
were full, and the peak of memory of the part that was served. Needs GNU time. Nothing here is a test.
"""

import argparse
import os
import tempfile

from dear import HEAD, element, full_conditions, line, names, request
from entries import MOMENT
from run import HERE, peak

EVENTS = 16_384


def a_read():
    octets = bytes(32_000)
    cell = ["[[cell]]", "number = 0", f'type = "{element("89", (-32_000).to_bytes(2, "big", signed=True)).hex().upper()}"',
            f'value = "{element("89", octets).hex().upper()}"']
    spec = element("30", element("A1", element("80", b"\0")))
    return [*HEAD[:2], *cell, *HEAD[2:]], request(element("A4", element("A1", element("A0", spec * 2))))


def of_a_journal():
    journal = element("A0", element("80", b"J"))
    entry = element("30", bytes.fromhex(MOMENT), element("83", b"a" * 4_000))
    made = [request(element("BF45", journal)), *[request(element("BF42", journal, element("A1", entry * 8)))] * 2]
    return HEAD + [line(it) for it in made], request(element("BF41", journal))


def a_trigger():
    one = names(1)[0]
    enrolled = [request(element("BF39", element("A0", name), element("A1", one), bytes.fromhex("82020114830100")))
                for name in names(1024)]
    return full_conditions() + [line(it) for it in enrolled], request(element("BF34", element("A0", one)))


def main():
    parser = argparse.ArgumentParser(description=__doc__, formatter_class=argparse.RawDescriptionHelpFormatter)
    parser.add_argument("--share", type=int, default=100)
    parser.add_argument("--program", default=os.path.join(HERE, "..", "crates", "mmscell", "out", "mmscell"))
    asked = parser.parse_args()
    print(f"{'request':>44} {'octets':>7} {'one answer':>11} {'of a full phase':>16} {'served':>7} {'peak, MB':>9}")
    for name, (head, pdu) in (("a read of two variables of 32,000", a_read()), ("a read of 16 journal entries of 4,000", of_a_journal()),
                              ("a trigger with 1,024 enrolments, each twice", a_trigger())):
        count = EVENTS // asked.share
        with tempfile.TemporaryDirectory() as folder:
            path, report = os.path.join(folder, "recording.mms"), os.path.join(folder, "report")
            with open(path, "w", encoding="ascii") as file:
                file.write("\n".join([*head, "phase", *[line(pdu)] * count]) + "\n")
            with open(path, "rb") as source, open(report, "wb") as sink:
                os.waitpid(os.posix_spawn(asked.program, [asked.program, "replay"], os.environ, file_actions=[
                    (os.POSIX_SPAWN_DUP2, source.fileno(), 0), (os.POSIX_SPAWN_DUP2, sink.fileno(), 1)]), 0)
            with open(report, "rb") as file:
                sent = [it for it in file.read().partition(b"\nphase 2\n")[2].split(b"\n") if it.startswith(b"> ")]
            octets = sum(len(it) - 2 for it in sent) // 2 // count
            print(f"{name:>44} {len(pdu):>7,} {octets:>11,} {octets * EVENTS:>16,} {count:>7,} "
                  f"{peak([asked.program, 'replay'], path) / 1e6:>9.1f}", flush=True)


if __name__ == "__main__":
    main()
