#!/usr/bin/env python3
"""Measures reads and writes of one variable beside status requests, and prints a table.

    bench/variables.py [--events N] [--rounds N] [--program PATH]

Writes recordings of so many requests by one client, in phases of 16,000 events: status requests, and reads and writes of
one variable by its name, among 1 and among 4,096 configured names; and the same writes where each cell has a guard, of which
the client owns a token, or doesn't, so that each write is denied. Runs the built program on each of them in turn, several
rounds in one run, and prints of the least times the ratio to the status requests, and of the guarded writes that to those
without a guard. Times are user and system time of the process, less those of a recording with the same configuration and no
request. Nothing here is a test.
"""

import argparse
import os
import tempfile

from run import HERE, OPEN, seconds

PHASE = 16000
STATUS = b"1 A006020101800100\n"
# The variable V0000 is read, and the number 7 is written to it.
READ = b"1 A014020101A40FA10DA00B3009A00780055630303030\n"
WRITE = b"1 A017020101A512A00B3009A00780055630303030A003850107\n"
# The semaphore T is defined, and a token of it taken.
DEFINE = b"1 A00D020101B508A003800154810101\n"
TAKE = b"1 A00A020101B305A003800154\n"
# What stands between the configuration and the requests, and whether the cells have the guard T.
PLAIN, OWNED, DENIED = (b"", False), (DEFINE + TAKE, True), (DEFINE, True)


def head(names, of):
    """A configuration of so many cells, each with a name."""
    before, is_guarded = of
    guard = b'guard = "T"\n' if is_guarded else b""
    cells = b"".join(b'[[cell]]\nnumber = %d\ntype = "850120"\nvalue = "850100"\n%s' % (n, guard) for n in range(names))
    named = b"".join(b'[[variable]]\nname = "V%04d"\ncell = %d\n' % (n, n) for n in range(names))
    return b"mms-recording 1\nconfig\n" + cells + named + b"end\n" + OPEN % 1 + before


def recording(names, line, of, events):
    """A recording of so many requests."""
    pieces = [line * min(PHASE, events - first) for first in range(0, events, PHASE)]
    return head(names, of) + b"phase\n" + b"phase\n".join(pieces)


def main():
    parser = argparse.ArgumentParser(description=__doc__, formatter_class=argparse.RawDescriptionHelpFormatter)
    parser.add_argument("--events", type=int, default=1000000)
    parser.add_argument("--rounds", type=int, default=7)
    parser.add_argument("--program", default=os.path.join(HERE, "..", "crates", "mmscell", "out", "mmscell"))
    asked = parser.parse_args()
    cases = [("status", 1, STATUS, PLAIN), ("read, 1 name", 1, READ, PLAIN), ("read, 4,096 names", 4096, READ, PLAIN),
             ("write, 1 name", 1, WRITE, PLAIN), ("write, 4,096 names", 4096, WRITE, PLAIN),
             ("guarded write, 1 name", 1, WRITE, OWNED), ("guarded write, 4,096 names", 4096, WRITE, OWNED),
             ("denied write, 1 name", 1, WRITE, DENIED)]
    with tempfile.TemporaryDirectory() as folder:
        paths = []
        for place, (_, names, line, of) in enumerate(cases):
            for part, text in (("empty", head(names, of)), ("tenth", recording(names, line, of, asked.events // 10)),
                               ("whole", recording(names, line, of, asked.events))):
                with open(os.path.join(folder, f"{place}-{part}"), "wb") as out:
                    out.write(text)
            paths.append([os.path.join(folder, f"{place}-{part}") for part in ("empty", "tenth", "whole")])
        least = [[float("inf")] * 3 for _ in cases]
        for _ in range(asked.rounds):
            for row, files in zip(least, paths):
                for part, path in enumerate(files):
                    row[part] = min(row[part], seconds([asked.program, "replay"], path))
        status = least[0][2] - least[0][0]
        plain = {}
        for (_, names, line, of), (empty, _, whole) in zip(cases, least):
            if (line, of) == (WRITE, PLAIN):
                plain[names] = whole - empty
        print(f"{'request':>26} {'seconds':>8} {'ratio':>6} {'to a tenth':>11} {'to unguarded':>13}")
        for (name, names, _, (_, is_guarded)), (empty, tenth, whole) in zip(cases, least):
            beside = f"{(whole - empty) / plain[names]:>13.2f}" if is_guarded else ""
            print(f"{name:>26} {whole - empty:>8.3f} {(whole - empty) / status:>6.2f} "
                  f"{(whole - empty) / max(tenth - empty, 1e-9):>11.1f} {beside}")


if __name__ == "__main__":
    main()
