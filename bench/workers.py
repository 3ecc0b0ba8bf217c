#!/usr/bin/env python3
"""Measures run by several workers beside replay, on the same recordings, and prints a table.

    bench/workers.py [--events N] [--phase N] [--actors N,N,..] [--workers N,N,..] [--rounds N] [--program PATH]

Writes recordings of so many events by 4 and 8 clients in turn, in phases of so many events: status requests; each
client writes a variable of its own and reads it, in turn; each takes the token of a semaphore of its own and gives
it back, in turn; and all do so with one semaphore of one token. Runs the built program on each of them by `replay`
and by `run` with 1, 2 and 4 workers, several rounds in one run, and prints the median real time of each, its ratio
to `replay`'s, and the events a second of `replay` and of the best. Real times have the start of the program and of
the threads of each phase in them. How often a part was busy the program doesn't tell; bench/device.py counts that.
Nothing here is a test.
"""

import argparse
import os
import statistics
import subprocess
import tempfile
import time

from run import HERE, OPEN

STATUS = b"%d A006020101800100\n"
READ = b"%d A014020101A40FA10DA00B3009A0078005563030303%d\n"
WRITE = b"%d A017020101A512A00B3009A0078005563030303%dA003850107\n"
DEFINE = b"%d A00D020101B508A003800153810101\n"
DEFINE_OWN = b"%d A00E020101B509A0048002533%d810101\n"
TAKE = b"%d A00A020102B305A003800153\n"
GIVE = b"%d A00A020103B405A003800153\n"
TAKE_OWN = b"%d A00B020102B306A0048002533%d\n"
GIVE_OWN = b"%d A00B020103B406A0048002533%d\n"
# Of each kind of work, what each client sends once, what only the first sends, and what each sends in turn.
WORKS = {"status": ((), (), (STATUS,)), "own variable": ((), (), (WRITE, READ)),
         "own semaphore": ((DEFINE_OWN,), (), (TAKE_OWN, GIVE_OWN)), "one semaphore": ((), (DEFINE,), (TAKE, GIVE))}


def said(line, client):
    """A line with its client's number, and the number of what is the client's own."""
    return line % ((client,) * line.count(b"%d"))


def head(actors):
    """So many clients, and a variable for each of them."""
    cells = b"".join(b'[[cell]]\nnumber = %d\ntype = "850120"\nvalue = "850100"\n' % n for n in range(1, actors + 1))
    named = b"".join(b'[[variable]]\nname = "V000%d"\ncell = %d\n' % (n, n) for n in range(1, actors + 1))
    return b"mms-recording 1\nconfig\nclients = %d\n" % actors + cells + named + b"end\n"


def recording(work, actors, events, phase):
    """A recording of so many events: after a phase of what is sent once, phases of lines in turn."""
    own, first, lines = WORKS[work]
    clients = range(1, actors + 1)
    once = b"".join(OPEN % client for client in clients) + b"".join(said(line, 1) for line in first)
    once += b"".join(said(line, client) for line in own for client in clients)
    turn = b"".join(said(line, client) for line in lines for client in clients)
    body = turn * (phase // (len(lines) * actors))
    return head(actors) + once + (b"phase\n" + body) * (events // phase)


def real_seconds(words, path):
    """The real time of one run over a recording."""
    with open(path, "rb") as source:
        start = time.perf_counter()
        subprocess.run(words, stdin=source, stdout=subprocess.DEVNULL, check=True)
        return time.perf_counter() - start


def main():
    parser = argparse.ArgumentParser(description=__doc__, formatter_class=argparse.RawDescriptionHelpFormatter)
    parser.add_argument("--events", type=int, default=960000)
    parser.add_argument("--phase", type=int, default=4000)
    parser.add_argument("--actors", default="4,8")
    parser.add_argument("--workers", default="1,2,4")
    parser.add_argument("--rounds", type=int, default=9)
    parser.add_argument("--program", default=os.path.join(HERE, "..", "crates", "mmscell", "out", "mmscell"))
    asked = parser.parse_args()
    workers = asked.workers.split(",")
    forms = [["replay"]] + [["run", "--workers", count] for count in workers]
    with tempfile.TemporaryDirectory() as folder:
        path = os.path.join(folder, "recording.mms")
        print(f"{'work':>14} {'actors':>6} {'replay, s':>10} " + " ".join(f"{f'run {n}, s':>9} {'ratio':>5}" for n in workers)
              + f" {'replay, events/s':>17} {'best run, events/s':>19}")
        for work in WORKS:
            for actors in map(int, asked.actors.split(",")):
                with open(path, "wb") as out:
                    out.write(recording(work, actors, asked.events, asked.phase))
                rounds = [[real_seconds([asked.program, *form], path) for form in forms] for _ in range(asked.rounds)]
                replay, *runs = [statistics.median(times) for times in zip(*rounds)]
                print(f"{work:>14} {actors:>6} {replay:>10.3f} "
                      + " ".join(f"{run:>9.3f} {run / replay:>5.2f}" for run in runs)
                      + f" {asked.events / replay:>17.0f} {asked.events / min(runs):>19.0f}", flush=True)


if __name__ == "__main__":
    main()
