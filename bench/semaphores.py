#!/usr/bin/env python3
"""Measures requests for a token, and ticks, beside status requests, and prints a table.

    bench/semaphores.py [--events N] [--rounds N] [--program PATH]
    bench/semaphores.py --instructions [--program PATH]

Writes recordings of so many events, in phases of 16,000: status requests; one client takes the token of a semaphore and
gives it back, in turn, among 1 and among 256 semaphores; two clients, of which one always waits, in turn; ticks in which
nothing is due, of 1 and of 1,000 milliseconds; a token that is taken for a millisecond, with a tick that ends it; and one
client takes any token of a pool and gives it back by its name, in turn, of 1 token, of 256 that are free, and of 256 of which
all but the last are another client's. Runs the built program on each of them in turn, several rounds in one run, and prints of
the least times of an event, and of the medians, the ratio to the status requests. Times are user and system time of the process,
less those of a recording with the same head and no further event.

With --instructions it counts by callgrind instead what an event takes, as the difference between recordings of some and of half
as many: taking and giving back, among 1 and among 256 semaphores; giving back the token of a semaphore, and of a pool, for
which 2 and 62 clients wait, with priorities in no order, which grants it to one of them (a recording has 64 clients); any token
of a pool of 256 of which the last alone is free; ticks in which nothing is due; and a token that is taken for a millisecond,
with the tick that ends it, both together. Needs valgrind. Nothing here is a test.
"""

import argparse
import os
import re
import statistics
import subprocess
import tempfile

from run import HERE, OPEN, seconds

PHASE = 16000
STATUS = b"1 A006020101800100\n"
DEFINE = b"1 A00F020101B50AA0058003%s810101\n"
TAKE = b"%d A00C020101B307A0058003533030\n"
BRIEF_TAKE = b"1 A00F020101B30AA0058003533030840101\n"
GIVE = b"%d A00C020102B407A0058003533030\n"
# Any token of the pool P is taken, and the token T00 to TFF of that number given back.
TAKE_ANY = b"%d A00A020101B305A003800150\n"
GIVE_NAMED = b"1 A00F020102B40AA003800150810354%02X%02X\n"


class Semaphores:
    """So many semaphores of one token each, with names of three characters, or a pool of so many tokens, of which the second
    client owns so many."""

    def __init__(self, equal=0, tokens=0, owned=0):
        names = [b"53%02X%02X" % (0x30 + n // 16, 0x30 + n % 16) for n in range(equal)]
        rows = b", ".join(b'"T%02X"' % n for n in range(tokens))
        pool = b'pool = [{ name = "P", tokens = [%s] }]\n' % rows if tokens else b""
        opens = OPEN % 1 + OPEN % 2 + b"".join(DEFINE % name for name in names) + TAKE_ANY % 2 * owned
        self.head = b"mms-recording 1\nconfig\n" + pool + b"end\n" + opens


def give_named(token):
    """The token of that number is given back."""
    return GIVE_NAMED % tuple(b"%02X" % token)


def recording(semaphores, lines, events):
    """A recording of so many events, which these lines are in turn; after the last, every token is as before."""
    pieces = [b"".join(lines) * (min(PHASE, events - first) // len(lines)) for first in range(0, events, PHASE)]
    return semaphores.head + b"phase\n" + b"phase\n".join(pieces)


# As many semaphores, or pools, are waited for as requests of one client may wait.
WAITED = 10
# Of the clients that wait, one after the other.
PRIORITIES = [64, 3, 127, 30, 0, 64, 10, 3, 63, 127, 30]


def crowd(waiters, pool):
    """So many clients wait for the token of each of ten semaphores, which another one has; or of ten pools of three tokens,
    for any of them. The lines before, and those in which that one gives all back, of each pool a token."""
    names = [b"%02X" % (0x61 + n) for n in range(WAITED)]
    tokens = [b"41", b"42", b"43"] if pool else [b""]
    made = b"pool = [%s]\n" % b", ".join(b'{ name = "%c", tokens = ["A", "B", "C"] }' % (0x61 + n) for n in range(WAITED))
    lines = [b"mms-recording 1\nconfig\nclients = 64\n" + (made if pool else b"") + b"end\n"]
    lines += [OPEN % client for client in range(1, 65)]
    for name in names:
        lines += [] if pool else [b"64 A00D020101B508A0038001%s810101\n" % name]
        lines += [b"64 A00A020101B305A0038001%s\n" % name] * len(tokens)
    for client in range(1, waiters + 1):
        rank = PRIORITIES[client % len(PRIORITIES)]
        lines += [b"%d A00D0201%02XB308A0038001%s8201%02X\n" % (client, k, name, rank) for k, name in enumerate(names, 1)]
    named = b"64 A00D020101B408A0038001%s8101%s\n" if pool else b"64 A00A020101B405A0038001%s%s\n"
    return b"".join(lines), [named % (name, tokens[k % len(tokens)]) for k, name in enumerate(names)]


def counted_cases():
    """Of each event that is counted its name, the lines before, those that are counted, and how many of these are one event."""
    one, many = Semaphores(equal=1).head, Semaphores(equal=256).head
    alone, brief, tick = [TAKE % 1, GIVE % 1] * 50, [BRIEF_TAKE, b"tick 1\n"] * 50, [b"tick 1\n"] * 100
    last = [TAKE_ANY % 1, give_named(255)] * 50
    return [
        ("take and give, of 1", one, alone, 1),
        ("take and give, of 256", many, alone, 1),
        ("give back, 2 wait", *crowd(2, pool=False), 1),
        ("give back, 62 wait", *crowd(62, pool=False), 1),
        ("give back of a pool, 2 wait", *crowd(2, pool=True), 1),
        ("give back of a pool, 62 wait", *crowd(62, pool=True), 1),
        ("pool, 1 free of 256", Semaphores(tokens=256, owned=255).head, last, 1),
        ("tick 1, of 256", many, tick, 1),
        ("brief take and its tick, of 1", one, brief, 2),
        ("brief take and its tick, of 256", many, brief, 2),
    ]


def instructions(program, recording):
    """The instructions of one run over a recording, which has to be replayed to its end."""
    words = ["valgrind", "--tool=callgrind", "--callgrind-out-file=/dev/null", program, "replay"]
    ended = subprocess.run(words, input=recording, stdout=subprocess.DEVNULL, stderr=subprocess.PIPE, check=True)
    return int(re.search(rb"Collected : (\d+)", ended.stderr).group(1))


def count(program):
    """Counts instructions, and prints their table."""
    print(f"{'an event of':>32} {'instructions':>13}")
    for name, before, lines, share in counted_cases():
        half = len(lines) // 2
        many, few = (instructions(program, before + b"phase\n" + b"".join(lines[:size])) for size in (2 * half, half))
        print(f"{name:>32} {(many - few) * share / half:>13,.0f}", flush=True)


def main():
    parser = argparse.ArgumentParser(description=__doc__, formatter_class=argparse.RawDescriptionHelpFormatter)
    parser.add_argument("--events", type=int, default=800000)
    parser.add_argument("--rounds", type=int, default=5)
    parser.add_argument("--instructions", action="store_true")
    parser.add_argument("--program", default=os.path.join(HERE, "..", "crates", "mmscell", "out", "mmscell"))
    asked = parser.parse_args()
    if asked.instructions:
        count(asked.program)
        return
    alone = [TAKE % 1, GIVE % 1]
    waits = [TAKE % 1, TAKE % 2, GIVE % 1, GIVE % 2]
    brief = [BRIEF_TAKE, b"tick 1\n"]
    first, last = [TAKE_ANY % 1, give_named(0)], [TAKE_ANY % 1, give_named(255)]
    one, many = Semaphores(equal=1), Semaphores(equal=256)
    # What is measured, of which semaphores, by which lines, and of how many of the events one is made.
    cases = [("status", one, [STATUS], 1), ("take and give, of 1", one, alone, 1), ("take and give, of 256", many, alone, 1),
             ("one waits, of 1", one, waits, 1), ("one waits, of 256", many, waits, 1),
             ("tick 1, of 1", one, [b"tick 1\n"], 1), ("tick 1, of 256", many, [b"tick 1\n"], 1),
             ("tick 1000, of 256", many, [b"tick 1000\n"], 1),
             ("brief take and tick, of 1", one, brief, 1), ("brief take and tick, of 256", many, brief, 1),
             ("pool, 1 token", Semaphores(tokens=1), first, 1), ("pool, 256 tokens", Semaphores(tokens=256), first, 1),
             ("pool, 1 free of 256", Semaphores(tokens=256, owned=255), last, 10)]
    with tempfile.TemporaryDirectory() as folder:
        paths = []
        for place, (_, semaphores, lines, share) in enumerate(cases):
            path = os.path.join(folder, str(place))
            whole = recording(semaphores, lines, asked.events // share)
            for part, text in (("head", semaphores.head), ("whole", whole)):
                with open(f"{path}-{part}", "wb") as out:
                    out.write(text)
            paths.append((f"{path}-head", f"{path}-whole"))
        times = [[] for _ in cases]
        for _ in range(asked.rounds):
            for row, (_, _, _, share), (empty, whole) in zip(times, cases, paths):
                taken = seconds([asked.program, "replay"], whole) - seconds([asked.program, "replay"], empty)
                row.append(taken / (asked.events // share))
        print(f"{'events':>28} {'least ns':>9} {'ratio':>6} {'median ns':>9} {'ratio':>6}")
        for (name, _, _, _), row in zip(cases, times):
            told = [(of(row), of(row) / of(times[0])) for of in (min, statistics.median)]
            print(f"{name:>28}" + "".join(f" {each * 1e9:>9.0f} {ratio:>6.2f}" for each, ratio in told))


if __name__ == "__main__":
    main()
