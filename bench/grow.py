#!/usr/bin/env python3
"""Counts the instructions of an event at two sizes of what it meets, by callgrind, and prints a table.

    bench/grow.py [--only WORD] [--program PATH] [--jobs N]

Each row is one kind of event, by `replay`, among few and among many of what it could walk: clients, variables or lists
of variables with names, semaphores, tokens of a pool, names of one request, or events of a phase. What an event costs
is what a recording of some of them takes, less what the same recording takes with its last phase empty, so that the
start of the program, the configuration and what is defined first aren't counted. The last column is what one more of
them costs: where it is near nothing, the event walks no table. --only counts the rows whose name has that word. Needs
valgrind. Nothing here is a test.
"""

import argparse
import concurrent.futures
import os
import random
import re
import subprocess
import tempfile

from run import HERE, OPEN, STATUS
from semaphores import BRIEF_TAKE, GIVE, TAKE, TAKE_ANY, Semaphores, give_named
import variables

TICK = b"tick 1\n"
CONCLUDE = b"1 8B00\n"
LOST = b"lost 1\n"
# The twelve first names of variables of the device are asked for, after none and after a name.
LIST = b"1 A00E020105A109A003800100A1028000\n"
# A name that isn't there is deleted.
DELETE = b"1 A00A020105AA05A103800158\n"
# A token of the semaphore of these two characters is taken until a millisecond has gone by.
TAKE_FOR_1 = b"1 A00F020101B30AA0058003%s840101\n"
# One token is taken, the other until a millisecond has gone by, which then aborts the association.
ABORTED = b"1 A00C020101B307A0058003533031\n1 A012020101B30DA00580035330308401018501FF\ntick 1\n"


def element(tag, *contents):
    """An element of BER in digits: its identifier, its length in the definite form, and its contents."""
    body = "".join(contents)
    size = len(body) // 2
    octets = f"{size:02X}" if size < 128 else f"81{size:02X}" if size < 256 else f"82{size:04X}"
    return tag + octets + body


def read_of(names):
    """A Read of so many variables by name: a line of a recording."""
    one = element("30", element("A0", element("80", "5630303030")))
    service = element("A4", element("A1", element("A0", one * names)))
    return f"1 {element('A0', '020101', service)}\n".encode()


def variables_named(count, shuffled=False):
    """A configuration of one cell and so many names of it, in their order or in any."""
    order = list(range(count))
    if shuffled:
        random.Random(3).shuffle(order)
    cell = b'[[cell]]\nnumber = 0\ntype = "850120"\nvalue = "850100"\n'
    named = b"".join(b'[[variable]]\nname = "V%04d"\ncell = 0\n' % n for n in order)
    return b"mms-recording 1\nconfig\n" + cell + named + b"end\n" + OPEN % 1


def clients(count):
    """So many clients that are associated."""
    opens = b"".join(OPEN % client for client in range(1, count + 1))
    return b"mms-recording 1\nconfig\nclients = %d\nend\n" % count + opens


def semaphores(count):
    """So many semaphores of one token each, and two clients."""
    return Semaphores(equal=count).head


def names_of(count):
    """The names, as digits, of so many semaphores: their last two octets stand for the number."""
    return [b"53%02X%02X" % (0x30 + n // 16, 0x30 + n % 16) for n in range(count)]


def all_taken(count):
    """Every token is taken for a millisecond, then a tick meets all their deadlines."""
    return b"".join(TAKE_FOR_1 % name for name in names_of(count)) + TICK


def pool(count):
    """A pool of so many tokens, of which all but the last are the second client's."""
    return Semaphores(tokens=count, owned=count - 1).head


def in_turn(client_count):
    """So many clients: each but the first waits for the token; it's given back by its owner, who waits again."""
    ask = [TAKE % client for client in range(1, client_count + 1)]
    give = [GIVE % client for client in range(1, client_count + 1)]
    opens = clients(client_count) + b"1 A00F020101B50AA0058003533030810101\n" + b"".join(ask)
    return opens, b"".join(back + again for back, again in zip(give, ask)), 2 * client_count


def rows():
    """Of each row its name, the two sizes, and for a size: the head, the lines of the last phase, and how many events one
    repetition of them is."""
    def of(head, lines, events):
        return lambda size: (head(size), lines, events)

    def plain(count):
        return variables.head(count, variables.PLAIN)

    def guarded(count):
        return variables.head(count, variables.OWNED)

    return [
        ("status, clients", (1, 64), of(clients, STATUS % 1, 1)),
        ("read of a variable", (16, 4096), of(plain, variables.READ, 1)),
        ("write of a variable", (16, 4096), of(plain, variables.WRITE, 1)),
        ("guarded write", (16, 4096), of(guarded, variables.WRITE, 1)),
        ("read of names, for a name", (10, 1000), lambda size: (plain(1), read_of(size), size)),
        ("name list, in order", (64, 4096), of(variables_named, LIST, 1)),
        ("name list, any order", (64, 4096), of(lambda count: variables_named(count, True), LIST, 1)),
        ("deletion, no such name", (64, 4096), of(variables_named, DELETE, 1)),
        ("conclude, initiate", (64, 4096), of(variables_named, CONCLUDE + OPEN % 1, 2)),
        ("take and give", (1, 256), of(semaphores, TAKE % 1 + GIVE % 1, 2)),
        ("give, and wait again", (2, 64), in_turn),
        ("tick, nothing due", (1, 256), of(semaphores, TICK, 1)),
        ("brief take and its tick", (1, 256), of(semaphores, BRIEF_TAKE + TICK, 2)),
        ("all taken, a tick, for each", (16, 256), lambda size: (semaphores(size), all_taken(size), size)),
        ("lost, initiate", (16, 256), of(semaphores, LOST + OPEN % 1, 2)),
        ("two taken, aborted, initiate", (16, 256), of(semaphores, ABORTED + OPEN % 1, 4)),
        ("any token, the last free", (16, 256), lambda size: (pool(size), TAKE_ANY % 1 + give_named(size - 1), 2)),
    ]


def refs(program, recording):
    """The instructions of a replay of that recording."""
    with tempfile.TemporaryFile() as source:
        source.write(recording)
        source.seek(0)
        words = ["valgrind", "--tool=callgrind", "--callgrind-out-file=/dev/null", program, "replay"]
        done = subprocess.run(words, stdin=source, stdout=subprocess.DEVNULL, stderr=subprocess.PIPE, text=True, check=True)
    return int(re.search(r"Collected : (\d+)", done.stderr)[1])


def of_one(program, head, lines, events):
    """The instructions of one event: so many repetitions as are some 400 events or 400 KB, whichever is less."""
    times = max(2, min(400 // events, 400_000 // len(lines)))
    before = head + b"phase\n"
    return (refs(program, before + lines * times) - refs(program, before)) / (times * events)


def main():
    parser = argparse.ArgumentParser(description=__doc__, formatter_class=argparse.RawDescriptionHelpFormatter)
    parser.add_argument("--only", default="")
    parser.add_argument("--program", default=os.path.join(HERE, "..", "crates", "mmscell", "out", "mmscell"))
    parser.add_argument("--jobs", type=int, default=os.cpu_count())
    asked = parser.parse_args()
    chosen = [row for row in rows() if asked.only in row[0]]
    print(f"{'event':>28} {'few':>5} {'many':>5} {'among few':>10} {'among many':>11} {'one more':>9}")
    with concurrent.futures.ThreadPoolExecutor(asked.jobs) as pool_of:
        counted = [[pool_of.submit(of_one, asked.program, *made(size)) for size in sizes] for _, sizes, made in chosen]
        for (name, (few, many), _), each in zip(chosen, counted):
            small, large = (one.result() for one in each)
            print(f"{name:>28} {few:>5} {many:>5} {small:>10,.0f} {large:>11,.0f} {(large - small) / (many - few):>9,.1f}")


if __name__ == "__main__":
    main()
