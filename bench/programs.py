#!/usr/bin/env python3
"""Counts the instructions of events of program invocations, by callgrind, and prints a table.

    bench/programs.py [--only WORD] [--program PATH] [--floor PATH] [--jobs N]

A program invocation is started, stopped, resumed, stopped and reset in turn, alone and among 256; one is made of a
domain and deleted in turn, where the domain has no other one's name, and where it has 200, before and behind which its
name comes. Each row is for one event: what a recording of some of them takes beyond what it takes with its last phase
empty, by `replay`, and by a program of plain Rust that reads the same recording and writes its lines back
(`bench/floor.rs`); then the ratio to that, or where a row is named, to what `replay` takes of that row, and the most
that it is to be. --floor names the plain program, compiled with -O; without it rustc compiles it. --only counts the
rows whose name has that word. Needs valgrind. Nothing here is a test.
"""

import argparse
import concurrent.futures
import os
import subprocess
import tempfile

from grow import element
from loads import HEAD, asked, counted, load
from run import HERE

DOMAIN = "4431"  # D1
REPEATS = 200


def names(count):
    """So many names, each of three octets, in the order of their octets."""
    return [f"P{n:02X}".encode().hex().upper() for n in range(count)]


def named(name):
    """A program invocation's name as most of these services ask with it."""
    return element("80", name)


def made(name):
    """A line by which the first client makes a program invocation of the domain."""
    domains = element("A1", element("1A", DOMAIN))
    return f"1 {asked(2, element('BF26', named(name), domains))}"


def deleted(name):
    return f"1 {asked(2, element('9F27', name))}"


def commanded(name):
    """Start with an argument of four octets, Stop, Resume, Stop and Reset: it is idle before and behind."""
    argument = element("81", "66617374")
    return [f"1 {asked(2, element(tag, named(name), more))}"
            for tag, more in (("BF28", argument), ("BF29", ""), ("BF2A", ""), ("BF29", ""), ("BF2B", ""))]


def before(count, name=DOMAIN):
    """A domain that is loaded, and so many program invocations of it."""
    return [*HEAD, *load(1, 16, name), *(made(one) for one in names(count))]


def rows():
    """Of each row its name, the lines before, those that are counted, the bound, and which row it is of, or None."""
    last = names(256)[-1]
    short, long = "made and deleted", "made and deleted, a longer name"
    return [
        ("commands", [*before(0), made("50")], commanded("50"), 2.5, None),
        ("commands, a longer name", [*before(0), made(last)], commanded(last), 2.5, None),
        ("commands, among 256", before(256), commanded(last), 2.5, None),
        (short, before(0), [made("50"), deleted("50")], 3.0, None),
        (long, before(0), [made(last), deleted(last)], 3.0, None),
        ("behind 200 names", before(200), [made(last), deleted(last)], 1.6, long),
        ("before 200 names", before(200), [made("4F3030"), deleted("4F3030")], 1.6, long),
    ]


def of_one(words, head, lines):
    """The instructions of one event."""
    whole = [*head, "phase", *(lines * REPEATS)]
    return (counted(words, whole) - counted(words, [*head, "phase"])) / (REPEATS * len(lines))


def main():
    parser = argparse.ArgumentParser(description=__doc__, formatter_class=argparse.RawDescriptionHelpFormatter)
    parser.add_argument("--only", default="")
    parser.add_argument("--program", default=os.path.join(HERE, "..", "crates", "mmscell", "out", "mmscell"))
    parser.add_argument("--floor")
    parser.add_argument("--jobs", type=int, default=os.cpu_count())
    options = parser.parse_args()
    chosen = [row for row in rows() if options.only in row[0]]
    with tempfile.TemporaryDirectory() as folder:
        floor = options.floor or os.path.join(folder, "floor")
        if not options.floor:
            subprocess.run(["rustc", "-O", "-o", floor, os.path.join(HERE, "floor.rs")], check=True)
        print(f"{'an event of':>32} {'replay':>8} {'floor':>8} {'ratio':>6} {'at most':>8}")
        replayed = {}
        with concurrent.futures.ThreadPoolExecutor(options.jobs) as pool:
            each = [[pool.submit(of_one, words, head, lines) for words in ([options.program, "replay"], [floor])]
                    for _, head, lines, *_ in chosen]
            for (name, _, _, most, row), counts in zip(chosen, each):
                ours, plain = (one.result() for one in counts)
                replayed[name] = ours
                beside = replayed.get(row, plain) if row else plain
                told = f", to {row}" if row in replayed else ""
                print(f"{name:>32} {ours:>8,.0f} {plain:>8,.0f} {ours / beside:>6.2f} {most:>8}{told}", flush=True)


if __name__ == "__main__":
    main()
