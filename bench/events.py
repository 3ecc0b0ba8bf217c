#!/usr/bin/env python3
"""Counts the instructions of event services and of ticks over event conditions, by callgrind, and prints a table.

    bench/events.py [--only WORD] [--program PATH] [--floor PATH] [--jobs N]

A network-triggered condition is triggered: where nobody enrolled, where sixteen enrollments are told of one transition
each, and where 1,000 are on another condition. Time goes by over 256 enabled conditions: where none is due, where all
are due and none changes, and where all change and 1,024 enrollments are told. Each row is for one event: what a
recording of some of them takes beyond what it takes with its last phase empty, by `replay`; then what that is compared
with: a program of plain Rust that reads the same recording and writes its lines back (`bench/floor.rs`), another row,
or nothing; and the most that it is to be. --floor names the plain program, compiled with -O; without it rustc compiles
it. --only counts the rows whose name has that word, and those that they are compared with. Needs valgrind. Nothing here
is a test.
"""

import argparse
import concurrent.futures
import os
import subprocess
import tempfile
from dataclasses import dataclass
from typing import List, Optional

from grow import element
from loads import OPEN, asked, counted, number
from run import HERE

CELL = 'cell = [{ number = 0, type = "8300", value = "830100" }]'
HEAD = ["mms-recording 1", "config", "clients = 2", CELL, "end", OPEN.format(1), OPEN.format(2)]
BOTH, ACTIVE = "0214", "0204"  # transitions: both between idle and active; idle to active alone
CELL_0 = element("A1", element("80", "00"))  # the address of the cell


def named(name):
    """A name of the VMD."""
    return element("80", name.encode().hex().upper())


def own(name, tag="A0"):
    """A name of the VMD as a component."""
    return element(tag, named(name))


def triggered(name):
    """A condition that is network-triggered is defined."""
    return f"1 {asked(1, element('BF2F', own(name), element('81', '00')))}"


def monitored(name, interval):
    """A condition on the cell is defined and enabled."""
    watched = element("A6", CELL_0), element("87", number(interval))
    return [f"1 {asked(1, element('BF2F', own(name), element('81', '01'), *watched))}",
            f"1 {asked(1, element('BF33', own(name), element('81', 'FF')))}"]


def enrolled(client, name, condition, bits):
    """A client enrolls for transitions of a condition."""
    on = own(condition, "A1"), element("82", bits), element("83", "00")
    return f"{client} {asked(1, element('BF39', own(name), *on))}"


def trigger(name):
    return f"1 {asked(1, element('BF34', own(name)))}"


def written(value):
    """The cell is written."""
    where = element("A0", element("30", CELL_0))
    return f"1 {asked(1, element('A5', where, element('A0', element('83', value))))}"


def conditions(interval):
    """The lines that define and enable 256 conditions."""
    return [line for k in range(256) for line in monitored(f"C{k:03}", interval)]


def told(count, on, bits=BOTH):
    """The lines by which so many enrollments are defined, of the two clients in turn."""
    return [enrolled(1 + k % 2, f"N{k:04}", on(k), bits) for k in range(count)]


@dataclass
class Row:
    """Events that are counted, and what they are to be at most."""

    name: str
    head: List[str]
    lines: List[str]
    most: float
    to: Optional[str] = None  # the row that it is divided by; "floor"; or None, where instructions are bounded
    less: Optional[str] = None  # the row that is taken off
    of: int = 0  # by how many the rest is divided; the lines, where it is 0
    repeats: int = 200


def rows():
    far, near = 3_600_000, 10
    quiet = [*HEAD, *conditions(far)]
    due = [*HEAD, *conditions(near)]
    change = [written("FF"), "tick 10", written("00"), "tick 10"]
    of_all = told(1024, lambda k: f"C{k % 256:03}")
    return [
        Row("a trigger", [*HEAD, triggered("E")], [trigger("E")], 2.5, "floor"),
        Row("a notification", [*HEAD, triggered("E"), *told(16, lambda k: "E", ACTIVE)], [trigger("E")], 1500,
            less="a trigger", of=16),
        Row("a trigger, 1,000 on another", [*HEAD, triggered("E"), triggered("F"), *told(1000, lambda k: "F")],
            [trigger("E")], 1.5, "a trigger"),
        Row("a tick, none due", quiet, ["tick 1"], 8_000),
        Row("a tick, none due, 1,024 enrolled", [*quiet, *of_all], ["tick 1"], 8_000),
        Row("a tick, 256 due", due, ["tick 10"], 100_000),
        Row("an hour, 256 due each 10 ms", due, ["tick 3600000"], 1.2, "a tick, 256 due"),
        Row("256 change, 1,024 are told", [*due, *of_all], change, 2_500_000, of=2, repeats=20),
    ]


def of_one(words, row):
    """The instructions of one event of a row."""
    whole = [*row.head, "phase", *(row.lines * row.repeats)]
    all_of_them = counted(words, whole) - counted(words, [*row.head, "phase"])
    return all_of_them / (row.repeats * (len(row.lines) if row.less or not row.of else row.of))


def main():
    parser = argparse.ArgumentParser(description=__doc__, formatter_class=argparse.RawDescriptionHelpFormatter)
    parser.add_argument("--only", default="")
    parser.add_argument("--program", default=os.path.join(HERE, "..", "crates", "mmscell", "out", "mmscell"))
    parser.add_argument("--floor")
    parser.add_argument("--jobs", type=int, default=os.cpu_count())
    options = parser.parse_args()
    chosen = [row for row in rows() if options.only in row.name]
    also = {name for row in chosen for name in (row.to, row.less)}
    chosen = [row for row in rows() if row in chosen or row.name in also]
    with tempfile.TemporaryDirectory() as folder:
        floor = options.floor or os.path.join(folder, "floor")
        if not options.floor:
            subprocess.run(["rustc", "-O", "-o", floor, os.path.join(HERE, "floor.rs")], check=True)
        print(f"{'an event of':>32} {'replay':>10} {'compared':>10} {'at most':>10}")
        replayed = {}
        with concurrent.futures.ThreadPoolExecutor(options.jobs) as pool:
            ours = [pool.submit(of_one, [options.program, "replay"], row) for row in chosen]
            plain = [pool.submit(of_one, [floor], row) if row.to == "floor" else None for row in chosen]
            for row, of_replay, of_floor in zip(chosen, ours, plain):
                one = replayed[row.name] = of_replay.result()
                measure = (one - replayed[row.less]) / row.of if row.less else one
                beside = of_floor.result() if of_floor else replayed.get(row.to)
                told_of = f"{measure / beside:>10.2f}" if beside else f"{measure:>10,.0f}"
                to = f", to {row.to}" if row.to else ""
                print(f"{row.name:>32} {one:>10,.0f} {told_of} {row.most:>10,}{to}", flush=True)


if __name__ == "__main__":
    main()
