#!/usr/bin/env python3
"""Counts the instructions of writes into a journal and of reads of it, by callgrind, and prints a table.

    bench/entries.py [--only WORD] [--program PATH] [--floor PATH] [--jobs N]

One short entry is written, or 64, into a journal that was empty and into one of 65,000 entries; the last 16 are read by
number, of 16 entries and of 65,536; and a time, a tag or a list of 20,000 tags selects none. Each row is for one event,
or for one entry or tag of it: what a recording of some of them takes beyond what it takes with its last phase empty, by
`replay`; then what that is compared with: a program of plain Rust that reads the same recording and writes its lines
back (`bench/floor.rs`), another row, or nothing; and the most that it is to be. --floor names the plain program,
compiled with -O; without it rustc compiles it. --only counts the rows whose name has that word, and those that they are
compared with. Then the peak of memory is told, of a journal that has as many octets as one may have, and of one that has
as many entries, beside 1.3 times its octets and 160 for each entry, less what an empty journal takes. Needs
valgrind and GNU time. What the table alone takes is counted by bench/journals.py. Nothing here is a test.
"""

import argparse
import concurrent.futures
import os
import subprocess
import tempfile
from dataclasses import dataclass
from typing import List, Optional

from grow import element
from loads import HEAD, asked, counted
from run import HERE

JOURNAL = element("80", "4A")  # J
MADE = f"1 {asked(1, element('BF45', element('A0', JOURNAL)))}"
MOMENT = element("80", "000000050000")  # five milliseconds of the first day
TEXT = MOMENT + element("83", "6F6B")  # ok
X_IS_7 = element("30", element("80", "78"), element("A1", "850107"))
VARIABLE = MOMENT + element("A2", element("A1", X_IS_7))
LATER = element("A1", element("80", "000000050001"))  # a day after all entries


def written(entry, count):
    """So many entries are written by one request."""
    return f"1 {asked(1, element('BF42', element('A0', JOURNAL), element('A1', *[element('30', entry)] * count)))}"


def full(entry, count):
    """A journal with so many entries."""
    return [*HEAD, MADE, *[written(entry, 64)] * (count // 64), *[written(entry, 1)] * (count % 64)]


def read(*filters):
    return f"1 {asked(1, element('BF41', element('A0', JOURNAL), *filters))}"


def from_number(number):
    return read(element("A1", element("81", f"{number:016X}")))


def tagged(count):
    """A read by so many tags of one letter that no entry has."""
    return read(element("A4", *[element("1A", f"{0x41 + k % 26:02X}") for k in range(count)]))


@dataclass
class Row:
    """Events that are counted, and what they are to be at most."""

    name: str
    head: List[str]
    line: str
    most: float
    to: Optional[str] = None  # the row that it is divided by; "floor"; or None, where instructions are bounded
    less: Optional[str] = None  # the row that is taken off
    of: int = 1  # by how many the rest is divided
    repeats: int = 200


def rows():
    none, all_texts, all_variables = [*HEAD, MADE], full(TEXT, 65_536), full(VARIABLE, 65_536)
    made = []
    for kind, entry, head in (("text", TEXT, all_texts), ("variable", VARIABLE, all_variables)):
        last = f"the last 16 of 16, {kind}"
        made += [
            Row(f"one is written, {kind}", none, written(entry, 1), 1.8, "floor"),
            Row(f"64 are, each, {kind}", none, written(entry, 64), 2.0, "floor", of=64),
            Row(f"one into 65,000, {kind}", full(entry, 65_000), written(entry, 1), 1.8, "floor"),
            Row(f"64 into 65,000, each, {kind}", full(entry, 65_000), written(entry, 64), 2.0, "floor", of=64, repeats=8),
            Row(last, full(entry, 16), from_number(1), 18_000),
            Row(f"of 65,536, {kind}", head, from_number(65_521), 18_000),
            Row(f"the same, to that of 16, {kind}", head, from_number(65_521), 1.1, last),
            Row(f"by a time, each entry, {kind}", head, read(LATER), 25, of=65_536, repeats=4),
            Row(f"by a tag, each entry, {kind}", head, tagged(1), 70, of=65_536, repeats=4),
        ]
    few = "by 2,000 tags"
    made += [
        Row(few, full(VARIABLE, 16), tagged(2_000), 1_000_000, repeats=8),
        Row("by 20,000, a tag more", full(VARIABLE, 16), tagged(20_000), 400, less=few, of=18_000, repeats=8),
    ]
    return made


def of_one(words, row):
    """The instructions of one event of a row."""
    whole = [*row.head, "phase", *([row.line] * row.repeats)]
    return (counted(words, whole) - counted(words, [*row.head, "phase"])) / row.repeats


def peak(program, lines):
    """The peak of a program's memory, in octets, where each line is in a phase of its own."""
    # (a process begins with the peak of the one that started it, which is to be small: GNU time)
    with tempfile.NamedTemporaryFile("w", suffix=".mms") as recording:
        recording.write("\n".join([*HEAD, MADE, *(f"phase\n{line}" for line in lines)]) + "\n")
        recording.flush()
        with open(recording.name, "rb") as source:
            ended = subprocess.run(["/usr/bin/time", "-f", "%M", program, "replay"], stdin=source,
                                   stdout=subprocess.DEVNULL, stderr=subprocess.PIPE, text=True, check=True)
    return int(ended.stderr.split()[-1]) * 1024


def tell_peaks(program):
    """The peaks of memory of full journals."""
    long = MOMENT + element("83", "61" * (64_000 - 12))
    last = MOMENT + element("83", "61" * (9_216 - 12))
    none = peak(program, [])
    for name, octets, entries, lines in (
        ("16,777,216 octets", 16_777_216, 263, [*[written(long, 1)] * 262, written(last, 1)]),
        ("65,536 short texts", 65_536 * 12, 65_536, [written(TEXT, 64)] * 1024),
        ("65,536 with one variable", 65_536 * (len(VARIABLE) // 2), 65_536, [written(VARIABLE, 64)] * 1024),
    ):
        most = 1.3 * octets + 160 * entries
        print(f"{name:>40} {peak(program, lines) - none:>10,} octets of memory, {most:>10,.0f} at most")


def main():
    parser = argparse.ArgumentParser(description=__doc__, formatter_class=argparse.RawDescriptionHelpFormatter)
    parser.add_argument("--only", default="")
    parser.add_argument("--program", default=os.path.join(HERE, "..", "crates", "mmscell", "out", "mmscell"))
    parser.add_argument("--floor")
    parser.add_argument("--jobs", type=int, default=os.cpu_count())
    options = parser.parse_args()
    chosen = [row for row in rows() if options.only in row.name]
    also = {name for row in chosen for name in (row.to, row.less)}
    chosen = [row for row in rows() if row in chosen or row.name in also]
    with tempfile.TemporaryDirectory() as folder:
        floor = options.floor or os.path.join(folder, "floor")
        if not options.floor:
            subprocess.run(["rustc", "-O", "-o", floor, os.path.join(HERE, "floor.rs")], check=True)
        print(f"{'an event, or an entry or tag of it':>40} {'replay':>10} {'compared':>10} {'at most':>10}")
        replayed = {}
        with concurrent.futures.ThreadPoolExecutor(options.jobs) as pool:
            ours = [pool.submit(of_one, [options.program, "replay"], row) for row in chosen]
            plain = [pool.submit(of_one, [floor], row) if row.to == "floor" else None for row in chosen]
            for row, of_replay, of_floor in zip(chosen, ours, plain):
                whole = replayed[row.name] = of_replay.result()
                one = (whole - replayed.get(row.less, 0)) / row.of
                beside = of_floor.result() / row.of if of_floor else replayed.get(row.to)
                told_of = f"{one / beside:>10.2f}" if beside else f"{one:>10,.1f}"
                to = f", to {row.to}" if row.to else ""
                print(f"{row.name:>40} {one:>10,.0f} {told_of} {row.most:>10,}{to}", flush=True)
    if not options.only:
        tell_peaks(options.program)


if __name__ == "__main__":
    main()
