#!/usr/bin/env python3
"""Serves each recording of edition 1 that the rows and the examples have in edition 2 as well, and tells which differ.

    bench/rows_in_two.py [--program PATH] [--jobs N] [--check PAGE]

A row by steps is served in both of its ways, with all steps in one phase and with a phase for each. The same words are
run on the recording as it stands and with `mms-recording 2` for its first line. What comes of it has to be the same
report and the same status, but where a name of more than 32 octets or an indefinite length shows. Rows whose source or
sink fails are left out, and so are those that are no recording of edition 1.

Prints a line for each recording that differs, with the line of the report in which it first does; then of each file how
many of its rows do, and how many recordings were served. --check ends with status 1 where a page doesn't have exactly
these counts of rows, as `| FILE | N | ..`. Nothing here is a test.
"""

import argparse
import concurrent.futures
import glob
import os
import re
import subprocess
import sys
from collections import Counter

from run import HERE

sys.path.insert(0, os.path.join(HERE, "..", "tools", "tests"))
from row_files import DATA, rows  # noqa: E402

HEADS = {"mms-recording 1\n": "mms-recording 2\n", "mms-recording 1\r\n": "mms-recording 2\r\n"}


def by_phases(recording):
    """The same recording with a phase for each event."""
    head, _, events = recording.partition("\nend\n")
    return f"{head}\nend\n" + events.rstrip("\n").replace("\n", "\nphase\n") + "\n"


def recordings():
    """Of each recording of edition 1 the place of its row, the words that are run, and its text."""
    for row in rows():
        words = row.words.split("|")
        if row.words.startswith("steps"):
            yield row.place, ["replay"], row.recording
            yield row.place, ["replay"], by_phases(row.recording)
        elif words[0].split()[:1] in (["replay"], ["run"]) and not any("fails" in it for it in words):
            yield row.place, words[0].split(), row.recording
    for path in sorted(glob.glob(os.path.join(DATA, "examples", "*.mms"))):
        with open(path, encoding="latin-1", newline="") as text:
            yield f"examples/{os.path.basename(path)}:1", ["replay"], text.read()


def served(program, words, recording):
    """How the program ends, and the lines of what it prints."""
    ran = subprocess.run([program, *words], input=recording.encode("latin-1"), stdout=subprocess.PIPE)
    return ran.returncode, ran.stdout.decode("latin-1").split("\n")


def apart(program, words, recording):
    """Where the report in edition 2 differs from that in edition 1; None where it doesn't."""
    first = recording[:recording.index("\n") + 1]
    one, two = served(program, words, recording), served(program, words, HEADS[first] + recording[len(first):])
    if one == two:
        return None
    lines = zip(one[1] + [f"status {one[0]}"], two[1] + [f"status {two[0]}"])
    return next((number, a, b) for number, (a, b) in enumerate(lines, 1) if a != b)


def main():
    parser = argparse.ArgumentParser(description=__doc__, formatter_class=argparse.RawDescriptionHelpFormatter)
    parser.add_argument("--program", default=os.path.join(HERE, "..", "crates", "mmscell", "out", "mmscell"))
    parser.add_argument("--jobs", type=int, default=os.cpu_count())
    parser.add_argument("--check")
    asked = parser.parse_args()
    chosen = [it for it in recordings() if it[2][:it[2].find("\n") + 1] in HEADS]
    differ = {}
    with concurrent.futures.ThreadPoolExecutor(asked.jobs) as pool:
        found = pool.map(lambda it: apart(asked.program, *it[1:]), chosen)
        for (place, words, _), where in zip(chosen, found):
            if where is not None:
                number, one, two = where
                print(f"{place}, {' '.join(words)}, line {number}: {one[:60]} | {two[:60]}")
                differ[place] = place.partition(":")[0]
    counts = sorted(Counter(differ.values()).items())
    table = [f"| `{name.removesuffix('.rows')}` | {count} |" for name, count in counts]
    print("\n".join(table))
    print(f"{len(chosen)} recordings were served in both editions; {len(differ)} rows differ")
    if asked.check:
        with open(asked.check, encoding="utf-8") as page:
            told = re.findall(r"(?m)^(\| `[\w/.]+` \| \d+ \|)", page.read())
        if sorted(told) != sorted(table):
            sys.exit(f"{asked.check} doesn't have these counts")


if __name__ == "__main__":
    main()
