#!/usr/bin/env python3
"""Serves PDUs with lengths of any kind, and the same PDUs with definite lengths alone, and compares what is answered.

    bench/respelled.py [--pdus N] [--seed N] [--program PATH] [--jobs N]

Takes the recordings of the rows and of the examples one after the other, each in edition 2, with a phase for each event.
Each PDU has its lengths spelled anew, by chance: definite, longer than needed or indefinite; and then a third of them is
damaged: octets are changed, left out, put in or doubled, or the rest is cut off. That is one recording. In the other one
each PDU that is one whole element still has the shortest definite lengths, all the way down (bench/spelling.py, which
knows nothing of the device). The program serves both, and all that it sends has to be the same: then and in all that
comes later, as what a PDU changes shows in the answers behind it. Goes on until so many PDUs were sent.

Prints how many PDUs there were, how many of them were whole, damaged or spelled in another way, and what differs, with
both recordings; ends with status 1 where something does. Nothing here is a test.
"""

import argparse
import concurrent.futures
import glob
import os
import random
import subprocess
import sys
from collections import Counter

from run import HERE
from spelling import END, definite, indefinite, is_whole, spelled

TESTS = os.path.join(HERE, "..", "tools", "tests")
sys.path.insert(0, TESTS)
from row_files import DATA, rows  # noqa: E402
from mmstools.texts import BadText, Event, Recording, read_recording, write_recording  # noqa: E402

MOST_EVENTS, MOST_OCTETS = 300, 100_000  # of a recording that is taken
LONGEST = 60_000  # octets of a PDU


def recordings():
    """The recordings of rows and examples that are served to their end."""
    texts = [row.recording for row in rows() if row.words.startswith("steps") or row.words == "replay" and not row.status]
    for path in sorted(glob.glob(os.path.join(DATA, "examples", "*.mms"))):
        with open(path, encoding="latin-1") as text:
            texts.append(text.read())
    found = []
    for text in texts:
        if len(text) <= 2 * MOST_OCTETS:
            try:
                found.append(read_recording(text))
            except BadText:
                pass
    return [it for it in found if 0 < sum(map(len, it.phases)) <= MOST_EVENTS and any(map(_heard, sum(it.phases, [])))]


def _heard(event):
    return event.kind == "heard"


def anew(octets, rng):
    """A PDU with other lengths: all indefinite, or each by chance."""
    if rng.random() < 0.3:
        return indefinite(octets)
    often = rng.random()
    return spelled(octets, lambda may: None if may and rng.random() < often else rng.choice((0, 0, 0, 0, 1, 2, 5)))


def damaged(octets, rng):
    """A PDU with one to three damages."""
    out = bytearray(octets)
    for _ in range(rng.choice((1, 1, 2, 3))):
        at = rng.randrange(len(out) + 1)
        to = min(len(out), at + rng.randrange(1, 6))
        kind = rng.randrange(8)
        if kind == 0 and at < len(out):
            out[at] = rng.randrange(256)
        elif kind == 1 and at < len(out):
            out[at] ^= 1 << rng.randrange(8)
        elif kind == 2:
            del out[at:to]
        elif kind == 3:
            out[at:at] = rng.randbytes(rng.randrange(1, 4))
        elif kind == 4:
            out[at:at] = rng.choice((END, b"\0", b"\x80", b"\x30\x80", b"\0\x81\0"))
        elif kind == 5:
            out[at:at] = out[at:to]
        elif kind == 6 and len(out) > 1:
            del out[max(1, at):]
        elif kind == 7 and END in out:
            found = out.rindex(END) if rng.random() < 0.5 else out.index(END)
            del out[found:found + rng.choice((1, 2))]
    return bytes(out[:LONGEST]) or b"\0"


def pairs(recording, rng, counts):
    """The recording with lengths by chance and with damages, and the same with definite lengths."""
    sent, same = [], []
    for event in sum(recording.phases, []):
        one = event
        if _heard(event) and len(event.octets) <= LONGEST // 4:
            octets = anew(event.octets, rng)
            if rng.random() < (0.05 if octets[0] == 0xA8 else 0.4):  # most of what follows wants an association
                octets = damaged(octets, rng)
                counts["damaged"] += 1
            whole = is_whole(octets)
            other = definite(octets) if whole else octets
            counts.update({"PDUs": 1, "whole": whole, "spelled in another way": other != octets})
            event, one = (Event("heard", event.client, it) for it in (octets, other))
        sent.append([event])
        same.append([one])
    return [write_recording(Recording("2", recording.config, it)) for it in (sent, same)]


def answers(program, text):
    """How the program ends, and the lines of its report but for those of the events."""
    ran = subprocess.run([program, "replay"], input=text.encode("latin-1"), stdout=subprocess.PIPE)
    lines = ran.stdout.decode("latin-1").split("\n")
    return ran.returncode, [line for line in lines if not line[:1].isdigit()]


def compared(program, recording, seed):
    """What was counted of one recording, and both texts where the answers differ."""
    counts, rng = Counter(), random.Random(seed)
    texts = pairs(recording, rng, counts)
    first, second = (answers(program, text) for text in texts)
    counts["answers"] = sum(line.startswith("> ") for line in first[1])
    counts["rejects"] = sum(line.startswith("> A4") for line in first[1])
    if first[0] != 0:
        counts[f"recordings that end with status {first[0]}"] += 1
    return counts, None if first == second else (texts, first, second)


def main():
    parser = argparse.ArgumentParser(description=__doc__, formatter_class=argparse.RawDescriptionHelpFormatter)
    parser.add_argument("--pdus", type=int, default=100_000)
    parser.add_argument("--seed", type=int, default=1)
    parser.add_argument("--program", default=os.path.join(HERE, "..", "crates", "mmscell", "out", "mmscell"))
    parser.add_argument("--jobs", type=int, default=os.cpu_count())
    asked = parser.parse_args()
    taken, rng, counts, apart = recordings(), random.Random(asked.seed), Counter(), []
    with concurrent.futures.ThreadPoolExecutor(asked.jobs) as pool:
        while counts["PDUs"] < asked.pdus and not apart:
            chosen = [(rng.choice(taken), rng.random()) for _ in range(64)]
            for counted, found in pool.map(lambda it: compared(asked.program, *it), chosen):
                counts.update(counted)
                counts["recordings"] += 1
                apart += [found] * (found is not None)
    print("\n".join(f"{count:>9,} {name}" for name, count in sorted(counts.items())))
    for texts, first, second in apart[:3]:
        at = next((i for i, (a, b) in enumerate(zip(first[1], second[1])) if a != b), None)
        print(f"\nthe answers differ: {first[0]} and {second[0]}", *([first[1][at], second[1][at]] if at is not None else []))
        print(*texts, sep="\n")
    print("the answers are the same" if not apart else f"{len(apart)} recordings differ")
    sys.exit(bool(apart))


if __name__ == "__main__":
    main()
