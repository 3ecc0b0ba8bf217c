#!/usr/bin/env python3
"""Refuses each request of the program for memory in turn, one in a run, and looks at how it ends.

    bench/memory_refused.py [--program PATH] [--most N] [--workers N]

Runs recordings by the built program, each again and again: the k-th time its k-th request for memory (malloc and realloc,
of all its threads) is refused, until a run makes fewer, whose report is the whole one. Each run has to end with status 0
and the whole report, or with 3, the front of that report, and the sentence for it; where workers serve, with the front
of a report that replays to itself. The same is done with each thread that is begun. --most ends at that k. Prints for
each recording how many requests a run makes, and how many ends were of each status. Ends with status 1 where a run ended in another way. Needs a C compiler (bench/failing.c).
"""

import argparse
import os
import sys
import tempfile
from collections import Counter

from failing import OPEN, SAID, Refusing, conversations
from run import HERE

TITLES = {
    "A token is taken, waited for and given back.": "a token that is waited for",
    "Two takes whose control ends, one behind the other, within one tick.": "two deadlines in one tick",
    "A domain is loaded.": "a load",
    "A guarded cell is written without a token, with one, and after it ran out.": "a guarded cell",
    "Two conditions on one cell, evaluated at one moment.": "two conditions at one moment",
    "A journal is made, written and read.": "a journal",
    "A load whose client is lost, and another load of that name.": "a load that is lost",
}
WORKERS = {"Four takes with a delay, and the tick that ends the waits.": "four takes, by workers"}
# A load that ends with an error; and a tick that aborts a client that has an enrolment and a load.
BROKEN = f"""mms-recording 1
config
end
1 {OPEN}
1 A00E020101BA0980024431A100820101
phase
1 A10C020101BB078002AABB8101FF
1 A20A800102A205A003840100
phase
1 A0080201029F25024431
"""
ABORTED = f"""mms-recording 1
config
end
1 {OPEN}
2 {OPEN}
1 A00D020101B508A003800154810101
1 A00E020102BF2F08A003800145810100
2 A017020101BF3911A00380014EA10380014582020104830100
2 A00E020102BA0980024431A100820101
2 A010020103B30BA00380015484010A8501FF
1 A00A020103B305A003800154
phase
tick 10
phase
1 A0080201049F25024431
"""


def is_front(words, recording, status, written, whole, again):
    """Whether a run that was refused memory ended as it may: with the whole report, or the front of one."""
    if words[0] == "replay" or words[0] == "stress":
        return written == whole if status == 0 else whole.startswith(written)
    return again(written, recording)


def main():
    parser = argparse.ArgumentParser(description=__doc__, formatter_class=argparse.RawDescriptionHelpFormatter)
    parser.add_argument("--program", default=os.path.join(HERE, "..", "crates", "mmscell", "out", "mmscell"))
    parser.add_argument("--most", type=int, default=10**9)
    parser.add_argument("--workers", default="4")
    asked = parser.parse_args()
    cases = [(["replay"], TITLES[told], text) for told, text in conversations(TITLES).items()]
    cases += [(["replay"], "a load that is broken off", BROKEN.encode())]
    cases += [(["replay"], "a tick that aborts a client with an enrolment and a load", ABORTED.encode())]
    cases += [(["run", "--workers", asked.workers], WORKERS[told], text) for told, text in conversations(WORKERS).items()]
    stress = ["--seed", "1", "--clients", "2", "--rounds", "3", "--workers", "2"]
    cases += [(["stress", *stress], "stress of two clients", b"")]
    bad = 0
    with tempfile.TemporaryDirectory() as folder:
        program, mark = Refusing(asked.program, folder), os.path.join(folder, "mark")

        def again(written, recording):
            """Whether what workers wrote, but for a part of its last phase, replays to itself."""
            phases = (b"\n" + written).split(b"\nphase ")[1:]
            head = recording.partition(b"\nend\n")[0] + b"\nend\n"
            lines = [[line.partition(b" ")[2] for line in text.split(b"\n")[1:] if line[:1].isdigit()] for text in phases]
            whole = lines[:-1] if lines else []
            text = head + b"phase\n".join(b"".join(line + b"\n" for line in it) for it in whole)
            report = program.run(["replay"], text)[1]
            return written.startswith(report) if whole else b"phase 1\n".startswith(written[:8])

        for words, name, text in cases:
            whole = program.run(words, text)[1]
            for kind in ("FAIL_MEMORY", "FAIL_THREAD") if words[0] != "replay" else ("FAIL_MEMORY",):
                ends, k = Counter(), 0
                while k < asked.most:
                    k += 1
                    status, written, told, was = program.run(words, text, mark, **{kind: k})
                    if not was:
                        break
                    ends[status] += 1
                    good = status in (0, 3) and told == SAID.get(status, b"")
                    if not good or not is_front(words, text, status, written, whole, again):
                        bad += 1
                        print(f"{name}: {kind} {k}: status {status}, told {told!r}, {len(written)} octets written")
                said = ", ".join(f"{count} with status {status}" for status, count in sorted(ends.items()))
                what = "threads" if kind == "FAIL_THREAD" else "requests"
                print(f"{name}: {k - 1} {what}; {said}", flush=True)
    print(f"{bad} ended in another way")
    return 1 if bad else 0


if __name__ == "__main__":
    sys.exit(main())
