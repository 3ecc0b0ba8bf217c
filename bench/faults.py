#!/usr/bin/env python3
"""Has each read and each write of the program fail in turn, and looks at what it wrote and how it ended.

    bench/faults.py [--program PATH] [--most N]

A token is taken, waited for and given back, in one phase, in two and in six. Each read gives at most seven octets and
each write takes at most seven (or so many as --most says), so that the places of a fault are in the header, in the
configuration, in a line, between phases and within a report. For `replay` and for `run` by 2 workers, the k-th time the
k-th read fails: status 4, its sentence, and exactly the report of the phases whose end was read. The k-th write: status
5, its sentence, and as much as was written before. And one read and one write more, of which there is none: status 0.
The rows of crates/cell_rows/data/faults.rows have the same over memory, with whole reads and writes. Needs a C compiler
(bench/failing.c).
"""

import argparse
import os
import sys
import tempfile

from failing import OPEN, SAID, Refusing
from run import HERE

HEAD = "mms-recording 1\nconfig\nclients = 2\nend\n"
EVENTS = [
    f"1 {OPEN}\n",
    f"2 {OPEN}\n",
    "1 A00D020101B508A003800154810101\n",
    "1 A00A020102B305A003800154\n",
    "2 A00A020102B305A003800154\n",
    "1 A00A020103B405A003800154\n",
]
PHASES = {"one phase": [EVENTS], "two phases": [EVENTS[:3], EVENTS[3:]], "six phases": [[event] for event in EVENTS]}


def wanted_reads(text, report, k, most):
    """The report of the phases whose end stands in what k - 1 reads gave."""
    whole = text[: (k - 1) * most].count(b"\nphase\n") if b"\nend\n" in text[: (k - 1) * most] else 0
    parts = (b"\n" + report).split(b"\nphase ")[1:]
    told = b"".join(b"phase " + part + b"\n" for part in parts[:whole])
    return told if whole < len(parts) else report


def main():
    parser = argparse.ArgumentParser(description=__doc__, formatter_class=argparse.RawDescriptionHelpFormatter)
    parser.add_argument("--program", default=os.path.join(HERE, "..", "crates", "mmscell", "out", "mmscell"))
    parser.add_argument("--most", type=int, default=7)
    asked, bad = parser.parse_args(), 0
    with tempfile.TemporaryDirectory() as folder:
        program, mark = Refusing(asked.program, folder), os.path.join(folder, "mark")
        for words in (["replay"], ["run", "--workers", "2"]):
            for name, phases in PHASES.items():
                text = (HEAD + "phase\n".join("".join(phase) for phase in phases)).encode()
                # by workers there is one report where one actor alone is at work in a phase
                is_one = words[0] == "replay" or name == "six phases"
                report = program.run(words, text)[1]
                for kind, wanted in (("FAIL_READ", 4), ("FAIL_WRITE", 5)):
                    k, was = 0, True
                    while was:
                        k += 1
                        status, written, told, was = program.run(words, text, mark, MOST=asked.most, **{kind: k})
                        if not was:
                            good = status == 0 and told == b"" and (written == report or not is_one)
                        elif kind == "FAIL_WRITE":
                            good = (status == 5 and told == SAID[5] and (report.startswith(written) or not is_one)
                                    and len(written) < len(report))
                        else:
                            rest = wanted_reads(text, report, k, asked.most)
                            good = status == 4 and told == SAID[4] and (written == rest if is_one else len(written) == len(rest))
                        if not good:
                            bad += 1
                            print(f"{' '.join(words)}, {name}, {kind} {k}: status {status}, {told!r}, {written[-60:]!r}")
                    print(f"{' '.join(words)}, {name}: each of {k - 1} {'reads' if wanted == 4 else 'writes'} failed", flush=True)
    print(f"{bad} ended in another way")
    return 1 if bad else 0


if __name__ == "__main__":
    sys.exit(main())
