#!/usr/bin/env python3
"""Measures how long the program takes from its start to its end on a short recording, and prints a table.

    bench/start.py [--runs N] [--program PATH]

Writes a recording of an Initiate and a status request, runs the built program on it so many times by `replay` and by
`run` with four workers, and /bin/true beside it, in turn, and prints the mean and the median real time of a run and the
peak of memory. Real times have in them what it takes to begin a process from this script. Nothing here is a test.
"""

import argparse
import os
import statistics
import subprocess
import tempfile
import time

from run import HEAD, HERE, OPEN, STATUS, peak


def real_seconds(words, path):
    """The real time of one run over a recording."""
    with open(path, "rb") as source:
        start = time.perf_counter()
        subprocess.run(words, stdin=source, stdout=subprocess.DEVNULL, check=True)
        return time.perf_counter() - start


def main():
    parser = argparse.ArgumentParser(description=__doc__, formatter_class=argparse.RawDescriptionHelpFormatter)
    parser.add_argument("--runs", type=int, default=200)
    parser.add_argument("--program", default=os.path.join(HERE, "..", "crates", "mmscell", "out", "mmscell"))
    asked = parser.parse_args()
    forms = [[asked.program, "replay"], [asked.program, "run", "--workers", "4"], ["/bin/true"]]
    with tempfile.TemporaryDirectory() as folder:
        path = os.path.join(folder, "recording.mms")
        with open(path, "wb") as out:
            out.write(HEAD + OPEN % 1 + STATUS % 1)
        rounds = [[real_seconds(form, path) for form in forms] for _ in range(asked.runs)]
        print(f"{'':>16} {'mean, ms':>9} {'median, ms':>11} {'peak, KB':>9}")
        for form, times in zip(forms, zip(*rounds)):
            name = " ".join(form[1:2]) or os.path.basename(form[0])
            print(f"{name:>16} {statistics.mean(times) * 1000:>9.2f} {statistics.median(times) * 1000:>11.2f} "
                  f"{peak(form, path) // 1024:>9}")


if __name__ == "__main__":
    main()
