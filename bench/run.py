#!/usr/bin/env python3
"""Measures replay against a floor in plain Rust, and prints a table.

    bench/run.py [--events N,N,..] [--phases N,N,..] [--rounds N] [--program PATH]

Writes recordings of status requests, runs the built program and the floor on each of them in turn, several rounds in
one run, and prints of the least times: events and megabytes a second, the ratio to the floor, and the median peak of memory
against the recording's size. The first recordings have one client and phases of 16,000 events; the others have that many
phases of 1,024 events by 64 clients in turn. Times are user and system time of the process. Nothing here is a test.
"""

import argparse
import os
import statistics
import subprocess
import sys
import tempfile

HERE = os.path.dirname(os.path.abspath(__file__))
HEAD = b"mms-recording 1\nconfig\nend\n"
HEAD_OF_64 = b"mms-recording 1\nconfig\nclients = 64\nend\n"
OPEN = b"%d A826800300FDE881010A82010A830105A416800101810305F100820C03EE1C00000408000079EF18\n"
STATUS = b"%d A006020101800100\n"


def one_client(events):
    """A recording of one client, in phases of 16,000 events."""
    pieces = [STATUS % 1 * min(16000, events - first) for first in range(0, events, 16000)]
    return HEAD + OPEN % 1 + b"phase\n".join(pieces)


def many_clients(phases):
    """A recording of so many phases of 1,024 events, by 64 clients in turn."""
    clients = range(1, 65)
    body = b"".join(STATUS % client for client in clients) * 16
    return HEAD_OF_64 + b"".join(OPEN % client for client in clients) + b"phase\n".join([body] * phases)


def seconds(words, recording=os.devnull):
    """The processor time of one run over a recording."""
    with open(recording, "rb") as source:
        pid = os.fork()
        if pid == 0:
            os.dup2(source.fileno(), 0)
            os.dup2(os.open(os.devnull, os.O_WRONLY), 1)
            os.execv(words[0], words)
        _, status, used = os.wait4(pid, 0)
    if status != 0:
        sys.exit(f"{' '.join(words)} ended with status {os.waitstatus_to_exitcode(status)}")
    return used.ru_utime + used.ru_stime


def peak(words, recording):
    """The peak of memory in octets of one run, by GNU time: a process forked from this one would count this one's as its own."""
    with open(recording, "rb") as source:
        done = subprocess.run(["/usr/bin/time", "-f", "%M"] + words, stdin=source, stdout=subprocess.DEVNULL,
                              stderr=subprocess.PIPE, text=True, check=True)
    return int(done.stderr.split()[-1]) * 1024


def usual_peak(words, recording, rounds):
    """The median of the peaks of several runs: the system counts pages in batches, so that one run's differs by a tenth."""
    return statistics.median(peak(words, recording) for _ in range(rounds))


def measured(name, recording, size, asked, floor):
    """Prints a row of the table."""
    program = [asked.program, "replay"]
    rounds = [(seconds(program, recording), seconds([floor], recording)) for _ in range(asked.rounds)]
    ours = min(time for time, _ in rounds)
    plain = min(time for _, time in rounds)
    memory = usual_peak(program, recording, asked.rounds)
    with open(recording, "rb") as text:
        events = sum(1 for line in text if line[:1].isdigit())
    print(f"{name:>22} {size / 1e6:>7.2f} {ours:>8.3f} {plain:>8.3f} {ours / max(plain, 1e-9):>6.2f} "
          f"{events / max(ours, 1e-9):>11.0f} {size / 1e6 / max(ours, 1e-9):>7.1f} {memory / 1e6:>8.1f} {memory / size:>9.1f}")


def main():
    parser = argparse.ArgumentParser(description=__doc__, formatter_class=argparse.RawDescriptionHelpFormatter)
    parser.add_argument("--events", default="10000,100000,1000000")
    parser.add_argument("--phases", default="10,100,1000")
    parser.add_argument("--rounds", type=int, default=7)
    parser.add_argument("--program", default=os.path.join(HERE, "..", "crates", "mmscell", "out", "mmscell"))
    asked = parser.parse_args()
    with tempfile.TemporaryDirectory() as folder:
        floor = os.path.join(folder, "floor")
        subprocess.run(["rustc", "-O", "-o", floor, os.path.join(HERE, "floor.rs")], check=True)
        print(f"{'recording':>22} {'MB':>7} {'seconds':>8} {'floor':>8} {'ratio':>6} {'events/s':>11} {'MB/s':>7} {'peak MB':>8} {'peak/size':>9}")
        cases = [(f"{n:,} events", one_client(int(n))) for n in map(int, asked.events.split(","))]
        cases += [(f"{n:,} phases", many_clients(n)) for n in map(int, asked.phases.split(","))]
        for name, text in cases:
            recording = os.path.join(folder, "recording.mms")
            with open(recording, "wb") as out:
                out.write(text)
            measured(name, recording, len(text), asked, floor)


if __name__ == "__main__":
    main()
