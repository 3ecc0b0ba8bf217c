#!/usr/bin/env python3
"""Measures the tools on great reports, and prints a table.

    bench/tools.py [--program PATH] [--events N] [--drawn N] [--rounds N] [--keep FOLDER]

Writes two recordings of so many events by four clients in phases of 10,000: reads of a hundred variables, requests for
the status, writes, taking and giving back a token, and ticks. They differ in the value with which one of the variables
begins. The program serves both, and each command runs over their reports: the least time by the clock and of the
processors, the peak of memory, and the load of the machine before. `chart` draws a report of so many events, and then so
many of the great one. Nothing here is a test.
"""

import argparse
import os
import subprocess
import sys
import tempfile
import time

TOP = os.path.join(os.path.dirname(os.path.abspath(__file__)), "..")
PROGRAM = os.path.join(TOP, "crates", "mmscell", "out", "mmscell")
MMS = os.path.join(TOP, "tools", "mms")
OPEN = "A826800300FDE881010A82010A830105A416800101810305F100820C03EE1C00000408000079EF18"
VARIABLES, CLIENTS, PHASE = 100, 4, 10000


def element(tag, contents):
    """An element of that tag in hexadecimal digits, with contents of fewer than 128 octets."""
    return f"{tag}{len(contents) // 2:02X}{contents}"


def request(number, service):
    """A confirmed request of an invokeID from 0 to 32,767."""
    octets = f"{number:02X}" if number < 128 else f"{number:04X}"
    return element("A0", element("02", octets) + service)


def variable(number):
    """The list of one variable that a read or a write names."""
    return element("A0", element("30", element("A0", element("80", f"v{number:02}".encode().hex().upper()))))


def asked(i):
    """The i-th request of a client: what it asks, by turns."""
    turn, number = i % 6, i * 7 % VARIABLES
    if turn in (0, 1):
        return element("A4", element("A1", variable(number)))
    if turn == 2:
        return "800100"
    if turn == 3:
        return element("A5", variable(number) + element("A0", element("85", f"{i % 100:02X}")))
    return element("B3" if turn == 4 else "B4", element("80", b"T".hex().upper()))


def recording(events, first):
    """A recording of so many events, in which one variable begins with that value."""
    out = ["mms-recording 1", "config", f"clients = {CLIENTS}"]
    for n in range(VARIABLES):
        value = first if n == 17 else 1
        out += ["[[cell]]", f"number = {n}", 'type = "850120"', f'value = "8501{value:02X}"']
    for n in range(VARIABLES):
        out += ["[[variable]]", f'name = "v{n:02}"', f"cell = {n}"]
    out += ["end", *(f"{c} {OPEN}" for c in range(1, CLIENTS + 1))]
    out.append(f"1 {request(1, element('B5', element('80', '54') + element('81', '04')))}")
    for i in range(events - CLIENTS - 1):
        if i and i % PHASE == 0:
            out.append("phase")
        turn, client = i // CLIENTS, i % CLIENTS + 1
        out.append("tick 1" if i % 50 == 49 else f"{client} {request(turn % 30000 + 2, asked(turn))}")
    return "\n".join(out) + "\n"


def run(words):
    """A command's time by the clock and of the processors, and its peak of memory in octets."""
    began = time.monotonic()
    with subprocess.Popen([sys.executable, MMS, *words], stdout=subprocess.DEVNULL) as command:
        _, status, used = os.wait4(command.pid, 0)
        command.returncode = os.waitstatus_to_exitcode(status)
    if command.returncode not in (0, 1):
        sys.exit(f"mms {' '.join(words)} ended with status {command.returncode}")
    return time.monotonic() - began, used.ru_utime + used.ru_stime, used.ru_maxrss * 1024


def served(program, path, text):
    """The report of a recording, beside it."""
    with open(f"{path}.mms", "w", encoding="ascii") as out:
        out.write(text)
    with open(f"{path}.mms", "rb") as source, open(f"{path}.report", "wb") as report:
        subprocess.run([program, "replay"], stdin=source, stdout=report, check=True)
    return f"{path}.report"


def measured(name, words, rounds):
    """Prints a row of the table."""
    load = os.getloadavg()[0]
    times = [run(words) for _ in range(rounds)]
    clock, used, peak = min(t[0] for t in times), min(t[1] for t in times), max(t[2] for t in times)
    print(f"{name:>40} {clock:>8.1f} {used:>8.1f} {peak / 1e6:>8.0f} {load:>6.1f}", flush=True)


def main():
    """Makes the reports, and measures."""
    parser = argparse.ArgumentParser(description=__doc__, formatter_class=argparse.RawDescriptionHelpFormatter)
    parser.add_argument("--program", default=PROGRAM)
    parser.add_argument("--events", type=int, default=100000)
    parser.add_argument("--drawn", type=int, default=2000)
    parser.add_argument("--rounds", type=int, default=1)
    parser.add_argument("--keep", metavar="FOLDER", help="where the recordings and reports stay")
    asked_for = parser.parse_args()
    with tempfile.TemporaryDirectory() as own:
        folder = asked_for.keep or own
        os.makedirs(folder, exist_ok=True)
        one, other = (
            served(asked_for.program, os.path.join(folder, name), recording(asked_for.events, first))
            for name, first in (("first", 0), ("second", 1))
        )
        few = served(asked_for.program, os.path.join(folder, "few"), recording(asked_for.drawn, 0))
        out = ["-o", os.path.join(folder, "drawn.svg")]
        print(f"{'':>40} {'clock, s':>8} {'used, s':>8} {'MB':>8} {'load':>6}")
        for name, words in (
            (f"explain, {asked_for.events} events", ["explain", one]),
            (f"compare, {asked_for.events} events", ["compare", one, other]),
            (f"chart, {asked_for.drawn} events", ["chart", few, *out]),
            (f"chart, {asked_for.drawn} of {asked_for.events}", ["chart", one, "--places", f"1-{asked_for.drawn}", *out]),
        ):
            measured(name, words, asked_for.rounds)


if __name__ == "__main__":
    main()
