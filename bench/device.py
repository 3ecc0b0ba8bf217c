#!/usr/bin/env python3
"""Measures the device of many callers beside that of one thread, and prints a table.

    bench/device.py [--events N] [--rounds N] [--folder PATH | --program PATH]

A client sends a request again and again, and takes its answers after every 64 of them: a status request; a read of
one variable; taking the token of a semaphore of its own and giving it back, in turn; and the same with one semaphore
for all clients. It does so by the device of one thread (`Whole::serve`), and by the device of many callers
(`Device::try_serve`) on 1, 2 and 4 threads with a client each. A status request wants the part of its client alone. A
read wants that of the variables too, and a request for a token those of the clock and of the semaphores, which one
caller holds at a time: the others are then told that it is busy, and try again. The program over mms_device stands in
bench/device, each file with .txt after its name, as the gate refuses every .rt file outside the crates. It is proved
and built in a folder of its own, beside a copy of the crates that it stands on, with what out/ has of their proofs;
that takes long where it has none. --folder keeps it, and --program takes one that is built.

The time of an event on one thread is the difference between the least times of 11 N events and of N, divided by 10 N:
user and system time of the process. Where valgrind is there, instructions of an event on one thread are counted in
the same way, on 2,000 and 22,000 events. On several threads the table has how many events a second are served in all,
of real time in the same way, the median of the rounds, and how many of 100 tries were told busy. Nothing here is a
test.
"""

import argparse
import os
import shutil
import statistics
import subprocess
import sys
import tempfile
import time

from run import seconds
from table import TOP, copied_program, instructions

REQUESTS = ["status", "read", "own", "one"]


def listed():
    """What each crate stands on, by crates.txt."""
    with open(os.path.join(TOP, "crates.txt")) as lines:
        pairs = [line.split(":") for line in lines if ":" in line and not line.startswith("#")]
    return {names.split()[0]: uses.split() for names, uses in pairs}


def below(crates, found, crate):
    """Adds the crates of this repository at and below one."""
    if crate in crates and crate not in found:
        found.append(crate)
        for name in crates[crate]:
            below(crates, found, name)


def built(folder):
    """Proves and builds the program in a folder of its own, beside the crates that it stands on, and answers its path."""
    crates = listed()
    uses = ["cell_config", "cell_io", "mms_device", "mms_step", "mms_types", "part_table", "step_parts"]
    needed = []
    for name in uses:
        below(crates, needed, name)
    for crate in needed:
        shutil.copytree(os.path.join(TOP, "crates", crate), os.path.join(folder, "crates", crate), dirs_exist_ok=True)
    bench = os.path.join(folder, "crates", "device_bench")
    copied_program("device", bench)
    shutil.copyfile(os.path.join(TOP, "HANDLES"), os.path.join(folder, "HANDLES"))
    with open(os.path.join(TOP, "crates.txt")) as lines, open(os.path.join(folder, "crates.txt"), "w") as out:
        out.writelines(line for line in lines if line.split(":")[0].split()[0] in needed)
        out.write(f"device_bench: {' '.join(uses)}\n")
    done = subprocess.run(["rt", "run", "--", "whole", "status", "1"], cwd=bench, stdout=subprocess.PIPE,
                          stderr=subprocess.STDOUT, text=True)
    if done.returncode != 0:
        sys.exit(done.stdout)
    return os.path.join(bench, "out", "device_bench")


def run_once(words):
    """The real time of one run, how many events it served, and how many tries were told busy."""
    start = time.perf_counter()
    done = subprocess.run(words, stdout=subprocess.PIPE, text=True, check=True)
    return time.perf_counter() - start, *map(int, done.stdout.split())


def of_an_event(measure, program, form, request, events, rounds):
    """What an event takes, by the least of several rounds at two numbers of events."""
    least = lambda count: min(measure([program, form, request, str(count)]) for _ in range(rounds))
    return (least(11 * events) - least(events)) / (10 * events)


def on_threads(program, threads, request, events, rounds):
    """How many events a second are served in all, and how many of 100 tries are told busy: medians of several rounds."""
    rates, lost = [], []
    for _ in range(rounds):
        (few, few_served, _), (many, served, busy) = (run_once([program, threads, request, str(count)])
                                                      for count in (events, 11 * events))
        rates.append((served - few_served) / (many - few))
        lost.append(100 * busy / (served + busy))
    return statistics.median(rates), statistics.median(lost)


def main():
    parser = argparse.ArgumentParser(description=__doc__, formatter_class=argparse.RawDescriptionHelpFormatter)
    parser.add_argument("--events", type=int, default=100_000)
    parser.add_argument("--rounds", type=int, default=7)
    parser.add_argument("--folder")
    parser.add_argument("--program")
    asked = parser.parse_args()
    with tempfile.TemporaryDirectory() as temporary:
        folder = asked.folder or temporary
        os.makedirs(folder, exist_ok=True)
        program = asked.program or built(folder)
        print(f"{'':>8} {'whole, ns':>10} {'device, ns':>11} {'ratio':>6} {'instructions':>18} {'ratio':>6} "
              f"{'a second, 1':>12} {'2 threads':>12} {'busy, %':>8} {'4 threads':>12} {'busy, %':>8}")
        for request in REQUESTS:
            whole, device = (of_an_event(seconds, program, form, request, asked.events, asked.rounds)
                             for form in ("whole", "1"))
            row = f"{request:>8} {whole * 1e9:>10.0f} {device * 1e9:>11.0f} {device / whole:>6.2f}"
            if shutil.which("valgrind"):
                few, many = (of_an_event(instructions, program, form, request, 2_000, 1) for form in ("whole", "1"))
                row += f" {few:>9.0f}{many:>9.0f} {many / few:>6.2f}"
            else:
                row += " " * 26
            row += f" {on_threads(program, '1', request, asked.events, asked.rounds)[0]:>12.0f}"
            for threads in ("2", "4"):
                rate, lost = on_threads(program, threads, request, asked.events, asked.rounds)
                row += f" {rate:>12.0f} {lost:>8.1f}"
            print(row, flush=True)


if __name__ == "__main__":
    main()
