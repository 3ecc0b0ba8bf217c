#!/usr/bin/env python3
"""Measures the gate: what the proof, the tests and the edits of each crate take, and prints a table.

    bench/gate.py [--words WORDS]

Runs `rt ci --anew` at the top of the repository (or `rt ci` with other words), with its output in a file, and looks ten
times a second at the processes of the prover below it. Prints for each crate the processor seconds of its proof, of the
proof of its tests and of its edits, how many edits there are, and the most memory that one process of its proof held;
then the sums, the longest chain of crates by the seconds of their proofs, and what the whole run took, as
`/usr/bin/time` tells it: real time, processor time and the most memory of a process. Nothing else should be running.
"""

import argparse
import collections
import os
import subprocess
import sys
import tempfile
import time

TOP = os.path.dirname(os.path.dirname(os.path.realpath(__file__)))
TICK = os.sysconf("SC_CLK_TCK")
KINDS = ("proof", "tests", "edits")


def processes():
    """The processes of the prover, by their numbers: the parent's number, when it began, and the seconds it has taken with its
    ended children."""
    found = {}
    for pid in filter(str.isdigit, os.listdir("/proc")):
        try:
            with open(f"/proc/{pid}/stat", encoding="utf-8", errors="replace") as it:
                text = it.read()
        except OSError:
            continue
        name, rest = text[text.index("(") + 1:text.rindex(")")], text[text.rindex(")") + 2:].split()
        if name == "rattle":
            found[int(pid)] = int(rest[1]), int(rest[19]), sum(map(int, rest[11:15])) / TICK
    return found


def about(pid):
    """Which crate the process is of, and what it is for."""
    try:
        with open(f"/proc/{pid}/cmdline", "rb") as it:
            words = it.read().decode(errors="replace").split("\0")
        folder = os.readlink(f"/proc/{pid}/cwd")
    except OSError:
        return None
    if "--crate-name" not in words:
        return None
    kind = "edits" if "/rt-edit" in folder else "tests" if "--test" in words else "proof"
    return words[words.index("--crate-name") + 1], kind


def peak(pid):
    """The most memory that a process held, in GiB."""
    try:
        with open(f"/proc/{pid}/status", encoding="utf-8") as it:
            return next((int(line.split()[1]) for line in it if line.startswith("VmHWM:")), 0) / 2**20
    except OSError:
        return 0


class Watch:
    """What was seen of the processes so far, by the first process of each check."""

    def __init__(self):
        self.of, self.taken, self.held = {}, {}, collections.defaultdict(float)

    def look(self):
        now, sums = processes(), collections.defaultdict(float)
        for pid, (_, _, seconds) in now.items():
            first = pid
            while now[first][0] in now:
                first = now[first][0]
            key = first, now[first][1]
            self.of[key] = self.of.get(key) or about(first)
            sums[key] += seconds
            if self.of[key] and self.of[key][1] == "proof":
                self.held[self.of[key][0]] = max(self.held[self.of[key][0]], peak(pid))
        for key, seconds in sums.items():
            self.taken[key] = max(self.taken.get(key, 0), seconds)

    def seconds(self):
        """Seconds by crate and kind."""
        table = collections.defaultdict(float)
        for key, seconds in self.taken.items():
            if self.of[key]:
                table[self.of[key]] += seconds
        return table


def below():
    """The crates that each crate of the repository stands on."""
    with open(f"{TOP}/crates.txt", encoding="utf-8") as it:
        lines = [line.split("#")[0].split(":") for line in it if ":" in line.split("#")[0]]
    found = {head.split()[0]: tail.split() for head, tail in lines}
    return {name: [it for it in crates if it in found] for name, crates in found.items()}


def chain(name, crates, table):
    """The longest chain of crates that ends with this one, and its seconds."""
    ways = [chain(it, crates, table) for it in crates[name]]
    names, seconds = max(ways, key=lambda way: way[1], default=([], 0))
    return names + [name], seconds + table[name, "proof"]


def main():
    parser = argparse.ArgumentParser(description=__doc__, formatter_class=argparse.RawDescriptionHelpFormatter)
    parser.add_argument("--words", default="--anew")
    asked = parser.parse_args()
    watch, begun = Watch(), time.time()
    with tempfile.NamedTemporaryFile("w", prefix="gate-", suffix=".log", delete=False) as log:
        run = subprocess.Popen(["rt", "ci", *asked.words.split()], cwd=TOP, stdin=subprocess.DEVNULL, stdout=log, stderr=log)
        ended = (0, 0, None)
        while not ended[0]:
            watch.look()
            time.sleep(0.1)
            ended = os.wait4(run.pid, os.WNOHANG)
    table, crates = watch.seconds(), below()
    print("| crate | proof, s | tests, s | edits | s | GiB |\n|---|---|---|---|---|---|")
    for name in crates:
        folder = f"{TOP}/crates/{name}/must-fail"
        edits = sum(it.endswith(".edit") for it in os.listdir(folder)) if os.path.isdir(folder) else 0
        row = [f"{table[name, kind]:.0f}" if table[name, kind] else "" for kind in KINDS]
        print(f"| `{name}` | {row[0]} | {row[1]} | {edits or ''} | {row[2]} | {watch.held[name]:.1f} |")
    print("sums:", *(f"{kind} {sum(table[name, kind] for name in crates):.0f}" for kind in KINDS))
    names, seconds = max((chain(name, crates, table) for name in crates), key=lambda way: way[1])
    print(f"longest chain, {seconds / 60:.1f} minutes: {' '.join(names)}")
    used = ended[2]
    print(f"whole run: {(time.time() - begun) / 60:.1f} minutes, {(used.ru_utime + used.ru_stime) / 60:.1f} processor minutes, "
          f"{used.ru_maxrss / 2**20:.1f} GiB; status {os.waitstatus_to_exitcode(ended[1])}; {log.name}")
    return os.waitstatus_to_exitcode(ended[1])


if __name__ == "__main__":
    sys.exit(main())
