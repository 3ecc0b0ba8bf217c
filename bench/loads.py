#!/usr/bin/env python3
"""Counts the instructions of loads and uploads of domains, by callgrind, and prints a table.

    bench/loads.py [--program PATH] [--floor PATH] [--scale N]

Each row is what `replay` takes of a recording beyond what it takes of the same recording without the lines that are
counted, for each octet of the domain or for each event. --floor names a program of plain Rust that reads the same
recording and writes its lines back, `bench/floor.rs` compiled with -O, and is counted in the same way; without it rustc
compiles that. Needs valgrind. With --scale it loads that many domains of 1 MiB instead, each in a phase, and prints the
peak of the program's memory, and what is left of it for each octet when 8 MB are taken off. Nothing here is a test.
"""

import argparse
import os
import re
import subprocess
import tempfile

from grow import element
from run import HERE

OPEN = "{} A826800300FDE881010A82010A830105A416800101810305F100820C03EE1C00000408000079EF18"
OPEN_512 = "{} A8258002020081010A82010A830105A416800101810305F100820C03EE1C00000408000079EF18"
NAME = "4431"
MIB = 1 << 20
HEAD = ["mms-recording 1", "config", "clients = 2", "end", OPEN.format(1)]


def number(value):
    """An INTEGER's octets in digits."""
    digits = f"{value:02X}" if value < 128 else f"{value:04X}" if value < 32768 else f"{value:06X}"
    return digits if int(digits[:2], 16) < 128 else "00" + digits


def asked(invoke, service):
    """A confirmed request of a client."""
    return element("A0", element("02", number(invoke)), service)


def answered(invoke, service):
    """A client's answer to the server."""
    return element("A1", element("02", number(invoke)), service)


def load(total, size, name=NAME, invoke=1):
    """The lines by which the first client loads a domain of so many octets in segments of that size; the number of the
    first request of the server is given."""
    lines = [f"1 {asked(1, element('BA', element('80', name), element('A1'), element('82', '01')))}"]
    left = total
    while left:
        octets = min(size, left)
        left -= octets
        more = "" if left else element("81", "00")
        lines.append(f"1 {answered(invoke, element('BB', element('80', 'AA' * octets), more))}")
        invoke += 1
    lines.append(f"1 {answered(invoke, element('9C'))}")
    return lines


def phased(lines):
    """The lines, in phases of 8,192 at most."""
    return [line for at in range(0, len(lines), 8192) for line in [*lines[at:at + 8192], "phase"]]


def pieces(client, total, size):
    """The lines by which a client uploads that domain: one for each piece, and its end."""
    lines = [f"{client} {asked(1, element('9D', NAME))}"]
    lines += [f"{client} {asked(1, element('9E', '01'))}"] * -(-total // size)
    return lines + [f"{client} {asked(1, element('9F1F', '01'))}"]


def rows():
    """Of each row its name, the lines before, those that are counted, and by how many of what."""
    small = 1 << 16
    return [
        ("a load in segments of 64,000, an octet", HEAD, load(MIB, 64000), MIB),
        ("a load in segments of 16, a segment", HEAD, load(small, 16), small // 16),
        ("an upload in pieces of 4,096, an octet", HEAD + load(MIB, 64000), pieces(1, MIB, 4096), MIB),
        ("an upload in pieces of 448, an octet", HEAD + [OPEN_512.format(2)] + load(MIB, 64000),
         pieces(2, MIB, 448), MIB),
        ("an upload in pieces of 4,096, in 16 segments, an octet", HEAD + load(small, 4096),
         pieces(1, small, 4096), small),
        ("the same, in 65,536 segments, an octet", HEAD + phased(load(small, 1)), pieces(1, small, 4096), small),
    ]


def counted(words, lines):
    """The instructions that a program takes of a recording."""
    with tempfile.NamedTemporaryFile("w", suffix=".mms") as recording:
        recording.write("\n".join(lines) + "\n")
        recording.flush()
        with open(recording.name, "rb") as source:
            ended = subprocess.run(
                ["valgrind", "--tool=callgrind", "--callgrind-out-file=/dev/null", *words],
                stdin=source, stdout=subprocess.DEVNULL, stderr=subprocess.PIPE, text=True, check=True)
    return int(re.search(r"Collected : (\d+)", ended.stderr).group(1))


def peak(program, count):
    """The peak of a program's memory, in octets, that loads so many domains of 1 MiB, each in a phase of its own."""
    running = subprocess.Popen([program, "replay"], stdin=subprocess.PIPE, stdout=subprocess.DEVNULL, text=True)
    running.stdin.write("\n".join(HEAD) + "\n")
    segments = -(-MIB // 64000)
    for domain in range(count):
        lines = load(MIB, 64000, f"D{domain:03}".encode().hex().upper(), 1 + domain * (segments + 1))
        running.stdin.write("\n".join(["phase", *lines]) + "\n")
    running.stdin.close()
    _, status, used = os.wait4(running.pid, 0)
    if status:
        raise SystemExit(f"the program ended with {os.waitstatus_to_exitcode(status)}")
    return used.ru_maxrss * 1024


def main():
    parser = argparse.ArgumentParser()
    parser.add_argument("--program", default=os.path.join(HERE, "..", "crates", "mmscell", "out", "mmscell"))
    parser.add_argument("--floor")
    parser.add_argument("--scale", type=int)
    options = parser.parse_args()
    if options.scale:
        most = peak(options.program, options.scale)
        print(f"{options.scale} domains: {most / 1e6:.1f} MB, {(most - 8e6) / (options.scale * MIB):.3f} for each octet")
        return
    with tempfile.TemporaryDirectory() as folder:
        floor = options.floor or os.path.join(folder, "floor")
        if not options.floor:
            subprocess.run(["rustc", "-O", "-o", floor, os.path.join(HERE, "floor.rs")], check=True)
        print(f"{'event':>56} {'replay':>9} {'floor':>9} {'ratio':>6}")
        for name, before, lines, share in rows():
            each = [(counted(words, before + ["phase"] + lines) - counted(words, before + ["phase"])) / share
                    for words in ([options.program, "replay"], [floor])]
            print(f"{name:>56} {each[0]:9,.1f} {each[1]:9,.1f} {each[0] / each[1]:6.2f}", flush=True)


if __name__ == "__main__":
    main()
