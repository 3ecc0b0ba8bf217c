#!/usr/bin/env python3
"""Counts what `stress` takes beside `run` on the same recording as text, and prints a table.

    bench/stress.py [--seed N] [--clients N] [--rounds N] [--program PATH]

Counts by callgrind the instructions of `stress` with one worker, and of `run` with one worker on its recording, which is
written here as docs/RECORDING.md says it; the phases, events and PDUs of that run's report have to be those that `stress`
prints. Then it tells the peak of memory of `stress` with a tenth and with ten times as many rounds, at most 1,000, by GNU time.
Needs valgrind. Nothing here is a test.
"""

import argparse
import os
import re
import subprocess

from run import HERE, OPEN

MULTIPLIER, MASK = 6364136223846793005, 2**64 - 1


def random_words(seed):
    """The words of PCG's generator of 32-bit words, begun at the seed, on its stream 54."""
    increment = 54 << 1 | 1
    state = ((seed + increment) * MULTIPLIER + increment) & MASK
    while True:
        word, turn = ((state >> 18 ^ state) >> 27) & 0xFFFFFFFF, state >> 59
        yield (word >> turn | word << (-turn & 31)) & 0xFFFFFFFF
        state = (state * MULTIPLIER + increment) & MASK


def element(tag, *parts):
    """An element of less than 128 octets."""
    content = b"".join(parts)
    return bytes([tag, len(content)]) + content


def number(tag, value):
    return element(tag, value.to_bytes(value.bit_length() // 8 + 1, "big"))


def request(invoke, service):
    return element(0xA0, number(0x02, invoke), service)


def asked(word, turn):
    """What a client asks in a round by a random word: reads V, writes the number of the round to it, takes T or gives it back."""
    variable = element(0xA0, element(0x30, element(0xA0, element(0x80, b"V"))))
    token = element(0xA0, element(0x80, b"T"))
    return (element(0xA4, element(0xA1, variable)), element(0xA5, variable, element(0xA0, number(0x85, turn))),
            element(0xB3, token, number(0x83, 5)), element(0xB4, token))[word % 4]


def recording(seed, clients, rounds):
    """The recording of stress, as text."""
    said = lambda client, octets: b"%d %s\n" % (client, octets.hex().upper().encode())
    cells = b'[[cell]]\nnumber = 0\ntype = "850120"\nvalue = "850100"\n[[variable]]\nname = "V"\ncell = 0\n'
    lines = [b"mms-recording 1\nconfig\nclients = %d\n%send\n" % (clients, cells)]
    lines += [OPEN % client for client in range(1, clients + 1)]
    lines += [said(1, request(1, element(0xB5, element(0xA0, element(0x80, b"T")), number(0x81, 1)))), b"phase\n"]
    words = random_words(seed)
    for turn in range(1, rounds + 1):
        for client in range(1, clients + 1):
            lines.append(said(client, request(turn + (client == 1), asked(next(words), turn))))
        lines += [b"tick 3\n", b"phase\n"]
    return b"".join(lines + [b"tick 10\n"])


def counted(words, text=b""):
    """The instructions of one run, and what it wrote."""
    tool = ["valgrind", "--tool=callgrind", "--callgrind-out-file=/dev/null"]
    ended = subprocess.run(tool + words, input=text, capture_output=True, check=True)
    return int(re.search(rb"Collected : (\d+)", ended.stderr).group(1)), ended.stdout


def peak(words):
    """The most memory of one run, in KB."""
    ended = subprocess.run(["/usr/bin/time", "-f", "%M", *words], stdin=subprocess.DEVNULL, capture_output=True, check=True)
    return int(ended.stderr.split()[-1])


def main():
    parser = argparse.ArgumentParser(description=__doc__, formatter_class=argparse.RawDescriptionHelpFormatter)
    for name, value in (("seed", 7), ("clients", 16), ("rounds", 100)):
        parser.add_argument(f"--{name}", type=int, default=value)
    parser.add_argument("--program", default=os.path.join(HERE, "..", "crates", "mmscell", "out", "mmscell"))
    asked_for = parser.parse_args()
    form = lambda rounds: [asked_for.program, "stress", "--seed", str(asked_for.seed), "--clients", str(asked_for.clients),
                           "--rounds", str(rounds), "--workers", "1"]
    made, told = counted(form(asked_for.rounds))
    served, report = counted([asked_for.program, "run", "--workers", "1"],
                             recording(asked_for.seed, asked_for.clients, asked_for.rounds))
    phases, events, _, replies = (int(line.split()[1]) for line in told.splitlines())
    kinds = [len(re.findall(pattern, report, re.M)) for pattern in (rb"^phase ", rb"^\d+ ", rb"^> [0-9A-F]")]
    if kinds != [phases, events, replies]:
        raise SystemExit(f"the recordings differ: {kinds}, where stress says {[phases, events, replies]}")
    print(f"stress, instructions: {made:,}\nrun on its recording: {served:,}")
    for rounds in (max(1, asked_for.rounds // 10), min(1000, asked_for.rounds * 10)):
        print(f"peak with {rounds:,} rounds: {peak(form(rounds)):,} KB")


if __name__ == "__main__":
    main()
