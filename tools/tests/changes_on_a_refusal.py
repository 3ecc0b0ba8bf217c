#!/usr/bin/env python3
"""A faulty device, to see that bench/octets.py catches it: a refusal changes something.

    changes_on_a_refusal.py PROGRAM WORD..

Runs the program with these words. Where a phase of a replayed recording has one PDU alone, other than `8E 00`, and a
single reject or error comes of it, that PDU defines a semaphore `T` besides, of which the report tells nothing.
"""

import subprocess
import sys

NO_PDU = b"8E00"
REFUSALS = (b"A2", b"A4", b"A7", b"AD")
DEFINES = b"A00E02027A01B508A003800154810101"  # invokeID 31233
TOLD = b"02027A01"


def served(words, recording):
    ran = subprocess.run(words, input=recording, stdout=subprocess.PIPE)
    return ran.returncode, ran.stdout


def is_refused(phase):
    """Whether the text of a phase has one PDU, not `8E 00`, and one answer, which refuses it."""
    lines = phase.split(b"\n")[1:]
    heard = [it.split(b" ")[2] for it in lines if it[:1].isdigit()]
    told = [it[2:] for it in lines if it.startswith(b"> ")]
    return len(heard) == len(told) == 1 and heard != [NO_PDU] and told[0][:2] in REFUSALS and TOLD not in told[0]


def hidden(report):
    """The report without what is kept quiet, and with the places that the other events then have."""
    out, place = [], 0
    for line in report.split(b"\n"):
        if line.endswith(DEFINES) or (line.startswith(b"> ") and TOLD in line):
            continue
        if line[:1].isdigit():
            place += 1
            line = b"%d %s" % (place, line.split(b" ", 1)[1])
        out.append(line)
    return b"\n".join(out)


def main():
    words = sys.argv[1:]
    recording = sys.stdin.buffer.read()
    status, report = served(words, recording)
    if words[1] == "replay" and status == 0:
        head, _, body = recording.partition(b"\nend\n")
        phases = body.split(b"phase\n")
        for at, text in enumerate((b"\n" + report).split(b"\nphase ")[1:]):
            if is_refused(text):
                phases[at] += phases[at].split(b" ")[0] + b" " + DEFINES + b"\n"
        status, report = served(words, head + b"\nend\n" + b"phase\n".join(phases))
        report = hidden(report)
    sys.stdout.buffer.write(report)
    return status


if __name__ == "__main__":
    sys.exit(main())
