#!/usr/bin/env python3
"""Counts the instructions that the least deadline of a semaphore takes, by callgrind, and prints a table.

    bench/deadlines.py [--turns N] [--program PATH] [--folder PATH]

A turn asks each of 64 semaphores for its least deadline, of which one client owns a token for a time, or 300 clients own one
each; what is told is a 64th of it. The entries of a pool stand in the same table. The program over token_sem stands in bench/deadlines, each file with .txt after its
name, as the gate refuses every .rt file outside the crates. It is proved and built in a folder of its own, beside copies of the
crates that it stands on, with what their out/ has of their proofs. --folder keeps it, and --program names one that is built.
Needs valgrind. Nothing here is a test.
"""

import argparse
import os
import tempfile

from table import built, instructions, of_a_turn

CRATES = ["mms_types", "sem_queue", "token_sem"]


def main():
    parser = argparse.ArgumentParser(description=__doc__, formatter_class=argparse.RawDescriptionHelpFormatter)
    parser.add_argument("--turns", type=int, default=1000)
    parser.add_argument("--program")
    parser.add_argument("--folder")
    asked = parser.parse_args()
    with tempfile.TemporaryDirectory() as temporary:
        folder = asked.folder or temporary
        os.makedirs(folder, exist_ok=True)
        program = asked.program or built("deadlines", CRATES, ["0", "1"], folder)
        print(f"{'entries':>10} {'instructions of a question':>27}")
        for owners in ("1", "300"):
            print(f"{owners:>10} {of_a_turn(instructions, [program, owners], asked.turns, 1) / 64:>27,.1f}")


if __name__ == "__main__":
    main()
