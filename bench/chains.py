#!/usr/bin/env python3
"""Counts the instructions of telling who is served with a freed token where requests are attached, by callgrind, and
prints a table.

    bench/chains.py [--turns N] [--program PATH] [--folder PATH]

A turn asks for the chain of a pool of one token, and lets it go. So many entries wait: first those of takes, and then
those with a request attached, which come before the takes by rank. Every other one names the token, the others want
any. The last row has requests of another semaphore in the same table, which came before. The program over attach_sem
and pool_sem stands in bench/chains, each file with .txt after its name, as the gate refuses every .rt file outside the
crates. It is proved and built in a folder of its own, beside copies of the crates that it stands on, with what their
out/ has of their proofs. --folder keeps it, and --program names one that is built. Needs valgrind. Nothing here is a
test.
"""

import argparse
import os
import tempfile

from table import built, instructions, of_a_turn

CRATES = ["mms_types", "sem_queue", "attach_sem", "token_sem", "pool_sem"]

# how many wait, of how many a request is attached, and how many requests another semaphore has
CASES = [(64, 64, 0), (640, 64, 0), (640, 640, 0), (64, 64, 640)]


def main():
    parser = argparse.ArgumentParser(description=__doc__, formatter_class=argparse.RawDescriptionHelpFormatter)
    parser.add_argument("--turns", type=int, default=100)
    parser.add_argument("--program")
    parser.add_argument("--folder")
    asked = parser.parse_args()
    with tempfile.TemporaryDirectory() as temporary:
        folder = asked.folder or temporary
        os.makedirs(folder, exist_ok=True)
        program = asked.program or built("chains", CRATES, ["0", "1", "0", "0"], folder)
        print(f"{'wait':>6} {'attached':>9} {'elsewhere':>10} {'instructions of a chain':>24} {'of one attached':>16} {'ratio':>6}")
        first = None
        for waiting, attached, elsewhere in CASES:
            words = [program, str(attached), str(waiting - attached), str(elsewhere)]
            took = of_a_turn(instructions, words, asked.turns, 1)
            first = first or took
            print(f"{waiting:>6} {attached:>9} {elsewhere:>10} {took:>24,.0f} {took / attached:>16.1f} {took / first:>6.2f}")


if __name__ == "__main__":
    main()
