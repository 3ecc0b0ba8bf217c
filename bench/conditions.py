#!/usr/bin/env python3
"""Counts the instructions that the next evaluation of event conditions takes, by callgrind, and prints a table.

    bench/conditions.py [--turns N] [--program PATH] [--folder PATH]

A turn asks for the next evaluation of 256 conditions that are all enabled: apart, each at a moment of its own, and
together, all at one, where names decide. What is told is a turn's instructions for each condition: those of a turn of
256, less those of a turn of one, divided by 255. The program over event_cond stands in bench/conditions, each file with
.txt after its name, as the gate refuses every .rt file outside the crates. It is proved and built in a folder of its own,
beside copies of the crates that it stands on, with what their out/ has of their proofs. --folder keeps it, and --program
names one that is built. Needs valgrind. Nothing here is a test.
"""

import argparse
import os
import tempfile

from table import built, instructions, of_a_turn

CRATES = ["mms_types", "object_names", "event_cond"]


def main():
    parser = argparse.ArgumentParser(description=__doc__, formatter_class=argparse.RawDescriptionHelpFormatter)
    parser.add_argument("--turns", type=int, default=100)
    parser.add_argument("--program")
    parser.add_argument("--folder")
    asked = parser.parse_args()
    with tempfile.TemporaryDirectory() as temporary:
        folder = asked.folder or temporary
        os.makedirs(folder, exist_ok=True)
        program = asked.program or built("conditions", CRATES, ["0", "1", "apart"], folder)
        print(f"{'':>10} {'instructions of a turn':>23} {'of one condition':>17}")
        for case in ("apart", "together"):
            one, many = (of_a_turn(instructions, [program, count, case], asked.turns, 1) for count in ("1", "256"))
            print(f"{case:>10} {many:>23,.0f} {(many - one) / 255:>17.1f}")


if __name__ == "__main__":
    main()
