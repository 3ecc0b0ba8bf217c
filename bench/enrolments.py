#!/usr/bin/env python3
"""Counts what telling a transition takes among enrollments on other conditions, by valgrind, and prints a table.

    bench/enrolments.py [--turns N] [--program PATH] [--folder PATH]

A turn makes the one notice of a condition, on which there is one enrollment; alone, and with 1,023 on other conditions.
The program over event_enrol stands in bench/enrolments, each file with .txt after its name, as the gate refuses every
.rt file outside the crates. It is proved and built in a folder of its own, beside copies of the crates that it stands on,
with what their out/ has of their proofs. --folder keeps it, and --program names one that is built.

Instructions and allocations of a turn are the difference between 11 N turns and N turns, divided by 10 N. Needs valgrind.
Nothing here is a test.
"""

import argparse
import os
import tempfile

from table import allocations, built, instructions, of_a_turn

CRATES = ["mms_types", "object_names", "domain_load", "event_enrol"]


def main():
    parser = argparse.ArgumentParser(description=__doc__, formatter_class=argparse.RawDescriptionHelpFormatter)
    parser.add_argument("--turns", type=int, default=1000)
    parser.add_argument("--program")
    parser.add_argument("--folder")
    asked = parser.parse_args()
    with tempfile.TemporaryDirectory() as temporary:
        folder = asked.folder or temporary
        os.makedirs(folder, exist_ok=True)
        program = asked.program or built("enrolments", CRATES, ["0", "1"], folder)
        counts = {many: of_a_turn(instructions, [program, many], asked.turns, 1) for many in ("1", "1024")}
        print(f"{'enrollments':>12} {'instructions':>13} {'ratio':>6} {'allocations':>12}")
        for many, count in counts.items():
            print(f"{many:>12} {count:>13,.1f} {count / counts['1']:>6.2f} {of_a_turn(allocations, [program, many], asked.turns, 1):>12.1f}")


if __name__ == "__main__":
    main()
