#!/usr/bin/env python3
"""Counts what reads of a journal and writes into it take, by valgrind, and prints a table.

    bench/journals.py [--turns N] [--program PATH] [--folder PATH]

Entries are texts, or have one variable each. A turn reads the last 16 of so many entries by number; or reads by a time, by
a tag or by 17 tags that select none, which is told for each entry; or writes one entry, or 64, which is told for each.
The program over mms_journal stands in bench/journals, each file with .txt after its name, as the gate refuses every .rt
file outside the crates. It is proved and built in a folder of its own, beside copies of the crates that it stands on, with
what their out/ has of their proofs. --folder keeps it, and --program names one that is built.

Instructions and allocations of a turn are the difference between 11 N turns and N turns, divided by 10 N. Needs valgrind.
Nothing here is a test.
"""

import argparse
import os
import tempfile

from table import allocations, built, instructions, of_a_turn

CRATES = [
    "ber_core", "ber_forms", "mms_types", "pdu_names", "pdu_data", "pdu_areas", "pdu_vars", "pdu_sems", "pdu_assoc",
    "pdu_programs", "pdu_events", "object_names", "mms_journal",
]

# what is done, how many entries there are, by how many of them a turn is divided, and which share of the turns is taken
ROWS = [
    ("last", 16, 1, 1),
    ("last", 65536, 1, 1),
    ("time", 65536, 65536, 100),
    ("tag", 65536, 65536, 100),
    ("tags", 65536, 65536, 100),
    ("one", 160, 1, 1),
    ("many", 160, 64, 10),
]


def main():
    parser = argparse.ArgumentParser(description=__doc__, formatter_class=argparse.RawDescriptionHelpFormatter)
    parser.add_argument("--turns", type=int, default=100)
    parser.add_argument("--program")
    parser.add_argument("--folder")
    asked = parser.parse_args()
    with tempfile.TemporaryDirectory() as temporary:
        folder = asked.folder or temporary
        os.makedirs(folder, exist_ok=True)
        program = asked.program or built("journals", CRATES, ["0", "last", "16", "text"], folder)
        print(f"{'':>6} {'entries':>8} {'each':>9} {'instructions':>13} {'allocations':>12}")
        for how, entries, each, share in ROWS:
            for kind in ("text", "variable"):
                words, turns = [program, how, str(entries), kind], max(1, asked.turns // share)
                counts = [of_a_turn(measure, words, turns, 1) / each for measure in (instructions, allocations)]
                print(f"{how:>6} {entries:>8} {kind:>9} {counts[0]:>13,.1f} {counts[1]:>12.2f}")


if __name__ == "__main__":
    main()
