#!/usr/bin/env python3
"""Measures the forms of the variable services beside the same in plain Rust, and prints a table.

    bench/forms.py [--turns N] [--rounds N] [--folder PATH]

A turn reads the contents of a PDU into a value and writes that value again: those of a Write request of 1,024 variables
by name, each with a number, or those of a Read answer of 60,000 octets, numbers and octet strings in turn. The program
over pdu_vars stands in bench/forms, each file with .txt after its name, as the gate refuses every .rt file outside the
crates; the floor is bench/forms_floor.rs. The program is proved and built in a folder of its own, beside copies of the
crates that it stands on, with what their out/ has of their proofs. --folder keeps it.

The time of a turn is the difference between the least times of 11 N turns and of N turns, divided by 10 N: user and
system time of the process, several rounds in one run. Where valgrind is there, instructions and allocations of a turn are
counted in the same way, on 10 and 110 turns. Nothing here is a test.
"""

import argparse
import os
import shutil
import subprocess
import tempfile

from run import seconds
from table import HERE, allocations, built, instructions, of_a_turn

CRATES = ["ber_core", "ber_forms", "mms_types", "pdu_names", "pdu_data", "pdu_vars"]
CASES = ["write", "answer"]


def main():
    parser = argparse.ArgumentParser(description=__doc__, formatter_class=argparse.RawDescriptionHelpFormatter)
    parser.add_argument("--turns", type=int, default=200)
    parser.add_argument("--rounds", type=int, default=7)
    parser.add_argument("--folder")
    asked = parser.parse_args()
    with tempfile.TemporaryDirectory() as temporary:
        folder = asked.folder or temporary
        os.makedirs(folder, exist_ok=True)
        forms = built("forms", CRATES, ["0", "write"], folder)
        floor = os.path.join(folder, "forms_floor")
        subprocess.run(["rustc", "-O", "--edition", "2024", "-o", floor, os.path.join(HERE, "forms_floor.rs")], check=True)
        print(f"{'':>18} {'octets':>7} {'ns an octet':>12} {'ratio':>6} {'instructions':>13} {'allocations':>12}")
        for case in CASES:
            octets = int(subprocess.run([floor, "0", case], stdout=subprocess.PIPE, text=True, check=True).stdout.split()[0])
            times = {program: of_a_turn(seconds, [program, case], asked.turns, asked.rounds) for program in (floor, forms)}
            for name, program in {"plain Rust": floor, "pdu_vars": forms}.items():
                row = f"{name + ', ' + case:>18} {octets:>7} {times[program] / octets * 1e9:>12.2f} {times[program] / times[floor]:>6.2f}"
                if shutil.which("valgrind"):
                    counts = [of_a_turn(measure, [program, case], 10, 1) for measure in (instructions, allocations)]
                    row += f" {counts[0] / octets:>13.1f} {counts[1]:>12.1f}"
                print(row)


if __name__ == "__main__":
    main()
