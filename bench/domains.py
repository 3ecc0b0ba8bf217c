#!/usr/bin/env python3
"""Counts what loading and uploading a domain take beside the same in plain Rust, by valgrind, and prints a table.

    bench/domains.py [--turns N] [--program PATH] [--folder PATH]

A turn loads a domain of 65,536 octets and deletes it, or tells the piece of 4,096 octets in its middle; each of a domain
in segments of 1, of 1,024 and of 65,536 octets. The program over domain_load and domain_upload stands in bench/domains,
each file with .txt after its name, as the gate refuses every .rt file outside the crates; the floor is
bench/domains_floor.rs, which keeps octets joined. The program is proved and built in a folder of its own, beside copies
of the crates that it stands on, with what their out/ has of their proofs. --folder keeps it, and --program names one that
is built.

Instructions and allocations of a turn are the difference between 11 N turns and N turns, divided by 10 N. The memory is
the greatest amount that is allocated at a time by one load, by dhat. Needs valgrind. Nothing here is a test.
"""

import argparse
import os
import re
import subprocess
import tempfile

from table import HERE, allocations, built, instructions, of_a_turn

CRATES = ["mms_types", "object_names", "domain_load", "domain_upload"]
SEGMENTS = ["1", "1024", "65536"]


def most_allocated(words):
    """The octets that are allocated where they are most."""
    told = subprocess.run(["valgrind", "--tool=dhat", "--dhat-out-file=/dev/null", *words], stdout=subprocess.DEVNULL, stderr=subprocess.PIPE, text=True, check=True)
    return int(re.search(r"At t-gmax:\s+([\d,]+) bytes", told.stderr).group(1).replace(",", ""))


def main():
    parser = argparse.ArgumentParser(description=__doc__, formatter_class=argparse.RawDescriptionHelpFormatter)
    parser.add_argument("--turns", type=int, default=10)
    parser.add_argument("--program")
    parser.add_argument("--folder")
    asked = parser.parse_args()
    with tempfile.TemporaryDirectory() as temporary:
        folder = asked.folder or temporary
        os.makedirs(folder, exist_ok=True)
        tables = asked.program or built("domains", CRATES, ["0", "load", "1"], folder)
        floor = os.path.join(folder, "domains_floor")
        subprocess.run(["rustc", "-O", "--edition", "2024", "-o", floor, os.path.join(HERE, "domains_floor.rs")], check=True)
        print(f"{'':>28} {'instructions':>13} {'ratio':>6} {'allocations':>12} {'most octets':>12}")
        for case in ("load", "piece"):
            for segment in SEGMENTS:
                plain = of_a_turn(instructions, [floor, case, segment], asked.turns, 1)
                for name, program in {"plain Rust": floor, "tables": tables}.items():
                    words = [program, case, segment]
                    count = of_a_turn(instructions, words, asked.turns, 1)
                    row = f"{f'{name}, {case}, {segment}':>28} {count:>13,.0f} {count / plain:>6.2f} {of_a_turn(allocations, words, asked.turns, 1):>12.1f}"
                    if case == "load":
                        row += f" {most_allocated([program, '1', case, segment]):>12,}"
                    print(row)


if __name__ == "__main__":
    main()
