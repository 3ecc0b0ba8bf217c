#!/usr/bin/env python3
"""Measures a table of parts beside a mutex of plain Rust, and prints a table.

    bench/table.py [--parts N,N,..] [--turns N] [--rounds N] [--folder PATH]

A turn of the table takes a part that holds a number, adds one to it, commits and gives the part back, by the one caller
of a table of so many parts; a turn of the mutex locks an uncontended `Mutex<Box<u64>>`, adds one and unlocks it. Both
run on one thread. The program over part_table stands in bench/table, each file with .txt after its name, as the gate
refuses every .rt file outside the crates. It is proved and built in a folder of its own, beside a copy of the
crate part_table, with what out/ has of the crate's proof; that takes minutes where it has none. --folder keeps it.

The time of a turn is the difference between the least times of 11 N turns and of N turns, divided by 10 N: user and
system time of the process, several rounds in one run. Where valgrind is there, instructions and allocations of a turn are
counted in the same way, on 10,000 and 110,000 turns. Nothing here is a test.
"""

import argparse
import os
import re
import shutil
import subprocess
import sys
import tempfile

from run import seconds

HERE = os.path.dirname(os.path.abspath(__file__))
TOP = os.path.dirname(HERE)


def copied_program(name, folder):
    """The program of a folder of bench, with its files under their own names."""
    source = os.path.join(HERE, name)
    for path, _, names in os.walk(source):
        place = os.path.join(folder, os.path.relpath(path, source))
        os.makedirs(place, exist_ok=True)
        for file in names:
            shutil.copyfile(os.path.join(path, file), os.path.join(place, file.removesuffix(".txt")))


def built(name, crates, words, folder):
    """Proves and builds a program in a folder of its own, beside the crates that it stands on, and answers its path."""
    program = name + "_bench"
    place = os.path.join(folder, "crates")
    for crate in crates:
        shutil.copytree(os.path.join(TOP, "crates", crate), os.path.join(place, crate), dirs_exist_ok=True)
    bench = os.path.join(place, program)
    copied_program(name, bench)
    shutil.copyfile(os.path.join(TOP, "HANDLES"), os.path.join(folder, "HANDLES"))
    with open(os.path.join(TOP, "crates.txt")) as listed, open(os.path.join(folder, "crates.txt"), "w") as out:
        out.writelines(line for line in listed if line.split(":")[0] in crates)
        out.write(f"{program}: {' '.join(crates)}\n")
    done = subprocess.run(["rt", "run", "--", *words], cwd=bench, stdout=subprocess.PIPE, stderr=subprocess.STDOUT, text=True)
    if done.returncode != 0:
        sys.exit(done.stdout)
    return os.path.join(bench, "out", program)


def counted(tool, pattern, words):
    """What a tool of valgrind counts of one run."""
    told = subprocess.run(["valgrind", *tool, *words], stdout=subprocess.DEVNULL, stderr=subprocess.PIPE, text=True, check=True)
    return int(re.search(pattern, told.stderr).group(1).replace(",", ""))


def instructions(words):
    return counted(["--tool=callgrind", "--callgrind-out-file=/dev/null"], r"Collected : (\d+)", words)


def allocations(words):
    return counted(["--tool=memcheck"], r"total heap usage: ([\d,]+) allocs", words)


def of_a_turn(measure, program, turns, rounds):
    """What a turn takes, by the least of several rounds at two numbers of turns."""
    least = lambda count: min(measure([program[0], str(count), *program[1:]]) for _ in range(rounds))
    return (least(11 * turns) - least(turns)) / (10 * turns)


def main():
    parser = argparse.ArgumentParser(description=__doc__, formatter_class=argparse.RawDescriptionHelpFormatter)
    parser.add_argument("--parts", default="1,200,256")
    parser.add_argument("--turns", type=int, default=1_000_000)
    parser.add_argument("--rounds", type=int, default=7)
    parser.add_argument("--folder")
    asked = parser.parse_args()
    with tempfile.TemporaryDirectory() as temporary:
        folder = asked.folder or temporary
        os.makedirs(folder, exist_ok=True)
        table = built("table", ["part_table"], ["0", "1"], folder)
        mutex = os.path.join(folder, "mutex_floor")
        subprocess.run(["rustc", "-O", "-o", mutex, os.path.join(HERE, "mutex_floor.rs")], check=True)
        programs = {"mutex": [mutex]}
        programs |= {f"table, parts: {parts}": [table, parts] for parts in asked.parts.split(",")}
        times = {name: of_a_turn(seconds, program, asked.turns, asked.rounds) for name, program in programs.items()}
        print(f"{'':>20} {'ns a turn':>10} {'ratio':>6} {'instructions':>13} {'allocations':>12}")
        for name, program in programs.items():
            row = f"{name:>20} {times[name] * 1e9:>10.1f} {times[name] / times['mutex']:>6.2f}"
            if shutil.which("valgrind"):
                row += f" {of_a_turn(instructions, program, 10_000, 1):>13.1f} {of_a_turn(allocations, program, 10_000, 1):>12.1f}"
            print(row)


if __name__ == "__main__":
    main()
