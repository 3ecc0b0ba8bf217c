#!/usr/bin/env python3
"""Tries what stands at the program's edge, and prints the table of docs/RECORDING.md, *At the edge*.

    bench/edges.py [--program PATH] [--check PAGE]

What is on standard input and standard output in each case is said in the table: a directory, a closed input, a pipe whose
reader is gone, a full disk, an input that has nothing and isn't blocking, a read that a signal interrupts, and so on. Each
has a status and the sentence on standard error. --check ends with status 1 where a page doesn't have exactly these lines.
A C compiler makes the interrupted calls (bench/failing.c).
"""

import argparse
import errno
import os
import subprocess
import sys
import tempfile

from failing import OPEN, Refusing
from run import HERE

TEXT = f"mms-recording 1\nconfig\nend\n1 {OPEN}\nphase\n1 8B00\n".encode()


class Edge:
    """The program, and a folder for what it is given."""

    def __init__(self, program, folder):
        self.program, self.folder = program, folder
        self.refusing = Refusing(program, folder)
        self.path = os.path.join(folder, "recording.mms")
        with open(self.path, "wb") as file:
            file.write(TEXT)

    def ended(self, source, sink, before=None):
        """The status and what was told, with these files on standard input and output."""
        ran = subprocess.Popen([self.program, "replay"], stdin=source, stdout=sink, stderr=subprocess.PIPE, preexec_fn=before)
        told = ran.communicate(timeout=60)[1]
        return ran.returncode, told.decode()

    def opened(self, path, flags=os.O_RDONLY):
        return os.open(path, flags)

    def a_recording(self):
        return self.ended(self.opened(self.path), subprocess.DEVNULL)

    def a_directory(self):
        return self.ended(self.opened(self.folder), subprocess.DEVNULL)

    def nothing(self):
        return self.ended(subprocess.DEVNULL, subprocess.DEVNULL)

    def a_closed_input(self):
        return self.ended(None, subprocess.DEVNULL, lambda: os.close(0))

    def written_only(self):
        return self.ended(self.opened(self.path, os.O_WRONLY | os.O_APPEND), subprocess.DEVNULL)

    def not_blocking(self):
        source, end = os.pipe()
        os.set_blocking(source, False)
        try:
            return self.ended(source, subprocess.DEVNULL)
        finally:
            os.close(end)

    def not_blocking_and_ready(self):
        """All of a recording in a pipe whose writer is gone."""
        source, end = os.pipe()
        os.write(end, TEXT)
        os.close(end)
        os.set_blocking(source, False)
        return self.ended(source, subprocess.DEVNULL)

    def interrupted_read(self):
        status, _, told, _ = self.refusing.run(["replay"], TEXT, FAIL_READ=1, FAIL_BY=errno.EINTR)
        return status, told.decode()

    def interrupted_write(self):
        status, _, told, _ = self.refusing.run(["replay"], TEXT, FAIL_WRITE=1, FAIL_BY=errno.EINTR)
        return status, told.decode()

    def a_closed_output(self):
        return self.ended(self.opened(self.path), None, lambda: os.close(1))

    def read_only(self):
        return self.ended(self.opened(self.path), self.opened(self.path))

    def a_full_disk(self):
        return self.ended(self.opened(self.path), self.opened("/dev/full", os.O_WRONLY))

    def a_pipe_without_reader(self):
        end, sink = os.pipe()
        os.close(end)
        return self.ended(self.opened(self.path), sink)

    def a_full_pipe(self):
        """A pipe that nobody reads from and that isn't blocking, and is full."""
        end, sink = os.pipe()
        os.set_blocking(sink, False)
        try:
            while True:
                os.write(sink, bytes(65536))
        except BlockingIOError:
            pass
        try:
            return self.ended(self.opened(self.path), sink)
        finally:
            os.close(end)

    def no_standard_error(self):
        """Both an input that can't be read and no place to tell it."""
        ran = subprocess.run([self.program, "replay"], stdin=self.opened(self.folder), stdout=subprocess.DEVNULL,
                             preexec_fn=lambda: os.close(2), timeout=60)
        return ran.returncode, ""


CASES = [
    ("a recording", "open", Edge.a_recording),
    ("a directory", "open", Edge.a_directory),
    ("empty", "open", Edge.nothing),
    ("closed", "open", Edge.a_closed_input),
    ("open for writing alone", "open", Edge.written_only),
    ("a pipe that isn't blocking and has nothing yet", "open", Edge.not_blocking),
    ("a pipe that isn't blocking, with a recording and its end", "open", Edge.not_blocking_and_ready),
    ("a read that a signal interrupts", "open", Edge.interrupted_read),
    ("a recording", "closed", Edge.a_closed_output),
    ("a recording", "open for reading alone", Edge.read_only),
    ("a recording", "a full disk (`/dev/full`)", Edge.a_full_disk),
    ("a recording", "a pipe whose reader is gone", Edge.a_pipe_without_reader),
    ("a recording", "a pipe that isn't blocking and is full", Edge.a_full_pipe),
    ("a recording", "a write that a signal interrupts", Edge.interrupted_write),
    ("a directory, and standard error is closed", "open", Edge.no_standard_error),
]


def main():
    parser = argparse.ArgumentParser(description=__doc__, formatter_class=argparse.RawDescriptionHelpFormatter)
    parser.add_argument("--program", default=os.path.join(HERE, "..", "crates", "mmscell", "out", "mmscell"))
    parser.add_argument("--check", metavar="PAGE")
    asked = parser.parse_args()
    lines = ["| standard input | standard output | status | told on standard error |", "|---|---|---|---|"]
    with tempfile.TemporaryDirectory() as folder:
        edge = Edge(asked.program, folder)
        for source, sink, case in CASES:
            status, told = case(edge)
            said = f"`{told.rstrip()}`" if told else ""
            ends = f"by signal {-status}" if status < 0 else status
            lines.append(f"| {source} | {sink} | {ends} | {said} |".replace("|  |", "| |"))
    table = "\n".join(lines)
    print(table)
    if asked.check:
        with open(asked.check, encoding="utf-8") as page:
            if table not in page.read():
                sys.exit(f"{asked.check} doesn't have this table")


if __name__ == "__main__":
    main()
