"""Runs the program with calls of the system that are refused, each in turn (bench/failing.c). A C compiler makes what
stands between."""

import os
import subprocess
import sys

from run import HERE

sys.path.insert(0, os.path.join(HERE, "..", "tools"))
from mmstools import row_files  # noqa: E402

SAID = {
    3: b"mmscell: out of memory\n",
    4: b"mmscell: standard input can't be read\n",
    5: b"mmscell: standard output can't be written\n",
}
OPEN = "A826800300FDE881010A82010A830105A416800101810305F100820C03EE1C00000408000079EF18"


class Refusing:
    """A program, and what stands between it and the system, in a folder."""

    def __init__(self, program, folder):
        self.program, self.library = program, os.path.join(folder, "failing.so")
        source = os.path.join(HERE, "failing.c")
        subprocess.run(["cc", "-O1", "-shared", "-fPIC", "-o", self.library, source, "-ldl"], check=True)

    def run(self, words, recording, mark=None, **refused):
        """The status, what was written and what was told of it; and whether a call was refused."""
        around = {"LD_PRELOAD": self.library, **{name: str(k) for name, k in refused.items()}}
        if mark:
            around["MARK"] = mark
        ran = subprocess.run([self.program, *words], input=recording, capture_output=True, env=around, timeout=600)
        is_refused = bool(mark) and os.path.exists(mark)
        if is_refused:
            os.remove(mark)
        return ran.returncode, ran.stdout, ran.stderr, is_refused


def conversations(titles):
    """The recordings of rows of conversations.rows, by what stands above them, each with a phase for each event."""
    path, found = os.path.join(row_files.DATA, "conversations.rows"), {}
    with open(path, encoding="latin-1") as file:
        for row in row_files.read(file.read(), "conversations.rows"):
            if row.steps and row.told in titles:
                head = row.recording.partition("\nend\n")[0] + "\nend\n"
                found[row.told] = (head + "phase\n".join(f"{step.event.line()}\n" for step in row.steps)).encode()
    missing = set(titles) - set(found)
    if missing:
        sys.exit(f"no row: {', '.join(sorted(missing))}")
    return found
