"""What the tests of the tools share: the examples whose reports the gate checks, and the program, if there is one."""
import contextlib
import glob
import io
import os
import random
import re
import shutil
import subprocess
import sys
import tempfile
import time
import unittest
import xml.etree.ElementTree as ET

HERE = os.path.dirname(os.path.abspath(__file__))
TOP = os.path.dirname(os.path.dirname(HERE))
sys.path[:0] = [os.path.dirname(HERE), HERE]
import conversation  # noqa: E402
from frames import Connection, Wire, cotp_data, data, finish, pdv, spdu, tlv  # noqa: E402
from mmstools import ber, capture, chart, cli, compare, explain, grammar, learn, texts, words  # noqa: E402
from mmstools.history import history, served  # noqa: E402

DATA = os.path.join(TOP, "crates", "cell_rows", "data")
EXAMPLES = os.environ.get("MMS_EXAMPLES") or os.path.join(DATA, "examples")
REPORTS = sorted(glob.glob(os.path.join(EXAMPLES, "*.report")))
ASK = bytes.fromhex("A826800300FDE881010A82010A830105A416800101810305F100820C03EE1C00000408000079EF18")
YES = bytes.fromhex("A926800300FDE881010A82010A830105A416800101810305E100820C03EF3C1FFF0FFDB8607E0098")
IDENTIFY, NAMED = bytes.fromhex("A0050201018200"), bytes.fromhex("A113020101A20E8003564D44810443454C4C820131")


def _device():
    """The words that begin the program, as the tools find them: MMSCELL's, split as a shell does, or the gate's program."""
    with contextlib.suppress(texts.BadText):
        words_ = chart.program()
        if shutil.which(words_[0]):
            return words_
    return []


DEVICE = _device()
needs_program = unittest.skipUnless(DEVICE, "no program: neither MMSCELL nor crates/mmscell/out")


def text_of(path):
    with open(path, encoding="latin-1") as f:
        return f.read()


def replayed(recording):
    """The report of the program, as text."""
    text = texts.write_recording(recording).encode("latin-1")
    return subprocess.run([*DEVICE, "replay"], input=text, stdout=subprocess.PIPE).stdout.decode("latin-1")


def recordings_of_rows():
    """Every recording of the rows and examples that is served to its end, with the name of its file."""
    parts = re.split(r"(?m)^= ", text_of(os.path.join(DATA, "shorthands")))[1:]
    named = {name.strip(): body.rstrip("\n") for name, _, body in (p.partition("\n") for p in parts)}
    for path in sorted(glob.glob(os.path.join(DATA, "*.rows"))):
        for text in _rows(text_of(path)):
            for _ in range(4):
                text = re.sub(r"<(\w+)>", lambda m: named.get(m[1], m[0]), text)
            with contextlib.suppress(texts.BadText):
                if "<" not in text:
                    yield os.path.basename(path), texts.read_recording(text)
    for path in sorted(glob.glob(os.path.join(EXAMPLES, "*.mms"))):
        yield os.path.basename(path), texts.read_recording(text_of(path))


def _rows(text):
    """The recordings of one file of rows: of `= replay` with status 0, and of `= steps` and `= steps 2`."""
    lines, kind = [], ""
    for line in text.split("\n"):
        if line.startswith("= "):
            if kind == "replay" and line == "= status 0":
                yield "\n".join(lines) + "\n"
            kind = line[2:].split(" ")[0] if line in ("= replay", "= steps", "= steps 2") else ""
            lines = [f"mms-recording {2 if line[-1] == '2' else 1}", "config"] if kind == "steps" else []
        elif kind == "steps" and not line:
            yield "\n".join(lines) + "\n"
            kind = ""
        elif kind:
            lines.append(line.split(" -> ")[0] if kind == "steps" else line)
