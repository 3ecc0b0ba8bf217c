"""Random strings for `mms write`: each is written or refused with a sentence, and never is there a traceback.

    tools/tests/fuzz_write.py [COUNT] [SEED]    100,000 and 1 where they are left out; says how many were written
"""

import random
import sys
import time
from typing import List, Tuple

import common  # noqa: F401  (finds the tools)
from mmstools import grammar, spoken, write
from pdus_of_rows import of_rows
from row_files import rows

ODD = ["invoke=", "9" * 5000, "1e999", "1e38", "-1", "nan", "answer", "0x", "<>", '""', '"\\x', "\0", "[" * 99]
SIGNS = list('abc{}[]<>"=:,@/\\ -0x9T\t\n\u00e9\u20ac')


def pieces(count: int = 600) -> Tuple[List[str], List[str]]:
    """Words of PDUs of the rows, and what they are made of."""
    some = [row for row in rows() if len(row.recording) < 20000]
    base = [spoken.say(o) for o in sorted(of_rows(some)) if len(o) < 120]
    base = base[:: max(1, len(base) // count)]
    known = {t for b in base for t in b.split() if len(t) < 60} | set(grammar.VALUES) | set(SIGNS) | set(ODD)
    return base, sorted(known)


def one(rng: random.Random, base: List[str], known: List[str]) -> str:
    """A random string: of any signs, of known pieces, or words of a PDU with some of it changed."""
    kind = rng.random()
    if kind < 0.25:
        most = (127, 256, 0xD800)
        return "".join(chr(rng.randrange(1, rng.choice(most))) for _ in range(rng.randrange(40)))
    if kind < 0.5:
        return " ".join(rng.choice(known) for _ in range(rng.randrange(8)))
    signs = list(rng.choice(base))
    for _ in range(rng.randrange(1, 4)):
        at, what = rng.randrange(len(signs) + 1), rng.random()
        if what < 0.4:
            signs[at : at + rng.randrange(1, 6)] = []
        else:
            signs[at:at] = rng.choice(known) if what < 0.8 else signs[max(0, at - 8) : at] * rng.randrange(1, 4)
    return "".join(signs)


def tried(count: int, seed: int) -> Tuple[int, int]:
    """How many are written and how many refused; any other exception goes through."""
    rng, (base, known) = random.Random(seed), pieces()
    done = refused = 0
    for _ in range(count):
        said = one(rng, base, known)
        try:
            octets = write.written(said).octets
            assert 1 <= len(octets) <= write.MOST_PDU and octets, said
            done += 1
        except write.BadWords as bad:
            assert 1 <= bad.at <= len(said) + 1 and bad.why, said
            refused += 1
    return done, refused


if __name__ == "__main__":
    asked = [int(x) for x in sys.argv[1:3]] + [100000, 1][len(sys.argv) - 1 :]
    start = time.time()
    counts = tried(*asked)
    print("{} written, {} refused with a sentence, no traceback".format(*counts), f"({time.time() - start:.0f} s)")
