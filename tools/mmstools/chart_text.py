"""How wide texts of a chart are, how they are cut into lines, and how numbers and times are spelled there."""

import re
from functools import lru_cache

from .texts import count  # noqa: F401

FONT = "'DejaVu Sans', Verdana, 'Segoe UI', Helvetica, Arial, sans-serif"
SIZE, SMALL, TINY = 12, 10.5, 9  # sizes of letters
LONGEST = 2000  # signs of a text of which lines are made; the rest is counted

# Widths of the signs from 20 to 7E hex in hundredths of the size: DejaVu Sans, the widest of the fonts, and its bold.
PLAIN = """
32 40 46 84 64 95 78 27 39 39 50 84 32 36 32 34 64 64 64 64 64 64 64 64 64 64 34 34 84 84 84 53 100 68 69 70 77 63 58
77 75 29 29 66 56 86 75 79 60 79 69 63 61 73 68 99 69 61 69 39 34 39 84 50 50 61 63 55 63 62 35 63 63 28 28 58 28 97 63
61 63 63 41 52 39 63 59 82 59 59 52 64 34 64 84
"""
BOLD = """
35 46 52 84 70 100 87 31 46 46 52 84 38 42 38 37 70 70 70 70 70 70 70 70 70 70 40 40 84 84 84 58 100 77 76 73 83 68 68
82 84 37 37 77 64 100 84 85 73 85 77 72 68 81 77 110 77 72 73 46 37 46 84 50 50 67 72 59 72 68 44 72 71 34 34 67 34 104
71 69 72 72 49 60 48 71 65 92 65 65 58 71 37 71 84
"""
WIDTHS = {bold: [int(number) for number in table.split()] for bold, table in ((False, PLAIN), (True, BOLD))}
WIDEST = 100  # of a sign that is not in the tables, such as those of other scripts


def width(text: str, size: float = SIZE, bold: bool = False) -> float:
    """How wide a text is."""
    return _units(text, bold) * size / 100


@lru_cache(maxsize=1 << 16)
def _units(text: str, bold: bool = False) -> int:
    """How wide a text is in hundredths of its size."""
    table = WIDTHS[bold]
    return sum(table[ord(c) - 32] if 32 <= ord(c) < 127 else WIDEST for c in text)


def fitting(text: str, room: float, size: float = SIZE, bold: bool = False) -> int:
    """How many signs of a text fit into that room from its begin on."""
    at = 0.0
    for i, sign in enumerate(text):
        at += width(sign, size, bold)
        if at > room:
            return i
    return len(text)


def cut(text: str, room: float, size: float = SIZE, bold: bool = False) -> str:
    """The text, or as much of its begin as fits, with two dots behind it."""
    if fitting(text, room, size, bold) == len(text):
        return text
    return text[: fitting(text, room - width(" ..", size, bold), size, bold)] + " .."


def wrap(text: str, room: float, most: int, first: float = 0, size: float = SIZE) -> list[str]:
    """The text in at most so many lines of that room; `first` is taken from the room of line 1.

    Words stay whole where they fit into a line. What is left out is counted at the end of the last line.
    """
    lines, line, at = [], "", room - first
    for word in re.findall(r"\S+|\s+", text[:LONGEST]):
        while (_units(line) + _units(word)) * size / 100 > at:
            if word.isspace():
                word = ""
            elif line.strip() or at < room:
                lines.append(line)
                line, word, at = "", word.lstrip(), room
            else:
                keep = max(fitting(word, at, size), 1)
                lines.append(word[:keep])
                word = word[keep:]
        line += word
    lines.append(line)
    if len(lines) <= most and len(text) <= LONGEST:
        return [line.rstrip() for line in lines]
    return _shortened(text, lines[:most], room - (first if most == 1 else 0), size)


def _shortened(text: str, lines: list[str], room: float, size: float) -> list[str]:
    """These lines of a text, the last of which says how many signs of it are left out."""
    signs = re.sub(r"\s", "", text)
    before = sum(len(re.sub(r"\s", "", line)) for line in lines[:-1])
    last = lines[-1]
    last = last[: fitting(last, room - width(f" .. {len(text)} more signs", size), size)].rstrip()
    shown = before + len(re.sub(r"\s", "", last))
    return [line.rstrip() for line in lines[:-1]] + [f"{last} .. {len(signs) - shown} more signs".lstrip()]


def span(ms: int) -> str:
    """A time in words."""
    if ms < 10000:
        return f"{ms} ms"
    if ms < 600000:
        return f"{ms / 1000:.3f}".rstrip("0").rstrip(".") + " s"
    return f"{ms // 3600000}:{ms // 60000 % 60:02}:{ms // 1000 % 60:02}.{ms % 1000:03} h"


def hexadecimal(octets: bytes, most: int = 480) -> str:
    """The octets in pairs of digits, at most so many of them, with how many are left out."""
    shown = octets[:most].hex(" ").upper()
    return shown if len(octets) <= most else f"{shown} .. {len(octets) - most} more octets"
