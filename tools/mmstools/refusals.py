"""What a recording is refused for (docs/RECORDING.md): each word and each rule of the
configuration in one table, and which of them a recording breaks first, with the line, the row and the key."""

import re
from dataclasses import dataclass
from typing import Iterator, List, Optional, Tuple

from .configuration import Broken, broken, line_of, unread
from .texts import CLIENTS, MOST_EVENTS, MOST_OCTETS, MOST_PDU, MOST_TICK, is_name

LINE, CONFIG_TEXT = 196608, 1048576  # octets
DAY, LAST_DAY = 86400000, 65535
HEADERS = {"mms-recording 1": "1", "mms-recording 2": "2"}  # the first line, and the edition that it names


@dataclass(frozen=True)
class Meaning:
    """When a word is told, and what to look at."""

    where: str
    look: str


WORDS = {
    "header": Meaning(
        "line 1 is neither `mms-recording 1` nor `mms-recording 2`, or is missing",
        "the first line: no blank before or behind it, no mark of UTF-8 in front; is it a recording at all?",
    ),
    "config": Meaning(
        "line 2 is not `config`, or no line is `end` (told at the number after the last line), or the text of the"
        " configuration passes 1,048,576 octets",
        "the line of that number: is it `config`? Is there a line `end`, with nothing else in it?",
    ),
    "long": Meaning(
        "the line has more than 196,608 octets", "a line feed that is missing; a PDU of more than 65,000 octets"
    ),
    "event": Meaning(
        "an event line does not begin with a digit and is none of the forms: `lost <client>`, `tick <ms>` with 1 to"
        " 3,600,000 ms, `ends <name>`, `phase`, or `#` and anything",
        "the spelling of the first word, the range of the milliseconds, the letters of the name; a `#` that is not the"
        " first sign of its line",
    ),
    "hex": Meaning(
        "an event line begins with a digit and is not of the form `<client> <hex>`: a number of 1 to 9 digits, a blank,"
        " and 1 to 65,000 octets as pairs of hexadecimal digits",
        "the space behind the client's number; an odd digit; spaces within a pair; a comment behind the octets",
    ),
    "client": Meaning(
        "the client is not one of 1 to n", "`clients` in the configuration, which is 4 where it is not there"
    ),
    "clock": Meaning(
        "the moment would pass the last millisecond of day 65,535, counted from 1 January 1984",
        "`day` and `ms` in the configuration, and the ticks up to that line",
    ),
    "too much": Meaning(
        "the line holds the 16,385th event of a phase, the 67,108,865th octet of its PDUs, or the input's"
        " 4,294,967,297th octet",
        "the length of the phase with that line: more lines `phase`",
    ),
}

RULES = {
    0: Meaning(
        "the text is not a TOML document, which is UTF-8, or holds an integer that 64 bits do not, or a key twice",
        "quotes round texts, `=` between key and value, one key a line",
    ),
    1: Meaning(
        "a key is not listed, in the document or in a row; a row lacks a key; or a value is of another TOML type",
        "the keys, in small letters; numbers without quotes, texts with them; `[[cell]]` in double brackets, and other"
        " keys before the first of them; square brackets round the tokens, also round one",
    ),
    2: Meaning(
        "`clients`, `day` or `ms` is out of range",
        "the ranges: clients 1 to 64, day 0 to 65,535, ms 0 to 86,399,999",
    ),
    3: Meaning(
        "`vendor`, `model` or `revision` is not 1 to 32 octets from 20 to 7E",
        "an empty or too long text; letters beyond ASCII",
    ),
    4: Meaning(
        "the name of a variable or a pool, a guard or a token is not an Identifier",
        "letters, digits, `_` and `$` alone, no digit in front, at most 32 in edition 1 and 64 in edition 2",
    ),
    5: Meaning("a cell's number is not 0 to 4,095, or two cells share one", "the numbers of all cells"),
    6: Meaning(
        "a type or a value is not pairs of digits of one whole element of its form, nests deeper than 10, or the value"
        " is not of the type",
        "an odd digit or a space; lengths, which edition 1 has definite alone, and widths; an array's count of elements",
    ),
    7: Meaning(
        "two variables share a name, or a variable's cell is missing",
        "each `cell` among the numbers of the cells",
    ),
    8: Meaning(
        "a pool has no token, more than 256, or the same twice; or two pools share a name",
        "the tokens of each pool, and the names of all pools; capital and small letters differ",
    ),
    9: Meaning("there are more than 4,096 variables or more than 256 pools", "how many rows there are"),
}


@dataclass(frozen=True)
class Refusal:
    """The last line of a refused report, as `bad 4 hex`: a word at a line, or a rule of the configuration."""

    word: str  # of WORDS, or "config" with a rule
    line: int = 0  # 0 for a rule
    rule: Optional[int] = None
    broken: Optional[Broken] = None  # where the rule is broken, where that is known

    def told(self) -> str:
        """As the report has it."""
        if self.rule is not None:
            return f"bad config {self.rule}"
        return f"too much {self.line}" if self.word == "too much" else f"bad {self.line} {self.word}"

    def meaning(self) -> Meaning:
        return WORDS[self.word] if self.rule is None else RULES[self.rule]

    @property
    def status(self) -> int:
        """That of the program."""
        return 6 if self.rule is not None else 7 if self.word == "too much" else 2


def read_told(line: str) -> Optional[Refusal]:
    """The refusal that the last line of a report tells; None where it is none."""
    m = re.fullmatch(r"bad config (\d+)", line)
    if m:
        return Refusal("config", rule=int(m[1])) if int(m[1]) in RULES else None
    m = re.fullmatch(r"bad ([1-9]\d*) (\w+)", line)
    if m:
        return Refusal(m[2], int(m[1])) if m[2] in WORDS else None
    m = re.fullmatch(r"too much ([1-9]\d*)", line)
    return Refusal("too much", int(m[1])) if m else None


def lines_of(text: str) -> List[Tuple[str, int]]:
    """The lines, a carriage return before the line feed dropped, each with how many octets it has as it stands."""
    raw = text.split("\n")
    out = [(line[:-1] if line.endswith("\r") else line, len(line) + 1) for line in raw[:-1]]
    return out + ([(raw[-1], len(raw[-1]))] if raw[-1] else [])


def first_refusal(text: str) -> Optional[Refusal]:
    """The first rule that a recording breaks; its octets are the signs of the text. None where it keeps them all, and
    where mmscell has to decide (`doubt`)."""
    lines = lines_of(text)
    edition = HEADERS.get(lines[0][0], "") if lines else ""
    if not edition:
        return Refusal("header", 1)
    if len(lines) < 2 or lines[1][0] != "config":
        return Refusal("config", 2)
    end, refusal = _end(lines)
    if refusal is not None:
        return refusal
    config = _config(lines, end)
    found, document = broken(config, edition)
    if found is not None:
        return Refusal("config", rule=found.rule, broken=found)
    if unread(config) is not None:
        return None
    start = document.get("day", 0) * DAY + document.get("ms", 0)
    return _events(lines[end + 1 :], end + 2, document.get("clients", CLIENTS), start, edition)


def _config(lines: List[Tuple[str, int]], end: int) -> str:
    """The configuration's text."""
    return "".join(line + "\n" for line, _ in lines[2:end])


def doubt(text: str) -> Optional[Refusal]:
    """The refusal of a recording whose configuration can't be read here, and of which mmscell decides whether it is TOML;
    None of any other text."""
    lines = lines_of(text)
    if len(lines) < 2 or lines[0][0] not in HEADERS or lines[1][0] != "config":
        return None
    end, refusal = _end(lines)
    found = unread(_config(lines, end)) if refusal is None else None
    return Refusal("config", rule=0, broken=found) if found is not None else None


def undecided(found: Refusal, text: str) -> Iterator[str]:
    """The sentences on a recording of which mmscell has to decide, with the line at which this tool reads no further."""
    yield f"Note: the configuration is {found.broken.words()}. Whether it is one, mmscell decides, and its report tells."
    yield from _line_shown(found, text)


def _end(lines: List[Tuple[str, int]]) -> Tuple[int, Optional[Refusal]]:
    """The index of the line `end`, and what is wrong with the lines before it."""
    size = 0
    for i, (line, as_it_stands) in enumerate(lines[2:], 2):
        if line == "end":
            return i, None
        size += as_it_stands if len(line) > LINE else len(line) + 1
        if size > CONFIG_TEXT:
            return i, Refusal("config", i + 1)
        if len(line) > LINE:
            return i, Refusal("long", i + 1)
    return len(lines), Refusal("config", len(lines) + 1)


def _events(
    lines: List[Tuple[str, int]], first: int, clients: int, moment: int, edition: str
) -> Optional[Refusal]:
    """The first of these event lines that breaks a rule; they are numbered from the first on."""
    events = octets = 0
    for number, (line, _) in enumerate(lines, first):
        word, what = ("long", "") if len(line) > LINE else _word(line.strip(" \t"), clients, edition)
        if word == "tick":
            moment += int(what)
            word = "" if moment < (LAST_DAY + 1) * DAY else "clock"
        if word:
            return Refusal(word, number)
        if what == "phase":
            events = octets = 0
        elif what:
            events += 1
            octets += len(what) // 2 if line.strip(" \t")[0].isdigit() else 0
        if events > MOST_EVENTS or octets > MOST_OCTETS:
            return Refusal("too much", number)
    return None


def _word(line: str, clients: int, edition: str) -> Tuple[str, str]:
    """The word that refuses an event line, and else what the line says: "" for nothing, "phase", or of an event its
    octets or its argument. A tick, whose moment decides, has the word "tick"."""
    if not line or line[0] == "#":
        return "", ""
    if line == "phase":
        return "", "phase"
    if line[0] in "0123456789":
        m = re.fullmatch(r"([0-9]{1,9})[ \t]+([0-9A-Fa-f]{2}(?: *[0-9A-Fa-f]{2})*)", line)
        digits = m[2].replace(" ", "") if m else ""
        if not m or len(digits) > 2 * MOST_PDU:
            return "hex", ""
        return ("" if 1 <= int(m[1]) <= clients else "client"), digits
    m = re.fullmatch(r"(lost|tick)[ \t]+([0-9]{1,9})", line)
    if m and m[1] == "lost":
        return ("" if 1 <= int(m[2]) <= clients else "client"), m[2]
    if m and 1 <= int(m[2]) <= MOST_TICK:
        return "tick", m[2]
    m = re.fullmatch(r"ends[ \t]+([A-Za-z0-9_$]+)", line)
    return ("", m[1]) if m and is_name(m[1], edition) else ("event", "")


def explained(refusal: Refusal, text: str = "") -> Iterator[str]:
    """The refusal in sentences, with the line itself where the recording's text is there."""
    meaning = refusal.meaning()
    where = f"Line {refusal.line} is refused" if refusal.rule is None else f"Rule {refusal.rule} is broken"
    yield f"`{refusal.told()}` (docs/RECORDING.md). {where} where {meaning.where}."
    yield f"Look at: {meaning.look}"
    if refusal.broken is not None:
        yield f"Here: {refusal.broken.words()}"
    yield from _line_shown(refusal, text)


def _line_shown(refusal: Refusal, text: str) -> Iterator[str]:
    """The line that is refused, or that of the key."""
    lines = [line for line, _ in lines_of(text)]
    number = refusal.line
    if refusal.broken is not None and "end" in lines:
        at = line_of(refusal.broken, lines[2 : lines.index("end", 2)])
        number = 0 if at is None else at + 3
    if 0 < number <= len(lines):
        yield f"Line {number}: {shown(lines[number - 1])}"
    elif number and lines:
        yield f"The recording has {len(lines)} lines, and no line {number}."


def shown(line: str, most: int = 100) -> str:
    """A line between quotes, signs that can't be seen as \\x and two digits, cut where it is long."""
    signs = "".join(c if " " <= c <= "~" else f"\\x{ord(c):02X}" for c in line[:most])
    return f"`{signs}`" + (f" .. ({len(line)} octets)" if len(line) > most else "")
