"""The rules of a configuration (docs/RECORDING.md): which is broken, in which row and key.

TOML 1.1 is read, as the device does, by Python's tomllib, as far as that reads it: of what it refuses mmscell decides.
"""

import re
import tomllib
from dataclasses import dataclass
from functools import partial
from typing import Any, Dict, Iterator, List, Optional, Tuple

from . import types_of_cells
from .texts import is_name
from .toml_1_1 import as_1_0

NUMBERS = {"clients": (1, 64), "day": (0, 65535), "ms": (0, 86399999)}
TEXTS = ("vendor", "model", "revision")
ROWS = {
    "cell": {"number": int, "type": str, "value": str, "guard": str},
    "variable": {"name": str, "cell": int},
    "pool": {"name": str, "tokens": list},
}  # the keys of a row, each with the type of its value
MAY_BE_LEFT_OUT = {"guard"}
MOST_CELL, MOST_VARIABLES, MOST_POOLS, MOST_TOKENS = 4095, 4096, 256, 256


@dataclass(frozen=True)
class Broken:
    """A rule that is broken: the row, as `cell` 3, and the key where there is one, and what is wrong with it."""

    rule: int
    what: str
    table: str = ""
    row: int = 0  # from 1 on
    key: str = ""

    def words(self) -> str:
        row = f"row {self.row} of [[{self.table}]]" if self.row else ""
        key = f"key `{self.key}`" if self.key else ""
        place = ", ".join(x for x in (row, key) if x)
        return f"{place}: {self.what}" if place else self.what


def line_of(found: Broken, lines: List[str]) -> Optional[int]:
    """The index of the line with the key, where rows and keys stand on lines of their own; None where they don't."""
    told = re.search(r"\(at line (\d+), column \d+\)$", found.what) if found.rule == 0 else None
    if told:
        return min(int(told[1]), len(lines)) - 1
    row = re.compile(rf"\s*\[\[\s*{re.escape(found.table)}\s*\]\]")
    starts = [i for i, line in enumerate(lines) if row.match(line)]
    if not found.key or found.row > len(starts):
        return None
    start = starts[found.row - 1] + 1 if found.row else 0
    key = re.compile(rf"""\s*["']?{re.escape(found.key)}["']?\s*=""")
    for i, line in enumerate(lines[start:], start):
        if key.match(line):
            return i
        if found.row and line.lstrip().startswith("["):
            return None
    return None


def broken(text: str, edition: str = "1") -> Tuple[Optional[Broken], Dict[str, Any]]:
    """The first breach of the least rule that is broken in that edition, None where all are kept, and the document. None,
    too, where the text can't be read here: `unread` says so."""
    try:
        document = _document(text.encode("latin-1").decode("utf-8-sig"))
    except UnicodeDecodeError as bad:
        return Broken(0, f"no TOML document: {bad}"), {}
    except (ValueError, RecursionError):
        return None, {}
    for rule in (_integers, _keys):
        found = next(rule(document), None)
        if found is not None:
            return found, {}
    names, values = partial(_names, edition), partial(_values, edition)
    for rule in (_ranges, _texts, names, _cells, values, _variables, _pools, _counts):
        found = next(rule(document), None)
        if found is not None:
            return found, document
    return None, document


def unread(text: str) -> Optional[Broken]:
    """Why a text of UTF-8 can't be read here as TOML, None where it can: then rule 0 may be broken, and mmscell decides."""
    try:
        _document(text.encode("latin-1").decode("utf-8-sig"))
    except UnicodeDecodeError:
        return None
    except (ValueError, RecursionError) as bad:
        return Broken(0, f"no TOML that this tool reads: {str(bad) or 'nests too deep'}")
    return None


def _document(text: str) -> Dict[str, Any]:
    """The document of TOML 1.1, which Python's tomllib, of TOML 1.0, reads where nothing newer stands in it."""
    try:
        return tomllib.loads(text)
    except (ValueError, RecursionError):
        return tomllib.loads(as_1_0(text))


def _integers(value: Any, key: str = "") -> Iterator[Broken]:
    """Rule 0 for integers."""
    if type(value) is int and not -(1 << 63) <= value < 1 << 63:
        yield Broken(0, f"{value} is more than 64 bits hold", key=key)
    for inner, part in value.items() if isinstance(value, dict) else []:
        yield from _integers(part, inner)
    for part in value if isinstance(value, list) else []:
        yield from _integers(part, key)


def _keys(document: Dict[str, Any]) -> Iterator[Broken]:
    """Rule 1."""
    for key, value in document.items():
        if key in NUMBERS and type(value) is not int:
            yield Broken(1, f"{_kind(value)} where an integer belongs", key=key)
        elif key in TEXTS and type(value) is not str:
            yield Broken(1, f"{_kind(value)} where a text belongs", key=key)
        elif key in ROWS and not (isinstance(value, list) and all(isinstance(row, dict) for row in value)):
            yield Broken(1, f"{_kind(value)} where rows [[{key}]] belong", key=key)
        elif key in ROWS:
            for number, row in enumerate(value, 1):
                yield from _row_keys(key, number, row)
        elif key not in NUMBERS and key not in TEXTS:
            yield Broken(1, "no key of a configuration", key=key)


def _row_keys(table: str, number: int, row: Dict[str, Any]) -> Iterator[Broken]:
    """Rule 1 in a row."""
    for key, value in row.items():
        wanted = ROWS[table].get(key)
        if wanted is None:
            yield Broken(1, f"no key of a row of [[{table}]]", table, number, key)
        elif type(value) is not wanted:
            yield Broken(1, f"{_kind(value)} where {KINDS[wanted]} belongs", table, number, key)
        elif wanted is list and not all(type(token) is str for token in value):
            yield Broken(1, "not each of it is a text", table, number, key)
    for key in ROWS[table]:
        if key not in row and key not in MAY_BE_LEFT_OUT:
            yield Broken(1, "is missing", table, number, key)


KINDS = {int: "an integer", str: "a text", list: "an array", dict: "a table", bool: "a boolean", float: "a float"}


def _kind(value: Any) -> str:
    """What TOML calls a value."""
    return KINDS.get(type(value), "a date or a time")


def _rows(document: Dict[str, Any], table: str) -> Iterator[Tuple[int, Dict[str, Any]]]:
    return enumerate(document.get(table, []), 1)


def _ranges(document: Dict[str, Any]) -> Iterator[Broken]:
    """Rule 2."""
    for key, (least, most) in NUMBERS.items():
        if not least <= document.get(key, least) <= most:
            yield Broken(2, f"{document[key]} is not from {least} to {most}", key=key)


def _texts(document: Dict[str, Any]) -> Iterator[Broken]:
    """Rule 3."""
    for key in TEXTS:
        value = document.get(key, "-")
        if not re.fullmatch(r"[ -~]{1,32}", value):
            yield Broken(3, f"{value!r} is not 1 to 32 octets from 20 to 7E", key=key)


def _names(edition: str, document: Dict[str, Any]) -> Iterator[Broken]:
    """Rule 4."""
    for table, key in (("cell", "guard"), ("variable", "name"), ("pool", "name"), ("pool", "tokens")):
        for number, row in _rows(document, table):
            names = row.get(key, []) if key == "tokens" else [row[key]] if key in row else []
            for name in names:
                if not is_name(name, edition):
                    yield Broken(4, f"{name!r} is no Identifier", table, number, key)


def _cells(document: Dict[str, Any]) -> Iterator[Broken]:
    """Rule 5."""
    seen: Dict[int, int] = {}
    for number, row in _rows(document, "cell"):
        if not 0 <= row["number"] <= MOST_CELL:
            yield Broken(5, f"{row['number']} is not from 0 to {MOST_CELL}", "cell", number, "number")
        if row["number"] in seen:
            other = seen[row["number"]]
            yield Broken(5, f"{row['number']} is the number of row {other}, too", "cell", number, "number")
        seen[row["number"]] = number


def _values(edition: str, document: Dict[str, Any]) -> Iterator[Broken]:
    """Rule 6."""
    for number, row in _rows(document, "cell"):
        for key, what in types_of_cells.wrong(row["type"], row["value"], edition):
            yield Broken(6, what, "cell", number, key)


def _variables(document: Dict[str, Any]) -> Iterator[Broken]:
    """Rule 7."""
    numbers = {row["number"] for _, row in _rows(document, "cell")}
    seen: Dict[str, int] = {}
    for number, row in _rows(document, "variable"):
        if row["name"] in seen:
            yield Broken(7, f"{row['name']} is the name of row {seen[row['name']]}, too", "variable", number, "name")
        if row["cell"] not in numbers:
            yield Broken(7, f"there is no cell {row['cell']}", "variable", number, "cell")
        seen[row["name"]] = number


def _pools(document: Dict[str, Any]) -> Iterator[Broken]:
    """Rule 8."""
    seen: Dict[str, int] = {}
    for number, row in _rows(document, "pool"):
        tokens: List[str] = row["tokens"]
        if not 1 <= len(tokens) <= MOST_TOKENS:
            yield Broken(8, f"there are {len(tokens)} tokens, not 1 to {MOST_TOKENS}", "pool", number, "tokens")
        twice = next((t for i, t in enumerate(tokens) if t in tokens[:i]), None)
        if twice is not None:
            yield Broken(8, f"{twice} stands twice", "pool", number, "tokens")
        if row["name"] in seen:
            yield Broken(8, f"{row['name']} is the name of row {seen[row['name']]}, too", "pool", number, "name")
        seen[row["name"]] = number


def _counts(document: Dict[str, Any]) -> Iterator[Broken]:
    """Rule 9."""
    for table, most in (("variable", MOST_VARIABLES), ("pool", MOST_POOLS)):
        if len(document.get(table, [])) > most:
            yield Broken(9, f"there are {len(document[table])} rows of [[{table}]], more than {most}")
