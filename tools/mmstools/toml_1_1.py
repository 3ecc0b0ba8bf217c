"""What TOML 1.1 has beyond TOML 1.0, spelled as TOML 1.0, which Python's tomllib reads: the escapes `\\x41` and `\\e`,
line feeds, comments and a last comma in inline tables, and times without seconds. The numbers of lines stay."""

import re
from typing import List

TOKEN = re.compile(
    r'(?P<basic>"""(?:[^\\]|\\[\s\S])*?"{3,5}|"(?:[^"\\\n]|\\.)*")'
    r"|(?P<literal>'''[\s\S]*?'{3,5}|'[^'\n]*')"
    r"|(?P<comment>#[^\n]*)|(?P<feed>\n)|(?P<blank>[ \t\r]+)|(?P<sign>[][{},])|(?P<other>[^][{},\s\"'#]+|.)"
)
ESCAPE = re.compile(r"\\(?:x([0-9A-Fa-f]{2})|(e)|[\s\S])")
NO_SECONDS = re.compile(r"(?<![\d:])(\d\d:\d\d)(?![\d:])")


def as_1_0(text: str) -> str:
    """The text of the same meaning in TOML 1.0; where it isn't TOML 1.1, one that isn't TOML 1.0."""
    out: List[str] = []
    opened: List[str] = []  # brackets and braces
    feeds = 0  # line feeds of inline tables that were left out
    for m in TOKEN.finditer(text):
        kind, word = str(m.lastgroup), m[0]
        within = bool(opened) and opened[-1] == "{"
        if within and kind in ("comment", "feed"):
            feeds += kind == "feed"
            word = " "
        elif kind == "feed":
            word, feeds = "\n" * (feeds + 1), 0
        elif kind == "basic":
            word = ESCAPE.sub(_escape, word)
        elif kind == "other":
            word = NO_SECONDS.sub(r"\1:00", word)
        elif kind == "sign":
            _last_comma(out, word, within)
            _follow(opened, word)
        out.append(word)
    return "".join(out)


def _escape(m) -> str:
    """An escape as TOML 1.0 has it."""
    return f"\\u00{m[1]}" if m[1] else "\\u001B" if m[2] else m[0]


def _last_comma(out: List[str], word: str, within: bool) -> None:
    """Takes the comma before the end of an inline table away, where something stands before it."""
    if word != "}" or not within:
        return
    signs = [i for i in range(len(out) - 1, -1, -1) if out[i].strip()][:2]
    if len(signs) == 2 and out[signs[0]] == "," and out[signs[1]] not in ("{", ","):
        out[signs[0]] = " "


def _follow(opened: List[str], word: str) -> None:
    """What is open behind that sign."""
    if word in "[{":
        opened.append(word)
    elif word in "]}" and opened:
        opened.pop()
