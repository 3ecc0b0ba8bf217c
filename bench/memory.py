#!/usr/bin/env python3
"""Tells which functions may answer want of memory without a cause, and which refuse without saying what stays.

    bench/memory.py [--check] [--all]

The first list has the functions that answer a `Result` whose error may be want of memory and that are lent no
allocator, and of which no clause says where they refuse. What pushes onto a vector, or calls what does, needs no such
clause; it has to say in its documentation that memory may be wanting. The second list has the functions that change
what they are lent and may refuse, and of which no clause says what is left then. The lists are of public functions;
--all tells the others, too. --check fails where there is any.
"""

import argparse
import os
import re
import sys
from typing import Iterator

TOP = os.path.join(os.path.dirname(os.path.abspath(__file__)), "..", "crates")
HEAD = re.compile(r"^( *)(pub(?:\([^)]*\))? )?(?:const )?fn (\w+)")
CALL = re.compile(r"(?<![\w!])(\w+)\(")
# what appends, or makes room to append
PUSHES = {"push", "reserve", "insert", "insert_full", "extend_from_slice", "push_back", "collect"}
# a clause that tells the whole answer, or of which cause a refusal is
CAUSE = re.compile(r"\b(?:Serves\w*|NeedsNoMemory|NoMemoryWanting|IsOkUnless|OkIff|MatchResult|IsErrOf)\b|"
                   r"IsOk result|IsErr result|result(?:\.\w+)? ≡ |told\.new ≡ ")
REFUSED = re.compile(r"\b(?:OnErr|IfErr)\b")
# a clause that says what is left of what was lent, by an equation or a relation of both
STAYS = re.compile(r"\.new\b[^{}]*≡|≡[^{}]*\.new\b|\.old\b.*\.new\b|\.new\b.*\.old\b")


def sources() -> Iterator[tuple[str, str, list[str]]]:
    """Each source file of a crate that isn't of tests, with its lines."""
    for crate in sorted(os.listdir(TOP)):
        folder = os.path.join(TOP, crate, "src")
        if crate.endswith(("_tests", "_rows")) or not os.path.isdir(folder):
            continue
        for name in sorted(os.listdir(folder)):
            if name.endswith(".rt"):
                with open(os.path.join(folder, name), encoding="utf-8") as file:
                    yield crate, name[:-3], file.read().split("\n")


def types() -> tuple[set[str], set[str]]:
    """The types of errors that may be want of memory, and the types that have an allocator of their own."""
    wanting, lending = {"Memory", "Full"}, {"Global", "Writer", "Text"}
    for _, _, lines in sources():
        inside = None
        for line in lines:
            if head := re.match(r"(?:pub(?:\([^)]*\))? )?(?:enum|struct) (\w+)", line):
                inside = head[1]
            elif line == "}":
                inside = None
            elif inside and re.match(r"    Memory\b", line):
                wanting.add(inside)
            elif inside and re.match(r"    (?:pub(?:\([^)]*\))? )?alloc: Global", line):
                lending.add(inside)
    return wanting, lending


class Function:
    """A function: its documentation, what it takes and answers, its clauses, one text each, and its body."""

    def __init__(self, crate: str, module: str, lines: list[str], at: int, head: re.Match[str]):
        self.title = f"{crate}::{module}::{head[3]}"
        self.crate, self.name = crate, head[3]
        self.public, indent = (head[2] or "").strip() == "pub", head[1]
        first = at
        while first and re.match(r" *(///|#\[)", lines[first - 1]):
            first -= 1
        self.doc = " ".join(line.strip(" /") for line in lines[first:at])
        end = at
        clauses = False
        while lines[end] not in (indent + "{", indent + "{}") and not lines[end].endswith(
                "};" if clauses else (" {", "{}", ";")):
            end += 1
            clauses = clauses or re.match(r" *(requires|ensures|where)\b", lines[end]) is not None
        text = lines[at:end + 1]
        rest = re.compile(r" *(requires|ensures|where|ghost)\b")
        cut = next((n for n, line in enumerate(text) if rest.match(line)), len(text))
        self.signature = " ".join(line.strip() for line in text[:cut])
        parts = re.split(r"\n *(?=ensures|requires)", "\n".join(text[cut:]))
        self.clauses = [" ".join(it.split()) for it in parts if it.strip().startswith("ensures")]
        close = end
        while close < len(lines) and lines[close] != indent + "}" and not lines[end].endswith((";", "{}")):
            close += 1
        self.called = set(CALL.findall("\n".join(lines[end + 1:close])))
        around = next((it for it in reversed(lines[:at]) if re.match(r"impl\b|(pub(\([^)]*\))? )?trait\b", it)), "")
        self.around = around if indent else ""

    def error(self) -> str | None:
        """The type of the error that it answers, where it answers a `Result`."""
        found = re.search(r"-> Result<(.*)>", self.signature)
        return found and re.sub(r"<.*", "", re.split(r", (?![^<]*>)", found[1])[-1].strip())

    def is_lent(self, lending: set[str]) -> bool:
        """It gets an allocator, by itself or in what it is lent."""
        taken = re.split(r"\) ->", self.signature)[0]
        own = self.around if re.search(r"\bself\b", taken) else ""
        return bool(lending & set(re.findall(r"\w+", taken + " " + own)))

    def changes(self) -> bool:
        """It changes what it is lent, but for a buffer, whose octets nobody reads."""
        return re.search(r"&(?:'\w+ )?mut ", re.sub(r"\bbuffer: &mut [^,)]+", "", self.signature)) is not None

    def is_of_trait(self) -> bool:
        """It is that of a trait, where its clauses stand."""
        return re.match(r"impl\b.* for ", self.around) is not None

    def tells_cause(self) -> bool:
        return any(CAUSE.search(it) or re.search(r"\bIfErr\b", it) or REFUSED.search(it) and not STAYS.search(it)
                   for it in self.clauses)

    def tells_rest(self) -> bool:
        return any(STAYS.search(it) and (REFUSED.search(it) or not re.search(r"\b(?:OnOk|IfOk)\b", it))
                   for it in self.clauses)


def functions() -> list[Function]:
    """All functions of the sources."""
    found = []
    for crate, module, lines in sources():
        for at, line in enumerate(lines):
            if head := HEAD.match(line):
                found.append(Function(crate, module, lines, at, head))
    return found


def pushing(all_: list[Function]) -> set[str]:
    """The names of functions that push, or that call one which does."""
    names, more = set(PUSHES), True
    while more:
        new = {it.name for it in all_ if it.called & names} - names
        names |= new
        more = bool(new)
    return names


def main() -> int:
    parser = argparse.ArgumentParser(description=__doc__, formatter_class=argparse.RawDescriptionHelpFormatter)
    parser.add_argument("--check", action="store_true", help="fail where there is any")
    parser.add_argument("--all", action="store_true", help="tell the functions that aren't public, too")
    asked = parser.parse_args()
    wanting, lending = types()
    told = [it for it in functions() if (it.public or asked.all) and it.error() in wanting and not it.is_of_trait()]
    names = pushing(functions())
    causeless = [it for it in told if not it.is_lent(lending) and not it.tells_cause()
                 and not (it.called & names and re.search(r"[Mm]emory", it.doc))]
    restless = [it for it in told if it.changes() and not it.tells_rest()]
    for title, found in (("want of memory without its cause", causeless), ("refusals without what stays", restless)):
        print(f"{title}: {len(found)}")
        for function in found:
            print(f"  {'' if function.public else 'private '}{function.title}")
    return 1 if asked.check and (causeless or restless) else 0


if __name__ == "__main__":
    sys.exit(main())
