#!/usr/bin/env python3
"""Tries the wrong bodies of crates: edits that turn a meaning, which the prover of the crate has to refuse at a clause.

    bench/wrong_bodies.py [CRATE..] [--only WORD] [--untried] [--jobs N] [--together N] [--seconds N] [--keep]
                          [--commit NAME] [--libraries FOLDER] [--works FOLDER]
    bench/wrong_bodies.py --list

Without names, of all crates; --only takes those with that word in their name, --untried those NAME.md without a
verdict. A wrong body stands in crates/CRATE/must-fail/: as NAME.edit the gate tries it too, as NAME.md this script
alone. It is tried over the libraries that `rt ci` left in this checkout, or those in the folder that --libraries names
(a crate for which one isn't there yet is left out): in a copy of the crate, by a check of the functions that the edit
changes, and where these are still proved, or can't be told, by a check of the whole crate. What the prover shows of a
part of a crate it shows of the whole, so a body that is refused by the first needs no second.

The first check may have several bodies at a time (--together), each of other functions, since the proof of a function
cites the contracts of others and can't look into them; each is told by what the check says of its own functions. Where
the check comes to no end, or the front end takes one of the edits for no program, they are tried one by one. --seconds
bounds a check; --works keeps what the checks proved, for the next time.

Prints a line for each wrong body: its crate and name, and the goal at which it was refused, or why that shows nothing.
The end is a line that counts them. Ends with status 1 where one isn't refused, or only since the prover met a limit of
its own, or a proof names what the edit took away, or the edit is no program. With --keep the verdicts go to
bench/wrong_bodies.txt, with the day and the commit (or the name of --commit); those of bodies that weren't tried stay
as they are there, and one that is new or was changed since is told as not tried. --list does that alone. A test of the
tools compares that file with the wrong bodies that there are.
"""

import argparse
import concurrent.futures
import datetime
import hashlib
import os
import re
import shutil
import subprocess
import sys
import tempfile
import threading
from typing import NamedTuple

TOP = os.path.dirname(os.path.dirname(os.path.realpath(__file__)))
KEPT = os.path.join(TOP, "bench", "wrong_bodies.txt")
BIN = os.path.dirname(os.path.realpath(shutil.which("rt") or "/opt/rattle/bin/rt"))
KIT = os.path.dirname(BIN)
UNTRIED = "not tried"
NO_GOAL = "refused, and the check names no goal (a loop without a measure, say)"
HEAD = re.compile(r"(?:note: |warning: )?(?:\./)?(?:src|specs|proofs)/\S+:\d|note: |warning: |help: |fn |logic |statements |crate |only=|by-macro: ")
END = re.compile(r"fn \S+: (proved|not proved|no proof: it calls|no proof|could not tell)")
ENDED = re.compile(r"(?m)^(?:only|logic)=")
OPEN = re.compile(r"`search` did not prove ((?:`[^`]+`(?:, | and )?)+)|\((`[\w-]+`)\)")
GOAL = re.compile(r"`([\w-]*(?:clause|requires|returns|ensures|invariant|preserved|init|measure)[\w-]*)`")
# what a proof file says of a name that the edit took away
NAMES = re.compile(r"(\./)?proofs/.*(has no field|is not in scope|has no `|was not admitted)")
IMPL = re.compile(r"(?:unsafe )?impl(?:<.*?>)? (?:(\w+)(?:<.*>)? for )?(\w+)")
FUNCTION = re.compile(r"^( *)(?:pub(?:\([^)]*\))? )?(?:const )?fn (\w+)")


class Body(NamedTuple):
    """A wrong body: its crate, its name, and its file."""
    crate: str
    name: str
    file: str

    def text(self) -> str:
        with open(self.file, encoding="utf-8") as file:
            return file.read()

    def sum(self) -> str:
        """By which the file of verdicts tells that the edit is still the one that was tried."""
        return hashlib.sha256(self.text().encode()).hexdigest()[:12]

    def edits(self) -> list[tuple[str, str, str]]:
        """Which text of which file becomes which. In a NAME.md a text may have several lines."""
        found: list[list[str]] = []
        at = ""
        for line in self.text().rstrip("\n").split("\n"):
            word, colon, rest = line.partition(":")
            if colon and word == "file":
                at = rest.strip()
            elif colon and word == "old":
                found.append([at, rest.removeprefix(" ")])
            elif colon and word == "new":
                found[-1].append(rest.removeprefix(" "))
            elif found:
                found[-1][-1] += f"\n{line}"
        return [(at, old, new) for at, old, new in found]


class Verdict(NamedTuple):
    """What the prover said, and whether that shows that a clause refuses the body."""
    text: str
    refused: bool


PROVED = Verdict("NOT REFUSED: still proved", False)
NO_PROGRAM = Verdict("NO PROGRAM: the front end refuses it", False)
PAST = Verdict("only since a proof names what the edit took away", False)


def bodies(crate: str, top: str = TOP) -> list[Body]:
    """A crate's wrong bodies, in order of names."""
    folder = f"{top}/crates/{crate}/must-fail"
    found = sorted(os.listdir(folder)) if os.path.isdir(folder) else []
    return [Body(crate, it.rsplit(".", 1)[0], f"{folder}/{it}") for it in found if it.endswith((".edit", ".md"))]


def crates() -> dict[str, list[str]]:
    """Each crate of the repository, and what it stands on."""
    found = {}
    with open(f"{TOP}/crates.txt", encoding="utf-8") as file:
        for line in file:
            head, _, tail = line.split("#")[0].strip().partition(":")
            if head:
                found[head.split()[0]] = tail.split()
    return found


def below(crate: str, known: dict[str, list[str]]) -> set[str]:
    """The crates of the repository on which one stands."""
    found, left = set(), [*known[crate]]
    while left:
        name = left.pop()
        if name in known and name not in found:
            found.add(name)
            left += known[name]
    return found


def library(name: str, libraries: str | None) -> str:
    """Where the library of a crate lies."""
    return f"{libraries}/{name}.rlib" if libraries else f"{TOP}/crates/{name}/out/rlib/{name}.rlib"


def words(crate: str, libraries: str | None, room: str) -> list[str]:
    """The check of a crate that stands in this folder."""
    known = crates()
    said = [f"{BIN}/rattle", "check", "--crate-name", crate, "src/main.rt" if os.path.isfile(f"{room}/src/main.rt") else "src/lib.rt"]
    said += ["--extern", f"std={KIT}/rlibs/std.rlib", "-L", f"dependency={KIT}/rlibs"]
    for name in known[crate]:
        said += ["--extern", f"{name}={library(name, libraries) if name in known else f'{KIT}/rlibs/{name}.rlib'}"]
    for name in sorted(below(crate, known)):
        said += ["-L", f"dependency={os.path.dirname(library(name, libraries))}"]
    said += ["--antt-project", f"{KIT}/rattle/logic/antt-project.json", "--logic-built", f"{KIT}/logic_built"]
    return [*said, "--jobs", "1", "--links", f"{crate}="]


def holder(crate: str, at: str, text: str, line: int) -> str:
    """The function in which this line of a file lies, as a check names it; nothing where it lies in none."""
    lines = text.split("\n")
    while lines[line - 1].lstrip().startswith(("#", "//")):
        line += 1
    heads = [(place, it) for place, it in enumerate(map(FUNCTION.match, lines[:line])) if it]
    if not at.startswith("src/") or not heads:
        return ""
    first, head = heads[-1]
    before = lines[first : line - 1]
    if any(it in (f"{head[1]}}}", f"{head[1]}{{}}") for it in before) or before and before[0].endswith("}"):
        return ""
    owner = [it for it in map(IMPL.match, lines[:line]) if it][-1] if head[1] else None
    parts = [it for it in at.removeprefix("src/").removesuffix(".rt").split("/") if it not in ("lib", "main")]
    return "::".join([crate, *parts, *([owner[2] + (owner[1] or "")] if owner else []), head[2]])


def edited(body: Body, texts: dict[str, str]) -> list[str]:
    """Makes the edit in texts of files, and names the functions that it changes; an empty name stands for all else."""
    found = []
    for at, old, new in body.edits():
        if at not in texts:
            with open(f"{TOP}/crates/{body.crate}/{at}", encoding="utf-8") as file:
                texts[at] = file.read()
        if texts[at].count(old) != 1:
            raise ValueError(f"its old text stands {texts[at].count(old)} times in {at}")
        # (an edit may begin at the function's own head)
        found.append(holder(body.crate, at, texts[at], texts[at][: texts[at].index(old)].count("\n") + 1))
        texts[at] = texts[at].replace(old, new)
    return [*dict.fromkeys(found)]


def blocks(text: str) -> list[str]:
    """What a check says, each with the lines that belong to it."""
    found: list[str] = []
    for line in text.splitlines():
        if found and not HEAD.match(line):
            found[-1] += f"\n{line}"
        else:
            found.append(line)
    return found


def about(crate: str, block: str, texts: dict[str, str]) -> str:
    """Of which function of the crate a block tells."""
    head = block.split("\n")[0]
    if named := re.match(r"fn (\S+): ", head):
        return named[1]
    if folder := re.search(r"\bproofs/(\S+)/(?:Answers|Invariants|Proof)\.antt", head):
        return "::".join([crate, *folder[1].split("/")])
    if place := re.search(r"\b(src/\S+?\.rt):(\d+):\d+", head):
        return holder(crate, place[1], texts[place[1]], int(place[2])) if place[1] in texts else ""
    return ""


def of_blocks(told: list[str]) -> Verdict:
    """What a check that ended with status 1 comes to, by what it says of the functions that were changed."""
    heads = [it.split("\n")[0] for it in told]
    lines = [it for it in heads if re.match(r"(note: )?\S+:\d+:\d+:", it) and (": error" in it or it.startswith("note: "))]
    if lines and all(NAMES.match(it) for it in lines):
        return PAST
    goals = [name for it in heads for name in GOAL.findall(it)]
    goals += [name for it in heads for part in OPEN.finditer(it) for name in re.findall(r"`([\w-]+)`", part[0])]
    goals = [it for it in goals if it not in ("requires", "ensures", "invariant", "search")]
    return Verdict(", ".join([*dict.fromkeys(goals)][:3]) or NO_GOAL, True)


def said(status: int | None, text: str) -> Verdict:
    """What a check says of the one wrong body in it."""
    if status == 0:
        return PROVED
    if status == 1:
        return of_blocks(blocks(text)) if ENDED.search(text) else NO_PROGRAM
    return Verdict("the check came to no end" if status is None else f"the prover couldn't tell (status {status})", False)


def said_of(functions: list[str], crate: str, text: str, texts: dict[str, str]) -> Verdict | None:
    """What a check of several bodies says of that which changes these functions; None where it says too little."""
    told = [it for it in blocks(text) if about(crate, it, texts) in functions]
    ends = [it[1] for it in map(END.match, told) if it]
    if len(ends) < len(functions) or {*ends} & {"could not tell", "no proof: it calls"}:
        return None
    if {*ends} == {"proved"}:
        return PROVED
    # (of a cycle of calls each is without a proof where one is: what names no goal isn't told by this check)
    verdict = of_blocks(told)
    return None if verdict.text == NO_GOAL else verdict


class Trial(NamedTuple):
    """How the wrong bodies of a crate are tried."""
    crate: str
    libraries: str | None
    works: str
    together: int
    seconds: int | None
    alone: bool

    def check(self, texts: dict[str, str], functions: list[str]) -> tuple[int | None, str]:
        """Checks these functions of the crate, or all, with these texts of its files: the status, and what was said."""
        with tempfile.TemporaryDirectory(prefix="wrong-body-") as room:
            for part in ("src", "specs", "proofs"):
                if os.path.isdir(f"{TOP}/crates/{self.crate}/{part}"):
                    shutil.copytree(f"{TOP}/crates/{self.crate}/{part}", f"{room}/{part}")
            for at, text in texts.items():
                with open(f"{room}/{at}", "w", encoding="utf-8") as file:
                    file.write(text)
            asked = [*words(self.crate, self.libraries, room), "--incremental", self.works]
            asked += [it for name in functions for it in ("--only", name)]
            into = {"stdin": subprocess.DEVNULL, "stdout": subprocess.PIPE, "stderr": subprocess.STDOUT}
            try:
                ran = subprocess.run(asked, cwd=room, timeout=self.seconds, text=True, errors="replace", **into)
            except subprocess.TimeoutExpired:
                return None, ""
            return ran.returncode, ran.stdout

    def chosen(self, left: list[Body]) -> tuple[dict[Body, list[str]], dict[str, str]]:
        """The first of these bodies and those that can be tried with it, with their functions; and the edited texts."""
        texts: dict[str, str] = {}
        found: dict[Body, list[str]] = {}
        for body in left:
            then = {**texts}
            try:
                functions = edited(body, then)
            except ValueError:
                continue
            apart = all(functions) and not {*functions} & {it for some in found.values() for it in some}
            if found and not apart:
                continue
            found[body], texts = functions, then
            if not apart or len(found) == self.together:
                break
        return found, texts

    def some(self, left: list[Body]) -> dict[Body, Verdict]:
        """Tries the first of these wrong bodies, and others with it; of those that are alone, what is told in any case."""
        try:
            edited(left[0], {})
        except ValueError as error:
            return {left[0]: Verdict(f"BAD EDIT: {error}", False)}
        found, texts = self.chosen(left)
        functions = [it for some in found.values() for it in some]
        whole = "" in functions
        status, text = self.check(texts, [] if whole else functions)
        told: dict[Body, Verdict | None] = {}
        if len(found) == 1:
            told[left[0]] = said(status, text)
        elif status in (0, 1) and ENDED.search(text):
            told = {it: said_of(some, self.crate, text, texts) for it, some in found.items()}
        ended = {it: verdict for it, verdict in told.items() if verdict}
        if not self.alone and not whole:
            for body in (it for it in ended if not ended[it].refused and ended[it] not in (NO_PROGRAM, PAST)):
                ended[body] = said(*self.check(self.chosen([body])[1], []))
        return ended


def kept() -> dict[tuple[str, str], str]:
    """The line of each wrong body in the file of verdicts."""
    if not os.path.exists(KEPT):
        return {}
    with open(KEPT, encoding="utf-8") as file:
        rows = [it.rstrip("\n").split("\t") for it in file if not it.startswith("#")]
    return {(it[0], it[1]): "\t".join(it) for it in rows}


def keep(told: dict[Body, Verdict], commit: str | None = None) -> None:
    """Writes the verdicts beside those that stand."""
    commit = commit or subprocess.run(["git", "rev-parse", "--short", "HEAD"], cwd=TOP, capture_output=True, text=True).stdout.strip()
    old = kept()
    with open(KEPT, "w", encoding="utf-8") as file:
        file.write("# crate, wrong body, sum of its edit, the day and the commit that it was tried on, the goals that refuse it\n")
        for body in sorted(it for crate in crates() for it in bodies(crate)):
            parts = [body.crate, body.name, body.sum()]
            line = "\t".join([*parts, UNTRIED])
            if body in told and told[body].refused:
                line = "\t".join([*parts, f"{datetime.date.today()}", commit, told[body].text])
            elif old.get((body.crate, body.name), "").split("\t")[:3] == parts:
                line = old[body.crate, body.name]
            file.write(f"{line}\n")


def main() -> int:
    parser = argparse.ArgumentParser(description=__doc__.split("\n", 1)[0])
    parser.add_argument("crates", nargs="*")
    parser.add_argument("--only", default="", help="those with that word in their name")
    parser.add_argument("--untried", action="store_true", help="those NAME.md alone that have no verdict")
    parser.add_argument("--jobs", type=int, default=1, help="how many crates are tried at a time")
    parser.add_argument("--together", type=int, default=8, help="how many wrong bodies a check may have")
    parser.add_argument("--seconds", type=int, help="how long a check may take")
    parser.add_argument("--alone", action="store_true", help="check no whole crate where its functions are still proved")
    parser.add_argument("--keep", action="store_true", help="write the verdicts to bench/wrong_bodies.txt")
    parser.add_argument("--commit", help="the commit that is written there, where HEAD's won't stay")
    parser.add_argument("--list", action="store_true", help="tell new ones in that file as not tried, and try none")
    parser.add_argument("--libraries", help="the folder of the proved libraries, where they aren't in this checkout")
    parser.add_argument("--works", help="a folder for what the checks prove, by crates")
    asked = parser.parse_args()
    if asked.list:
        keep({})
        return 0
    known = crates()
    every = [it for it in known if bodies(it)]
    for it in {*asked.crates} - {*every}:
        sys.exit(f"wrong_bodies: {it} has no wrong bodies")
    told: dict[Body, Verdict] = {}
    writing = threading.Lock()

    def wanted(body: Body) -> bool:
        tried = not kept().get((body.crate, body.name), UNTRIED).endswith(UNTRIED)
        return asked.only in body.name and not (asked.untried and (tried or body.file.endswith(".edit")))

    def of_crate(crate: str) -> None:
        """Each over what the checks of those before it proved."""
        missing = [it for it in below(crate, known) if not os.path.isdir(library(it, asked.libraries))]
        left = [it for it in bodies(crate) if wanted(it)]
        if missing and left:
            print(f"{crate}: left out, since there is no library {missing[0]}", flush=True)
            return
        with tempfile.TemporaryDirectory(prefix="wrong-bodies-") as works:
            kept_in = f"{asked.works}/{crate}" if asked.works else works
            os.makedirs(kept_in, exist_ok=True)
            size = asked.together
            while left:
                found = Trial(crate, asked.libraries, kept_in, size, asked.seconds, asked.alone).some(left)
                size = asked.together if found else max(1, size // 2)
                left = [it for it in left if it not in found]
                with writing:
                    for body, verdict in found.items():
                        print(f"{body.crate} {body.name}: {verdict.text}", flush=True)
                    told.update(found)
                    if asked.keep:
                        keep(told, asked.commit)

    with concurrent.futures.ThreadPoolExecutor(asked.jobs) as pool:
        list(pool.map(of_crate, asked.crates or every))
    refused = sum(it.refused for it in told.values())
    print(f"{refused} of {len(told)} wrong bodies are refused")
    return refused < len(told)


if __name__ == "__main__":
    sys.exit(main())
