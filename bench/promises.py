#!/usr/bin/env python3
"""Holds docs/PROMISES.md against the sources: each clause that it names has to be there, and its tables are made.

    bench/promises.py [--check | --write | --read]

In the page's tables a call stands as `crate::file::name` and beside it the names of its clauses; `its clause` is the
one clause of a call that has no name. The tables behind the mark are made of the sources: of each crate the public calls
that may refuse, with the clauses that say when or of which cause, those that say what stays, and whether memory may be
wanting. --write makes them anew, --check ends with status 1 where a clause is missing or a table is another one.

Each of those calls has to say its answers in both directions: of each answer that it comes there alone, and that no
other one comes there. As far as the words of a clause show that, the script sees it: `exact`, where an equation tells
the whole answer; `each`, where each of its answers has a clause, and no two of them can hold at once; `faults`, where it
refuses exactly where a count of faults rises; `memory`, where nothing but want of memory is refused. What is left was
read, and stands with its reason in the page, under "Read"; --read prints it with its clauses, and --check fails where
that table lacks a call or has one that needn't be read.

Of each call that the page names under "Without memory", want of memory may not be among the answers, and of those that
are "never refused" there may be no refusal, nor nothing, at all.
"""

import argparse
import os
import re
import sys

import memory

PAGE = os.path.join(memory.TOP, "..", "docs", "PROMISES.md")
MARK = "<!-- What follows is made by bench/promises.py --write. -->\n"
CALL = re.compile(r"`(\w+::\w+::\w+)`")
NAMED = re.compile(r"`(\w+)`")
LEFT_OUT = re.compile(r"(_tests|_rows|_files|_laws)$|^(ber_forms|mmscell)$")
ALSO = re.compile(r"\b(IfErr|OnErr|IsErr|IsErrOf|None|IsSome|Err)\b|result ≡")
READ = "## Read"
FREE = "## Without memory"
HANDS_BACK = {"Unplaced", "Unclosed", "PhaseStopped"}
EXACT = re.compile(r"(?<![.\w])result(?:\.\w+)* ≡ |≡ result\b|Is(?:Some|Ok|None|Err) result ↔|↔ Is(?:Some|Ok|None|Err) result|"
                   r"\b(?:Gives\w*|SomeIff|OkIff|ErrIff|MatchResult|MatchOption|Serves\w*|IsOkUnless|Hears)\b[^{}]*"
                   r"\b(?:result|told)\b")
WHOLE = re.compile(r"IfOk result \(λ (\w+)\. (?:\1 ≡|is_none \1 ≡|is_some \1 ≡|MatchOption \1 )")
FAULTS = re.compile(r"\bCountsFault(?:s|As)?\b")
ALONE = {"Memory", "Full", "AllocError"}


def name_of(clause):
    """The name of a clause; that of one without a name is empty."""
    found = re.match(r"ensures\s+(\w+)\s*\{", clause)
    return found[1] if found else ""


def sources():
    """All functions by their titles: one title may have several, of several types."""
    found = {}
    for function in memory.functions():
        found.setdefault(function.title, []).append(function)
    return found


def missing(page, found):
    """What the page names and the sources don't have."""
    out = []
    for line in page.split("\n"):
        cells = [cell.strip() for cell in line.strip().strip("|").split(" | ")]
        if not line.startswith("|") or len(cells) < 3:
            continue
        for at, cell in enumerate(cells[:-1]):
            for call in CALL.findall(cell):
                names = [{name_of(it) for it in one.clauses} for one in found.get(call, [])]
                if not names:
                    out.append(f"no call {call}")
                for clause in NAMED.findall(cells[at + 1]):
                    if names and not any(clause in it for it in names):
                        out.append(f"no clause {clause} of {call}")
                if "its clause" in cells[at + 1] and not any("" in it for it in names):
                    out.append(f"no clause without a name of {call}")
    return out


def named(clauses):
    """Clauses as a cell of a table."""
    names = [name_of(it) for it in clauses]
    return ", ".join(f"`{it}`" if it else "its clause" for it in names) or "–"


def memory_of(function, answers, wanting):
    """Whether a call may answer that memory is wanting, and the clause that says where."""
    if function.error() not in wanting and not re.search(r"\bAllocError\b", answers):
        return "never"
    by_name = {name_of(it): it for it in function.clauses}
    if "no_memory" in by_name:
        return "not where `no_memory` says" if "→" in by_name["no_memory"] else "never"
    if "wants" in by_name:
        return "where `wants` says"
    return "not where `enough` says" if "enough" in by_name else "may be"


def directions(function, answers):
    """How the clauses of a call show that each of its answers is said in both directions; empty where that was read."""
    clauses = function.clauses
    if any(EXACT.search(it) for it in clauses):
        return "exact"
    if any(FAULTS.search(it) for it in clauses):
        return "faults"
    if not answers.startswith("Option") and function.error() in ALONE:
        if not answers.startswith("Result<Option<"):
            return "memory"
        if any(WHOLE.search(it) for it in clauses):
            return "exact"
        if all(any(word in it for it in clauses) for word in ("IfNone", "Some ")):
            return "each"
    elif all(any(f"{word} result" in it for it in clauses) for word in ("IfNone", "IfSome")):
        return "each"
    return ""


def listed(found):
    """The calls that the made tables have, by crate, with what they answer."""
    by_crate = {}
    for functions in found.values():
        for one in functions:
            answers = re.search(r"-> ((?:Result|Option)<[^/]*)", one.signature)
            if one.public and answers and one.clauses and not one.is_of_trait() and not LEFT_OUT.search(one.crate):
                by_crate.setdefault(one.crate, []).append((one, answers[1].strip().rstrip("{").strip()))
    return {crate: sorted(by_crate[crate], key=lambda it: it[0].title) for crate in sorted(by_crate)}


def to_read(found):
    """The calls of which no clause shows by its words that each answer is said in both directions."""
    return [one for calls in listed(found).values() for one, answers in calls if not directions(one, answers)]


def unread(page, found):
    """Calls that the page's table of what was read lacks, and those that it has and that needn't be read."""
    part = page.partition(f"\n{READ}\n")[2].partition("\n## ")[0]
    has = {call for line in part.split("\n") if line.startswith("| `") for call in CALL.findall(line.split(" | ")[0])}
    wants = {it.title for it in to_read(found)}
    lacks, more = sorted(wants - has), sorted(has - wants)
    return [f"not read: {it}" for it in lacks] + [f"read, and needn't be: {it}" for it in more]


def wanting_memory(page, found):
    """Calls that the page names as such that take no memory, or that are never refused, and that aren't."""
    wanting, _ = memory.types()
    out = []
    for line in page.partition(f"\n{FREE}\n")[2].partition("\n## ")[0].split("\n"):
        for call in CALL.findall(line) if line.startswith("| ") else ():
            answers = [(re.search(r"-> (.*)", one.signature) or ["", ""])[1] for one in found.get(call, [])]
            if not answers:
                out.append(f"no call {call}")
            elif any(memory_of(one, it, wanting | HANDS_BACK) != "never" for one, it in zip(found[call], answers)):
                out.append(f"may want memory: {call}")
            elif line.startswith("| never refused ") and any(re.match(r"Result|Option", it) for it in answers):
                out.append(f"may be refused: {call}")
    return out


def rows(found):
    """The lines of the tables that are made."""
    wanting, lending = memory.types()
    for crate, calls in listed(found).items():
        yield f"\n### `{crate}`\n"
        yield "| call | answers | clauses of its answer | in both directions | what stays | want of memory |"
        yield "|---|---|---|---|---|---|"
        for one, answers in calls:
            of = re.search(r"(?:impl(?:<.*?>)? )(?:.* for )?(\w+)", one.around)
            stays = [it for it in one.clauses if memory.STAYS.search(it) and ("OnErr" in it or "Err" in it or not re.search(r"\b(?:OnOk|IfOk)\b", it))]
            when = [it for it in one.clauses if ALSO.search(it) or memory.CAUSE.search(it)] or one.clauses
            kept = named(stays) if one.changes() else "nothing is changed"
            title = f"`{one.title}`" + (f", {of[1]}" if of else "")
            both, may = directions(one, answers) or "read", memory_of(one, answers, wanting)
            yield f"| {title} | `{answers}` | {named(when)} | {both} | {kept} | {may} |"


def main():
    parser = argparse.ArgumentParser(description=__doc__, formatter_class=argparse.RawDescriptionHelpFormatter)
    parser.add_argument("--check", action="store_true")
    parser.add_argument("--write", action="store_true")
    parser.add_argument("--read", action="store_true", help="print what has to be read, with its clauses")
    asked = parser.parse_args()
    with open(PAGE, encoding="utf-8") as file:
        page = file.read()
    found = sources()
    if asked.read:
        print("\n".join("\n  ".join([it.title, *it.clauses]) for it in to_read(found)))
        return 0
    said, made = page.partition(MARK)[0], "\n".join(rows(found)) + "\n"
    lost = missing(said, found) + unread(said, found) + wanting_memory(said, found)
    print("\n".join(lost + [f"{len(lost)} are missing"]))
    if asked.write:
        with open(PAGE, "w", encoding="utf-8") as file:
            file.write(said + MARK + made)
    elif page != said + MARK + made:
        print("the tables of the page aren't those of the sources")
        lost.append("tables")
    return 1 if asked.check and lost else 0


if __name__ == "__main__":
    sys.exit(main())
