#!/usr/bin/env python3
"""Tells which definitions have to be believed, for the promise of `run_cell` to mean what it says, or of another call.

    bench/believed.py [--of CRATE/FILE.rt] [--names] [--check PAGE]

It begins with what the clauses of a source file name, and follows each definition to those that it names in turn,
through the `specs/` of all crates, with the lemmas there that a definition needs. What no definition so reached names
isn't among them. It prints the crates, each ahead of those that it stands on, with the files to read there in the same order, and with how many of
their definitions and lines are reached; --names lists the definitions. --check fails where the page doesn't have exactly
these rows. What the sources declare themselves, types with their fields and variants, isn't counted.
"""

import argparse
import os
import re
import sys

TOP = os.path.join(os.path.dirname(os.path.abspath(__file__)), "..")
HEADER = re.compile(r"^(?:(?:abbrev|unfoldable|opaque|pub|record|data|instance) )*(?:mutual$|module _|([^\s(){}.,:]+)(?: [({].*)? :)")
NESTED = re.compile(r"^ +(?:(?:abbrev|unfoldable|pub|data|record) )*([^\s(){}.,:]+) : ", re.M)
WORDS = re.compile(r"[^\s(){},;\[\]]+")


def path_of(module):
    """The file of a module of `specs/`, or None for the kit's and for what the sources declare."""
    parts = module.split(".")
    if len(parts) < 4 or parts[2] != "specs" or parts[3] in ("declared", "contracts"):
        return None
    path = os.path.join(TOP, "crates", parts[1], "specs", *parts[3:]) + ".antt"
    return path if os.path.isfile(path) else None


def imported(line):
    """The module of a line of imports, its alias, and the names that it brings, each with the name that it has there."""
    found = re.match(r"(?:pub )?(?:ghost )?use ([\w.+]+?)(?:\.\{(.*)\})?(?: as (\w+))?;?$", line.strip())
    if not found:
        return None
    names = {}
    for word in filter(None, (it.strip() for it in (found[2] or "").split(", "))):
        there, _, here = word.partition(" as ")
        names[here or there] = there
    return found[1], found[3], names


class Module:
    """A file of definitions: what it imports, and the lines of each block by the names that it defines."""

    def __init__(self, path):
        self.path, self.aliases, self.imports, self.blocks, self.defined = path, {}, {}, [], {}
        lines = open(path, encoding="utf-8").read().split("\n")
        for line in lines:
            if use := imported(line):
                module, alias, names = use
                if alias:
                    self.aliases[alias] = module
                self.imports.update({here: (module, there) for here, there in names.items()})
        code = [line for line in lines if line and not line.startswith(("--", "use ", "pub use ", "pub mod ", "mod "))]
        for line in code:
            header = HEADER.match(line)
            if header:
                self.blocks.append([line])
                if header[1]:
                    self.defined[header[1]] = len(self.blocks) - 1
            elif self.blocks:
                self.blocks[-1].append(line)
        for place, block in enumerate(self.blocks):
            if re.match(r"(abbrev )?mutual|module|.*\bdata\b", block[0]) or "mutual" in block[0]:
                for name in NESTED.findall("\n".join(block[1:])):
                    self.defined.setdefault(name, place)

    def names(self, text):
        """What a text names: a module and a name there."""
        words = set(WORDS.findall(re.sub(r"--.*", "", text)))
        words |= {part for word in words if "." in word for part in [word.split(".")[0]]}
        for word in sorted(words):
            if word in self.imports:
                yield self.imports[word]
            head, _, rest = word.partition(".")
            if rest and head in self.aliases:
                yield self.aliases[head], rest.split(".")[0]
        for name, use in self.imports.items():
            if "◌" in name and any(part in words for part in name.split("◌") if part):
                yield use


def in_order(files, uses):
    """The files, each behind those that it uses."""
    order, seen = [], set()

    def visit(path):
        if path in files and path not in seen:
            seen.add(path)
            for other in sorted(filter(None, uses.get(path, ()))):
                visit(other)
            order.append(path)

    for path in sorted(files):
        visit(path)
    return order


def reached(start):
    """The blocks that are reached, by file, and the files, each behind those that it stands on."""
    modules, found, uses = {}, {}, {}

    def module_at(path):
        if path not in modules:
            modules[path] = Module(path)
        return modules[path]

    def visit(module, name):
        path = path_of(module)
        if not path:
            return
        it = module_at(path)
        if name not in it.defined:
            if name not in it.imports:
                sys.exit(f"{path} has no {name}")
            visit(*it.imports[name])
            return
        place = it.defined[name]
        if place in found.setdefault(path, set()):
            return
        found[path].add(place)
        text = "\n".join(it.blocks[place])
        for other in sorted(set(WORDS.findall(text)) & set(it.defined)):
            visit(module, other)
        for use in it.names(text):
            uses.setdefault(path, set()).add(path_of(use[0]))
            visit(*use)

    for line in open(start, encoding="utf-8"):
        if line.strip().startswith("ghost use") and (use := imported(line)):
            for name in use[2].values():
                visit(use[0], name)
    return modules, found, in_order(found, uses)


def crates():
    """The crates, each ahead of those that it stands on."""
    with open(os.path.join(TOP, "crates.txt"), encoding="utf-8") as lines:
        words = [line.split("#")[0].partition(":")[::2] for line in lines if ":" in line.split("#")[0]]
    below = {head.split()[0]: rest.split() for head, rest in words}
    order = []

    def visit(name):
        if name in below and name not in order:
            for other in below[name]:
                visit(other)
            order.append(name)

    for name in below:
        visit(name)
    return order[::-1]


def main():
    sys.setrecursionlimit(100_000)
    parser = argparse.ArgumentParser(description=__doc__, formatter_class=argparse.RawDescriptionHelpFormatter)
    parser.add_argument("--of", default="cell_run/src/top.rt")
    parser.add_argument("--names", action="store_true")
    parser.add_argument("--check")
    options = parser.parse_args()
    modules, found, order = reached(os.path.join(TOP, "crates", options.of))
    rows, files, count, lines = [], 0, 0, 0
    for crate in crates():
        folder = os.path.join(TOP, "crates", crate, "specs", "")
        own = [path for path in reversed(order) if path.startswith(folder)]
        blocks = [modules[path].blocks[place] for path in own for place in sorted(found[path])]
        if not own:
            continue
        size = sum(len(block) for block in blocks)
        files, count, lines = files + len(own), count + len(blocks), lines + size
        names = ", ".join(f"`{path[len(folder):-5]}`" for path in own)
        rows.append(f"| `{crate}` | {names} | {len(blocks)} | {size:,} |")
        if options.names:
            print("\n".join(f"{crate}: {block[0][:120]}" for block in blocks))
    rows.append(f"| together | {files} files | {count:,} | {lines:,} |")
    print("\n".join(rows))
    if options.check:
        with open(options.check, encoding="utf-8") as page:
            told = [line for line in page.read().split("\n") if re.match(r"\| (`\w+`|together) \| .* \| [\d,]+ \| [\d,]+ \|$", line)]
        if told != rows:
            sys.exit(f"{options.check} doesn't tell what bench/believed.py finds")


if __name__ == "__main__":
    main()
