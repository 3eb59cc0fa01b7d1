#!/usr/bin/env python3
"""Spells this repository's own definitions and lemmas as today's Rattle does: words in snake case, types in camel case.

usage: tools/snake_names.py           at the top of a checkout on which port.py has run; once
       tools/snake_names.py --list    prints the names alone, old and new

A name that a file of specs/ or proofs/ declares is respelled in each .rt and .antt file. Names of src/, comments, strings and the
names that Rattle makes of the code stay. A lemma that would have a definition's name ends in _lem.
"""

import collections
import glob
import os
import re
import sys

ROOT = os.path.normpath(os.path.join(os.path.dirname(os.path.abspath(__file__)), ".."))
HEAD = r"^(\s*)(?:(?:abbrev|unfoldable|pub|data|record|tactic)\s+)*"
DECLARES = re.compile(HEAD + r"([^\s:(){},;.]+)\s+:(?=\s|$)")
RECORD = re.compile(r"^\s*(?:pub\s+)?record\s")
TOKEN = re.compile(r"--\s.*$|//.*$|\"(?:[^\"\\]|\\.)*\"|[A-Za-z_0-9'\u0080-\u2189\u2200-\uffff-]+", re.M)
# names that Rattle makes for a proof by hand
MADE = re.compile(r"^(?:Need-|invariant-|decreases-|the-|.*-spec$|\+)")
# a file of specs/ whose name Rattle now makes itself
MOVED = ("runs", "Contracts", "CallContracts")
# lemmas that port.py gave the name that a definition beside them has now
LEMMAS = {"by_next", "given_by", "no_items", "number_by", "numbers_after", "or_kept", "list_at"}


def written(pattern):
    return sorted(glob.glob(ROOT + pattern, recursive=True))


PROOFS = written("/crates/*/specs/**/*.antt") + written("/crates/*/proofs/**/*.antt")
SOURCES = written("/crates/*/src/**/*.rt")


def read(path):
    with open(path) as f:
        return f.read()


def respelled(name):
    """The name in today's spelling: a type in camel case, all else in snake case."""
    if name[0].isupper():
        return "".join(p[:1].upper() + p[1:] for p in name.split("-"))
    name = name.replace("\u2032", "'").replace("-", "_")
    return re.sub(r"(?<=[a-z0-9])([A-Z]+)", lambda m: "_" + m.group(1).lower(), name)


def declared():
    """The names declared, and those of them that are a record's fields."""
    names, fields = set(), set()
    for path in PROOFS:
        inside = None
        for line in read(path).splitlines():
            if line.strip() and inside is not None and len(line) - len(line.lstrip()) <= inside:
                inside = None
            if RECORD.match(line):
                inside = len(line) - len(line.lstrip())
            elif (m := DECLARES.match(line)) and not line[m.end() :].lstrip().startswith("tie."):
                names.add(m.group(2))
                if inside is not None:
                    fields.add(m.group(2))
    return names, fields


def turned(names):
    new_of = {}
    for name in names:
        if not MADE.match(name) and re.match(r"[A-Za-z]", name) and respelled(name) != name:
            new_of[name] = respelled(name)
    taken = (names - set(new_of)) | {new for old, new in new_of.items() if "-" not in old}
    for old, new in new_of.items():
        if "-" in old and new in taken:
            new_of[old] = new + "_lem"
    return new_of


def lemma_here(path, text, name):
    """Whether a file means the repository's own lemma of that name."""
    return re.search(HEAD + name + r"\s+:", text, re.M) or re.search(r"^use Rattle\.\w+\.proofs\.\S*\{[^}]*\b" + name + r"\b", text, re.M)


def main():
    names, fields = declared()
    new_of = turned(names)
    if "--list" in sys.argv:
        for old, new in sorted(new_of.items()):
            print(old, new)
        return 0
    groups = collections.defaultdict(set)
    for old, new in new_of.items():
        groups[new].add(old)
    for new, olds in sorted(groups.items()):
        if len(olds) > 1:
            print("together:", new, *sorted(olds))
    count = 0
    for path in PROOFS + SOURCES:
        text = read(path)
        mine = {n for n in LEMMAS if lemma_here(path, text, n)}
        aliases = set(re.findall(r"^use Rattle\.\w+\.(?:specs|proofs)\.(?![\w.+-]*\.(?:Tie|Statement))[\w.+-]+ as (\S+)", text, re.M))

        def turn(m):
            t = m.group(0)
            if t.startswith(("-- ", "//", '"')) or t not in new_of and t not in mine:
                return t
            before = text[: m.start()]
            if before.endswith(".") and "-" in t and t not in fields:
                owner = re.search(r"([A-Za-z_0-9+.'-]+)\.$", before)
                owner = owner.group(1) if owner else ""
                if not owner.startswith("Rattle.") and owner not in aliases:
                    return t
            return new_of.get(t, t + "_lem")

        new = TOKEN.sub(turn, text)
        if new != text:
            count += 1
            with open(path, "w") as f:
                f.write(new)
    crate, old, new = MOVED
    specs = f"{ROOT}/crates/{crate}/specs/"
    os.rename(f"{specs}{old}.antt", f"{specs}{new}.antt")
    for path in PROOFS + SOURCES + [specs + "Lib.antt"]:
        if os.path.exists(path):
            text = read(path)
            moved = text.replace(f"Rattle.{crate}.specs.{old}.", f"Rattle.{crate}.specs.{new}.")
            if path == specs + "Lib.antt":
                moved = moved.replace(f"pub mod {old}\n", f"pub mod {new}\n")
            if moved != text:
                with open(path, "w") as f:
                    f.write(moved)
    print(f"{len(new_of)} names respelled in {count} files")
    return 0


if __name__ == "__main__":
    sys.exit(main())
