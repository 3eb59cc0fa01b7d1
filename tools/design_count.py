#!/usr/bin/env python3
"""Counts the places of docs/DESIGN-PASS.md in crates/*/src, at the top of a checkout or of the commit that is named: what is found by its
form, point by point. `-v` names each place."""
import re
import subprocess
import sys
import tarfile
from collections import defaultdict
from io import BytesIO
from pathlib import Path

TOP = Path(__file__).resolve().parents[1]
HEAD = re.compile(r"^ *(?:pub )?(?:unsafe )?(?:extern \"C\" )?fn (\w+)", re.M)
# The value of a bound that says a fact of a value, by whatever name the value has.
VALUE = re.compile(r"\b\w+\.(?:old|now)\b")


def sources(commit):
    """The text of each file of src/, by its path."""
    if not commit:
        return {str(f.relative_to(TOP)): f.read_text(encoding="utf-8") for f in sorted(TOP.glob("crates/*/src/*.rt"))}
    packed = subprocess.run(["git", "archive", commit, "crates"], cwd=TOP, check=True, capture_output=True).stdout
    with tarfile.open(fileobj=BytesIO(packed)) as tar:
        return {m.name: tar.extractfile(m).read().decode() for m in tar if re.fullmatch(r"crates/\w+/src/\w+\.rt", m.name)}


def functions(text):
    """Each function: its name, and its text up to the next."""
    starts = [m for m in HEAD.finditer(text)]
    for m, after in zip(starts, starts[1:] + [None]):
        yield m.group(1), text[m.start() : after.start() if after else len(text)]


def matching(pattern, flags=re.M):
    return lambda name, body: [name for _ in re.finditer(pattern, body, flags)]


# A point's forms: what is counted, and the places that a function has of it.
FORMS = [
    ("1 a number that says which rule is broken, 0 for none", matching(r"^ *ensures.*(?<!_of )result ≡ first_broken")),
    ("1 such a number tested for 0 and handed on", matching(r"if \w+ != 0 \{\n *return ")),
    ("1 'none' told by a number, in a comment", matching(r"//.*(0 where|where it is none|where it names none|0 of an|NEVER where|how many films there are where)")),
    ("2 functions that differ from another in names, numbers and texts alone", None),
    ("3 a counter moved by hand", matching(r"^ *(?:i|p|n|k) (?:\+|-)= 1;")),
    ("3 while", matching(r"^ *while ")),
    ("4 a match or a chain that only says whether an enum is one of its variants", matching(r"-> bool\n(?: *(?:requires|ensures).*\n)*\{\n    match \w+ \{\n(?:(?:.*=> (?:true|false),.*|            \w+: _,|.*\{|        \} => (?:true|false),)\n)+    \}\n\}")),
    ("4 a test that is returned by if and return", matching(r"if [^{\n]*\{\n *return (?:false|true);\n *\}")),
    ("6 an array by value with a count beside it", matching(r"fn \w+\(\w+: \[\w+; \w+\], n: usize")),
]


def twins(texts):
    """Functions of one crate with the same text but for names, numbers and strings."""
    shapes = defaultdict(list)
    for path, text in texts.items():
        for name, body in functions(text):
            code = re.sub(r"//.*", "", body)
            code = re.sub(r"^ *(?:requires|ensures).*$", "", code, flags=re.M)
            shape = re.sub(r"\s+", " ", re.sub(r'b?"[^"]*"|\b\d\w*\b|\b[a-zA-Z_]\w*\b', "x", code))
            if len(shape) > 60:
                shapes[path, shape].append(name)
    return {key: names for key, names in shapes.items() if len(names) > 1}


def repeated(texts):
    """Facts that stand in the requires of three functions or more."""
    facts = defaultdict(set)
    for path, text in texts.items():
        for name, body in functions(text):
            for clause in re.findall(r"^ *requires(?: \w+)? \{ (.*) \}$", body, re.M):
                for fact in clause.split(" × "):
                    facts[VALUE.sub("x", re.sub(r"^\((.*)\)$", r"\1", fact.strip()))].add(f"{path}:{name}")
    return {fact: names for fact, names in facts.items() if len(names) > 2}


def main():
    words = [word for word in sys.argv[1:] if word != "-v"]
    texts = sources(words[0] if words else None)
    for title, found in FORMS:
        if found is None:
            places = [f"{key[0]}: {' '.join(names)}" for key, names in twins(texts).items()]
            print(f"{title}: {sum(len(names) for names in twins(texts).values())} in {len(places)} groups")
        else:
            places = [f"{path}:{place}" for path, text in texts.items() for name, body in functions(text) for place in found(name, body)]
            print(f"{title}: {len(places)}")
        if "-v" in sys.argv:
            print("".join(f"    {place}\n" for place in places), end="")
    facts = repeated(texts)
    print(f"5 a fact in the requires of three functions or more: {len(facts)}, in {sum(map(len, facts.values()))} places")
    if "-v" in sys.argv:
        for fact, names in sorted(facts.items(), key=lambda item: -len(item[1])):
            print(f"    {len(names)} {fact}")


if __name__ == "__main__":
    main()
