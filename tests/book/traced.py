"""A kept trace in antt: crates/rules/proofs/Traced.antt has the calls of book-run, each with its reply, as they are kept."""
import re
from pathlib import Path

TOP = Path(__file__).resolve().parents[2]
CLAIM = TOP / "crates/rules/proofs/Traced.antt"
KEPT = TOP / "crates/traces/data/book-run"
NOTES = {"none": "NoNote", "queued": "(FilmsQueued {})", "picture": "(PictureAt {} {} {})"}


def octets(word):
    return "[]" if word == "-" else f'(hex "{word}")'


def called(line):
    kind, *words = line.split()
    if kind == "start":
        return f"start {octets(words[0])} {words[1]} {words[2]}"
    if kind == "feed":
        return f"feed {octets(words[0])}"
    return {"open": "opening", "take": "taking"}.get(kind, kind) + "".join(f" {word}" for word in words)


def shown(line):
    kind, *words = line.split()
    if kind == "response":
        status, command, data, note, *numbers = words
        return f"response 0x{status} {octets(command)} {octets(data)} {NOTES[note].format(*numbers)}"
    return f"entry {octets(words[0])}" if kind == "entry" else line


def wrong():
    """Where the claim differs from what is kept."""
    calls, replies = (KEPT.with_suffix(end).read_text(encoding="ascii").splitlines() for end in (".trace", ".replies"))
    kept = [f"({called(call)} gets {shown(reply)})" for call, reply in zip(calls, replies, strict=True)]
    claimed = re.findall(r"^ +(?:∷ )?(\(.* gets .*\))$", CLAIM.read_text(encoding="utf-8"), re.MULTILINE)
    pairs = zip(kept + [""] * len(claimed), claimed + [""] * len(kept))
    return next(([f"{CLAIM.relative_to(TOP)}: line {i} of {KEPT.name} is not\n    {b}\nbut\n    {a}"]
                 for i, (a, b) in enumerate(pairs, 1) if a != b), [])
