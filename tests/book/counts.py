"""Numbers of docs/AUDIT.md that the gate's list and the tests know."""
import re
from pathlib import Path

TOP = Path(__file__).resolve().parents[2]


def read(path):
    return (TOP / path).read_text(encoding="utf-8")


def listed(kind):
    """How many of a kind the gate counts."""
    return len(re.findall(rf"^{kind} ", read("tests/gate/counted.txt"), re.M))


def stands(path, pattern):
    """The number that stands in a test."""
    return int(re.search(pattern, read(path), re.M)[1])


def said():
    """The words of the document, and the number in them."""
    return [
        ("the calls of the {} kept traces", listed("trace")),
        ("{} files made by DCMTK and pydicom", listed("vector")),
        ("on {} seeded ones", stands("tests/traces/run", r"if len\(sys\.argv\) > 1 else (\d+)")),
        ("{} calls of start, open, close and take", stands("tests/lent/run", r'"\$\{1:-(\d+)\}"')),
        ("on {} random data sets", stands("tests/walks/run", r"crates/vectors/data (\d+)")),
        ("nested sequences of {} items", stands("tests/walks/walks.c", r"MANY = (\d+)")),
        ("with a stack of {} KiB", stands("tests/walks/run", r"run_x86_64_stack (\d+)")),
    ]


def wrong():
    text = read("docs/AUDIT.md")
    expected = [words.format(f"{number:,}") for words, number in said()]
    return [f"docs/AUDIT.md does not say '{words}'" for words in expected if words not in text]
