"""docs/RULES.md beside docs/BOOK.md and the definitions: each rule has its row and each row its rule, every rule that is cited is
there, and the numbers, texts and tables that the definitions know are theirs."""
import re
import sys
from pathlib import Path

TOP = Path(__file__).resolve().parents[2]
sys.path.insert(0, str(TOP / "tests/layout"))

from layout import Layout

RULES = TOP / "docs/RULES.md"
BOOK = TOP / "docs/BOOK.md"
RULE = re.compile(r"^### (\d\.\d+)\n(.*?)(?=^#|\Z)", re.M | re.S)
ROW = re.compile(r"^\| \[(\d\.\d+)\]\(RULES\.md#\d+\) \|.*`", re.M)
LINK = re.compile(r"\[(\d\.\d+)\]\((?:[\w./]*RULES\.md)?#(\d+)\)")
CITED = re.compile(r"\b[Rr]ules? (\d\.\d+)(?:(?:,| to| and) (\d\.\d+))*")
CITING = {".md", ".antt", ".rt", ".edit", ".c", ".h", ".py", ".dot"}


def definitions(name):
    return (TOP / f"crates/{name}.antt").read_text(encoding="utf-8")


def rules():
    """The text of each rule by its number."""
    return dict(RULE.findall(RULES.read_text(encoding="utf-8")))


def try_rows(there):
    rows = set(ROW.findall(BOOK.read_text(encoding="utf-8")))
    yield from (f"docs/BOOK.md: no row names a definition of rule {number}" for number in there if number not in rows)
    yield from (f"docs/BOOK.md: no rule {number}" for number in sorted(rows) if number not in there)


def texts():
    """All that may cite a rule, but for what was made."""
    made = {".git", "target", "out"}
    parts = [part for part in TOP.iterdir() if part.name not in made]
    files = [part for part in parts if part.is_file()] + [path for part in parts if part.is_dir() for path in part.rglob("*")]
    return sorted(path for path in files if path.suffix in CITING and not made & {*path.relative_to(TOP).parts} and path.is_file())


def try_cited(there):
    for path in texts():
        text = path.read_text(encoding="utf-8", errors="replace")
        for found in CITED.finditer(text):
            yield from (f"{path.relative_to(TOP)}: no {found[0]}" for number in re.findall(r"\d\.\d+", found[0]) if number not in there)
        for number, anchor in LINK.findall(text):
            if number not in there or anchor != number.replace(".", ""):
                yield f"{path.relative_to(TOP)}: [{number}](#{anchor}) leads to no rule of that number"


def shown(number):
    return f"{number:,}"


def sums():
    """The rules' numbers: a rule, its words, and what the definitions say in their places."""
    layout = Layout(TOP)
    bound = layout.number
    uid = int(re.search(r"^is_uid s = both \(leb \(length s\) (\d+)\)", definitions("uids/specs/Uids"), re.M)[1])
    copies = int(re.search(r"count_in (\d+) v", definitions("rules/specs/Attributes"))[1])
    label = int(re.search(r"^label_allowed v = both \(leb \(length \(trimmed v\)\) (\d+)\)", definitions("rules/specs/Values"), re.M)[1])
    return [
        ("2.1", "at most {} bytes", [bound("command_limit")]),
        ("2.2", "{} to {} bytes", [bound("least_room"), bound("most_room")]),
        ("2.3", "at least {} bytes for a response's command, {} for its data set and {} for the report of a feed, and {} for the entry",
         [bound(room) for room in ("command_room", "data_room", "report_room", "entry_room")]),
        ("2.4", "at most **{} session**, with at most {} films, each with at most {} boxes. The **queue** has at most {} entries",
         [bound(most) for most in ("most_sessions", "most_films", "most_boxes", "most_entries")]),
        ("2.5", "**UID** has 1 to {} characters", [uid]),
        ("2.5", "a UID of at most {} characters", [bound("root_limit")]),
        ("2.6", "from 1 to {}", [bound("none_left") - 1]),
        ("3.12", "in {} bytes and removes it: {} picture numbers of {} bytes, ticket and copies of {} each",
         [bound("entry_room"), bound("most_boxes"), layout.bytes("picture"), bound("copies_place") - bound("ticket_place")]),
        ("3.12", "filled with zeros to {}", [bound("entry_room") - bound("uid_place")]),
        ("4.6", "Past {} bytes", [bound("command_limit")]),
        ("5.10", "{} of them", [len(table("forms"))]),
        ("5.14", "One table of {} tags", [len(table("named"))]),
        ("7.1", "1 to {}", [copies]),
        ("7.1", "up to {} characters", [label]),
        ("7.18", "after {} comes 0", [bound("tickets") - 1]),
    ]


def table(name):
    """The rows of one of the tables of tags/Table."""
    body = re.search(rf"^{name} =\n(.*?)\n\n", definitions("tags/specs/Table"), re.M | re.S)[1]
    return re.findall(r"\((\w+) is (\w+)\)", body)


def codes(name):
    """The texts that a coded value may have."""
    return re.findall(r'chars "([^"]+)"', re.search(rf"^{name} = (.*)$", definitions("rules/specs/Values"), re.M)[1])


def octets(name):
    """The bytes of a message that the examples are computed on."""
    body = re.search(rf"^{name} =\n(.*?)\n(?:\n|\Z)", definitions("rules/proofs/Messages"), re.M | re.S)[1]
    return re.findall(r"0x(\w\w)", body)


def words():
    """Texts that must stand in a rule as they are."""
    for name in ("verification_class", "session_class", "film_class", "box_class"):
        yield "1.1", "| " + re.search(rf'^{name} = chars "(.*)"', definitions("rules/specs/Text"), re.M)[1] + " |"
    yield "5.10", " ".join(vr for vr, _ in table("forms")) + "."
    yield "5.10", "Those of the long form, " + " ".join(vr for vr, size in table("forms") if size == "12") + ","
    yield "5.14", "\n".join(f"| ({tag[2:6]},{tag[7:]}) | {vr} | " for tag, vr in table("named"))
    for rule, name in (("7.1", "priorities"), ("7.1", "media"), ("7.1", "destinations"), ("7.4", "orientations"),
                       ("7.4", "magnifications"), ("7.7", "polarities"), ("7.9", "photometrics")):
        yield rule, ", ".join(codes(name))
    fields = dict(re.findall(r"^field_of \((\w+) r\) = 0x(\w+)$", definitions("rules/specs/Checks"), re.M))
    for name, operation in (("Echo", "C-ECHO"), ("Create", "N-CREATE"), ("Set", "N-SET"), ("Act", "N-ACTION"), ("Delete", "N-DELETE")):
        yield "6.15", f"| {fields[name]}H | {operation} |"


def try_said(there):
    """What the definitions know stands in the rules; of a table's rows their beginnings, and no others."""
    said = [(rule, text.format(*map(shown, numbers))) for rule, text, numbers in sums()] + list(words())
    for rule, text in said:
        body = re.sub(r"^(\| \(\w{4},\w{4}\) \| \w\w \| ).*$", r"\1", there[rule], flags=re.M) if rule == "5.14" else there[rule]
        if text not in body:
            yield f"docs/RULES.md: rule {rule} does not say '{text}'"


def try_statuses(there):
    """The statuses of checks 1 to 11 are those that the definitions give."""
    text = definitions("rules/specs/Checks") + definitions("rules/specs/Attributes")
    given = {"0000", *re.findall(r"(?:⇒|printed_with k|says_unknown message field\)|\(StoppedAt stop\)) 0x(\w{4})\b", text)}
    said = {status for check in range(1, 12) for status in re.findall(r"\b([0-9A-F]{4})H", there[f"6.{check}"])}
    if given != said:
        yield f"docs/RULES.md: checks 1 to 11 have {sorted(said - given)} more and {sorted(given - said)} less than the definitions"


def try_examples():
    """P1, P2 and P12 in bytes."""
    text = RULES.read_text(encoding="utf-8")
    for name, line in (("p1", "| P1 |"), ("p2", "| P2 |")):
        if not re.search(re.escape(line) + ".*`" + " ".join(octets(name)) + "`", text):
            yield f"docs/RULES.md: {name} has other bytes in rules/proofs/Messages"
    if "".join(octets("p12")) not in re.sub(r"\s", "", text.split("## Examples")[1]):
        yield "docs/RULES.md: P12 has other bytes in rules/proofs/Messages"


def wrong():
    there = rules()
    return [*try_rows(there), *try_cited(there), *try_said(there), *try_statuses(there), *try_examples()]
