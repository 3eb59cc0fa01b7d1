"""What CONFORMANCE, HOST and RECORDS say in words that the book has: classes and their operations, tags and VRs, the values of
attributes and their defaults, the statuses of each service in the order of the checks, and what each call returns."""
import re

CONFORMANCE, HOST, RECORDS = "docs/CONFORMANCE.md", "docs/HOST.md", "docs/RECORDS.md"
CLASSES = {"Verification": "verification_class", "Basic Film Session": "session_class", "Basic Film Box": "film_class",
           "Basic Grayscale Image Box": "box_class"}
# The cases of `offers`, as the table of operations has its rows and columns.
CASES = {"Verification": "Verification", "Basic Film Session": "Sessions", "Basic Film Box": "Films",
         "Basic Grayscale Image Box": "Boxes"}
OPERATIONS = ["Echo", "Create", "Set", "Act", "Delete"]
# An attribute with texts: their list, the definition of what is new, its field there, and its name in docs/RECORDS.md.
TEXTS = {
    "Print Priority": ("priorities", "new_session", "priority", "Priority"),
    "Medium Type": ("media", "new_session", "medium", "Medium"),
    "Film Destination": ("destinations", "new_session", "destination", "Destination"),
    "Film Orientation": ("orientations", "new_film", "orientation", "Orientation"),
    "Magnification Type": ("magnifications", "new_film", "magnification", "Magnification"),
    "Polarity": ("polarities", "new_box", "polarity", "Polarity"),
}
# The tables of statuses in their order: the definitions whose rules they have, and the statuses that no request of it can get.
CREATE, TARGET, NO_MANDATORY = ["create_rules"], ["target_rules"], {"0120H", "0121H"}
STATUSES = [
    ("Verification, C-ECHO", [], set()),
    ("Basic Film Session, N-CREATE", [*CREATE, "new_session_rules"], NO_MANDATORY),
    ("Basic Film Session, N-SET", [*TARGET, "attribute_rules"], NO_MANDATORY),
    ("Basic Film Session, N-ACTION", [*TARGET, "plan_of", "session_print_rules", "TheSession"], set()),
    ("Basic Film Session, N-DELETE", TARGET, set()),
    ("Basic Film Box, N-CREATE", [*CREATE, "new_film_rules"], set()),
    ("Basic Film Box, N-SET", [*TARGET, "attribute_rules"], NO_MANDATORY),
    ("Basic Film Box, N-ACTION", [*TARGET, "plan_of", "film_print_rules", "TheFilm"], set()),
    ("Basic Film Box, N-DELETE", TARGET, set()),
    ("Basic Grayscale Image Box, N-SET", [*TARGET, "box_rules"], set()),
    ("every request", ["decide_command", "general_rules", "unless_stopped"], set()),
]
# The definitions of each call's lines, and what feed returns beside them: answers by the names of their cases, a wrong header.
CALLS = {
    "start": ["short_rules", "start_rules"], "open": ["records_rules", "short_rules", "open_rules"],
    "feed": ["records_rules", "short_rules", "feed_rules"], "close": ["records_rules", "short_rules", "close_rules"],
    "take": ["records_rules", "short_rules", "take_rules"],
}
ANSWERS, WRONG_HEADER = ["wait", "dropped", "ignored", "failure"], 5
# The states in the order of their numbers, as docs/RECORDS.md calls them.
STATES = {"idle": "idle", "in_command": "in command", "skipping_command": "skipping command", "in_data": "in data",
          "skipping_data": "skipping data"}
# The definitions that judge attributes; what is optional there begins with this word.
STANDINGS = ["session_standings", "film_create_standings", "reference_standings", "optional_film", "box_standings", "image_standings"]
BITS = {"Bits Allocated": "0x0028_0100", "Bits Stored": "0x0028_0101", "High Bit": "0x0028_0102"}
STATUS_HEAD = "| Code | Kind | Meaning | When | What the console does |"
DEFINITION = re.compile(r"^(?:abbrev|unfoldable) pub ([\w-]+) : .*\n((?:.+\n)+)", re.M)
TAGGED = re.compile(r"^\| (?:> )?([^|]+) \| \(([0-9A-F]{4}),([0-9A-F]{4})\) \| (\w\w) \|", re.M)


class Book:
    """The book's definitions by name, each as its text."""

    def __init__(self, top):
        files = [*sorted((top / "crates/rules/specs").glob("*.antt")), top / "crates/tags/specs/Table.antt"]
        self.texts = dict(found for file in files for found in DEFINITION.findall(file.read_text(encoding="utf-8")))

    def strings(self, name):
        return re.findall(r'chars "([^"]*)"', self.texts[name])

    def rows(self, name):
        return re.findall(r"\((\w+) is (\w+)\)", self.texts[name])

    def default(self, name, field):
        return int(re.search(rf"\b{field} = (\d+);", self.texts[name])[1])

    def tested(self, name, tag):
        """The number that a definition asks of a tag's value."""
        return int(re.search(rf"eqb \(us l {tag}\) (\d+)|eqb n (\d+)\) l {tag}", self.texts[name]).expand(r"\1\2"))

    def usages(self):
        """Each attribute that is judged, and its usage."""
        for part in (part.strip() for name in STANDINGS for part in re.split(r"∷| =\n", self.texts[name])):
            for group, element in re.findall(r"0x(\w{4})_(\w{4})", part):
                yield f"({group},{element})", "U/M" if part.startswith("optional") else "M/M"

    def warning(self, instance):
        """What check 11 gives where this instance is printed."""
        return re.search(rf"action_plan k \(?{instance}\b.*?printed_with k 0x(\w+)", self.texts["action_plan"], re.S)[1] + "H"

    def codes(self, name):
        """The statuses of a definition's rules, in their order, behind those of attributes where it has these."""
        if name.startswith("The"):
            return [self.warning(name)]
        text = self.texts[name]
        found = [f"{code}H" for code in re.findall(r"(?:⇒|says_unknown message field\)|\(StoppedAt stop\)) 0x(\w+)", text)]
        return self.codes("attribute_rules") + found if "attribute_rules (" in text else found

    def kind(self, code):
        warnings = re.findall(r"0x(\w+)", self.texts["is_warning"])
        return "success" if code == "0000H" else "warning" if code[:-1] in warnings else "failure"


def stands(path, text, said):
    return None if said in text else f"{path}: no '{said}'"


def row_ends(text, name, value):
    """A row of an item's attribute has this value."""
    return None if re.search(rf"^\| > {name} \|.*\| {value} \| \|$", text, re.M) else f"no row of {name} with '{value}'"


def listed(texts):
    return ", ".join(f"{code} {value}" for code, value in enumerate(texts))


def try_classes(book, text):
    for name, definition in CLASSES.items():
        row = f"| {name} | {book.strings(definition)[0]} | no | yes |"
        yield None if row in text else f"no row '{row}'"
    for name, case in CASES.items():
        cells = ["yes" if f"offers {case} ({operation} r) = true" in book.texts["offers"] else "" for operation in OPERATIONS]
        row = f"| {name} |" + "".join(f" {cell} |" if cell else " |" for cell in cells)
        yield None if row in text else f"no row '{row}'"


def try_tags(book, text, dictionary):
    """Each tag of the table of tags stands with its VR, and every tag with its VR and the name that the dictionary has."""
    vrs = {int(tag, 16): vr for tag, vr in book.rows("named")}
    there = {}
    for name, group, element, vr in TAGGED.findall(text):
        tag = int(group + element, 16)
        there[tag] = vr
        known = vrs.get(tag, dictionary.get(tag, (vr,))[0])
        yield None if vr == known else f"{name} ({group},{element}) is {vr}, and should be {known}"
        due = dictionary.get(tag, (vr, name))[1]
        yield None if name == due else f"({group},{element}) is called '{name}', and the dictionary has '{due}'"
    for tag in vrs:
        yield None if tag in there else f"tag {tag:08X} stands in no table"
    names = [vr for vr, _ in book.rows("forms")]
    yield stands(CONFORMANCE, text, f"{len(names)} VRs are known: {' '.join(names)};")
    for said in re.findall(r"(\d+) tags", text):
        yield None if said == str(len(vrs)) else f"{said} tags, and there are {len(vrs)}"


def try_usages(book, text):
    """An attribute that the library sends stands there a second time."""
    for tag, due in book.usages():
        there = set(re.findall(rf"\| {re.escape(tag)} \| \w\w \| ([MU-]/M) \|", text)) - {"-/M"}
        yield None if there == {due} else f"the usage of {tag} is {' '.join(sorted(there)) or 'not told'}, and should be {due}"


def try_values(book, text, records):
    for name, (definition, new, field, short) in TEXTS.items():
        texts = book.strings(definition)
        row = rf"\| {name} \|.*\| {', '.join(texts)} \| {texts[book.default(new, field)]} \|"
        yield None if re.search(row, text) else f"no row of {name} with '{', '.join(texts)}' and its default"
        yield stands(RECORDS, records, f"| {short}: {listed(texts)} |")
    yield stands(CONFORMANCE, text, f"| {', '.join(book.strings('photometrics'))} |")
    few, many = ({name: book.tested(depth, tag) for name, tag in BITS.items()} for depth in ("depth8", "depth16"))
    allocated = [depth["Bits Allocated"] for depth in (few, many)]
    yield row_ends(text, "Bits Allocated", f"{allocated[0]} or {allocated[1]}")
    for name in ("Bits Stored", "High Bit"):
        yield row_ends(text, name, f"with {allocated[0]} bits allocated {few[name]}, with {allocated[1]} {many[name]}")
    for name, tag in (("Samples per Pixel", "0x0028_0002"), ("Pixel Representation", "0x0028_0103")):
        yield row_ends(text, name, str(book.tested("image_standings", tag)))
    action = re.search(r"eqb r\.kind (\d+)", book.texts["plan_of"])[1]
    for said in ("Action type {} prints all films", "Action type {} prints the film", "the action type is not {} "):
        yield stands(CONFORMANCE, text, said.format(action))


def try_statuses(book, text):
    lines = text.splitlines()
    heads = [i for i, line in enumerate(lines) if line == STATUS_HEAD]
    yield None if len(heads) == len(STATUSES) else f"{len(heads)} tables of statuses, and {len(STATUSES)} are known"
    meanings = {}
    for head, (service, definitions, never) in zip(heads, STATUSES):
        due = [code for name in definitions for code in book.codes(name) if code not in never]
        due += [] if service == "every request" else ["0000H"]
        there = []
        for line in lines[head + 2:]:
            if not line.startswith("|"):
                break
            code, said, meaning = (cell.strip() for cell in line.split("|")[1:4])
            there.append(code)
            yield None if said == book.kind(code) else f"{service}: {code} is no {said}"
            yield None if meanings.setdefault(code, meaning) == meaning else f"{service}: {code} has two meanings"
        due = [code for i, code in enumerate(due) if i == 0 or due[i - 1] != code]
        yield None if there == due else f"{service}: the statuses are {' '.join(there)}, and should be {' '.join(due)}"


def returned(book):
    """By number, the calls that return it."""
    calls = {0: {"start", "open", "close", "take"}, WRONG_HEADER: {"feed"}}
    for call, definitions in CALLS.items():
        for number in (n for name in definitions for n in re.findall(r"⇒ (\d+)\)", book.texts[name])):
            calls.setdefault(int(number), set()).add(call)
    for case in ANSWERS:
        calls[int(re.search(rf"number_of \(?{case}\b[^=]*= (\d+)", book.texts["number_of"])[1])] = {"feed"}
    return calls


def try_calls(book, host, header):
    """Each row of the numbers returned has the header's name, and the calls that return it."""
    names = {name: int(number) for name, number in re.findall(r"^    (GATEWAY_[A-Z_]+) = (\d+),? +/\*", header, re.M)}
    due = returned(book)
    rows = re.findall(r"^\| (\d+) \| `(GATEWAY_\w+)` \| ([\w, ]+) \|", host, re.M)
    yield None if [int(number) for number, _, _ in rows] == sorted(due) else f"{HOST}: the numbers returned are {sorted(due)}"
    for number, name, calls in rows:
        yield None if names.get(name) == int(number) else f"{HOST}: {name} is {names.get(name)}, not {number}"
        there = set(CALLS) if calls == "all" else set(calls.split(", "))
        yield None if there == due.get(int(number)) else f"{HOST}: {number} is returned by {sorted(due.get(int(number), []))}"


def try_states(book, records):
    codes = [re.search(rf"input_held \(?{case}\b[^=]*= held (\d)", book.texts["input_held"])[1] for case in STATES]
    yield stands(RECORDS, records, ", ".join(f"{code} {said}" for code, said in zip(codes, STATES.values())))


def dictionary_of(top):
    """The dictionary of the tool for field service: VR and name by tag."""
    text = "".join(file.read_text(encoding="utf-8") for file in sorted((top / "host").glob("*.c")))
    return {int(tag, 16): (vr, name) for tag, vr, name in re.findall(r'\{ 0x([0-9A-F]{8}), "(\w\w)", "([^"]+)"', text)}


def try_statement(top):
    book = Book(top)
    text, host, records, header = ((top / path).read_text(encoding="utf-8")
                                   for path in (CONFORMANCE, HOST, RECORDS, "include/gateway.h"))
    for wrong in (*try_classes(book, text), *try_tags(book, text, dictionary_of(top)), *try_usages(book, text),
                  *try_values(book, text, records), *try_statuses(book, text), *try_calls(book, host, header),
                  *try_states(book, records)):
        yield wrong and (wrong if wrong.startswith("docs/") else f"{CONFORMANCE}: {wrong}")
