"""Every change of one place of the book's definitions."""
import difflib
import re
from pathlib import Path

from terms import File, declared_in_code

# the crates that hold the book, each below those that it is cited by
CRATES = ("choice", "octets", "fields", "uids", "tags", "headers", "elements", "writing", "strike", "rules", "runs")
KINDS = ("number", "letter", "exchanged", "test", "branches", "left out", "row", "name")

# what the library has: the types of arguments, and of the result
LIBRARY = {
    "eqb": (["ℕ", "ℕ"], "Bool"), "leb": (["ℕ", "ℕ"], "Bool"), "ltb": (["ℕ", "ℕ"], "Bool"), "suc": (["ℕ"], "ℕ"),
    "length": (["List A"], "ℕ"), "get_or": (["List A", "ℕ", "A"], "A"), "take": (["ℕ", "List A"], "List A"),
    "drop": (["ℕ", "List A"], "List A"), "replicate": (["ℕ", "A"], "List A"), "set": (["List A", "ℕ", "A"], "List A"),
    "map": (["A → B", "List A"], "List B"),
}
# exchanging their arguments gives an equal book
EVEN = {"eqb", "both", "either", "same", "pick"}
# lists whose order says nothing: tests that all must hold, standings that any may break, rows with keys that differ; and those
# that are tested for zeros
UNORDERED = {"List Bool", "List Standing", "List Row"}
# a word, the one that it is exchanged with, and where that one stands
OTHER = {"both": ("either", "Pick"), "either": ("both", "Pick"), "ltb": ("leb", "Prelude"), "leb": ("ltb", "Prelude"),
         "every": ("any", "Lists"), "any": ("every", "Lists"), "take": ("drop", "Prelude"), "drop": ("take", "Prelude")}
MODULES = {"Pick": "Rattle.choice.specs.Pick", "Lists": "Rattle.rules.specs.Lists", "Prelude": "Rattle.std.specs.Prelude"}
SIGNS = {"+": "-", "-": "+", "/": "%", "%": "/", "<": "≤", "≤": "<"}
NUMERIC = {"+", "-", "*", "/", "%", "^"}


class Change:
    """One place changed: `edits` are pieces of the file's text, by start and end, and what stands there instead."""

    def __init__(self, file, kind, at, edits):
        self.file, self.kind, self.at = file, kind, at
        self.edits = sorted(edits)

    def text(self):
        text = self.file.text
        for start, end, new in reversed(self.edits):
            text = text[:start] + new + text[end:]
        return text

    def line(self):
        return self.file.text.count("\n", 0, self.at) + 1

    def place(self):
        return f"{self.file.path}:{self.line()}"

    def diff(self):
        """The lines that it takes away and brings, but for those that bring names."""
        lines = difflib.ndiff(self.file.text.splitlines(), self.text().splitlines())
        return [line for line in lines if line[:2] in ("- ", "+ ") and not line[2:].startswith("use ")]


class Book:
    """The files of definitions of a repository."""

    def __init__(self, top):
        self.top, self.files, self.records, self.siblings = Path(top), [], {}, {}
        for crate in CRATES:
            for path in sorted((self.top / "crates" / crate / "specs").glob("*.antt")):
                self.files.append(File(str(path.relative_to(self.top)), path.read_text(encoding="utf-8")))
            records, data = declared_in_code((self.top / "crates" / crate / "src/lib.rt").read_text(encoding="utf-8"))
            self.known(records, data)
        for file in self.files:
            self.known(file.records, file.data)
        self.paths = {file.path: file for file in self.files}

    def known(self, records, data):
        self.records.update(records)
        for of, rows in data.items():
            for name, args in rows:
                self.siblings.setdefault(name, []).append((of, args, [one for one, others in rows if others == args and one != name]))

    def home(self, file, name):
        """The file of the book that a name of a file stands in."""
        if name in file.signatures:
            return file
        found = re.match(r"Rattle\.(\w+)\.specs\.(\w+)$", file.uses.get(name, ""))
        return self.paths.get(f"crates/{found[1]}/specs/{found[2]}.antt") if found else None

    def signature(self, file, name):
        home = self.home(file, name)
        if home and name in home.signatures:
            return home.signatures[name]
        if name in LIBRARY and name in file.uses:
            return LIBRARY[name]
        for of, args, _ in self.siblings.get(name, []):
            return args, of
        return None

    def places(self):
        """Every place at which something can be changed, in the order of the files: its changes."""
        for file in self.files:
            found = {}
            for i, clause in enumerate(file.clauses):
                for change in Changes(self, file, clause).all():
                    found.setdefault((change.kind, change.at), []).append(change)
                before = file.clauses[i - 1] if i else None
                if before and before.name == clause.name and clause.name not in file.records:
                    one, other = before.body, clause.body
                    a, b = file.text[one.start:one.end], file.text[other.start:other.end]
                    if a != b:
                        edits = [(one.start, one.end, b), (other.start, other.end, a)]
                        found[("exchanged", one.start, "rows")] = [Change(file, "exchanged", one.start, edits)]
            yield from found.values()


class Changes:
    """The changes of one clause."""

    def __init__(self, book, file, clause):
        self.book, self.file, self.clause = book, file, clause
        self.types = {}
        arguments, _ = file.signatures.get(clause.name, ([], None))
        for pattern, typed in zip(clause.patterns, arguments):
            if len(pattern) == 1:
                self.types[pattern[0]] = typed
        for part, _ in clause.body.walk():
            if part.kind == "lambda":
                for name, start, end in part.name[1]:
                    self.types[name] = file.text[start:end]

    def text(self, part):
        return self.file.text[part.start:part.end]

    def change(self, kind, part, new, *more):
        return Change(self.file, kind, part.start, [(part.start, part.end, new), *more])

    def exchange(self, kind, one, other):
        a, b = self.text(one), self.text(other)
        if a.split() != b.split():
            yield Change(self.file, kind, one.start, [(one.start, one.end, b), (other.start, other.end, a)])

    # what a name must be brought by, if it is not in scope

    def bring(self, name, module):
        """The edit that brings a name of a module, none where the file has it."""
        file = self.file
        if name in file.uses or name in file.signatures or any(name == one for rows in file.data.values() for one, _ in rows):
            return []
        for line in re.finditer(r"^use (\S+?)\.\{", file.text, re.M):
            if line[1] == module or line[1].endswith(f".{module}"):
                return [(line.end(), line.end(), f"{name}, ")]
        module = MODULES.get(module, module)
        at = re.search(r"^use ", file.text, re.M).start()
        return [(at, at, f"use {module}.{{{name}}}\n")]

    # types, as far as they are told

    def typed(self, part):
        if part.kind == "round" and len(part.parts) == 1:
            return self.typed(part.parts[0])
        if part.kind == "number":
            return "ℕ"
        if part.kind == "name":
            if part.name in self.types:
                return self.types[part.name]
            if part.name in ("true", "false"):
                return "Bool"
            signature = self.book.signature(self.file, part.name)
            return signature[1] if signature and not signature[0] else None
        if part.kind == "apply" and part.parts[0].kind == "name":
            if part.parts[0].name == "pick" and len(part.parts) == 4:
                return self.typed(part.parts[2]) or self.typed(part.parts[3])
            signature = self.book.signature(self.file, part.parts[0].name)
            if signature and len(signature[0]) == len(part.parts) - 1:
                return None if re.search(r"\b[AB]\b", signature[1]) else signature[1]
        if part.kind == "field":
            return dict(self.book.records.get(self.typed(part.parts[0]), [])).get(part.name)
        if part.kind == "chain" and part.name[0][0] in NUMERIC:
            return "ℕ"
        if part.kind == "chain" and part.name[0][0] == "∷":
            return f"List {self.typed(part.parts[0])}"
        if part.kind == "chain" and part.name[0][0] == "is":
            return "Row"
        return None

    # the changes

    def all(self):
        for part, above in self.clause.body.walk():
            if part.kind == "number":
                yield from self.number(part, above)
            elif part.kind == "text":
                yield from self.letter(part)
            elif part.kind == "name":
                yield from self.name(part)
            elif part.kind == "field":
                yield from self.field(part)
            elif part.kind == "record":
                yield from self.record(part)
            elif part.kind == "chain":
                yield from self.chain(part, above)
            elif part.kind == "apply":
                yield from self.apply(part)
            elif part.kind == "round" and len(part.parts) > 1:
                for one, other in zip(part.parts, part.parts[1:]):
                    yield from self.exchange("exchanged", one, other)
            yield from self.negated(part, above)

    def number(self, part, above):
        word = part.name
        if above and above[-1].kind == "apply" and above[-1].parts[0].name == "Type":
            return
        if word.startswith("0x"):
            for i in range(2, len(word)):
                if word[i] != "_":
                    yield self.change("number", part, f"{word[:i]}{(int(word[i], 16) + 1) % 16:X}{word[i + 1:]}")
        else:
            yield self.change("number", part, str(int(word) + 1))
            if int(word) > 0:
                yield self.change("number", part, str(int(word) - 1))

    def letter(self, part):
        units = re.findall(r"\\.|.", part.name[1:-1])
        for i, unit in enumerate(units):
            other = {"9": "0", "Z": "A", "z": "a"}.get(unit, chr(ord(unit[-1]) + 1)) if len(unit) == 1 else "/"
            for new in (other, "", unit + unit):
                yield self.change("letter", part, '"' + "".join(units[:i] + [new] + units[i + 1:]) + '"')

    def name(self, part):
        word = part.name
        if word in OTHER and word in self.file.uses:
            other, module = OTHER[word]
            yield self.change("test", part, other, *self.bring(other, module))
        if word in ("true", "false"):
            other = "false" if word == "true" else "true"
            yield self.change("name", part, other, *self.bring(other, "Prelude"))
            return
        if word in self.types:
            return
        before, dot, last = word.rpartition(".")
        for _, _, others in self.book.siblings.get(last, []):
            for other in others:
                brought = [] if dot else self.bring(other, self.file.uses.get(word, ""))
                yield self.change("name", part, before + dot + other, *brought)
        home = self.book.home(self.file, word)
        if home and word in home.signatures and word not in OTHER and word != "pick":
            alike = [name for name, typed in home.signatures.items() if typed == home.signatures[word]]
            at = alike.index(word)
            for other in alike[max(at - 1, 0):at] + alike[at + 1:at + 2]:
                yield self.change("name", part, other, *self.bring(other, self.file.uses.get(word, "")))

    def field(self, part):
        if part.name in ("0", "1") and not self.typed(part.parts[0]):
            yield Change(self.file, "name", part.end - 1, [(part.end - 1, part.end, "1" if part.name == "0" else "0")])
            return
        of = self.typed(part.parts[0])
        for record in [self.book.records[of]] if of in self.book.records else self.book.records.values():
            alike = [name for name, typed in record if typed == dict(record).get(part.name)]
            if part.name in alike:
                at = alike.index(part.name)
                for other in alike[max(at - 1, 0):at] + alike[at + 1:at + 2]:
                    yield Change(self.file, "name", part.end - len(part.name), [(part.end - len(part.name), part.end, other)])

    def record(self, part):
        names = part.name
        fields = next((dict(fields) for fields in self.book.records.values() if [name for name, _ in fields] == names), {})
        for i, one in enumerate(part.parts):
            for j in range(i + 1, len(names)):
                if fields.get(names[i], i) == fields.get(names[j], j - 1):
                    yield from self.exchange("exchanged", one, part.parts[j])
        old = [one.parts[0].name for name, one in zip(names, part.parts)
               if one.kind == "field" and one.name == name and one.parts[0].kind == "name"]
        for name, one in zip(names, part.parts):
            if old and self.text(one) != f"{old[0]}.{name}":
                yield self.change("left out", one, f"{old[0]}.{name}")

    def chain(self, part, above):
        signs = [sign for sign, _, _ in part.name]
        if signs[0] in ("∷", "++"):
            outer = [one for one in above if one.kind == "apply"]
            ordered = self.typed(part) not in UNORDERED and not (outer and outer[-1].parts[0].name == "zeros")
            for i, sign in enumerate(signs):
                one, other = part.parts[i], part.parts[i + 1]
                if (i + 1 < len(signs) or sign == "++") and ordered:
                    inner = other.parts[0] if other.kind == "round" and other.parts[0].kind == "chain" else other
                    yield from self.exchange("exchanged", one, inner.parts[0] if inner is not other and sign == "++" else other)
                yield Change(self.file, "row", one.start, [(one.start, other.start, "")])
            if signs[-1] == "++":
                yield Change(self.file, "row", part.parts[-2].end, [(part.parts[-2].end, part.parts[-1].end, "")])
            return
        for i, (sign, start, end) in enumerate(part.name):
            one, other = part.parts[i], part.parts[i + 1]
            if sign in SIGNS:
                brought = self.bring(f"◌{SIGNS[sign]}◌", "Prelude")
                yield Change(self.file, "test", start, [(start, end, SIGNS[sign]), *brought])
            if sign in ("-", "/", "%", "^", "<", "≤", "then", "is"):
                yield from self.exchange("exchanged", one, other)
            if sign in NUMERIC or sign in ("then", "×"):
                yield Change(self.file, "left out", other.start, [(one.end, other.end, "")])
            if sign in ("+", "*", "then", "×"):
                yield Change(self.file, "left out", one.start, [(one.start, other.start, "")])

    def apply(self, part):
        head, *given = part.parts
        if head.kind != "name":
            return
        if head.name == "pick" and len(given) >= 3:
            yield from self.exchange("branches", given[1], given[2])
            return
        signature = self.book.signature(self.file, head.name)
        if not signature:
            return
        arguments, result = signature
        for i, (one, other) in enumerate(zip(given, given[1:])):
            if head.name not in EVEN and i + 1 < len(arguments):
                a, b = arguments[i], arguments[i + 1]
                if a == b or head.name == "get_or" and i == 1:
                    yield from self.exchange("exchanged", one, other)
        if len(given) == len(arguments):
            for one, typed in zip(given, arguments):
                if typed == result:
                    yield self.change("left out", part, self.text(one))

    def negated(self, part, above):
        if part.kind not in ("apply", "field") or self.typed(part) != "Bool" or self.file.path.endswith("choice/specs/Pick.antt"):
            return
        outer = [one for one in above if one.kind != "round"]
        if outer and outer[-1].kind == "apply" and outer[-1].parts[0].name in ("pick", "not"):
            return
        if part.kind == "apply" and part.parts[0].name == "not":
            return
        yield self.change("test", part, f"(not ({self.text(part)}))", *self.bring("not", "Pick"))
