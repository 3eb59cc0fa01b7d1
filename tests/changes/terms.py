"""The definitions of a file of antt, as far as changing them needs: its declarations, and each clause's right side as a tree
of parts that know where they stand in the text."""
import re

TOKEN = re.compile(r'(?P<skip>\s+|--[^\n]*)|(?P<text>"(?:\\.|[^"\\])*")|(?P<mark>[(){};,])|(?P<word>[^\s(){};,"]+)')
NUMBER = re.compile(r"0x[0-9A-F_]+|[0-9]+")
DECLARES = ("use ", "abbrev ", "unfoldable ", "pub ", "infix", "module ", "open ", "mutual", "--")
# from the loosest to the tightest
LEVELS = ((":",), ("→",), ("×",), ("≡", "<", "≤"), ("⇒", "is"), ("∷", "++"), ("+", "-"), ("*", "/", "%", "^"), ("then",))
ALWAYS = {":", "→", "×"}
NUMBERS = {"u8", "u16", "u32", "u64", "usize"}


class Part:
    """A part of a term. `kind` is number, text, name, apply, field, chain, lambda, record, round or implicit; `parts` are
    those below it; `name` is a name, a field's name, the fields' names of a record, or the signs of a chain."""

    def __init__(self, kind, start, end, parts=(), name=None):
        self.kind, self.start, self.end, self.parts, self.name = kind, start, end, list(parts), name

    def walk(self, above=()):
        """Every part, each with those above it, the nearest last."""
        yield self, above
        for part in self.parts:
            yield from part.walk(above + (self,))


def names(word, aliases):
    """A name and the fields behind it, each with its dot; a module's other name belongs to the name behind it."""
    first, *fields = re.findall(r"^\.?[^.]+|\.[^.]+", word)
    return [first + fields[0], *fields[1:]] if fields and first in aliases else [first, *fields]


def tokens(text, start, end, aliases=()):
    """`aliases` are the other names of modules."""
    found, at = [], start
    while at < end:
        token = TOKEN.match(text, at, end)
        if not token:
            raise ValueError(f"cannot read {text[at:at + 20]!r}")
        word, at = token.group(), token.end()
        if token.lastgroup == "skip":
            continue
        stop = token.lastgroup == "word" and len(word) > 1 and word.endswith(".")
        if token.lastgroup != "word" or word == ".":
            found.append((word, token.start(), token.end()))
            continue
        first = token.start()
        for part in names(word[:-1] if stop else word, aliases):
            found.append((part, first, first + len(part)))
            first += len(part)
        if stop:
            found.append((".", token.end() - 1, token.end()))
    return found


class Reader:
    """Reads the tokens of one right side."""

    def __init__(self, words, signs):
        self.words, self.signs, self.at = words, signs, 0

    def next(self):
        return self.words[self.at][0] if self.at < len(self.words) else None

    def take(self, expected=None):
        word = self.words[self.at]
        if expected and word[0] != expected:
            raise ValueError(f"{expected} expected, {word[0]} found")
        self.at += 1
        return word

    def term(self):
        """A term up to a closing mark, a semicolon or a comma."""
        operands, signs, atoms = [], [], []

        def applied():
            if not atoms:
                raise ValueError("a term expected")
            return atoms[0] if len(atoms) == 1 else Part("apply", atoms[0].start, atoms[-1].end, atoms)

        while self.next() not in (None, ")", "}", ";", ","):
            word = self.next()
            if word in self.signs:
                operands.append(applied())
                signs.append(self.take())
                atoms = []
            elif word == "λ":
                atoms.append(self.function())
            elif word == "record" and self.at + 1 < len(self.words) and self.words[self.at + 1][0] == "{":
                atoms.append(self.record())
            elif word == "(":
                atoms.append(self.round())
            elif word == "{":
                atoms.append(self.implicit())
            elif word.startswith(".") and len(word) > 1:
                _, _, end = self.take()
                atoms[-1:] = [Part("field", atoms[-1].start, end, atoms[-1:], word[1:])]
            else:
                _, start, end = self.take()
                kind = "text" if word.startswith('"') else "number" if NUMBER.fullmatch(word) else "name"
                atoms.append(Part(kind, start, end, (), word))
        operands.append(applied())
        return self.chained(operands, signs)

    def chained(self, operands, signs):
        if not signs:
            return operands[0]
        level = next(level for level in LEVELS if any(sign[0] in level for sign in signs))
        parts, names, first = [], [], 0
        for i, sign in enumerate(signs):
            if sign[0] in level:
                parts.append(self.chained(operands[first:i + 1], signs[first:i]))
                names.append(sign)
                first = i + 1
        parts.append(self.chained(operands[first:], signs[first:]))
        return Part("chain", parts[0].start, parts[-1].end, parts, names)

    def function(self):
        _, start, _ = self.take("λ")
        bound, held = [], []
        while self.next() != ".":
            if self.next() == "(":
                self.take()
                name = self.take()[0]
                self.take(":")
                typed = self.term()
                self.take(")")
                held.append((name, typed.start, typed.end))
            else:
                bound.append(self.take()[0])
        self.take(".")
        body = self.term()
        return Part("lambda", start, body.end, [body], (bound, held))

    def record(self):
        _, start, _ = self.take("record")
        self.take("{")
        names, parts = [], []
        while self.next() != "}":
            names.append(self.take()[0])
            self.take("=")
            parts.append(self.term())
            if self.next() == ";":
                self.take()
        _, _, end = self.take("}")
        return Part("record", start, end, parts, names)

    def round(self):
        _, start, _ = self.take("(")
        parts = [self.term()]
        while self.next() == ",":
            self.take()
            if self.next() != ")":
                parts.append(self.term())
        _, _, end = self.take(")")
        return Part("round", start, end, parts)

    def implicit(self):
        _, start, _ = self.take("{")
        while self.next() != "}":
            self.take()
        _, _, end = self.take("}")
        return Part("implicit", start, end)


class Clause:
    """A line of a definition: its name, its patterns, and its right side."""

    def __init__(self, name, patterns, body):
        self.name, self.patterns, self.body = name, patterns, body


def items(text):
    """The items of a file, by where they start and end: a line, with those behind it that are indented further."""
    starts, inside, at = [], False, 0
    for line in text.splitlines(keepends=True):
        indent = len(line) - len(line.lstrip(" "))
        word = line.strip()
        if word and not word.startswith(("}", ")")):
            if indent == 0:
                inside = word.startswith("module ") or word.endswith("mutual")
                starts.append(at)
            elif indent == 2 and inside:
                starts.append(at)
        at += len(line)
    return [(start, end) for start, end in zip(starts, starts[1:] + [len(text)])]


def arrows(typed):
    """The types of the arguments, and of the result."""
    typed = re.sub(r"^(\{[^}]*\}\s*→\s*)+", "", " ".join(typed.split()))
    parts, depth, last = [], 0, ""
    for letter in typed:
        depth += (letter in "({") - (letter in ")}")
        if letter == "→" and depth == 0:
            parts.append(last.strip())
            last = ""
        else:
            last += letter
    parts.append(last.strip())
    strip = [part[1:-1] if re.fullmatch(r"\([^()]*\)", part) and ":" not in part else part for part in parts]
    return strip[:-1], strip[-1]


class File:
    """A file of definitions. `uses`: a name, and the module it is brought from; `signatures`: a name, and its type's
    arguments and result, in the order in which they stand; `data`: the constructors of each type; `records`: the fields of
    each record; `clauses`."""

    def __init__(self, path, text):
        self.path, self.text = path, text
        self.uses, self.signatures, self.data, self.records, self.clauses = {}, {}, {}, {}, []
        self.aliases = set(re.findall(r"^use \S+ as (\S+)$", text, re.M))
        spans = items(text)
        for start, end in spans:
            self.declared(text[start:end].strip())
        own = set(self.uses) | set(self.signatures) | {name for rows in self.data.values() for name, _ in rows}
        self.signs = ALWAYS | {name.strip("◌") for name in own if re.fullmatch(r"◌[^◌]+◌", name)}
        for start, end in spans:
            item = text[start:end].strip()
            if item.startswith("pub record "):
                self.statements(item.split()[2], start, end)
            elif not item.startswith(DECLARES):
                self.clause(start, end)

    def declared(self, item):
        word = re.sub(r"--[^\n]*", "", item).strip()
        if word.startswith("use "):
            brought = re.match(r"use ([^\s{]+?)\.?\{(.*)\}", word, re.S)
            if brought:
                for name in brought[2].split(","):
                    self.uses[name.strip()] = brought[1]
            return
        typed = re.match(r"(?:(?:abbrev|unfoldable) )?(?:pub )?([^\s:]+) :\s(.*)", word, re.S)
        if word.startswith("pub data "):
            self.constructors(word)
        elif word.startswith("pub record "):
            name = word.split()[2]
            self.records[name] = [(field, " ".join(of.split())) for field, of in re.findall(r"^\s+pub (\S+) : (.*)$", word, re.M)]
        elif typed and word.startswith(("abbrev ", "unfoldable ", "pub ")):
            self.signatures[typed[1]] = arrows(typed[2])

    def constructors(self, word):
        name, rows = word.split()[2], []
        for line in word.splitlines()[1:]:
            names, _, of = line.partition(" : ")
            rows += [(one, arrows(of)[0]) for one in names.split()]
        self.data[name] = rows

    def statements(self, name, start, end):
        """The fields of a record that state something, each as a right side."""
        for field in re.finditer(r"^\s+pub \S+ : (.*[≡≤<].*)$", self.text[start:end], re.M):
            body = Reader(tokens(self.text, start + field.start(1), start + field.end(1), self.aliases), self.signs).term()
            self.clauses.append(Clause(name, [], body))

    def clause(self, start, end):
        words = tokens(self.text, start, end, self.aliases)
        depth = 0
        for i, (word, _, _) in enumerate(words):
            depth += (word in "({") - (word in ")}") if len(word) == 1 else 0
            if word == "=" and depth == 0:
                break
        else:
            raise ValueError(f"{self.path}: no definition in {self.text[start:end][:60]!r}")
        patterns, held = [], []
        for word, _, _ in words[1:i]:
            depth += (word in "({") - (word in ")}") if len(word) == 1 else 0
            held.append(word)
            if depth == 0:
                patterns.append(held)
                held = []
        reader = Reader(words[i + 1:], self.signs)
        body = reader.term()
        if reader.next() is not None:
            raise ValueError(f"{self.path}: {reader.next()} is left over in {self.text[start:end][:60]!r}")
        self.clauses.append(Clause(words[0][0], patterns, body))


def declared_in_code(text):
    """The structs and enums of a Rattle file: records with their fields, and constructors, as `File` has them."""
    def typed(of):
        array = re.fullmatch(r"\[(.*); *\w+\]", of.strip())
        if array:
            return f"List {typed(array[1])}"
        return "ℕ" if of.strip() in NUMBERS else "Bool" if of.strip() == "bool" else of.strip()

    records, data = {}, {}
    text = re.sub(r"//[^\n]*", "", text)
    for name, body in re.findall(r"pub struct (\w+) \{(.*?)\}", text, re.S):
        records[name] = [(field, typed(of)) for field, of in re.findall(r"pub (\w+): ([^,\n]+),", body)]
    for name, body in re.findall(r"pub struct (\w+)\(([^)]*)\)", text):
        records[name] = [(str(i), typed(of.replace("pub ", ""))) for i, of in enumerate(body.split(","))]
    for name, body in re.findall(r"pub enum (\w+) \{\n(.*?)\n\}", text, re.S):
        rows = []
        for one, of in re.findall(r"^ *(\w+) *(\([^)]*\)|\{[^}]*\}|),$", body, re.M):
            held = [part.strip() for part in of.strip("(){}").split(",")]
            rows.append((one, [typed(part.split(":")[-1]) for part in held if part]))
        data[name] = rows
    return records, data
