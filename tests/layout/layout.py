"""The layout of the records, derived from the book's formats: the fields of each, their places and their bytes."""
import re

BOUND = re.compile(r"^abbrev pub (\w+) : ℕ\n\1 = (.+)$", re.M)
CODES = re.compile(r"^abbrev pub (\w+) : List \(List ℕ\)\n\1 = (.+)$", re.M)
FORMAT = re.compile(r"^unfoldable pub (\w+)_format : Format \w+\n\1_format =(.*?)\n(?=\n|\Z)", re.M | re.S)


class Field:
    """A field of a format: its name, its place, how many there are of it, of which format, and the bytes of one."""

    def __init__(self, name, place, count, of, bytes_of_one):
        self.name, self.place, self.count, self.of, self.one = name, place, count, of, bytes_of_one

    def bytes(self):
        return (self.count or 1) * self.one


class Layout:
    def __init__(self, top):
        texts = [(top / f"crates/{name}.antt").read_text(encoding="utf-8")
                 for name in ("strike/specs/Machine", "rules/specs/Bounds", "rules/specs/Values", "rules/specs/Layout")]
        self.codes = dict(CODES.findall(texts[2]))
        self.sums = {name: said for text in texts for name, said in BOUND.findall(text)}
        self.formats = {name: self.parsed(body) for name, body in FORMAT.findall(texts[-1])}

    def number(self, text):
        """A sum of numbers and of names of such sums."""
        spelled = re.sub(r"[a-z]\w*", lambda name: f"({self.number(self.sums[name[0]])})", text)
        if not re.fullmatch(r"[\d+* ()]+", spelled):
            raise ValueError(f"no sum: {text}")
        return eval(spelled)

    def texts(self, name):
        """The texts of a list of codes, in their order."""
        return re.findall(r'chars "([^"]*)"', self.codes[name])

    @staticmethod
    def parsed(body):
        """The names of a format's fields, and their formats: `via (a struct of t) (fields of x) (these)`."""
        groups, depth, start = [], 0, 0
        for i, c in enumerate(body):
            if c == "(" and (depth := depth + 1) == 1:
                start = i + 1
            elif c == ")" and (depth := depth - 1) == 0:
                groups.append(body[start:i])
        _, fields, formats = groups
        return re.findall(r"x\.(\w+)", fields), formats.split(" then ")

    def part(self, text):
        """How many there are, where it is an array, of which format, and the bytes of one."""
        word, *rest = text.strip("()").split(" ", 1)
        if word == "byte":
            return None, None, 1
        if word == "number":
            return None, None, self.number(rest[0])
        if word == "array":
            count, of = rest[0].split(" ", 1)
            return (self.number(count), *self.part(of)[1:])
        return None, word.removesuffix("_format"), self.bytes(word.removesuffix("_format"))

    def fields(self, name):
        names, formats = self.formats[name]
        if len(names) != len(formats):
            raise ValueError(f"{name}: {len(names)} fields, {len(formats)} formats")
        at = 0
        for field, text in zip(names, formats):
            found = Field(field, at, *self.part(text))
            yield found
            at += found.bytes()

    def bytes(self, name):
        return sum(field.bytes() for field in self.fields(name))

    def field(self, name, path):
        """The field of a format that a path of names leads to; its place is from the start of that format on."""
        first, *rest = path.split(" ", 1)
        found = next(field for field in self.fields(name) if field.name == first)
        if not rest:
            return found
        inner = self.field(found.of, rest[0])
        return Field(inner.name, found.place + inner.place, inner.count, inner.of, inner.one)
