"""The functions of the crates, read from their sources: parameters, and bodies as tokens in which brackets are groups. What is not
known to this reader is an error: nothing is passed over."""
import re

TOKEN = re.compile(r"""//[^\n]*|b?"(?:\\.|[^"\\])*"|b?'(?:\\.|[^'\\])'|'\w+|\w+|::|=>|->|==|!=|<=|>=|&&|\|\||\.\.=|\.\.|[-+*/%]=|\S""")
CLOSING = {"(": ")", "[": "]", "{": "}"}
CLAUSES = {"requires", "ensures"}
# Traits of the kit whose functions are called by name, or by a question mark; an operator calls those of others.
CALLED_BY_NAME = {"From"}
# What an item begins with.
BEGINNING = {"pub", "fn", "#", "const", "use", "ghost", "struct", "enum", "impl", "trait", "type"}


class Unread(Exception):
    """A source that is not of the known form."""


class Group:
    """What stands between two brackets."""

    def __init__(self, bracket, inside):
        self.bracket, self.inside = bracket, inside

    def __repr__(self):
        return f"{self.bracket}..{CLOSING[self.bracket]}"


class Function:
    """A function: its crate, its name with its type's, the names of its parameters, its body, whether a trait names it, and the
    types that it leaves open."""

    def __init__(self, crate, name, parameters, body, of_trait=False, open_types=()):
        self.crate, self.name, self.parameters, self.body = crate, name, parameters, body
        self.of_trait, self.open_types = of_trait, open_types
        self.path = f"{crate}::{name}"


def is_group(token, bracket):
    return isinstance(token, Group) and token.bracket == bracket


def is_name(token):
    return isinstance(token, str) and re.fullmatch(r"[^\W\d]\w*", token) is not None


def grouped(tokens):
    """Tokens with a group for each pair of brackets."""
    outer = [("", [])]
    for token in tokens:
        if token in CLOSING:
            outer.append((token, []))
        elif token in CLOSING.values():
            bracket, inside = outer.pop()
            if not bracket or CLOSING[bracket] != token:
                raise Unread(f"a '{token}' closes nothing")
            outer[-1][1].append(Group(bracket, inside))
        else:
            outer[-1][1].append(token)
    if len(outer) != 1:
        raise Unread("a bracket is not closed")
    return outer[0][1]


def flat(tokens):
    """The tokens without their groups' brackets."""
    for token in tokens:
        if isinstance(token, Group):
            yield from flat(token.inside)
        else:
            yield token


def split(tokens, at):
    """The parts between tokens of a kind; an empty part at the end does not count."""
    parts = [[]]
    for token in tokens:
        if token == at:
            parts.append([])
        else:
            parts[-1].append(token)
    return parts if parts[-1] else parts[:-1]


def behind_angles(tokens, i):
    """The place behind the types in angles that begin at a token, or the token's own place where none do."""
    if tokens[i:i + 1] != ["<"]:
        return i
    depth = 0
    for k in range(i, len(tokens)):
        depth += {"<": 1, ">": -1}.get(tokens[k], 0) if isinstance(tokens[k], str) else 0
        if depth == 0:
            return k + 1
    raise Unread("an angle is not closed")


def without_angles(tokens):
    """A type's tokens, without what stands in angles."""
    kept, i = [], 0
    while i < len(tokens):
        end = behind_angles(tokens, i)
        if end == i:
            kept.append(tokens[i])
            end += 1
        i = end
    return kept


def without_turbofish(tokens):
    """The tokens of calls, without the types in angles behind colons: which they are changes no path."""
    kept, i = [], 0
    while i < len(tokens):
        if tokens[i:i + 2] == ["::", "<"]:
            i = behind_angles(tokens, i + 1)
        else:
            kept.append(tokens[i])
            i += 1
    return kept


def parameters_of(group):
    """The names of parameters; a function is none."""
    names = []
    for part in split(without_angles(group.inside), ","):
        if {"fn", "impl", "dyn"} & set(flat(part)):
            raise Unread("a parameter is a function")
        names.append(next(token for token in part if is_name(token) and token != "mut"))
    return names


class Crate:
    """A crate's functions, the names that it imports, and the variants of its enums."""

    def __init__(self, name, text):
        self.name, self.functions, self.imports, self.variants = name, {}, {}, {}
        tokens = grouped(without_turbofish([token for token in TOKEN.findall(text) if not token.startswith("//")]))
        self.traits = {tokens[i + 1] for i, token in enumerate(tokens) if token == "trait"} | CALLED_BY_NAME
        self.read_items(tokens, "")

    def read_items(self, tokens, prefix, of_trait=False, declared=False):
        """Functions, imports, types and constants, one after another; functions of an impl stand under its type's name, those that a
        trait has for all types under its own. A trait declares others, which its impls have."""
        i = 0
        while i < len(tokens):
            word = tokens[i]
            if word == "#":
                i += 3 if tokens[i + 1] == "!" else 2
            elif word in ("pub", "extern") or is_group(word, "(") or word == '"C"':
                i += 1
            elif word == "fn":
                i = self.read_function(tokens, i + 1, prefix, of_trait, declared)
            elif word in ("impl", "trait"):
                i = self.read_methods(tokens, i)
            elif word in ("use", "ghost", "const", "type"):
                end = tokens.index(";", i)
                if word == "use":
                    self.read_import(tokens[i + 1:end])
                i = end + 1
            elif word in ("struct", "enum"):
                i = self.read_type(tokens, i)
            else:
                raise Unread(f"{self.name}: '{word}' begins nothing that is known")

    def read_methods(self, tokens, i):
        """The functions of an impl, of a trait's impl for a type, or of a trait."""
        begun = behind_angles(tokens, i + 1)
        brace = next(k for k in range(begun, len(tokens)) if is_group(tokens[k], "{"))
        head = without_angles(tokens[begun:brace])
        type_of = head[head.index("for") + 1] if "for" in head else head[0]
        if not is_name(type_of) or "where" in head or ("for" in head and head[0] not in self.traits):
            raise Unread(f"{self.name}: an impl of an unknown form")
        trait = tokens[i] == "trait"
        self.read_items(tokens[brace].inside, f"{type_of}::", trait or "for" in head, trait)
        return brace + 1

    def read_import(self, path):
        *front, last = path
        names = split(last.inside, ",") if is_group(last, "{") else [[last]]
        known = "as" not in front and all(isinstance(token, str) for token in front)
        if not known or not all(len(name) == 1 and is_name(name[0]) for name in names):
            raise Unread(f"{self.name}: an import of another name, or of groups within groups")
        for name in names:
            self.imports[name[0]] = "".join([*front, *name])

    def read_type(self, tokens, i):
        name, place = tokens[i + 1], behind_angles(tokens, i + 2)
        body = tokens[place]
        if tokens[i] == "enum":
            self.variants[name] = [part[0] for part in split(body.inside, ",")]
        return place + (1 if is_group(body, "{") else 2)

    def read_function(self, tokens, i, prefix, of_trait, declared):
        """A function behind its fn. Its body is the group behind its type and its clauses, which may have names."""
        name, place = tokens[i], behind_angles(tokens, i + 1)
        parameters, open_types = tokens[place], {token for token in flat(tokens[i + 1:place]) if is_name(token)}
        i = place + 1
        while tokens[i] != ";" and (not is_group(tokens[i], "{") or self.is_clause(tokens, i)):
            i += 1
        if tokens[i] == ";":
            if not declared:
                raise Unread(f"{self.name}::{name}: no body")
            return i + 1
        if tokens[i + 1:i + 2] and tokens[i + 1] not in BEGINNING:
            raise Unread(f"{self.name}::{name}: '{tokens[i + 1]}' behind its body")
        function = Function(self.name, prefix + name, parameters_of(parameters), tokens[i].inside, of_trait, open_types)
        if function.name in self.functions:
            raise Unread(f"{function.path} stands twice")
        self.functions[function.name] = function
        return i + 1

    @staticmethod
    def is_clause(tokens, i):
        return tokens[i - 1] in CLAUSES or (is_name(tokens[i - 1]) and tokens[i - 2] in CLAUSES)


def texts_of(top):
    """The texts of the crates that are no programs, by name."""
    return {file.parts[-3]: file.read_text(encoding="utf-8") for file in sorted(top.glob("crates/*/src/lib.rt"))}


def parsed(name, text):
    """A crate from its text."""
    try:
        return Crate(name, text)
    except (IndexError, StopIteration, ValueError) as error:
        raise Unread(f"crates/{name}: not of the known form: {error!r}") from error
