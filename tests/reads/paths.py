"""How often at most what is counted happens on any path through a function: summed along a path, the greatest of the branches. A
call of a function that is not known, and a loop that is not known, are errors."""
from source import Unread, flat, is_group, is_name, split

# What of these tokens is neither a name, a number, a text nor a group: they join values, and nothing is hidden behind them.
JOINING = {";", ",", ":", ".", "..", "..=", "=", "==", "!=", "<", "<=", ">", ">=", "+", "-", "*", "/", "%", "!", "&", "&&", "||",
           "+=", "-=", "*=", "/=", "%=", "::"}
WORDS = {"let", "mut", "as", "true", "false", "self"}
REFUSED = {"break", "continue", "unsafe", "fn", "move", "dyn"}
# Methods of the kit: lengths, ends and copies of bytes, numbers, and what an Option or a Result holds.
OF_THE_KIT = {"len", "is_empty", "first", "first_chunk", "first_chunk_mut", "copy_from_slice", "div_ceil", "saturating_sub",
              "checked_sub", "wrapping_add", "is_ascii_digit", "is_some", "is_none", "unwrap_or"}
# Methods of the kit that go through elements in some places and not in others: known by where they stand.
BY_PLACE = {"contains", "last"}
# Methods of the kit that write many elements, or compare two values, which may be slices: known in functions that are named.
HANDLING = {"fill", "copy_within", "min", "max"}
FUNCTIONS_OF_THE_KIT = {"std::num::wrapping_add_u16"}
# Methods that call a function that is handed to them: once for an element, which is a loop, or once at most.
LOOPING = {"all", "any", "find", "position", "rposition"}
ONCE = {"map_or"}
# Methods of the kit that hand elements on, of which none is looked at yet: a loop takes them.
HANDING_ON = {"iter", "iter_mut", "rev", "zip", "enumerate"}
# Types of the language, whose functions are the kit's, but for conversions that a crate has for its own types.
NUMBERS = {"u8", "u16", "u32", "u64", "usize"}


class Paths:
    """The greatest count of the paths that go on behind a part, and of those that leave its function; None where there are none."""

    def __init__(self, through, ended=None):
        self.through, self.ended = through, ended

    def then(self, other):
        if self.through is None:
            return self
        return Paths(plus(self.through, other.through), most(self.ended, plus(self.through, other.ended)))

    def either(self, other):
        return Paths(most(self.through, other.through), most(self.ended, other.ended))


def plus(a, b):
    return None if a is None or b is None else tuple(x + y for x, y in zip(a, b))


def most(a, b):
    """Of each thing that is counted the greater number."""
    if a is None or b is None:
        return b if a is None else a
    return tuple(map(max, a, b))


def is_known_place(before, name):
    """Whether a method of BY_PLACE goes through no elements. `contains` tests the ends of a range, and goes through a slice. `last`
    looks at one element of a slice, and goes through all of an iterator, which stands behind a call or in round brackets, as no name
    is bound to one."""
    if name == "contains":
        return ends_in_range(before)
    return is_name(before[-1]) or is_group(before[-1], "[")


def ends_in_range(tokens):
    """Whether the last of these tokens is a range in round brackets, which are no call's."""
    *front, last = tokens
    return is_group(last, "(") and bool({"..", "..="} & set(last.inside)) and (not front or front[-1] in JOINING)


def is_of_another(pattern, variant):
    """Whether a pattern is that of another variant."""
    return len(pattern) in (3, 4) and pattern[1] == "::" and is_name(pattern[2]) and pattern[2] != variant


def takes_all(pattern, variant):
    """Whether no value of a variant passes a pattern by: it is a name, or the variant with nothing but names in it."""
    if len(pattern) == 1:
        return is_bound(pattern[0])
    within = pattern[3].inside if len(pattern) == 4 and not isinstance(pattern[3], str) else pattern[3:]
    return pattern[1:3] == ["::", variant] and all(token in (",", ":", "..") or is_bound(token) for token in within)


def is_bound(token):
    """Whether a token of a pattern is a name for whatever is there."""
    return is_name(token) and not token[0].isupper() and token not in ("true", "false")


class Counter:
    """Counts over the functions of crates. `unit(caller, callee)` is what a call counts for itself, and then the function is not
    looked into; None says to look into it. `loops` are the functions whose loops are known to be short, `handlers` those that
    are known to write or compare elements. `assumed` says of variables which variants they are: {function: {variable: variant}}."""

    def __init__(self, crates, nothing, unit, loops, handlers, assumed=None):
        self.crates, self.nothing, self.unit, self.assumed = crates, nothing, unit, assumed or {}
        self.loops, self.handlers = loops, handlers
        self.counted, self.within, self.looping, self.handling, self.recurring = {}, [], set(), set(), set()

    def count(self, path, given=()):
        """The greatest count of a function, whose parameters may be known to be variants."""
        known = {**dict(given), **self.assumed.get(path, {})}
        key = path, tuple(sorted(known.items()))
        if path in self.within:
            self.recurring.add(path)
            self.turn(path)
            return self.nothing
        if key not in self.counted:
            self.within.append(path)
            function = self.function(path)
            paths = self.block(function, function.body, known)
            self.counted[key] = most(paths.through, paths.ended)
            self.within.pop()
            if path in self.recurring and self.counted[key] != self.nothing:
                raise Unread(f"{path}: a loop around what is counted")
        return self.counted[key]

    def turn(self, path, paths=None):
        """A loop, or a function that calls itself, is one that is known to be short, and counts nothing: a loop in a turn, a function
        in all, which is tried behind it."""
        if path not in self.loops:
            raise Unread(f"{path}: a loop that is not known")
        self.looping.add(path)
        if paths and most(paths.through, paths.ended) != self.nothing:
            raise Unread(f"{path}: a loop around what is counted")

    def function(self, path):
        crate, _, name = path.partition("::")
        if crate not in self.crates or name not in self.crates[crate].functions:
            raise Unread(f"{path} is not known")
        return self.crates[crate].functions[name]

    def resolved(self, function, path):
        """The functions that a path of names may mean in a function's crate; None for a variant, a struct or the kit's."""
        crate = self.crates[function.crate]
        if path[-1][0].isupper():
            return None
        text = "::".join(path)
        if text in FUNCTIONS_OF_THE_KIT:
            return None
        if text in crate.functions:
            return [f"{crate.name}::{text}"]
        if len(path) == 1 and text in crate.imports:
            return [crate.imports[text]]
        if len(path) == 2 and path[0] in self.crates:
            return [text]
        if len(path) == 2 and (path[0][0].isupper() or path[0] in NUMBERS):
            return self.of_type(function, text)
        raise Unread(f"{function.path}: what it calls is not known: {text}")

    def of_types(self, wanted):
        """The functions of types with a name that is wanted, in all crates."""
        return [each for crate in self.crates.values() for name, each in crate.functions.items() if "::" in name and wanted(name)]

    def conversion(self):
        """What a question mark that leaves the function counts: it may convert what it hands back."""
        greatest = self.nothing
        for each in self.of_types(lambda name: name.endswith("::from")):
            greatest = most(greatest, self.count(each.path))
        return greatest

    def of_type(self, function, text):
        """What a type's function may be: that of the type, in whatever crate it is; of a type that is left open that of any type.
        None for the kit's."""
        of, name = text.split("::")
        if of in function.open_types:
            found = [each for each in self.of_types(lambda path: path.endswith(f"::{name}")) if each.of_trait]
            if found:
                return self.of_others(found)
        found = [each.path for each in self.of_types(lambda path: path == text)]
        if not found and (of not in NUMBERS or name != "from"):
            raise Unread(f"{function.path}: what it calls is not known: {text}")
        return found or None

    def method(self, function, name):
        """The functions that a method may be; None for the kit's."""
        found = self.of_types(lambda path: path.endswith(f"::{name}"))
        if not found and name in OF_THE_KIT | BY_PLACE | HANDLING | HANDING_ON:
            return None
        if not found or len(found) > 1 and not all(each.of_trait for each in found):
            raise Unread(f"{function.path}: the method is not known: {name}")
        return self.of_others(found) if len(found) > 1 else [found[0].path]

    def of_others(self, found):
        """The functions of a trait but for those within which they are called, for no type holds itself. These must count nothing:
        what is called here is counted once, and may be theirs elsewhere."""
        paths = {each.path for each in found}
        self.recurring |= paths & set(self.within)
        return sorted(paths - set(self.within))

    def call(self, function, callees, group, known, method):
        """What a call counts: its arguments, and then the greatest count of the functions that it may mean."""
        arguments = self.block(function, group.inside, known)
        if not callees:
            return arguments
        return arguments.then(Paths(self.greatest(function, callees, split(group.inside, ","), known, method)))

    def greatest(self, function, callees, handed, known, method):
        greatest = None
        for callee in callees:
            own = self.unit(function.path, callee)
            if own is None:
                parameters = self.function(callee).parameters[1 if method else 0:]
                if len(parameters) != len(handed):
                    raise Unread(f"{function.path}: {callee} is called with {len(handed)} arguments")
                given = [(parameter, known[argument[0]]) for parameter, argument in zip(parameters, handed)
                         if len(argument) == 1 and argument[0] in known]
                own = self.handed_on(function, callee, handed, self.count(callee, given))
            greatest = most(greatest, own)
        return greatest

    def handed_on(self, function, callee, handed, own):
        """What a call with these arguments counts of the function's own count."""
        return own

    def called_by_kit(self, function, name, group, known):
        """A method of the kit that is handed a function without a name: what that counts, in one turn of a loop or once at most."""
        handed = group.inside
        begun = next((i for i, token in enumerate(handed) if token == "|"), len(handed))
        if begun == len(handed) or handed[begun - 1:begun] not in ([], [","]):
            raise Unread(f"{function.path}: what is handed to {name} is not known")
        body = handed.index("|", begun + 1) + 1
        if known.keys() & set(flat(handed[begun:body])) or {"return", "?"} & set(flat(handed[body:])):
            raise Unread(f"{function.path}: a function without a name returns, or binds anew")
        before, inside = self.block(function, handed[:begun], known), self.block(function, handed[body:], known)
        if name in LOOPING:
            self.turn(function.path, inside)
        return before.then(Paths(self.nothing).either(inside))

    def block(self, function, tokens, known, taken=False):
        """Statements, or the parts of an expression, one after another. Elements that are handed on at the end may be taken there."""
        paths, i = Paths(self.nothing), 0
        while i < len(tokens):
            step, i = self.step(function, tokens, i, known, taken)
            paths = paths.then(step)
        return paths

    def step(self, function, tokens, i, known, taken):
        """What begins at a token, and the place behind it."""
        token = tokens[i]
        if not isinstance(token, str):
            return self.block(function, token.inside, known), i + 1
        if token == "match":
            return self.match(function, tokens, i, known)
        if token == "if":
            return self.branch(function, tokens, i, known)
        if token in ("loop", "while", "for"):
            return self.loop(function, tokens, i, known)
        if token == "?":
            return Paths(self.nothing, self.conversion()), i + 1
        if token == "else":
            return Paths(self.nothing).either(self.block(function, tokens[i + 1].inside, known)), i + 2
        if token == "return":
            end = next((k for k in range(i, len(tokens)) if tokens[k] in (";", ",")), len(tokens))
            paths = self.block(function, tokens[i + 1:end], known)
            return Paths(None, most(paths.through, paths.ended)), end
        if token == "let":
            return self.binding(function, tokens, i, known)
        if token == "." and is_name(tokens[i + 1]) and is_group((tokens[i + 2:i + 3] or [""])[0], "("):
            return self.method_call(function, tokens, i, known, taken), i + 3
        if token in REFUSED or (not is_name(token) and not token[0].isdigit() and token[-1] not in "\"'" and token not in JOINING):
            raise Unread(f"{function.path}: '{token}' is not known")
        if is_name(token) and token not in WORDS:
            return self.path(function, tokens, i, known)
        return Paths(self.nothing), i + 1

    def method_call(self, function, tokens, i, known, taken):
        """The call of a method behind the dot at a place."""
        name, group = tokens[i + 1:i + 3]
        if name in LOOPING | ONCE:
            return self.called_by_kit(function, name, group, known)
        callees = self.method(function, name)
        if callees is None:
            self.try_place(function, tokens, i, taken)
        if callees is None and name == "zip":
            return self.block(function, group.inside, known, True)
        return self.call(function, callees, group, known, True)

    def try_place(self, function, tokens, i, taken):
        """A method of the kit that may go through elements is known where it stands."""
        name = tokens[i + 1]
        if name in HANDING_ON:
            self.try_taker(function, name, tokens[i + 3:], taken)
        if name in HANDLING:
            self.handling.add(function.path)
            known = function.path in self.handlers
        else:
            known = name not in BY_PLACE or is_known_place(tokens[:i], name)
        if not known:
            raise Unread(f"{function.path}: the method is not known: {name}, where it stands")

    @staticmethod
    def try_taker(function, name, following, taken):
        """Elements that are handed on are taken by a method that loops or hands them on, or at their end by a loop or by zip; nothing
        else may go through them."""
        if following[:1] == ["."] and following[1] not in HANDING_ON | LOOPING:
            raise Unread(f"{function.path}: the method is not known: {following[1]} behind {name}")
        if following[:1] != ["."] and (following or not taken):
            raise Unread(f"{function.path}: no loop takes the elements of {name}")

    def path(self, function, tokens, i, known):
        """Names joined by colons, and a call where brackets follow."""
        names = [tokens[i]]
        while tokens[i + 1:i + 2] == ["::"]:
            i += 2
            names.append(tokens[i])
        following = (tokens[i + 1:i + 2] or [""])[0]
        if following == "=" and len(names) == 1 and names[0] in known:
            raise Unread(f"{function.path}: {names[0]} is changed, and was taken for one variant")
        if following == "!" and names == ["matches"] and is_group(tokens[i + 2], "("):
            return self.matches(function, tokens[i + 2].inside, known), i + 3
        if following == "!":
            raise Unread(f"{function.path}: the macro is not known: {names[-1]}")
        if not is_group(following, "("):
            return Paths(self.nothing), i + 1
        return self.call(function, self.resolved(function, names), following, known, False), i + 2

    def matches(self, function, tokens, known):
        """A value beside a pattern, which has no condition."""
        value = split(tokens, ",")[0]
        if "if" in tokens:
            raise Unread(f"{function.path}: a pattern with a condition")
        return self.block(function, value, known)

    def binding(self, function, tokens, i, known):
        """Names that are bound anew mean other values, unless that is the one assumed."""
        end = next((k for k in range(i, len(tokens)) if tokens[k] in ("=", ":", ";")), len(tokens))
        for name in known.keys() & set(flat(tokens[i + 1:end])):
            if self.assumed.get(function.path, {}).get(name) != known[name]:
                raise Unread(f"{function.path}: {name} is bound anew, and was taken for one variant")
        return Paths(self.nothing), end

    def until_brace(self, function, tokens, i):
        """The place of the next group in braces."""
        for k in range(i, len(tokens)):
            if is_group(tokens[k], "{"):
                return k
        raise Unread(f"{function.path}: no braces behind '{tokens[i - 1]}'")

    def match(self, function, tokens, i, known):
        """The conditions of all arms, and the greatest of their bodies; of a variable that is known, the arms that it may come to."""
        brace = self.until_brace(function, tokens, i + 1)
        value = tokens[i + 1:brace]
        arms = self.arms(function, tokens[brace].inside, known)
        if len(value) == 1 and value[0] in known:
            arms = self.reached(function, arms, known[value[0]])
        result = None
        for _, _, body in arms:
            paths = self.block(function, body, known)
            result = paths if result is None else result.either(paths)
        tested = self.block(function, value, known)
        for _, condition, _ in arms:
            tested = tested.then(self.block(function, condition, known))
        return tested.then(result), brace + 1

    def reached(self, function, arms, variant):
        """The arms that a variant may come to: all that fit, up to the first that it can't pass by. It may pass by an arm that has a
        condition, or fits some of its values."""
        found = []
        for arm in arms:
            patterns = split(arm[0], "|")
            if not all(is_of_another(one, variant) for one in patterns):
                found.append(arm)
                if not arm[1] and any(takes_all(one, variant) for one in patterns):
                    return found
        raise Unread(f"{function.path}: no arm for all of {variant}")

    def arms(self, function, tokens, known):
        """The arms of a match: pattern, condition and body."""
        found, i = [], 0
        while i < len(tokens):
            arrow = tokens.index("=>", i)
            asked = next((k for k in range(i, arrow) if tokens[k] == "if"), arrow)
            pattern, condition = tokens[i:asked], tokens[asked + 1:arrow]
            if known.keys() & set(flat(pattern)):
                raise Unread(f"{function.path}: a pattern of a name that was taken for one variant")
            if is_group(tokens[arrow + 1], "{"):
                end = arrow + 2
                body = tokens[arrow + 1:end]
            else:
                end = next((k for k in range(arrow, len(tokens)) if tokens[k] == ","), len(tokens))
                body = tokens[arrow + 1:end]
            found.append((pattern, condition, body))
            i = end + 1 if tokens[end:end + 1] == [","] else end
        return found

    def branch(self, function, tokens, i, known):
        """A condition, then the greater of both branches."""
        brace = self.until_brace(function, tokens, i + 1)
        condition = self.condition(function, tokens[i + 1:brace], known)
        yes = self.block(function, tokens[brace].inside, known)
        no, end = Paths(self.nothing), brace + 1
        if tokens[end:end + 1] == ["else"]:
            if tokens[end + 1] == "if":
                no, end = self.branch(function, tokens, end + 1, known)
            else:
                no, end = self.block(function, tokens[end + 1].inside, known), end + 2
        return condition.then(yes.either(no)), end

    def condition(self, function, tokens, known):
        """A condition, or a value beside a pattern."""
        if tokens[0] != "let":
            return self.block(function, tokens, known)
        end = tokens.index("=")
        if known.keys() & set(flat(tokens[:end])):
            raise Unread(f"{function.path}: a pattern of a name that was taken for one variant")
        return self.block(function, tokens[end + 1:], known)

    def loop(self, function, tokens, i, known):
        """The loop's condition and its body, as of one turn; what it goes over is once."""
        brace = self.until_brace(function, tokens, i + 1)
        before, begun = Paths(self.nothing), i + 1
        if tokens[i] == "for":
            begun = tokens.index("in", i)
            if known.keys() & set(flat(tokens[i:begun])):
                raise Unread(f"{function.path}: a pattern of a name that was taken for one variant")
            before = self.block(function, tokens[begun + 1:brace], known, True)
            begun = brace
        turn = self.block(function, tokens[begun:brace + 1], known)
        self.turn(function.path, turn)
        return before.then(Paths(self.nothing).either(turn)), brace + 1
