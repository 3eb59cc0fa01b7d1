"""Element lists that the reader must refuse, each of one kind, at any nesting, and where their reading stops."""
from typing import NamedTuple

from wire import *

NUMBERS = {
    "no header at all": 1, "header cut short of 8": 1, "header cut short of 12": 1, "value past the end": 1,
    "no item header at all": 1, "cut short between items": 1, "item past the end": 1,
    "odd length": 2, "FFFFH is odd": 2, "item of odd length": 2,
    "same tag twice": 3, "tag below": 3, "group below": 3,
    "long-form bytes not zero": 4, "unknown VR": 4, "not the named tag's VR": 4,
    "Pixel Data neither OB nor OW": 4, "undefined length": 5,
    "group FFFE, defined length": 6, "group FFFE that does not close": 6, "item delimiter with a length": 6,
    "sequence delimiter with a length": 6, "sequence delimiter, defined length": 6,
    "neither item nor delimiter": 6, "fifth sequence": 7,
}


class Stop(NamedTuple):
    """A refusal's number, the place of the header at fault, and how many sequences that header lies in."""
    number: int
    place: int
    depth: int

    def note(self):
        return f"stopped {self.number} {self.place} {self.depth}"


class Fault:
    """`before` is sound, and `wrong` begins with the header at fault, or is empty where that is missing.
    `at_end`: the fault is that bytes run out, so nothing may close what is around it."""

    def __init__(self, name, before, wrong, at_end=False, undefined=None, between_items=False):
        self.name, self.number, self.at_end = name, NUMBERS[name], at_end
        self.data, self.place = before + wrong, len(before)
        self.undefined = undefined      # the list or sequence around must be so; None: either
        self.between_items = between_items
        self.closes = False             # ends as if it closed what is around it


def closing(fault):
    fault.closes = True
    return fault


def sound(syntax):
    return element(0x00080005, "CS", b"ISO_IR 100 "[:10], syntax)


def list_faults(syntax):
    """In a list of elements; each starts with a sound element, so that the fault is the second."""
    ok = sound(syntax)
    yield Fault("no header at all", ok, b"", True, True)
    for n in range(1, 8):
        yield Fault("header cut short of 8", ok, bytes(range(0x10, 0x10 + n)), True)
    for tag in (ITEM, ITEM_END, SEQUENCE_END, 0xFFFE0000):
        yield Fault("group FFFE, defined length", ok, tag_bytes(tag) + u32(0), False, False)
    for tag in (ITEM, SEQUENCE_END, 0xFFFEE0DC):
        yield Fault("group FFFE that does not close", ok, tag_bytes(tag) + u32(0), False, True)
    for length in (1, 2, UNDEFINED):
        wrong = tag_bytes(ITEM_END) + u32(length)
        yield Fault("item delimiter with a length", ok, wrong, False, True)
        yield closing(Fault("item delimiter with a length", ok, wrong, False, True))
    yield Fault("same tag twice", ok, ok)
    yield Fault("tag below", ok, element(0x00080000, "UL", u32(2), syntax))
    yield Fault("group below", ok, element(0x00020010, "UI", b"1.2\0", syntax))
    tag = 0x20000010
    for length in (1, 3):
        yield Fault("odd length", ok, header(tag, "IS", length, syntax) + bytes(length))
    for length in (2, 100, 0x7FFE):
        yield Fault("value past the end", ok, header(tag, "IS", length, syntax), True)
    yield Fault("value past the end", ok, header(tag, "IS", 4, syntax) + b"1  ", True)
    yield Fault("value past the end", ok, header(0x7FE00010, "OW", 0xFFFFFFFE, syntax) + b"12", True)
    yield Fault("value past the end", ok, header(0x20100500, "SQ", 8, syntax) + b"1234567", True)
    for tag in sorted(NAMED):
        if syntax == IMPLICIT and NAMED[tag] != "SQ" and tag > 0x00080005:
            wrong = header(tag, "", UNDEFINED, syntax)
            yield Fault("undefined length", ok, wrong + tag_bytes(SEQUENCE_END) + u32(0))
    if syntax == EXPLICIT:
        yield from explicit_faults(ok)
    else:
        wrong = header(0x00400100, "", 0xFFFF, syntax) + tag_bytes(SEQUENCE_END) + u32(0)
        yield Fault("odd length", ok, wrong)


def explicit_faults(ok):
    for vr in LONG_FORM:
        for n in range(8, 12):
            yield Fault("header cut short of 12", ok, header(0x00400100, vr, 0, EXPLICIT)[:n], True)
        wrong = tag_bytes(0x00400100) + vr.encode()
        for zeros in (b"\1\0", b"\0\1", b"  "):
            yield Fault("long-form bytes not zero", ok, wrong + zeros + u32(0))
        if vr != "SQ":
            wrong = header(0x00400100, vr, UNDEFINED, EXPLICIT)
            yield Fault("undefined length", ok, wrong + tag_bytes(SEQUENCE_END) + u32(0))
    yield Fault("FFFFH is odd", ok, header(0x00400100, "LT", 0xFFFF, EXPLICIT))
    for vr in ("OD", "UC", "XX", "us", "U ", "\0\0", "\xff\xff"):
        yield Fault("unknown VR", ok, tag_bytes(0x00400100) + vr.encode("latin-1") + u16(0))
    for tag in sorted(NAMED):
        if tag > 0x00080005:
            wrong = "UN" if NAMED[tag] != "SQ" else "OB"
            yield Fault("not the named tag's VR", ok, header(tag, wrong, 0, EXPLICIT))
            wrong = "SH" if tag != 0x20200110 else "UT"
            yield Fault("not the named tag's VR", ok, header(tag, wrong, 0, EXPLICIT))
    yield Fault("Pixel Data neither OB nor OW", ok, header(0x7FE00010, "OF", 0, EXPLICIT))
    yield Fault("undefined length", ok, header(0x7FE00010, "OB", UNDEFINED, EXPLICIT))


def item_faults(syntax):
    """Between the items of a sequence; each starts with a sound item."""
    ok = item(sound(syntax), False)
    yield Fault("no item header at all", ok, b"", True, True, True)
    for n in range(1, 8):
        yield Fault("cut short between items", ok, (tag_bytes(ITEM) + u32(0))[:n], True, None, True)
    for length in (1, 8, UNDEFINED):
        wrong = tag_bytes(SEQUENCE_END) + u32(length)
        yield Fault("sequence delimiter with a length", ok, wrong, False, True, True)
        yield closing(Fault("sequence delimiter with a length", ok, wrong, False, True, True))
    for length in (0, 4):
        yield Fault("sequence delimiter, defined length", ok, tag_bytes(SEQUENCE_END) + u32(length),
                    False, False, True)
    for tag in (ITEM_END, 0xFFFE0000, 0x00080005):
        yield Fault("neither item nor delimiter", ok, tag_bytes(tag) + u32(0), False, None, True)
    yield Fault("item of odd length", ok, tag_bytes(ITEM) + u32(1) + b"1", False, None, True)
    for length in (2, 8, 0xFFFFFFFE):
        yield Fault("item past the end", ok, tag_bytes(ITEM) + u32(length), True, None, True)


def fifth_sequences(syntax):
    """For a list that lies in four sequences: a fifth, empty ones too."""
    one = item(b"", False)
    yield Fault("fifth sequence", b"", sequence(0x20100500, b"", syntax, False))
    yield Fault("fifth sequence", b"", sequence(0x20100500, b"", syntax, True))
    yield Fault("fifth sequence", b"", sequence(0x00400100, one, syntax, True))
    yield Fault("fifth sequence", b"", sequence(0x20200110, one, syntax, False))


def around(items, syntax, undefined, closed, tags):
    """Items put into a sequence element. In implicit VR only a named tag's length may be defined."""
    named_tag, other_tag = tags
    whole = sequence(other_tag if undefined else named_tag, items, syntax, undefined)
    return whole[:-8] if undefined and not closed else whole


def within(inside, undefined, closed):
    """A list put into an item."""
    whole = item(inside, undefined)
    return whole[:-8] if undefined and not closed else whole


def nest(inside, depth, syntax, undefined, closed, tags):
    """A list put into `depth` sequences of one item; `undefined` chooses how. Unless `closed`,
    delimiters are left out."""
    for _ in range(depth):
        inside = around(within(inside, undefined(), closed), syntax, undefined(), closed, tags)
    return inside


DATA_TAGS = (0x20100500, 0x00400100)


class Stopping(NamedTuple):
    """Bytes, and where their reading stops. `cut`: for want of more bytes, so nothing may stand behind them."""
    data: bytes
    stop: Stop
    cut: bool = False


def beside(part, front, behind):
    """Sound bytes in front, and any bytes behind where they may stand."""
    moved = part.stop._replace(place=part.stop.place + len(front))
    return Stopping(front + part.data + (b"" if part.cut else behind), moved, part.cut)


def enclosed(part, whole, head, undefined, depth):
    """In `whole`, behind a header of `head` bytes that lies in `depth` sequences. A defined length ends what is cut; an
    odd one is itself at fault, and stands first."""
    if not undefined and len(part.data) % 2 == 1:
        return Stopping(whole, Stop(2, 0, depth))
    return Stopping(whole, part.stop._replace(place=part.stop.place + head), part.cut and undefined)


def in_item(part, undefined, closed, depth):
    return enclosed(part, within(part.data, undefined, closed), 8, undefined, depth)


def in_sequence(part, syntax, undefined, closed, tags, depth):
    whole = around(part.data, syntax, undefined, closed, tags)
    return enclosed(part, whole, len(header(tags[0], "SQ", 0, syntax)), undefined, depth)


def faulty(fault, depth, syntax, rng, tags=DATA_TAGS, always_undefined=False):
    """A list with this fault in a list that lies in `depth` sequences, or between the items of the
    last of them, and where its reading stops. A command can nest only by sequences of undefined length."""
    def undefined():
        return rng.random() < 0.5

    def sequence_undefined():
        return always_undefined or undefined()

    part, closed = Stopping(fault.data, Stop(fault.number, fault.place, depth)), not fault.at_end
    ends = closed and not fault.closes
    if depth > 0 and not fault.between_items:
        part = in_item(part, undefined() if fault.undefined is None else fault.undefined, ends, depth)
        ends = closed
    if depth > 0:
        own = sequence_undefined()
        if fault.between_items and fault.undefined is not None:
            own = fault.undefined
        part = in_sequence(part, syntax, own, ends, tags, depth - 1)
    for outer in range(depth - 1, 0, -1):
        part = in_item(part, undefined(), closed, outer)
        part = in_sequence(part, syntax, sequence_undefined(), closed, tags, outer - 1)
    return part.data, part.stop


class Amid:
    """The same faults with sound elements and items in front of them at every depth, and any bytes behind what is
    closed or has a defined length."""

    def __init__(self, syntax, rng):
        self.syntax, self.rng = syntax, rng

    def chance(self):
        return self.rng.random() < 0.5

    def elements_before(self, depth):
        """Below every tag of a fault; sequences go down to the fourth at most."""
        rng = self.rng
        plain = [(0x00010001, "LO", rng.randbytes(rng.choice((0, 2, 10)))), (0x00030010, "UN", b"past")]
        deeper = []
        for _ in range(rng.choice((0, 0, rng.randint(0, 4 - depth)))):
            deeper = [(0x00050010, "SQ", [plain[:1] + deeper, []])]
        chosen = rng.sample(plain, rng.randint(0, 2)) + deeper
        return elements(sorted(chosen), self.syntax, self.chance)

    def items_before(self):
        insides = self.rng.choice(((), (b"",), (sound(self.syntax),), (b"", sound(self.syntax))))
        return b"".join(item(inside, self.chance()) for inside in insides)

    def behind(self):
        return self.rng.choice((b"", sound(self.syntax), item(sound(self.syntax), self.chance()), bytes(8),
                                tag_bytes(ITEM_END) + u32(0), tag_bytes(SEQUENCE_END) + u32(0),
                                self.rng.randbytes(self.rng.randint(1, 9))))

    def ready(self, part, undefined):
        """What is to be enclosed, and whether by an undefined length; a defined one is even."""
        odd = len(part.data) % 2 == 1
        if odd and part.cut:
            return part, True
        undefined = self.chance() if undefined is None else undefined
        return beside(part, b"", b"\0" if odd and not undefined else b""), undefined

    def item(self, part, undefined, depth):
        part = beside(part, self.elements_before(depth), self.behind())
        part, undefined = self.ready(part, undefined)
        return in_item(part, undefined, not part.cut and self.chance(), depth)

    def sequence(self, part, undefined, depth):
        part = beside(part, self.items_before(), self.behind())
        part, undefined = self.ready(part, undefined)
        return in_sequence(part, self.syntax, undefined, not part.cut and self.chance(), DATA_TAGS, depth)

    def made(self, fault, depth):
        part = Stopping(fault.data, Stop(fault.number, fault.place, depth), fault.at_end)
        undefined = fault.undefined
        for level in range(depth, 0, -1):
            if level < depth or not fault.between_items:
                part, undefined = self.item(part, undefined, level), None
            part, undefined = self.sequence(part, undefined, level - 1), None
        part = beside(part, self.elements_before(0), self.behind())
        return part.data, part.stop
