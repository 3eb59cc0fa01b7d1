"""Data sets that are refused, and what decode must say of each: number, place, depth, headers passed, the sequences around it
and what was expected. Each stands in 0 to 4 sequences, of defined and of undefined length, in both syntaxes."""
from typing import NamedTuple

from wire import EXPLICIT, IMPLICIT, ITEM, ITEM_END, SEQUENCE_END, UNDEFINED, header, tag_bytes, u32

SEQUENCE, NAME = 0x20200110, "(2020,0110) Basic Grayscale Image Sequence"
COPIES, DISPLAY, PRIVATE, PIXELS = 0x20000010, 0x20100010, 0x00090010, 0x7FE00010
MOST = 4


def mark(tag, length=0):
    """The header of an item or a delimiter."""
    return header(tag, "", length, IMPLICIT)


def item(inside, loose, ended=True):
    if not loose:
        return mark(ITEM, len(inside)) + inside
    return mark(ITEM, UNDEFINED) + inside + (mark(ITEM_END) if ended else b"")


def sequence(inside, loose, syntax):
    """One whose delimiter is missing where its length is undefined: it is not reached."""
    return header(SEQUENCE, "SQ", UNDEFINED if loose else len(inside), syntax) + inside


def nested(inside, depth, loose, syntax):
    """In the first item of so many sequences within one another."""
    for _ in range(depth):
        inside = sequence(item(inside, loose, ended=False), loose, syntax)
    return inside


def in_list(depth, loose, syntax):
    """Lists that are refused: bytes before the header at fault, those from it on, the number, and what was expected. The item
    that they stand in begins 8 bytes before them."""
    at = depth * (8 + len(header(SEQUENCE, "SQ", 0, syntax)))
    copies, display = header(COPIES, "IS", 4, syntax) + b"1   ", header(DISPLAY, "ST", 0, syntax)
    end = f" or the delimiter (FFFE,E00D) of the item at {at - 8}" if loose and depth else ""
    yield b"", bytes(2), 1, "a header of 8 bytes, 2 are left"
    yield copies, bytes(6), 1, "a header of 8 bytes, 6 are left"
    if loose or not depth:
        yield copies, bytes(1), 1, "a header of 8 bytes, 1 is left"
    yield copies, header(DISPLAY, "ST", 100, syntax) + bytes(4), 1, "a length of at most 4, the bytes that are left"
    yield b"", header(COPIES, "IS", 3, syntax) + bytes(4), 2, "an even length"
    yield display, copies, 3, "a tag above (2010,0010)"
    yield copies, copies, 3, "a tag above (2000,0010)"
    yield copies, header(PIXELS, "OW", UNDEFINED, syntax), 5, "a defined length"
    yield copies, mark(ITEM), 6, "an element" + end
    yield copies, mark(SEQUENCE_END), 6, "an element" + end
    if depth == MOST:
        yield copies, header(SEQUENCE, "SQ", 0, syntax), 7, "no sequence: 4 are open already"
        yield copies, header(SEQUENCE, "SQ", UNDEFINED, syntax), 7, "no sequence: 4 are open already"
    if loose and depth:
        yield copies, b"", 1, f"the delimiter (FFFE,E00D) of the item at {at - 8}"
        yield b"", b"", 1, f"the delimiter (FFFE,E00D) of the item at {at - 8}"
        yield copies, mark(ITEM_END, 4) + bytes(4), 6, f"length 0 of the delimiter (FFFE,E00D) of the item at {at - 8}"
    if syntax == EXPLICIT:
        yield copies, header(PIXELS, "OW", 0, syntax)[:10], 1, "a header of 12 bytes, 10 are left"
        yield b"", header(COPIES, "LO", 0, syntax), 4, "VR IS, the tag's own"
        yield b"", header(COPIES, "ZZ", 0, syntax), 4, "VR IS, the tag's own"
        yield copies, header(PIXELS, "UN", 0, syntax), 4, "VR OW or OB, the tag's own"
        yield b"", header(PRIVATE, "ZZ", 0, syntax), 4, "one of the VRs of rule 5.10"
        yield b"", tag_bytes(PRIVATE) + b"OB\1\0" + u32(0), 4, "two zero bytes behind OB"


def in_sequence(at, loose, syntax):
    """The same where an item must begin, or a delimiter: with how many items come before it."""
    one = item(header(COPIES, "IS", 0, syntax), loose)
    end = f"the delimiter (FFFE,E0DD) of the sequence at {at}"
    for items in range(3):
        yield one * items, bytes(4), items, 1, "a header of 8 bytes, 4 are left"
        yield one * items, header(COPIES, "IS", 0, syntax), items, 6, "an item (FFFE,E000)" + (f" or {end}" if loose else "")
        yield one * items, mark(ITEM, 7) + bytes(8), items, 2, "an even length"
        yield one * items, mark(ITEM, 8), items, 1, "a length of at most 0, the bytes that are left"
        if loose:
            yield one * items, b"", items, 1, end
            yield one * items, mark(SEQUENCE_END, 2) + bytes(2), items, 6, f"length 0 of {end}"


class Stop(NamedTuple):
    """A data set, and where and why its reading stops."""
    syntax: int
    data: bytes
    number: int
    place: int
    depth: int
    headers: int
    path: str
    expected: str

    def depth_words(self):
        if self.depth == 0:
            return "in the set's own list"
        return "in 1 sequence" if self.depth == 1 else f"in {self.depth} sequences within one another"

    def headers_words(self):
        return f"after {self.headers} header" + ("" if self.headers == 1 else "s")


def stops(depth, loose, syntax):
    level = 8 + len(header(SEQUENCE, "SQ", 0, syntax))
    at, path = depth * level, [f"item 1 of {NAME} at {i * level}" for i in range(depth)]
    for before, fault, number, expected in in_list(depth, loose, syntax):
        data = nested(before + fault, depth, loose, syntax)
        yield Stop(syntax, data, number, at + len(before), depth, 2 * depth + (before != b""), ", ".join(path), expected)
    for before, fault, items, number, expected in in_sequence(at, loose, syntax) if depth < MOST else ():
        data = nested(sequence(before + fault, loose, syntax), depth, loose, syntax)
        last = f"{NAME} at {at}, behind {items} item" + ("" if items == 1 else "s")
        headers = 2 * depth + 1 + items * (3 if loose else 2)
        yield Stop(syntax, data, number, at + level - 8 + len(before), depth + 1, headers, ", ".join([*path, last]), expected)


def missing(syntax):
    """A delimiter that is missing at the end of the nearest part of defined length, with more behind that."""
    first, pixels = len(header(SEQUENCE, "SQ", 0, syntax)), header(PIXELS, "OW", 0, syntax)
    copies = header(COPIES, "IS", 0, syntax)
    open_item = sequence(item(copies, True, ended=False), False, syntax)
    yield Stop(syntax, open_item + pixels, 1, len(open_item), 1, 3, f"item 1 of {NAME} at 0",
               f"the delimiter (FFFE,E00D) of the item at {first}")
    closed = item(sequence(item(copies, False), True, syntax), False)
    yield Stop(syntax, sequence(closed + item(copies, False), False, syntax) + pixels, 1, first + len(closed), 2, 5,
               f"item 1 of {NAME} at 0, {NAME} at {first + 8}, behind 1 item",
               f"the delimiter (FFFE,E0DD) of the sequence at {first + 8}")


def third_item(syntax):
    """In the third item of a sequence that has no name."""
    copies, odd = header(COPIES, "IS", 0, syntax), header(COPIES, "IS", 1, syntax)
    before = header(0x00091006, "SQ", UNDEFINED, syntax) + 2 * item(copies, True) + mark(ITEM, UNDEFINED)
    yield Stop(syntax, before + odd, 2, len(before), 1, 8, "item 3 of (0009,1006) at 0", "an even length")


def all_stops():
    for syntax in (IMPLICIT, EXPLICIT):
        yield from missing(syntax)
        yield from third_item(syntax)
        for depth in range(MOST + 1):
            yield from stops(depth, False, syntax)
            yield from stops(depth, True, syntax)
