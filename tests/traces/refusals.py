"""Lists by the number with which the reader refuses them: each fault alone at each depth, and lists with two faults
in one header, which show the order."""
import random

from damages import *

class AlwaysUndefined(random.Random):
    """A defined length around a fault could be at fault itself."""

    def random(self):
        return 0.0


def two_faults(syntax):
    """(number, depth, what is sound, the header and what follows) where one header has two faults, and the earlier
    counts."""
    ok = sound(syntax)
    high = element(0xFFFF0000, "UL", u32(1), syntax)
    yield 1, 0, ok, tag_bytes(ITEM_END) + b"\0\0\0"                       # 1 before 6
    yield 6, 0, high, tag_bytes(ITEM_END) + u32(0)                         # 6 before 3
    yield 6, 0, ok, tag_bytes(ITEM) + u32(1)                               # 6 before 2
    yield 3, 0, ok, header(0x00080005, "CS", 3, syntax)                    # 3 before 2
    yield 3, 0, ok, header(0x00080000, "UL", 100, syntax)                  # 3 before 1
    yield 5, 0, ok, header(0x7FE00010, "OW", UNDEFINED, syntax)            # 5 before 2 and 1
    yield 2, 0, ok, header(0x20000010, "IS", 99, syntax)                   # 2 before 1
    yield 2, 0, ok, header(0x20100500, "SQ", 9, syntax) + bytes(8)         # 2 before 1
    for_items = header(0x00400100, "SQ", UNDEFINED, syntax)
    yield 6, 1, for_items, tag_bytes(ITEM_END) + u32(3)                    # 6 before 2
    yield 2, 1, for_items, tag_bytes(ITEM) + u32(99)                       # 2 before 1
    yield 1, 1, for_items, tag_bytes(SEQUENCE_END) + b"\1\0\0"             # 1 before 6
    deep = nest(b"", 4, syntax, lambda: True, False, DATA_TAGS)
    yield 1, 4, deep, header(0x20100500, "SQ", 8, syntax)                  # 1 before 7
    yield 2, 4, deep, header(0x20100500, "SQ", 7, syntax) + bytes(7)       # 2 before 7
    if syntax == EXPLICIT:
        yield 1, 0, ok, header(0x00080000, "OB", 0, syntax)[:8]            # 1 before 3
        yield 1, 0, ok, tag_bytes(0x00400100) + b"UN\1\1\0"                # 1 before 4
        yield 6, 0, ok, tag_bytes(ITEM) + b"OB\0\0"                        # no VR, so not cut short
        yield 3, 0, ok, tag_bytes(0x00080000) + b"XX\0\0"                  # 3 before 4
        yield 4, 0, ok, tag_bytes(0x00400100) + b"XX\3\0"                  # 4 before 2
        yield 4, 0, ok, tag_bytes(0x00400100) + b"UN\0\1" + u32(UNDEFINED)     # 4 before 5
        yield 4, 0, ok, tag_bytes(0x20200110) + b"OB\0\0" + u32(UNDEFINED)     # 4 before 5
        yield 4, 0, ok, header(0x20000010, "UL", 0xFFFF, syntax)           # 4 before 2
        yield 2, 0, ok, header(0x00400100, "LT", 0xFFFF, syntax)           # not 5
        yield 4, 4, deep, tag_bytes(0x20100500) + b"SQ\1\0" + u32(0)       # 4 before 7
    else:
        yield 5, 4, deep, header(0x20100010, "ST", UNDEFINED, syntax)      # 5, not 7
        yield 7, 4, deep, header(0x00400100, "SQ", UNDEFINED, syntax)


def lists_refused(number, syntax):
    """(list, where its reading stops)."""
    rng = AlwaysUndefined(0)
    for fault, depth in every_fault(syntax):
        if fault.number == number:
            yield faulty(fault, depth, syntax, rng)
    for wanted, depth, before, wrong in two_faults(syntax):
        if wanted == number:
            yield before + wrong, Stop(number, len(before), depth)


def refused(number, syntax):
    """A trace whose data sets are all refused with this number."""
    c = Damaged(random.Random(number))
    c.neat = True
    c.start("1.9.7", 1, 1)
    c.open(1, syntax, 65536)
    c.create_session()
    for data, stop in lists_refused(number, syntax):
        assert stop.number == number, (stop, data.hex())
        c.stops(c.request(N_SET, SESSION, c.session), data, stop, f"refusal {number}")
    return c


REFUSALS = [(number, syntax) for number in range(1, 8) for syntax in (IMPLICIT, EXPLICIT)
            if (number, syntax) != (4, IMPLICIT)]
