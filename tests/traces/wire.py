"""Bytes on the wire: elements in both syntaxes, command sets, fragments. Knows nothing of records."""
import struct

IMPLICIT, EXPLICIT = 1, 2
UNDEFINED = 0xFFFFFFFF
ITEM, ITEM_END, SEQUENCE_END = 0xFFFEE000, 0xFFFEE00D, 0xFFFEE0DD

VERIFICATION = "1.2.840.10008.1.1"
SESSION = "1.2.840.10008.5.1.1.1"
FILM = "1.2.840.10008.5.1.1.2"
BOX = "1.2.840.10008.5.1.1.4"

C_ECHO, N_SET, N_ACTION, N_CREATE, N_DELETE = 0x0030, 0x0120, 0x0130, 0x0140, 0x0150
FIELDS = (C_ECHO, N_SET, N_ACTION, N_CREATE, N_DELETE)

LONG_FORM = ("OB", "OF", "OW", "SQ", "UN", "UT")
SHORT_FORM = ("AE", "AS", "AT", "CS", "DA", "DS", "DT", "FD", "FL", "IS", "LO", "LT", "PN", "SH",
              "SL", "SS", "ST", "TM", "UI", "UL", "US")

# The tags of rule 5.14, with their VRs.
NAMED = {
    0x00000000: "UL", 0x00000002: "UI", 0x00000003: "UI", 0x00000100: "US", 0x00000110: "US",
    0x00000120: "US", 0x00000800: "US", 0x00000900: "US", 0x00001000: "UI", 0x00001001: "UI",
    0x00001008: "US", 0x00081150: "UI", 0x00081155: "UI", 0x00280002: "US", 0x00280004: "CS",
    0x00280010: "US", 0x00280011: "US", 0x00280100: "US", 0x00280101: "US", 0x00280102: "US",
    0x00280103: "US", 0x20000010: "IS", 0x20000020: "CS", 0x20000030: "CS", 0x20000040: "CS",
    0x20000050: "LO", 0x20100010: "ST", 0x20100040: "CS", 0x20100060: "CS", 0x20100500: "SQ",
    0x20100510: "SQ", 0x20200010: "US", 0x20200020: "CS", 0x20200110: "SQ", 0x7FE00010: "OW",
}


def u16(n):
    return struct.pack("<H", n)


def u32(n):
    return struct.pack("<I", n)


def tag_bytes(tag):
    return struct.pack("<HH", tag >> 16, tag & 0xFFFF)


def text(value):
    """A text value, padded with a space."""
    value = value.encode("latin-1") if isinstance(value, str) else value
    return value + b" " * (len(value) % 2)


def uid(value):
    """A UI value, padded with a zero."""
    value = value.encode("latin-1") if isinstance(value, str) else value
    return value + b"\0" * (len(value) % 2)


def header(tag, vr, length, syntax):
    if syntax == IMPLICIT:
        return tag_bytes(tag) + u32(length)
    if vr in LONG_FORM:
        return tag_bytes(tag) + vr.encode() + b"\0\0" + u32(length)
    return tag_bytes(tag) + vr.encode() + u16(length)


def never():
    return False


def element(tag, vr, value, syntax, undefined=never):
    """An element; a value that is a list holds items, each a list of (tag, vr, value)."""
    if not isinstance(value, list):
        assert len(value) % 2 == 0, (tag, value)
        return header(tag, vr, len(value), syntax) + value
    items = b"".join(item(elements(i, syntax, undefined), undefined()) for i in value)
    return sequence(tag, items, syntax, undefined())


def elements(rows, syntax, undefined=never):
    return b"".join(element(*row, syntax, undefined) for row in rows)


def item(inside, undefined):
    if undefined:
        return tag_bytes(ITEM) + u32(UNDEFINED) + inside + tag_bytes(ITEM_END) + u32(0)
    return tag_bytes(ITEM) + u32(len(inside)) + inside


def sequence(tag, items, syntax, undefined):
    if undefined:
        return header(tag, "SQ", UNDEFINED, syntax) + items + tag_bytes(SEQUENCE_END) + u32(0)
    return header(tag, "SQ", len(items), syntax) + items


def command(rows):
    """A command set of {tag: value}, its group length in front."""
    body = b"".join(header(t, "", len(v), IMPLICIT) + v for t, v in sorted(rows.items()))
    return header(0, "UL", 4, IMPLICIT) + u32(len(body)) + body


def fragment(context, control, data):
    return struct.pack(">IBB", len(data) + 2, context, control) + data


def hexed(data):
    return data.hex() or "-"
