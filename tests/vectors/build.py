"""Writes the data sets that pydicom makes, each in both syntaxes, as NAME_implicit.dcm and NAME_explicit.dcm."""
import sys
from pathlib import Path

from pydicom.dataelem import DataElement
from pydicom.dataset import Dataset
from pydicom.filebase import DicomBytesIO
from pydicom.filewriter import write_dataset
from pydicom.sequence import Sequence

SESSION_CLASS = "1.2.840.10008.5.1.1.1"
BOX_CLASS = "1.2.840.10008.5.1.1.4"


def made(*elements, loose=False):
    """A data set, or an item, of undefined length where loose."""
    data_set = Dataset()
    for element in elements:
        data_set.add(element)
    data_set.is_undefined_length_sequence_item = loose
    return data_set


def element(tag, vr, value):
    return DataElement(tag, vr, value)


def sequence(tag, *items, loose=False):
    """A sequence, of undefined length where loose."""
    found = DataElement(tag, "SQ", Sequence(items))
    found.is_undefined_length = loose
    return found


def reference(uid_class, uid, loose=False):
    return made(element(0x00081150, "UI", uid_class), element(0x00081155, "UI", uid), loose=loose)


def picture(rows, columns, pixels, vr, loose=False):
    """A picture at 8 bits."""
    return made(
        element(0x00280002, "US", 1),
        element(0x00280004, "CS", "MONOCHROME2"),
        element(0x00280010, "US", rows),
        element(0x00280011, "US", columns),
        element(0x00280034, "IS", ["1", "1"]),
        element(0x00280100, "US", 8),
        element(0x00280101, "US", 8),
        element(0x00280102, "US", 7),
        element(0x00280103, "US", 0),
        element(0x7FE00010, vr, pixels),
        loose=loose,
    )


def nothing():
    """No element at all."""
    return made()


def session_blank():
    """A film session with values of no bytes and of spaces, and a destination that is no film's."""
    return made(
        element(0x20000010, "IS", "100"),
        element(0x20000020, "CS", ""),
        element(0x20000030, "CS", "CLEAR FILM"),
        element(0x20000040, "CS", "BIN_1"),
        element(0x20000050, "LO", "  "),
        element(0x21000160, "SH", ""),
    )


def box8():
    """A picture of 3 by 5 at 8 bits, as bytes with one of padding."""
    pixels = bytes(range(0xF0, 0xFF)) + b"\0"
    return made(
        element(0x20100060, "CS", "REPLICATE"),
        element(0x20200010, "US", 36),
        element(0x20200020, "CS", "NORMAL"),
        sequence(0x20200110, picture(3, 5, pixels, "OB")),
    )


def several():
    """Sequences of one item without elements, of two and of three, their lengths defined and not."""
    return made(
        sequence(
            0x20100500,
            reference(SESSION_CLASS, "1.9.7.1"),
            reference(SESSION_CLASS, "1.9.7.2", loose=True),
            reference(SESSION_CLASS, "1.9.7.3"),
            loose=True,
        ),
        sequence(0x20100510, made(loose=True)),
        element(0x20200010, "US", 1),
        sequence(
            0x20200110,
            picture(1, 2, b"\x01\x02", "OW", loose=True),
            picture(2, 1, b"\x03\x04", "OB"),
        ),
    )


def nested():
    """Sequences two and three deep, empty ones among them, defined in undefined lengths and the other way round."""
    innermost = sequence(0x00081199, made(element(0x00081155, "UI", "1.3"), loose=True), loose=True)
    return made(
        element(0x00080005, "CS", "ISO_IR 100"),
        sequence(
            0x20100500,
            made(
                element(0x00081150, "UI", SESSION_CLASS),
                element(0x00081155, "UI", "1.9.7.12"),
                sequence(0x00400260, reference(BOX_CLASS, "1.2"), reference(BOX_CLASS, "1.22", loose=True), loose=True),
                sequence(0x00400440, loose=True),
                sequence(0x20100510),
                loose=True,
            ),
        ),
        sequence(
            0x20100510,
            made(
                element(0x20000010, "IS", "7"),
                sequence(0x20100500, made(innermost), made(loose=True)),
            ),
            loose=True,
        ),
        element(0x20200010, "US", 5),
    )


def deep():
    """Sequences four deep: all of undefined length, all of defined length, and of each in turn."""

    def nest(first, second):
        fourth = sequence(0x20200110, made(element(0x20200010, "US", 4), loose=first), loose=second)
        third = sequence(0x20200110, made(element(0x20200010, "US", 3), fourth, loose=second), loose=first)
        second_one = sequence(0x20200110, made(element(0x20200010, "US", 2), third, loose=first), loose=second)
        return made(element(0x20200010, "US", 1), second_one, loose=second)

    return made(
        sequence(0x20100500, nest(True, True), loose=True),
        sequence(0x20100510, nest(False, False), loose=False),
        element(0x20200010, "US", 0),
        sequence(0x20200110, nest(True, False), loose=True),
    )


def five():
    """Sequences five deep, the fifth of defined length and with a tag that is not named: read in implicit VR alone."""
    fifth = sequence(0x00081140, reference(BOX_CLASS, "1.5"))
    fourth = sequence(0x20200110, made(fifth))
    third = sequence(0x20200110, made(element(0x20200010, "US", 3), fourth, loose=True))
    return made(
        sequence(0x20100500, made(sequence(0x20200110, made(third), loose=True)), loose=True),
        element(0x20200010, "US", 5),
    )


def private():
    """Private groups, tags that no dictionary has, and every VR with a long header."""
    inside = made(
        element(0x00091001, "UN", b"in"),
        sequence(0x00091006, made(loose=True), loose=True),
    )
    return made(
        element(0x00090010, "LO", "CONSOLE 1"),
        element(0x00091001, "UN", b"unknown!"),
        element(0x00091002, "OB", b"\xFE\xFF\x00\xE0\x01\x02\x03\x04"),
        element(0x00091003, "OW", b"\xFF\xFF\xFF\xFF"),
        element(0x00091004, "OF", b"\x00\x00\x80\x3F"),
        element(0x00091005, "UT", "text of any length"),
        sequence(0x00091006, inside, made(), loose=True),
        sequence(0x00091007),
        element(0x00091008, "OB", b""),
        element(0x20000010, "IS", "1"),
        element(0x20010010, "LO", "CONSOLE 2"),
        element(0x20011000, "FL", [1.0, 2.0]),
        element(0x20100060, "CS", "NONE"),
        element(0x2020FFF0, "UN", b""),
        element(0x7FE10010, "LO", "CONSOLE 3"),
        element(0x7FE11010, "OW", bytes(range(32))),
        element(0xFFFCFFFC, "OB", bytes(6)),
    )


def command():
    """Every tag of group 0000 that is named, in one set as no command has them."""
    return made(
        element(0x00000000, "UL", 150),
        element(0x00000002, "UI", "1.2.840.10008.1.1"),
        element(0x00000003, "UI", SESSION_CLASS),
        element(0x00000100, "US", 0x0130),
        element(0x00000110, "US", 7),
        element(0x00000120, "US", 65535),
        element(0x00000600, "AE", "PRINTER"),
        element(0x00000800, "US", 0x0101),
        element(0x00000900, "US", 0),
        element(0x00001000, "UI", "1.9.7.5"),
        element(0x00001001, "UI", "1.9.70.55"),
        element(0x00001008, "US", 1),
    )


def written(data_set, explicit):
    out = DicomBytesIO()
    out.is_little_endian = True
    out.is_implicit_VR = not explicit
    write_dataset(out, data_set)
    return out.getvalue()


def main():
    folder = Path(sys.argv[1])
    for build in (nothing, session_blank, box8, several, nested, deep, five, private, command):
        for syntax in ("implicit", "explicit"):
            (folder / f"{build.__name__}_{syntax}.dcm").write_bytes(written(build(), syntax == "explicit"))


main()
