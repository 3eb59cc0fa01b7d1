"""The calls of tests/passed_over/run, a line each: for each syntax a run of requests, then the same run with each attribute that
the table of docs/CONFORMANCE.md has, in each request that it names."""
import re
import sys

ROW = re.compile(r"^\| [^|]+ \| \(([0-9A-F]{4}),([0-9A-F]{4})\) \| (\w\w) \| ([^|]+) \|[^|]*\| U/- \|$", re.M)
LONG = {"OB", "OF", "OW", "SQ", "UN", "UT"}
ITEM = 0xFFFEE000
# Any value of each VR will do: an imager's own code, a number out of its range, an item.
VALUES = {"CS": b"ANY CODE", "DS": b"12.5", "IS": b"3\\2 ", "SH": b"ANYONE", "ST": b"CS333\\PD1.2 ", "US": b"\xff\xff", "SQ": b""}
SESSION, FILM, BOX = (f"1.2.840.10008.5.1.1.{n}" for n in (1, 2, 4))
N_SET, N_CREATE = 0x0120, 0x0140
MADE = [f"1.9.7.{n}" for n in (1, 2, 3)]


def number(n):
    return n.to_bytes(2, "little")


def uid(text):
    return text.encode() + b"\0" * (len(text) % 2)


def header(tag, vr, length, explicit):
    start = number(tag >> 16) + number(tag & 0xFFFF)
    if not explicit or tag == ITEM:
        return start + length.to_bytes(4, "little")
    return start + vr.encode() + (b"\0\0" + length.to_bytes(4, "little") if vr in LONG else number(length))


def written(elements, explicit):
    """A list of elements: tag, VR, and bytes or the elements of an only item."""
    out = b""
    for tag, vr, value in sorted(elements, key=lambda element: element[0]):
        if vr == "SQ":
            inside = written(value, explicit) if value else b""
            value = header(ITEM, "", len(inside), explicit) + inside
        out += header(tag, vr, len(value), explicit) + value
    return out


def command(field, class_uid, instance):
    create = field == N_CREATE
    elements = [(0x0002 if create else 0x0003, "UI", uid(class_uid)), (0x0100, "US", number(field)), (0x0110, "US", number(1)),
                (0x0800, "US", number(1))] + ([] if create else [(0x1001, "UI", uid(instance))])
    rest = written(elements, False)
    return written([(0x0000, "UL", len(rest).to_bytes(4, "little"))], False) + rest


def fragment(control, data):
    return ((len(data) + 2).to_bytes(4, "big") + bytes([1, control]) + data).hex()


def requests():
    """Each request of the run by its name: field, class, instance, attributes; the picture's own are a list."""
    picture = [(0x00280002, "US", number(1)), (0x00280004, "CS", b"MONOCHROME2 "), (0x00280010, "US", number(2)),
               (0x00280011, "US", number(2)), (0x00280100, "US", number(8)), (0x00280101, "US", number(8)),
               (0x00280102, "US", number(7)), (0x00280103, "US", number(0)), (0x7FE00010, "OW", b"\1\2\3\4")]
    session = [(0x00081150, "UI", uid(SESSION)), (0x00081155, "UI", uid(MADE[0]))]
    return {
        "session N-CREATE": (N_CREATE, SESSION, None, [(0x20000010, "IS", b"2 ")]),
        "film N-CREATE": (N_CREATE, FILM, None, [(0x20100010, "ST", b"STANDARD\\1,1"), (0x20100500, "SQ", session)]),
        "session N-SET": (N_SET, SESSION, MADE[0], [(0x20000020, "CS", b"HIGH")]),
        "film N-SET": (N_SET, FILM, MADE[1], [(0x20100040, "CS", b"LANDSCAPE ")]),
        "image box N-SET": (N_SET, BOX, MADE[2], [(0x20200010, "US", number(1)), (0x20200110, "SQ", picture)]),
    }


def run(explicit, where=None, extra=None):
    """The lines of the run, with one attribute more in one request, or in the item of the picture."""
    print("open", 2 if explicit else 1)
    for name, (field, class_uid, instance, attributes) in requests().items():
        if where == name:
            attributes = [*attributes, extra]
        elif where == f"{name}, in the item":
            attributes = [(tag, vr, [*value, extra] if vr == "SQ" else value) for tag, vr, value in attributes]
        data = written(attributes, explicit)
        half = len(data) // 2
        print("wait", fragment(3, command(field, class_uid, instance)))
        print("wait", fragment(0, data[:half]))
        print("done", fragment(2, data[half:]), data.hex())


def named(text):
    """The requests that a cell of the table names."""
    if text == "all":
        yield from requests()
    elif text.endswith(", in the item"):
        yield text
    else:
        for part in text.split("; "):
            subject, operations = re.fullmatch(r"([a-z ]+) (N-.*)", part).groups()
            yield from (f"{subject} {operation}" for operation in operations.split(", "))


def main():
    with open(sys.argv[1], encoding="utf-8") as document:
        text = document.read()
    rows = ROW.findall(text)
    if len(rows) != text.count("| U/- |\n"):
        sys.exit("a row of an attribute that is passed over cannot be read")
    for explicit in (False, True):
        run(explicit)
        print("keep")
        for group, element, vr, where in rows:
            for name in named(where):
                run(explicit, name, (int(group + element, 16), vr, VALUES[vr]))
                print("same")


if __name__ == "__main__":
    main()
