"""Bytes written out as people have them: each kind of dump that host/decode takes, as its tool writes it."""


def printable(data):
    return "".join(chr(b) if 0x20 <= b <= 0x7E else "." for b in data)


def rows(data, width=16):
    return [(at, data[at:at + width]) for at in range(0, len(data), width)]


def squeezed(lines_of_rows, width=16):
    """Lines, with a * for full rows that repeat the one before."""
    lines, last, starred = [], None, False
    for row, line in lines_of_rows:
        if row == last and len(row) == width:
            if not starred:
                lines.append("*")
            starred = True
        else:
            lines.append(line)
            starred = False
        last = row
    return lines


def joined(lines):
    return "\n".join(lines) + "\n"


def plain(data):
    return "# a message\n\n" + joined(" ".join(f"{b:02X}" for b in row) + " # " + printable(row) for _, row in rows(data))


def xxd(data, group=2, width=16):
    lines = []
    room = 2 * width + (width - 1) // group
    for at, row in rows(data, width):
        groups = [row[i:i + group].hex() for i in range(0, len(row), group)]
        lines.append(f"{at:08x}: {' '.join(groups):<{room}}  {printable(row)}")
    return joined(lines)


def xxd_plain(data):
    return joined(row.hex() for _, row in rows(data, 30))


def xxd_array(data, name="capture"):
    inside = ",\n".join("  " + ", ".join(f"0x{b:02x}" for b in row) for _, row in rows(data, 12))
    return f"unsigned char {name}[] = {{\n{inside}\n}};\nunsigned int {name}_len = {len(data)};\n"


def hexdump(data, squeeze=True):
    lines = []
    for at, row in rows(data):
        halves = [" ".join(f"{b:02x}" for b in half) for half in (row[:8], row[8:])]
        lines.append((row, f"{at:08x}  {'  '.join(halves):<48}  |{printable(row)}|"))
    kept = squeezed(lines) if squeeze else [line for _, line in lines]
    return joined(kept + [f"{len(data):08x}"])


def od(data, text=False):
    lines = []
    for at, row in rows(data):
        line = f"{at:06x} " + " ".join(f"{b:02x}" for b in row)
        lines.append((row, f"{line:<54}  >{printable(row)}<" if text else line))
    return joined(squeezed(lines) + [f"{len(data):06x}"])


def wireshark(data, text=True):
    """Copy as hex dump, and as hex and ASCII dump."""
    lines = []
    for at, row in rows(data):
        line = f"{at:04x}   " + " ".join(f"{b:02x}" for b in row)
        lines.append(f"{line:<54}   {printable(row)}" if text else line)
    return joined(lines)


def followed(turns):
    """Follow TCP stream, as hex dump: the other direction is set in, and has offsets of its own."""
    lines, places = [], [0, 0]
    for direction, data in turns:
        for at, row in rows(data):
            halves = [" ".join(f"{b:02x}" for b in half) for half in (row[:8], row[8:])]
            texts = " ".join(printable(half) for half in (row[:8], row[8:]))
            lines.append("    " * direction + f"{places[direction]:08X}  {'  '.join(halves):<48}   {texts}")
            places[direction] += len(row)
    return joined(lines)


def peers(turns):
    """Follow TCP stream, as C arrays."""
    lines, counts = [], [0, 0]
    for direction, data in turns:
        lines.append(f"char peer{direction}_{counts[direction]}[] = {{ /* Packet {sum(counts) + 1} */")
        lines.append(", \n".join(", ".join(f"0x{b:02x}" for b in row) for _, row in rows(data, 8)) + " };")
        counts[direction] += 1
    return joined(lines)


def wireshark_array(data):
    """Copy as C array."""
    lines = ["/* Frame (1 byte or more) */", f"static const unsigned char pkt1[{len(data)}] = {{"]
    lines += ["".join(f"0x{b:02x}, " for b in row) + f"/* {printable(row).replace('*', '.')} */" for _, row in rows(data, 8)]
    return joined(lines + ["};"])


def escaped(data):
    """Copy as escaped string."""
    return " \\\n".join('"' + "".join(f"\\x{b:02x}" for b in row) + '"' for _, row in rows(data)) + "\n"
