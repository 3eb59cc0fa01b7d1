"""Prints what is expected of each file in a folder. Of one that the table of damaged ones names, its number; of any
other, what pydicom reads: the values of the named tags as they are encoded."""
import sys
from pathlib import Path

from damage import rows
from pydicom.filebase import DicomBytesIO
from pydicom.filereader import read_dataset

NAMED = (
    0x00000000, 0x00000002, 0x00000003, 0x00000100, 0x00000110, 0x00000120, 0x00000800, 0x00000900, 0x00001000,
    0x00001001, 0x00001008, 0x00081150, 0x00081155, 0x00280002, 0x00280004, 0x00280010, 0x00280011, 0x00280100,
    0x00280101, 0x00280102, 0x00280103, 0x20000010, 0x20000020, 0x20000030, 0x20000040, 0x20000050, 0x20100010,
    0x20100040, 0x20100060, 0x20100500, 0x20100510, 0x20200010, 0x20200020, 0x20200110, 0x7FE00010,
)
SEQUENCES = (0x20100500, 0x20100510, 0x20200110)


def lines(data_set, before, inside):
    """The lines of one list; before goes before each tag, and inside says whether to look into items."""
    for tag in NAMED:
        if tag not in data_set:
            continue
        if tag in SEQUENCES:
            items = data_set[tag].value
            yield f"{before}{tag:08x} items {len(items)}"
            if inside and len(items) == 1:
                yield from lines(items[0], f"{before}{tag:08x}.", False)
        else:
            value = data_set.get_item(tag).value or b""
            yield f"{before}{tag:08x} {value.hex() or '-'}"


def read(path, syntax):
    source = DicomBytesIO(path.read_bytes())
    data_set = read_dataset(source, syntax == "implicit", True)
    assert source.tell() == path.stat().st_size, path
    return lines(data_set, "", True)


def main():
    refused = {row[0]: row for row in rows(sys.argv[1])}
    for path in sorted(Path(sys.argv[2]).glob("*.dcm")):
        if path.name in refused:
            _, syntax, number, *_ = refused[path.name]
            print(path.name, syntax, "refused", number)
        else:
            syntax = "explicit" if path.stem.endswith("_explicit") else "implicit"
            print(path.name, syntax, "read")
            for line in read(path, syntax):
                print(line)


main()
