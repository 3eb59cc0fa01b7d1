"""Makes the damaged copies that a table names, in the folder that holds their sources."""
import sys
from pathlib import Path


def rows(table):
    """The rows of the table: file, syntax, number, source, edits, and what is wrong."""
    for line in Path(table).read_text().splitlines():
        if line.strip() and not line.startswith("#"):
            yield [column.strip() for column in line.split("|")]


def edited(data, edits):
    """The bytes after the edits, each at a place of the source: the last place first, so that none moves another."""
    for edit in sorted(edits, key=lambda words: int(words[1]), reverse=True):
        kind, at = edit[0], int(edit[1])
        assert at <= len(data), edit
        if kind == "cut":
            data = data[:at]
        elif kind == "put":
            new = bytes.fromhex(edit[2])
            assert data[at : at + len(new)] != new, edit
            data = data[:at] + new + data[at + len(new) :]
        elif kind == "insert":
            data = data[:at] + bytes.fromhex(edit[2]) + data[at:]
        else:
            raise ValueError(kind)
    return data


def main():
    folder = Path(sys.argv[2])
    for name, _, _, source, edits, _ in rows(sys.argv[1]):
        if edits != "none":
            words = [edit.split() for edit in edits.split(",")]
            (folder / name).write_bytes(edited((folder / source).read_bytes(), words))
        elif name != source:
            (folder / name).write_bytes((folder / source).read_bytes())


if __name__ == "__main__":
    main()
