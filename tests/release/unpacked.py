"""`unpacked.py PACKAGE`: the documents of an unpacked release hold there. Each link leads to a file and a heading of it, each
command in a code block is one of it or is marked as the repository's, what is shown is printed, and RELEASE lists every file with
its size. Ends in 'N passed, 0 failed'."""
import os
import re
import sys
from pathlib import Path

sys.dont_write_bytecode = True
TOP = Path(__file__).resolve().parents[2]
sys.path[:0] = [str(TOP / "tests/documents"), str(TOP / "tests/host")]

from document import Document
from shown import try_documents as try_shown

PACKAGE = Path(sys.argv[1]).resolve()
MARK = "*In the repository:*"


def try_links(path, document):
    for line, target in document.links():
        name, _, anchor = target.partition("#")
        to = (path.parent / name).resolve() if name else path
        if re.match(r"[a-z]+:", target):
            continue
        if not to.is_relative_to(PACKAGE) or not to.exists():
            yield f"{path}:{line}: no file {target}"
        else:
            heading = not anchor or anchor in Document(to.read_text(encoding="utf-8")).anchors()
            yield None if heading else f"{path}:{line}: no heading {target}"


def marked(lines, number):
    """Whether the last line of prose before a block says that it is the repository's."""
    above = [line for line in lines[:number - 1] if line.strip() and not line.startswith(("    ", "```"))]
    return bool(above) and above[-1] == MARK


def is_command(word):
    """Whether the first word of a line in a code block is a command of the repository or of the package."""
    return word == "rt" or ("/" in word and any((folder / word).is_file() for folder in (TOP, PACKAGE)))


def try_commands(path, text, document):
    for line, words in document.commands():
        if is_command(words[0]) and not marked(text.splitlines(), line):
            there = os.access(PACKAGE / words[0], os.X_OK)
            yield None if there else f"{path}:{line}: no command {words[0]}, and it is not marked"


def try_documents():
    marks = re.findall(r"\*\(repository.*?\)\*", (PACKAGE / "README.md").read_text(encoding="utf-8"))
    yield None if len(marks) == 1 else f"README.md, which tells of the mark once, has it as {marks}"
    for path in sorted(PACKAGE.rglob("*.md")):
        text = path.read_text(encoding="utf-8")
        document = Document(text)
        yield from try_links(path, document)
        yield from try_commands(path, text, document)


def try_list():
    lines = re.findall(r"^ *(\d+)  (\S+)$", (PACKAGE / "RELEASE").read_text(encoding="utf-8"), re.M)
    listed = {name: int(size) for size, name in lines}
    there = {str(path.relative_to(PACKAGE)): path.stat().st_size for path in PACKAGE.rglob("*") if path.is_file()}
    for name in sorted(listed.keys() | there.keys() - {"RELEASE", "SHA256SUMS"}):
        said, bytes_there = listed.get(name), there.get(name)
        yield None if said == bytes_there else f"RELEASE says that {name} has {said} bytes, and it has {bytes_there}"


def main():
    results = [*try_documents(), *try_list(), *try_shown(PACKAGE)]
    wrong = [one for one in results if one]
    print("\n".join([f"release: {one}" for one in wrong] + [f"{len(results) - len(wrong)} passed, {len(wrong)} failed"]))
    return 1 if wrong else 0


if __name__ == "__main__":
    sys.exit(main())
