"""`documents.py PACKAGE` makes the documents of an unpacked package say what holds there: a link to what is not in the package
becomes plain text that says where it is, commands of the repository are marked so, and archives are in lib/."""
import re
import sys
from pathlib import Path

sys.dont_write_bytecode = True
sys.path.insert(0, str(Path(__file__).resolve().parents[1] / "tests/documents"))

from document import Document

TOP = Path(__file__).resolve().parents[1]
LINK = re.compile(r"(`[^`\[]*`)|\[([^\]]*)\]\(([^)\s]+)\)")
MARK = "*In the repository:*"


def holds(path, target):
    """Whether a link leads to a file of the package, and to a heading of it."""
    name, _, anchor = target.partition("#")
    to = (path.parent / name).resolve() if name else path
    return to.exists() and (not anchor or anchor in Document(to.read_text(encoding="utf-8")).anchors())


def outside(target):
    return re.match(r"[a-z]+:", target) is not None


def plain(package, path, found):
    """A link as it is, or as text with the place in the repository."""
    code, text, target = found.groups()
    if code or outside(target) or holds(path, target):
        return found[0]
    place = str((path.parent / target.partition("#")[0]).resolve().relative_to(package))
    return f"{text} *(repository)*" if text.strip("`") == place else f"{text} *(repository: {place})*"


def of_repository(package, line):
    """Whether a line of a code block is a command that only the repository has."""
    word = (line.split() or [""])[0]
    return word == "rt" or ("/" in word and (TOP / word).is_file() and not (package / word).exists())


def blocks(document):
    """The lines of each code block, with their numbers."""
    found = []
    for number, line in document.code:
        if not found or found[-1][-1][0] != number - 1:
            found.append([])
        found[-1].append((number, line))
    return found


def rewritten(package, path):
    text = path.read_text(encoding="utf-8")
    document, lines = Document(text), text.splitlines()
    for number, line in document.prose:
        lines[number - 1] = LINK.sub(lambda found: plain(package, path, found), line)
    for number, line in document.code:
        lines[number - 1] = line.replace("target/staticlib/", "lib/")
    for block in reversed(blocks(document)):
        first = block[0][0] - 1
        if any(of_repository(package, line) for _, line in block):
            before = first - lines[first - 1].startswith("```")
            lines[before:before] = [MARK, ""]
    return "\n".join(lines) + "\n"


def main():
    package = Path(sys.argv[1]).resolve()
    texts = {path: rewritten(package, path) for path in sorted(package.rglob("*.md"))}
    for path, text in texts.items():
        path.write_text(text, encoding="utf-8")


if __name__ == "__main__":
    main()
