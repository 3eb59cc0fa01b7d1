"""The commands of host/ that a document shows, and what it says that they print."""
import subprocess


def shown(text):
    """Each block whose first line is a command of host/, with the lines behind it."""
    blocks = []
    for part in text.split("\n\n"):
        lines = part.split("\n")
        if all(line.startswith("    ") for line in lines) and lines[0].startswith("    host/"):
            blocks.append((lines[0].strip(), [line[4:].rstrip() for line in lines[1:]]))
    return blocks


def agrees(wanted, printed):
    """Whether the lines wanted are those printed."""
    if not wanted:
        return not printed
    if wanted[0] == "..":
        return any(agrees(wanted[1:], printed[i:]) for i in range(len(printed) + 1))
    return bool(printed) and wanted[0] == printed[0] and agrees(wanted[1:], printed[1:])


def try_documents(top):
    """Runs each command that a document of a folder shows, in that folder: what is wrong with it, None where nothing is."""
    for path in [top / "README.md", *sorted((top / "docs").glob("*.md"))]:
        for command, wanted in shown(path.read_text(encoding="utf-8")):
            done = subprocess.run(["bash", "-c", command], cwd=top, text=True, capture_output=True, check=False)
            printed = [line.rstrip() for line in done.stdout.splitlines()]
            if agrees(wanted, printed):
                yield None
            else:
                yield "\n".join([f"{command} prints", *printed, done.stderr, f"and {path.relative_to(top)} says", *wanted])
