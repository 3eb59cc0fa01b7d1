"""The request with several faults of docs/RULES.md: message by message, each with one fault mended more, as the second program
answers it."""
import re
import subprocess
import sys
from pathlib import Path

TOP = Path(__file__).resolve().parents[2]
sys.path.insert(0, str(TOP / "tests/traces"))

from console import Console, Request
from program import Run
from wire import IMPLICIT, N_CREATE, SESSION, command

RULES = TOP / "docs/RULES.md"
HEADING = "### A request with several faults"
ROW = re.compile(r"^\| \[\d+\]\(#\d+\) \| .* \| (\w{4})H \| (.*)\|$", re.M)
MEND = re.compile(r"`([0-9A-F ]+)` to `([0-9A-F ]+)`")


def section():
    return RULES.read_text(encoding="utf-8").split(HEADING)[1].split("\n## ")[0]


def sets():
    """The command set and the data set, in bytes."""
    blocks = re.findall(r"^```\n(.*?)^```$", section(), re.M | re.S)
    return [bytes.fromhex("".join(line.split("#")[0] for line in block.splitlines())) for block in blocks]


def rows():
    """Each status, and the bytes that mend its fault."""
    return [(status, [(bytes.fromhex(old), bytes.fromhex(new)) for old, new in MEND.findall(mended)])
            for status, mended in ROW.findall(section())]


def mended(parts, mend):
    """The two sets with these bytes for those, which stand there once."""
    old, new = mend
    if sum(part.count(old) for part in parts) != 1:
        raise ValueError(f"{old.hex()} does not stand there once")
    return [part.replace(old, new) for part in parts]


def console():
    """A console that sends its messages in two fragments, with the session that the text tells of."""
    c = Console(None)
    c.neat = True
    c.start("1.9.7", 4294967295, 1)
    c.open(1, IMPLICIT, 4096)
    request = Request(N_CREATE, SESSION, "1.9.70.1", None, 1)
    c.send(command(request.rows(False)), None, request.response(0, "1.9.70.1"))
    return c


def messages():
    """The calls, and the status of each message by its last call's number."""
    c, parts, statuses = console(), sets(), {}
    for status, mends in rows():
        c.send(*parts, None)
        statuses[len(c.lines) - 1] = status
        for mend in mends:
            parts = mended(parts, mend)
    return c, statuses


def wrong():
    subprocess.run(["make", "-s", "-C", TOP / "second"], check=True)
    c, statuses = messages()
    run = Run(c.lines)
    differs = run.differs(c.lines, c.foretold)
    if differs or len(statuses) < 2:
        return [f"docs/RULES.md: {HEADING[4:]}: {differs or 'no messages'}"]
    shown = [f"docs/RULES.md: {HEADING[4:]}: {status}H, and the second program says {run.replies[i][:60]}"
             for i, status in statuses.items() if not run.replies[i].startswith(f"response {status.lower()} ")]
    if b"1.9.7.4294967295".hex() not in run.replies[-1]:
        shown.append(f"docs/RULES.md: {HEADING[4:]}: the last message creates another box: {run.replies[-1]}")
    return shown
