"""A room outside the repository in which the book is changed and checked: which check refuses a change, and by what."""
import os
import re
import shutil
import signal
import subprocess
from pathlib import Path

from terms import items

# every crate that a check reads, each behind those that it needs
ALL = ("choice", "octets", "fields", "uids", "tags", "headers", "syntaxes", "elements", "writing", "strike", "rules", "pinned",
       "promises", "runs")
# those that are checked after the changed one itself; promises is read by runs, and so checked with it
CHECKS = ("rules", "pinned", "runs")
# those whose proofs are claims about the book and nothing else
CLAIMS = ("rules", "pinned")
LIMIT = 120
ERROR = re.compile(r"^(/.*?):(\d+):\d+: error(?:\[[^\]]*\])?: (.*)$")
# an error that only says that what is cited was refused
FOLLOWS = re.compile(r"was not admitted|(?:was|were) not checked|that can be named from here")
COMPUTED = re.compile(r"(?:refl|tt|[\s(),])*")


class Verdict:
    """`by`: types, claim, code, proof, nothing or undecided; `crate` and `place` of the first that refused."""

    def __init__(self, by, crate="", place=""):
        self.by, self.crate, self.place = by, crate, place


def kit():
    home = os.environ.get("RATTLE_HOME")
    rt = shutil.which("rt")
    if not home and not rt:
        raise OSError("rt is not in the path")
    return Path(home) if home else Path(rt).resolve().parents[1]


class Room:
    """The crates, copied, and the folder of what was checked, kept as it is for the book unchanged."""

    def __init__(self, top, folder):
        self.folder = Path(folder)
        self.kit = kit()
        self.needs = {}
        for line in (Path(top) / "crates.txt").read_text(encoding="utf-8").splitlines():
            name, colon, needs = line.partition("#")[0].partition(":")
            if colon:
                self.needs[name.strip()] = needs.split()
        for crate in ALL:
            for part in ("src", "specs", "proofs"):
                if (Path(top) / "crates" / crate / part).is_dir():
                    shutil.copytree(Path(top) / "crates" / crate / part, self.folder / "crates" / crate / part)
        self.computed, self.check, self.ended = {}, None, False

    def prepare(self):
        """Checks all, so that a later check needs to look only at what a change reaches."""
        for crate in CHECKS:
            status, said = self.run(crate, limit=1200)
            if status != 0:
                raise OSError(f"the book as it stands is not proved:\n{said[-2000:]}")
        shutil.copytree(self.folder / "checked", self.folder / "kept")

    def beside(self, folder):
        """Another such room."""
        shutil.copytree(self.folder, folder, copy_function=shutil.copy2)
        other = object.__new__(Room)
        other.__dict__.update(self.__dict__, folder=Path(folder), computed={}, check=None)
        return other

    def below(self, crate):
        """What a crate reaches, lowest first: crates of the repository, and libraries of the kit."""
        reached, todo = set(), [crate]
        while todo:
            for need in self.needs.get(todo.pop(), []):
                if need not in reached:
                    reached.add(need)
                    todo.append(need)
        return [name for name in ALL if name in reached], sorted(reached - set(ALL))

    def run(self, crate, limit=LIMIT):
        """The status of a check, with all below as source, and what it said. The status is none where it took too long."""
        sources, libraries = self.below(crate)
        words = [self.kit / "bin/rattle", "check", "--crate-name", crate, self.root(crate)]
        words += [word for name in ["core", "std"] + libraries for word in ("--extern", f"{name}={self.kit}/rlibs/{name}.rlib")]
        words += [word for name in sources for word in ("--lib", f"{name}={self.root(name)}")]
        words += ["-L", f"dependency={self.kit}/rlibs", "--antt-project", self.kit / "rattle/logic/antt-project.json"]
        words += ["--logic-built", self.kit / "logic_built", "--incremental", self.folder / "checked"]
        if self.ended:
            return None, ""
        with subprocess.Popen([str(word) for word in words], stdout=subprocess.PIPE, stderr=subprocess.STDOUT,
                              start_new_session=True) as self.check:
            try:
                said, _ = self.check.communicate(timeout=limit)
                return self.check.returncode, said.decode("utf-8", "replace")
            except subprocess.TimeoutExpired:
                return None, ""
            finally:
                self.kill()

    def kill(self):
        """Ends the check that runs, if one does."""
        if self.check and self.check.poll() is None:
            os.killpg(self.check.pid, signal.SIGKILL)

    def end(self):
        """Ends the check that runs, and begins no other."""
        self.ended = True
        self.kill()

    def root(self, crate):
        return self.folder / "crates" / crate / "src/lib.rt"

    def restore(self):
        """The folder of what was checked as it was before the change."""
        now, kept = self.folder / "checked", self.folder / "kept"
        old = {path.relative_to(kept): path.stat() for path in kept.rglob("*") if path.is_file()}
        for path in [path for path in now.rglob("*") if path.is_file()]:
            held = old.pop(path.relative_to(now), None)
            seen = path.stat()
            if held is None:
                path.unlink()
            elif (held.st_mtime_ns, held.st_size) != (seen.st_mtime_ns, seen.st_size):
                shutil.copy2(kept / path.relative_to(now), path)
        for path in old:
            (now / path).parent.mkdir(parents=True, exist_ok=True)
            shutil.copy2(kept / path, now / path)

    def tries(self, change):
        """What notices a change: its own crate, then each of those to be checked, with all below it. It stops at the first claim
        that fails; where none does, the first proof that does not fit any more is told."""
        place = self.folder / change.file.path
        crate = change.file.path.split("/")[1]
        place.write_text(change.text(), encoding="utf-8")
        try:
            first = None
            for check in [crate] + [name for name in CHECKS if ALL.index(name) > ALL.index(crate)]:
                status, said = self.run(check)
                verdict = self.judged(status, said)
                if verdict.by in ("types", "claim"):
                    return verdict
                first = first or (verdict if verdict.by != "nothing" else None)
            return first or verdict
        finally:
            place.write_text(change.file.text, encoding="utf-8")
            self.restore()

    def judged(self, status, said):
        if status == 0:
            return Verdict("nothing")
        if status != 1:
            return Verdict("undecided", "", f"status {status}" if status is not None else f"over {LIMIT} s")
        refused = {}
        for line in said.splitlines():
            error = ERROR.match(line)
            if error and not FOLLOWS.search(error[3]):
                path = Path(error[1]).relative_to(self.folder)
                refused.setdefault(self.what(path, int(error[2])), (path, error[2]))
        for by in ("types", "claim", "code", "proof"):
            if by in refused:
                path, line = refused[by]
                return Verdict(by, path.parts[1], f"{path}:{line}")
        function = re.search(r"^fn (\w+)::(\S+): (?:not proved|no proof)", said, re.M)
        return Verdict("code", function[1], f"fn {function[1]}::{function[2]}") if function else Verdict("undecided", "", "no error told")

    def what(self, path, line):
        """What stands at a line that was refused: a definition, a claim, the proof of a function, or another proof. A claim is
        whatever rules and pinned prove, a statement, or what `refl` alone proves of no variable, or in a file that says that it
        is computed."""
        if path.parts[2] == "specs":
            return "types"
        if path.parts[2] == "src" or len(path.parts) > 4:
            return "code"
        if path.parts[1] in CLAIMS:
            return "claim"
        if path not in self.computed:
            text = (self.folder / path).read_text(encoding="utf-8")
            claims, whole = [], "computed" in text.partition("\n")[0]
            for start, end in items(text):
                item = re.sub(r"--[^\n]*", "", text[start:end])
                head, equals, body = item.partition(" =")
                stated = item.startswith(("pub ", "abbrev ")) or " : " in head or head.rstrip().endswith(" :")
                alone = equals and COMPUTED.fullmatch(body) and (whole or len(head.split()) == 1)
                if stated or alone:
                    claims.append((text.count("\n", 0, start) + 1, text.count("\n", 0, end) + 1))
            self.computed[path] = claims
        return "claim" if any(start <= line < end for start, end in self.computed[path]) else "proof"
