"""Runs the second program on a trace."""
import os
import subprocess

HERE = os.path.dirname(os.path.abspath(__file__))
ROOT = os.path.dirname(os.path.dirname(HERE))
PLAIN = os.path.join(ROOT, "target", "second", "second")
TRIAL = os.path.join(ROOT, "target", "second", "second-trial")


class Run:
    """Replies, the records at the end, coverage counts, and what went wrong, if anything."""

    def __init__(self, lines, binary=PLAIN, leaks=False):
        # Looking for leaks takes seconds on some machines: one run does it for all.
        env = dict(os.environ, ASAN_OPTIONS=f"detect_leaks={int(leaks)}")
        done = subprocess.run([binary, "--dump"], input="\n".join(lines) + "\n", text=True, env=env,
                              stdout=subprocess.PIPE, stderr=subprocess.PIPE, check=False)
        out = done.stdout.splitlines()
        self.replies = [line for line in out if not line.startswith("| ")]
        self.dump = [line for line in out if line.startswith("| ")]
        self.counts = {}
        for line in done.stderr.splitlines():
            number, tab, name = line.partition("\t")
            if tab and number.isdigit():
                self.counts[name] = int(number)
        self.wrong = None
        if done.returncode != 0:
            self.wrong = f"exit {done.returncode}: {done.stderr[-1500:]}"
        elif len(self.replies) != len(lines):
            self.wrong = f"{len(lines)} calls, {len(self.replies)} replies"

    def differs(self, lines, foretold):
        """The first reply that is not the one foretold; None where all are."""
        if self.wrong:
            return self.wrong
        for i, (line, want, got) in enumerate(zip(lines, foretold, self.replies)):
            if want is not None and want != got:
                return f"call {i + 1}: {line[:200]}\n    foretold {want[:300]}\n    replied  {got[:300]}"
        return None
