"""compare.py FIRST COUNT COMMAND ..: runs the command on the kept traces and on traces of seeds, and compares every
reply with the kept ones and with the second program's."""
import multiprocessing
import os
import subprocess
import sys
import time

sys.dont_write_bytecode = True
TRACES = os.path.join(os.path.dirname(os.path.dirname(os.path.abspath(__file__))), "traces")
sys.path.insert(0, TRACES)

from generate import NAMED, seeded
from program import PLAIN
from replies import KINDS, kinds

KEPT = os.path.join(TRACES, "kept")
COMMAND = sys.argv[3:]


def replies(command, lines):
    done = subprocess.run(command, input="\n".join(lines) + "\n", text=True, stdout=subprocess.PIPE,
                          stderr=subprocess.PIPE, check=False)
    if done.returncode:
        return [f"exit {done.returncode}: {done.stderr[-300:]}"]
    return done.stdout.splitlines()


def difference(lines, wanted, got):
    """The first reply that differs; None where all agree."""
    for i, (line, want, reply) in enumerate(zip(lines, wanted, got)):
        if want != reply:
            return f"call {i + 1}: {line[:200]}\n    wanted  {want[:300]}\n    replied {reply[:300]}"
    if len(wanted) != len(got):
        return f"{len(wanted)} replies wanted, {len(got)} given: {got[-1][:300] if got else 'none'}"
    return None


def kept(name):
    lines, wanted = (open(os.path.join(KEPT, f"{name}.{ending}"), encoding="ascii").read().splitlines()
                     for ending in ("trace", "replies"))
    return name, lines, wanted


def named(name):
    lines = NAMED[name]().lines
    return name, lines, replies([PLAIN], lines)


def fresh(seed):
    lines = seeded(seed, headers=seed % 2 == 0).lines
    return f"seed {seed}", lines, replies([PLAIN], lines)


def tried(make, argument):
    """The trace's name, what differs, how many calls were compared, and how often each kind of reply came."""
    name, lines, wanted = make(argument)
    got = replies(COMMAND, lines)
    return name, difference(lines, wanted, got), len(got), kinds(lines, got)


def try_kept(name):
    return tried(kept, name)


def try_named(name):
    return tried(named, name)


def try_fresh(seed):
    return tried(fresh, seed)


def main():
    first, count = int(sys.argv[1]), int(sys.argv[2])
    began, passed, failed, calls, counts = time.time(), 0, 0, 0, {}
    stored = sorted(f[:-len(".trace")] for f in os.listdir(KEPT) if f.endswith(".trace"))
    with multiprocessing.Pool(os.cpu_count()) as pool:
        for results in (pool.imap(try_kept, stored, 4), pool.imap(try_named, list(NAMED), 1),
                        pool.imap(try_fresh, range(first, first + count), 8)):
            for name, wrong, number, reached in results:
                calls += number
                for kind, times in reached.items():
                    counts[kind] = counts.get(kind, 0) + times
                if wrong is None:
                    passed += 1
                else:
                    failed += 1
                    print(f"FAILED {name}: {wrong}")
    print("Compared:")
    for kind in KINDS:
        print(f"  {counts.get(kind, 0):9}  {kind}")
        if counts.get(kind, 0) == 0:
            failed += 1
            print(f"FAILED: {kind} was never reached")
    print(f"replay: {calls} calls compared, seeds {first} to {first + count - 1}, {time.time() - began:.0f} s")
    print(f"{passed} passed, {failed} failed")
    sys.exit(1 if failed else 0)


if __name__ == "__main__":
    main()
