"""Demand 3 tried: messages that failed, were dropped or were cut off are struck from a run in which
no fragment header was refused; all else is answered the same, notes too, and the records end the same."""
from program import Run

SUCCESSES = ("0000", "b602", "b603")
LEFT = "failed and left, with where its reading stopped"
COUNTED = ("failed", "dropped", "cut off", LEFT)


def messages(lines, replies):
    """(first to last places of its fragments, fate) of every message of a run."""
    found, current, in_command = [], None, False
    for place, (line, reply) in enumerate(zip(lines, replies)):
        if line.split()[0] in ("close", "start") and reply == "done":
            current, in_command = None, False
        if not line.startswith("feed") or reply.startswith("refused"):
            continue
        control = int(line[len("feed ") + 10:][:2], 16)
        is_command, last = bool(control & 1), bool(control & 2)
        if is_command and not in_command:
            if current is not None and current["fate"] == "unfinished":
                current["fate"] = "cut off"
            current = {"places": [], "fate": "unfinished"}
            found.append(current)
        in_command = is_command and not last
        if current is None:
            continue            # data before any message belongs to none
        current["places"].append(place)
        if reply == "dropped":
            current["fate"] = "dropped"
        elif reply.startswith("response"):
            current["fate"] = "done" if reply.split()[1] in SUCCESSES else "failed"
    return found


def try_strikes(lines, run, rng, tries, binary):
    """Tries some strikes; (strikes tried, how often each of COUNTED, first difference or None)."""
    counts = {}
    may_go = [m for m in messages(lines, run.replies) if m["fate"] in ("failed", "dropped", "cut off")]
    if not may_go:
        return 0, counts, None
    for attempt in range(tries):
        share = 1.0 if attempt == 0 else rng.random()
        gone = [m for m in may_go if rng.random() < share] or [rng.choice(may_go)]
        for m in gone:
            counts[m["fate"]] = counts.get(m["fate"], 0) + 1
        places = {p for m in gone for p in m["places"]}
        kept = [i for i in range(len(lines)) if i not in places]
        counts[LEFT] = counts.get(LEFT, 0) + sum(" stopped " in run.replies[i] for i in kept)
        again = Run([lines[i] for i in kept], binary)
        difference = again.differs([lines[i] for i in kept], [run.replies[i] for i in kept])
        if difference is None and again.dump != run.dump:
            difference = "the records end differently"
        if difference is not None:
            return attempt + 1, counts, f"struck {sorted(places)}: {difference}"
    return tries, counts, None
