"""What replies count as, and the kinds that a test must reach."""
STATUSES = ("0000 0106 0110 0111 0112 0117 0118 0119 0120 0121 0123 0211 0213 b602 b603 c600 c601 c602 "
            "c604").split()
REPLIES = ["done", "wait", "dropped", "ignored", "entry", "refused 1", "refused 2", "refused 3", "refused 4",
           "refused 5", "refused 6", "note none", "note queued", "note picture", "note stopped"]
SYNTAXES = {"1": "implicit", "2": "explicit"}
# Implicit VR has no 4; a fifth sequence lies in four.
STOPS = [f"stopped {number} at depth {depth}, {syntax} VR" for number in range(1, 8) for depth in range(5)
         for syntax in SYNTAXES.values() if (number, syntax) != (4, "implicit") and (number < 7 or depth == 4)]
KINDS = REPLIES + STATUSES + STOPS


def names(reply, syntax):
    """What a reply counts as; the syntax is that of the open before it."""
    words = reply.split()
    if words[0] != "response":
        return [reply if words[0] == "refused" else words[0]]
    kinds = [words[1], "note " + words[4]]
    if words[4] == "stopped":
        kinds.append(f"stopped {words[5]} at depth {words[7]}, {syntax} VR")
    return kinds


def kinds(lines, replies):
    """How often each kind of reply, status, note and stop was given."""
    counts, syntax = {}, None
    for line, reply in zip(lines, replies):
        if line.startswith("open ") and reply == "done":
            syntax = SYNTAXES.get(line.split()[2])
        for name in names(reply, syntax):
            counts[name] = counts.get(name, 0) + 1
    return counts
