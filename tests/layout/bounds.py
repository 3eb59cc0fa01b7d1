"""The bounds that documents tell, each text with the numbers that the book has."""
import re

# Bounds that stand within a definition: its file, and the number's place in its text.
WITHIN = {
    "most copies": ("rules/specs/Attributes", r"count_in (\d+)"),
    "copies of a new session": ("rules/specs/Records", r"new_session = record \{[^}]*copies = (\d+);"),
    "longest UID": ("uids/specs/Uids", r"is_uid s = both \(leb \(length s\) (\d+)\)"),
    "longest label": ("rules/specs/Values", r"label_allowed v = both \(leb \(length \(trimmed v\)\) (\d+)\)"),
    "nested sequences": ("elements/specs/Reader", r"most_nested = (\d+)"),
    "header": ("strike/specs/Machine", r"ltb \(length bytes\) (\d+)"),
    "most context": ("rules/specs/Calls", r"ltb (\d+) n"),
    "most in a line": ("rules/specs/Sound", r"every \(between 1 (\d+)\)"),
    "most lines": ("rules/specs/Sound", r"between 1 (\d+) l\.lines"),
    "STANDARD": ("rules/specs/Values", r"kind_standard = (\d+)"),
    "ROW": ("rules/specs/Values", r"kind_row = (\d+)"),
    "COL": ("rules/specs/Values", r"kind_col = (\d+)"),
}
# The bounds that these documents tell: a text, and what stands in it.
BOUNDS = {
    "docs/CONFORMANCE.md": [
        ("sequences at most {} deep", "nested sequences"),
        ("One of more than {} bytes, and one that is not readable, is dropped", "command_limit"),
        ("of an odd number from 1 to {};", "most context"),
        ("| IS | U/M | 1 to {} | {} |", "most copies", "copies of a new session"),
        ("| LO | U/M | up to {} characters", "longest label"),
        ("C and R one digit from 1 to {}, columns first", "most in a line"),
        ("1 to {} rows, with r1, r2 and so on boxes, each one digit from 1 to {}", "most lines", "most in a line"),
        ("1 to {} columns, with c1, c2 and so on boxes, each one digit from 1 to {}", "most lines", "most in a line"),
        ("A film has at most {} image boxes.", "most_boxes"),
        ("There are at most {} films.", "most_films"),
        ("| {} films are live, or too few serials are left", "most_films"),
        ("| > Rows | (0028,0010) | US | M/M | 1 to {} |", "widest US"),
        ("| > Columns | (0028,0011) | US | M/M | 1 to {} |", "widest US"),
        ("| start | a UID of 1 to {} characters |", "root_limit"),
        ("| start | 1 to {} each;", "last number"),
        ("| open | {} to {} bytes |", "least_room", "most_room"),
        ("| command set | {} bytes |", "command_limit"),
        ("| a response's command set, and its data set | {} bytes, {} bytes at most |", "command_room", "data_room"),
        ("| sessions, films, image boxes of a film, films in the queue | {}, {}, {}, {} |",
         "most_sessions", "most_films", "most_boxes", "most_entries"),
        ("| UID | 1 to {} characters; a made one at most {} |", "longest UID", "longest made UID"),
        ("| nested sequences | {} |", "nested sequences"),
        ("STANDARD up to {} by {}, ROW or COL with up to {} numbers up to {};",
         "most in a line", "most lines", "most lines", "most in a line"),
    ],
    "docs/HOST.md": [
        ("| message buffer | {} to {} (`GATEWAY_MESSAGE_LEAST`", "least_room", "most_room"),
        ("| root | 1 to {} (`GATEWAY_ROOT_MOST`)", "root_limit"),
        ("| command of a response | {} (`GATEWAY_COMMAND`)", "command_room"),
        ("| data set of a response | {} (`GATEWAY_DATA`)", "data_room"),
        ("| report | {} (`GATEWAY_REPORT`)", "report_room"),
        ("start: the root is no UID of 1 to {} characters", "root_limit"),
        ("open: the context is even or above {},", "most context"),
        ("The fragment's header is wrong: shorter than {} bytes,", "header"),
        ("was longer than {} bytes, or data came in the middle of it", "command_limit"),
        ("carried, each its own length less {};", "header"),
        ("An entry has {} picture numbers in position order", "most_boxes"),
        ("the tickets of the entries in the queue are at most {} in a row", "most_entries"),
        ("They stand in the records, {} bytes each, at {} and {} (", "next's bytes", "serial's place", "picture's place"),
        ("- {} says that none is left", "none_left"),
    ],
    "docs/RECORDS.md": [
        ("| characters of the root, 1 to {} |", "root_limit"),
        ("| next serial, 1 to {};", "none_left"),
        ("| next ticket, 0 to {} |", "last ticket"),
        ("| Copies, 1 to {} |", "most copies"),
        ("| characters of the Label, 0 to {} |", "longest label"),
        ("| how many films there are, 0 to {} |", "most_films"),
        ("| lines of boxes, 1 to {} |", "most lines"),
        ("| how many boxes each line has, 1 to {}, then zeros;", "most in a line"),
        ("| how many entries there are, 0 to {} |", "most_entries"),
        ("0 where that is empty; {} of them |", "most_boxes"),
        ("| copies, 1 to {} |", "most copies"),
        ("| context number, odd, 1 to {} |", "most context"),
        ("| length of the message buffer, {} to {} |", "least_room", "most_room"),
        ("| format: {} STANDARD, {} ROW, {} COL;", "STANDARD", "ROW", "COL"),
    ],
}


def derived(layout):
    """Numbers that follow from the bounds, and from the formats."""
    last = layout.number("none_left") - 1
    return {
        "last number": last,
        "last ticket": layout.number("tickets") - 1,
        "longest made UID": layout.number("root_limit") + len(".") + len(str(last)),
        "widest US": 2**16 - 1,
        "serial's place": layout.field("core", "numbers serial").place,
        "picture's place": layout.field("core", "numbers picture").place,
        "next's bytes": layout.field("numbers", "serial").bytes(),
    }


def within(top, name):
    file, pattern = WITHIN[name]
    return int(re.search(pattern, (top / f"crates/{file}.antt").read_text(encoding="utf-8"))[1])


def bounds(top, layout):
    """Each document, a text of it, and the numbers that stand in that text."""
    known = {**derived(layout), **{name: within(top, name) for name in WITHIN}}
    for path, texts in BOUNDS.items():
        for text, *names in texts:
            yield (path, text, *(known[name] if name in known else layout.number(name) for name in names))
