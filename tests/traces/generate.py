#!/usr/bin/env python3
"""Seeded traces. `generate.py NAME ..` prints traces one after the other, each beginning with a start
(which makes fresh records); a NAME is a seed's number or one of NAMED."""
import random
import sys

from console import FILMS, Request
from damages import *

ROOTS = ("1.9.7", "1.2.840.113619.2.1", "0", "7", "2.25." + "3" * 35, "1.2.3.4.5.6.7.8.9.10.11.12.13")
LENGTHS = (4096, 4096, 5000, 65536, 65537)


# ---- sound work ----

def console_rows(c, kind):
    """Attributes that real consoles send beside ours; all are passed over."""
    rng = c.rng
    rows = {
        "session": [(0x20000000, "UL", u32(40)), (0x20000060, "IS", b"0 "), (0x21000160, "SH", b"ADMIN "),
                    (0x20000061, "IS", b"4 "), (0x00080005, "CS", b"ISO_IR 100"),
                    (0x20100010, "ST", b"of another class")],
        "film": [(0x20100030, "CS", b"LABEL "), (0x20100050, "CS", b"14INX17IN "),
                 (0x20100080, "CS", b"SMOOTH"), (0x20100100, "CS", b"BLACK "), (0x20100110, "CS", b"BLACK "),
                 (0x20100120, "US", u16(20)), (0x20100130, "US", u16(320)), (0x20100140, "CS", b"NO"),
                 (0x20100150, "ST", text("CS000\\LUT=1,2")), (0x20200050, "CS", b"DECIMATE"),
                 (0x20100520, "SQ", []), (0x20200010, "US", b""), (0x20000010, "IS", b"nothing ")],
        "box": [(0x20100060, "CS", b"NONSENSE"), (0x20100080, "CS", b"140 "), (0x20100150, "ST", b"PERCEPTION"),
                (0x20200030, "DS", b"120.5 "), (0x20200040, "CS", b"DECIMATE"), (0x20200050, "CS", b"FAIL"),
                (0x20200111, "SQ", [[(0x00280002, "US", u16(3))]]), (0xFFFCFFFC, "OB", bytes(4))],
        "image": [(0x00280000, "UL", u32(86)), (0x00280006, "US", u16(0)), (0x00280034, "IS", b"1\\1 "),
                  (0x00280106, "US", u16(0)), (0x00281050, "DS", b"128 "), (0x7FE00000, "UL", u32(12))],
    }[kind]
    return rng.sample(rows, rng.randint(0, min(4, len(rows)))) if rng.random() < 0.5 else []


def new_uid(c):
    """A UID to send, or None, or an empty one, which is not sent."""
    rng = c.rng
    c.sent = getattr(c, "sent", 0) + 1
    choice = rng.random()
    if choice < 0.55:
        return None
    if choice < 0.6:
        return ""
    if choice < 0.7 and c.root != "0":    # as near to the root as may be
        return f"{c.root}0.{c.sent}"
    if choice < 0.8:
        return f"2.25.{c.sent}." + "8" * (57 - len(str(c.sent)))
    return f"2.25.{rng.randint(1, 9999)}.{c.sent}"


def add_session(c):
    rows, copies = right(c.rng)
    rows += console_rows(c, "session")
    c.create_session(new_uid(c), copies, rows)


def film_extra(c):
    return right(c.rng, FILM_RIGHT)[0] + console_rows(c, "film")


def add_film(c, columns=None, rows=None):
    rng = c.rng
    columns, rows = columns or rng.choice((1, 1, 2, 2, 3, 4, 6)), rows or rng.choice((1, 1, 2, 2, 3, 5, 6))
    return c.create_film(columns, rows, new_uid(c), film_extra(c))


def add_uneven_film(c):
    rng = c.rng
    counts = [rng.choice((1, 1, 2, 3, 6)) for _ in range(rng.choice((1, 2, 3, 6)))]
    return c.create_uneven_film(rng.choice(("ROW", "COL")), counts, new_uid(c), film_extra(c))


def box_extra(c):
    polarity = c.rng.choice(([], [], [b"NORMAL"], [b"REVERSE "], [b" REVERSE"], [b"  "]))
    return [(0x20200020, "CS", text(p)) for p in polarity] + console_rows(c, "box")


def fill(c, film=None, i=None, place=None):
    film = film or c.rng.choice(c.films)
    i = c.rng.randrange(len(film.boxes)) if i is None else i
    place = place or (film.places[i] if c.rng.random() < 0.9 else c.rng.randint(1, len(film.boxes)))
    c.fill_box(film, i, place, c.small_picture(console_rows(c, "image")), box_extra(c))


def move(c):
    film = c.rng.choice(c.films)
    i = c.rng.randrange(len(film.boxes))
    place = film.places[i] if c.rng.random() < 0.7 else c.rng.randint(1, len(film.boxes))
    c.move_box(film, i, place, c.rng.random() < 0.4, box_extra(c))


def job(c):
    """A whole job as a console does it, printed by film or by session."""
    if c.session is None:
        add_session(c)
    by_film = c.rng.random() < 0.5
    for _ in range(c.rng.randint(1, 3)):
        film = add_film(c)
        if film is None:
            break
        for i in range(min(len(film.boxes), 5)):
            fill(c, film, i, i + 1)
        if by_film:
            c.print_film(film)
            c.delete_film(film)
    if c.session and not by_film:
        c.print_session()
    while c.rng.random() < 0.8:
        c.take()


def reopen(c):
    c.close()
    if c.rng.random() < 0.3:
        c.take()
    open_some(c)


def open_some(c):
    c.open(c.rng.choice((1, 3, 127, 255)), c.rng.choice((IMPLICIT, EXPLICIT)), c.rng.choice(LENGTHS))
    if c.rng.random() < 0.2:
        stray(c)


def start_some(c, near_end=False):
    rng = c.rng
    serial = picture = 1
    if near_end:
        serial = 2 ** 32 - rng.choice((1, 2, 3, 5, 12, 40))
        picture = 2 ** 32 - rng.choice((1, 2, 4))
    elif rng.random() < 0.8:
        serial, picture = rng.choice((1, 9, 99, 100, 99990, 4000000000)), rng.choice((1, 250, 65535))
    c.start(rng.choice(ROOTS), serial, picture)


def sound_step(c):
    """One sound request or call, of what is possible now."""
    rng = c.rng
    if not c.opened:
        return open_some(c)
    steps = [(2, Damaged.echo), (2, reopen), (6, Damaged.take), (4, job)]
    if c.session is None:
        steps += [(30, add_session), (1, add_film)]
    else:
        steps += [(60 if c.crowded else 12, add_film), (4, add_uneven_film), (2, add_session),
                  (2, Damaged.delete_session), (6, Damaged.print_session), (4, set_session)]
    if c.films:
        steps += [(25, fill), (8, move), (8, print_one), (3, delete_one), (3, delete_twice), (4, set_one)]
    rng.choices([s for _, s in steps], [w for w, _ in steps])[0](c)


def set_session(c):
    c.set_session(*right(c.rng))


def set_one(c):
    c.set_film(c.rng.choice(c.films), right(c.rng, FILM_RIGHT)[0])


def print_one(c):
    c.print_film(c.rng.choice(c.films))


def delete_one(c):
    c.delete_film(c.rng.choice(c.films))


def delete_twice(c):
    film = c.rng.choice(c.films)
    c.delete_film(film)
    c.fails(0x0112, c.request(N_DELETE, FILM, film.uid), what="second delete")
    if film.boxes:
        c.fails(0x0112, c.request(N_SET, BOX, film.boxes[0]), b"", what="box of a deleted film")


# ---- wild work: the reply is not foretold ----

def mutate(rng, data):
    data = bytearray(data)
    for _ in range(rng.choice((1, 1, 2, 4))):
        at = rng.randint(0, len(data))
        kind = rng.randrange(6)
        if kind == 0 and at < len(data):
            data[at] ^= 1 << rng.randrange(8)
        elif kind == 1 and at < len(data):
            data[at] = rng.choice((0, 1, 2, 0x20, 0x5C, 0xFF, 0xFE))
        elif kind == 2:
            del data[at:at + rng.choice((1, 2, 4, 8))]
        elif kind == 3:
            data[at:at] = rng.choice((b"\0", b"  ", b"\xff" * 4, tag_bytes(ITEM_END) + u32(0),
                                      tag_bytes(SEQUENCE_END) + u32(0), tag_bytes(ITEM) + u32(0)))
        elif kind == 4:
            data[at:at + 4] = rng.choice((u32(UNDEFINED), u32(0), u32(2), u32(0xFFFFFFFE)))
        else:
            data[at:at] = data[max(0, at - 10):at]
    return bytes(data)


def wild(c):
    rng = c.rng
    request = rng.choice(c.sound_requests())
    rows = {SESSION: right(rng)[0], BOX: [(0x20200010, "US", u16(1)), (0x20200110, "SQ", [c.small_picture()])],
            FILM: c.film_rows("STANDARD\\2,1") if request.field == N_CREATE else right(rng, FILM_RIGHT)[0],
            VERIFICATION: []}[request.class_uid]
    data = c.encode(rows) if rng.random() < 0.8 else None
    command_bytes = command(request.rows(data is not None))
    which = rng.random()
    if which < 0.4:
        command_bytes = mutate(rng, command_bytes)
        if rng.random() < 0.7 and len(command_bytes) >= 12:     # the group length mended
            command_bytes = command_bytes[:8] + u32(len(command_bytes) - 12) + command_bytes[12:]
    elif data:
        data = mutate(rng, data)
    c.sure = False
    c.count("wild")
    feeds = list(c.fragments(command_bytes, True)) + list(c.fragments(data or b"", False) if data else [])
    if rng.random() < 0.15:
        feeds.pop(rng.randrange(len(feeds)))
    if rng.random() < 0.15 and feeds:
        feeds.insert(rng.randint(0, len(feeds)), rng.choice(feeds))
    for one in feeds:
        c.feed(one, None)
    if rng.random() < 0.5:
        c.feed(fragment(c.context, 2, b""), None)


# ---- whole traces ----

def ready(c):
    """Open, with a session and a film live, so that damage finds something to be done to."""
    if not c.opened:
        open_some(c)
    if c.session is None:
        add_session(c)
    if c.session is not None and not c.films:
        add_film(c)
    return c.session is not None and bool(c.films)


def seeded(seed, headers=True):
    """The trace of a seed; without `headers`, no fragment header is refused."""
    rng = random.Random(seed)
    c = Damaged(rng)
    theme = rng.choice(("sound", "sound", "crowded", "damaged", "damaged", "wild", "ends"))
    c.crowded = theme == "crowded"
    start_some(c, theme == "ends")
    for _ in range(rng.randint(20, 80)):
        choice = rng.random()
        if choice < 0.02:
            start_some(c, theme == "ends")
        elif theme in ("damaged", "wild") and choice < 0.5 and ready(c):
            if theme == "wild" and choice < 0.3:
                wild(c)
            elif headers and choice < 0.06:
                refused_headers(c)
            else:
                rng.choice(DAMAGES)(c)
        else:
            sound_step(c)
    return c


def thorough(syntax, seed=0):
    """Every case of every damage in one syntax."""
    c = Damaged(random.Random(seed), True)
    c.start("1.9.7", 100, 1)
    c.open(5, syntax, 65536)
    c.create_session("1.9.70.5")
    c.create_film(3, 2, "1.9.70.6")
    for one in DAMAGES + [refused_headers]:
        one(c)
        if c.films and not c.films[0].uid.startswith("1.9.70"):
            c.delete_session()
            c.create_session("1.9.70.5")
            c.create_film(3, 2, "1.9.70.6")
    return c


def tickets():
    """Print and take until tickets begin again at 0, in the midst of a session's films."""
    c = Damaged(random.Random(1))
    c.neat = True
    c.start("1.9.7", 1, 1)
    c.open(1, IMPLICIT, 4096)
    c.create_session()
    for _ in range(FILMS):
        c.create_film(1, 1)
    c.print_film(c.films[0])
    c.take()
    request = Request(N_ACTION, SESSION, c.session, 1, 7)
    line = "feed " + fragment(1, 3, command(request.rows(False))).hex()
    reply = request.response(0xB602, c.session, b"", f"queued {FILMS}")
    for _ in range(65536 // FILMS):
        c.queue_films(c.films)
        c.call(line, reply)
        for _ in range(FILMS):
            c.take()
    c.count("tickets past 65,535")
    c.print_session()
    for _ in range(FILMS + 1):
        c.take()
    return c


def stop_at_the_buffers_end(c):
    """The last bytes that the buffer holds are a cut header."""
    cut = tag_bytes(0xFFFF0001) + b"UT"
    size = c.length - len(header(0xFFFCFFFC, "OB", 0, c.syntax)) - len(cut)
    before = header(0xFFFCFFFC, "OB", size, c.syntax) + bytes(size)
    c.stops(c.request(N_SET, SESSION, c.session), before + cut, Stop(1, len(before), 0), "reader: at the buffer's end")


def long_lines():
    """The largest message buffer: filled to the last byte by one fragment, and past it."""
    c = Damaged(random.Random(2))
    c.neat = True
    c.start("1.9.7", 1, 1)
    c.open(1, EXPLICIT, 16777216)
    c.create_session()
    film = c.create_film(1, 1)
    c.fill_box(film, 0, 1, c.picture_item(4096, 2047, True, bytes(4096 * 2047 * 2)))
    data_of_the_buffers_length(c)
    stop_at_the_buffers_end(c)
    data_too_long_at_once(c)
    c.count("lines past 32 MiB")
    c.print_film(film)
    c.take()
    return c


NAMED = {
    "tickets": tickets, "long-lines": long_lines,
    "every-damage-implicit": lambda: thorough(IMPLICIT),
    "every-damage-explicit": lambda: thorough(EXPLICIT),
}


def trace(name):
    return seeded(int(name)) if name.isdigit() else NAMED[name]()


if __name__ == "__main__":
    for one in sys.argv[1:]:
        print("\n".join(trace(one).lines))
