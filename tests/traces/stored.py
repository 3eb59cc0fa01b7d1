"""What no reply shows: the values that the records hold at a trace's end, as --dump prints them."""
import random

from console import *

NEXT = "| next root=1.9.7 serial={} picture={} ticket={}"
SESSION_LINE = "| session uid={} copies={} priority={} medium={} destination={} label={}"
FILM_LINE = "| film uid={} format={} orientation={} magnification={}"
BOX_LINE = "| box uid={} position={} polarity={} picture={}"
DEFAULTS = ("1.9.7.100", 1, "MED", "PAPER", "MAGAZINE", "")
ALL = [(0x20000010, "IS", b" +7 "), (0x20000020, "CS", b"HIGH"), (0x20000030, "CS", b" BLUE FILM"),
       (0x20000040, "CS", b"PROCESSOR "), (0x20000050, "LO", b"  a  label  ")]
ALL_LINE = ("1.9.7.100", 7, "HIGH", "BLUE FILM", "PROCESSOR", "a  label")


def begin(rows=()):
    c = Console(random.Random(0))
    c.start("1.9.7", 100, 1)
    c.open(1, EXPLICIT, 4096)
    c.create_session(None, 7 if rows else None, rows)
    return c


def session_defaults():
    return begin(), [NEXT.format(101, 1, 0), SESSION_LINE.format(*DEFAULTS)]


def session_all():
    return begin(ALL), [NEXT.format(101, 1, 0), SESSION_LINE.format(*ALL_LINE)]


def session_set():
    c = begin()
    c.set_session(ALL, 7)
    return c, [NEXT.format(101, 1, 0), SESSION_LINE.format(*ALL_LINE)]


def session_set_keeps():
    """Absent and empty values keep what stands."""
    c = begin(ALL)
    c.set_session([(tag, vr, b"  ") for tag, vr, _ in ALL])
    c.set_session([(tag, vr, b"") for tag, vr, _ in ALL])
    c.set_session([(0x20000020, "CS", b"LOW ")])
    line = ALL_LINE[:2] + ("LOW",) + ALL_LINE[3:]
    return c, [NEXT.format(101, 1, 0), SESSION_LINE.format(*line)]


def session_set_in_part():
    """The last value is not allowed: none is stored."""
    c = begin()
    request = c.request(N_SET, SESSION, c.session)
    data = c.encode(ALL[:4] + [(0x20000050, "LO", b"a\\b ")])
    c.ask(request, data, request.response(0x0106, c.session))
    return c, [NEXT.format(101, 1, 0), SESSION_LINE.format(*DEFAULTS)]


def boxes_of(first, count, changes=()):
    changes = dict(changes)
    return [BOX_LINE.format(f"1.9.7.{first + i}", *changes.get(i, (i + 1, "NORMAL", 0))) for i in range(count)]


def film_columns_first():
    c = begin()
    c.create_film(3, 2)
    film = FILM_LINE.format("1.9.7.101", "STANDARD\\3,2", "PORTRAIT", "BILINEAR")
    return c, [NEXT.format(108, 1, 0), SESSION_LINE.format(*DEFAULTS), film] + boxes_of(102, 6)


def films_uneven():
    """R-1: as many boxes as the counts make together."""
    c = begin()
    c.create_uneven_film("ROW", (2, 1, 3))
    c.create_uneven_film("COL", (1,))
    return c, [NEXT.format(110, 1, 0), SESSION_LINE.format(*DEFAULTS),
               FILM_LINE.format("1.9.7.101", "ROW\\2,1,3", "PORTRAIT", "BILINEAR")] + boxes_of(102, 6) + \
        [FILM_LINE.format("1.9.7.108", "COL\\1", "PORTRAIT", "BILINEAR")] + boxes_of(109, 1)


def film_set():
    """Two films; the second is set, in part too, and the first stays."""
    c = begin()
    c.create_film(1, 1, None, [(0x20100040, "CS", b"LANDSCAPE ")])
    film = c.create_film(1, 1, None, [(0x20100060, "CS", b"NONE")])
    c.set_film(film, [(0x20100060, "CS", b"CUBIC ")])
    c.set_film(film, [(0x20100040, "CS", b""), (0x20100060, "CS", b"  ")])
    request = c.request(N_SET, FILM, film.uid)
    rows = [(0x20100040, "CS", b"LANDSCAPE "), (0x20100060, "CS", b"LINEAR")]
    c.ask(request, c.encode(rows), request.response(0x0106, film.uid))
    return c, [NEXT.format(105, 1, 0), SESSION_LINE.format(*DEFAULTS),
               FILM_LINE.format("1.9.7.101", "STANDARD\\1,1", "LANDSCAPE", "BILINEAR")] + boxes_of(102, 1) + \
        [FILM_LINE.format("1.9.7.103", "STANDARD\\1,1", "PORTRAIT", "CUBIC")] + boxes_of(104, 1)


def box_set():
    """Filled, moved, turned, refilled, erased; a set refused for its last value stores nothing."""
    c = begin()
    film = c.create_film(2, 2)
    reverse = [(0x20200020, "CS", b"REVERSE ")]
    c.fill_box(film, 0, 4, c.small_picture(), reverse)
    c.fill_box(film, 1, 2, c.small_picture(), reverse)
    c.fill_box(film, 1, 2, c.small_picture())
    c.fill_box(film, 2, 3, c.small_picture())
    c.move_box(film, 2, 1, True, [(0x20200020, "CS", b"")])
    request = c.request(N_SET, BOX, film.boxes[3])
    bad = [(t, vr, b"" if t == 0x7FE00010 else v) for t, vr, v in c.small_picture()]
    rows = [(0x20200010, "US", u16(1)), (0x20200110, "SQ", [bad])] + reverse
    c.ask(request, c.encode(rows), request.response(0x0121, film.boxes[3]))
    changes = {0: (4, "REVERSE", 1), 1: (2, "REVERSE", 3), 2: (1, "NORMAL", 0)}
    film_line = FILM_LINE.format("1.9.7.101", "STANDARD\\2,2", "PORTRAIT", "BILINEAR")
    return c, [NEXT.format(106, 5, 0), SESSION_LINE.format(*DEFAULTS), film_line] + boxes_of(102, 4, changes)


def queue_stays():
    """Close drops all but queue and next numbers; later sets do not reach the queue."""
    c = begin(ALL)
    film = c.create_film(1, 2)
    c.fill_box(film, 1, 1, c.small_picture())
    c.print_film(film)
    c.set_session([(0x20000010, "IS", b"9 ")], 9)
    c.move_box(film, 1, 2, True)
    c.print_session()
    c.close()
    entry = "| entry ticket={} copies={} film=1.9.7.101 {}" + " 0" * 35
    return c, [NEXT.format(104, 2, 2), entry.format(0, 7, 1), entry.format(1, 9, 0)]


def deleted():
    """A deleted film leaves a gap that closes; start makes all fresh but what it is given."""
    c = begin()
    first = c.create_film(1, 1)
    c.create_film(1, 1, "2.25.1")
    c.delete_film(first)
    return c, [NEXT.format(104, 1, 0), SESSION_LINE.format(*DEFAULTS),
               FILM_LINE.format("2.25.1", "STANDARD\\1,1", "PORTRAIT", "BILINEAR")] + boxes_of(103, 1)


def started_again():
    c = begin(ALL)
    c.create_film(1, 1)
    c.print_session()
    c.start("1.9.7", 4294967295, 4294967295)
    c.open(3, IMPLICIT, 4096)
    c.create_session()
    c.delete_session()
    return c, [NEXT.format(4294967296, 4294967295, 0)]


STORED = [(f.__name__, f) for f in (
    session_defaults, session_all, session_set, session_set_keeps, session_set_in_part, film_columns_first,
    films_uneven, film_set, box_set, queue_stays, deleted, started_again)]
