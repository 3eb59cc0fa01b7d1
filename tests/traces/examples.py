"""P1 to P12 of docs/RULES.md, each as a trace with its replies."""
import random

from console import *

COPIES_2 = {IMPLICIT: bytes.fromhex("00201000020000003220"), EXPLICIT: bytes.fromhex("00201000495302003220")}
P12 = ("000000000400000042000000" "0000020012000000312E322E3834302E31303030382E312E3100" "00000001020000003080"
       "00002001020000000700" "00000008020000000101" "00000009020000000000").lower()


def begin(syntax=IMPLICIT, serial=100):
    c = Console(random.Random(0))
    c.neat = True
    c.start("1.9.7", serial, 1)
    c.open(1, syntax, 4096)
    return c


def plain(c, request, data, reply):
    c.send(command(request.rows(data is not None)), data, reply)


def session_of(c, data):
    """A session of UID 1.9.70.1 with this data set."""
    request = Request(N_CREATE, SESSION, "1.9.70.1", None, 1)
    plain(c, request, data, request.response(0, "1.9.70.1"))
    c.session = "1.9.70.1"


def film_of(c, layout, status=0, answer=b"", sent=None, named=None):
    request = Request(N_CREATE, FILM, sent, None, 2)
    data = elements(c.film_rows(layout), c.syntax)
    plain(c, request, data, request.response(status, named, answer))


def boxes(c, serials):
    items = [[(0x00081150, "UI", uid(BOX)), (0x00081155, "UI", uid(f"1.9.7.{n}"))] for n in serials]
    return elements([(0x20100510, "SQ", items)], c.syntax)


def printed(c, copies):
    """A film of one empty box shows the copies."""
    film_of(c, "STANDARD\\1,1", 0, boxes(c, [101]), None, "1.9.7.100")
    request = Request(N_ACTION, FILM, "1.9.7.100", 1, 3)
    plain(c, request, None, request.response(0xB603, "1.9.7.100", b"", "queued 1"))
    entry = bytes(36 * 4) + u16(0) + u16(copies) + b"1.9.7.100".ljust(64, b"\0")
    c.call("take", "entry " + entry.hex())


def copies(syntax, data, number):
    c = begin(syntax)
    session_of(c, data)
    printed(c, number)
    return c


def copies_100():
    c = begin()
    request = Request(N_CREATE, SESSION, None, None, 1)
    plain(c, request, elements([(0x20000010, "IS", b"100 ")], IMPLICIT), request.response(0x0106))
    session_of(c, None)
    setting = Request(N_SET, SESSION, "1.9.70.1", None, 1)
    data = elements([(0x20000010, "IS", b"100 ")], IMPLICIT)
    plain(c, setting, data, setting.response(0x0106, "1.9.70.1"))
    printed(c, 1)
    return c


def serials():
    c = begin()
    session_of(c, None)
    film_of(c, "STANDARD\\2,3", 0, boxes(c, range(101, 107)), None, "1.9.7.100")
    film_of(c, "STANDARD\\1,1", 0, boxes(c, [108]), None, "1.9.7.107")
    return c


def seven_columns():
    c = begin()
    session_of(c, None)
    film_of(c, "STANDARD\\7,1", 0x0106)
    return c


def root_sent():
    c = begin()
    request = Request(N_CREATE, SESSION, "1.9.7.5", None, 1)
    plain(c, request, None, request.response(0x0117, "1.9.7.5"))
    return c


def near_root_sent():
    c = begin()
    request = Request(N_CREATE, SESSION, "1.9.70.5", None, 1)
    plain(c, request, None, request.response(0, "1.9.70.5"))
    return c


def no_films():
    c = begin()
    session_of(c, None)
    request = Request(N_ACTION, SESSION, "1.9.70.1", 1, 4)
    plain(c, request, None, request.response(0xC600, "1.9.70.1"))
    return c


def all_empty():
    c = begin()
    session_of(c, None)
    film_of(c, "STANDARD\\1,2", 0, boxes(c, [101, 102]), None, "1.9.7.100")
    request = Request(N_ACTION, FILM, "1.9.7.100", 1, 4)
    plain(c, request, None, request.response(0xB603, "1.9.7.100", b"", "queued 1"))
    return c


def second_delete():
    c = begin()
    session_of(c, None)
    film_of(c, "STANDARD\\1,1", 0, boxes(c, [101]), None, "1.9.7.100")
    request = Request(N_DELETE, FILM, "1.9.7.100", None, 5)
    plain(c, request, None, request.response(0, "1.9.7.100"))
    plain(c, request, None, request.response(0x0112, "1.9.7.100"))
    return c


def echo_7():
    c = begin()
    plain(c, Request(C_ECHO, VERIFICATION, None, None, 7), None, f"response 0000 {P12} - none")
    return c


EXAMPLES = [
    ("p01", lambda: copies(IMPLICIT, COPIES_2[IMPLICIT], 2)),
    ("p02", lambda: copies(EXPLICIT, COPIES_2[EXPLICIT], 2)),
    ("p03", lambda: copies(IMPLICIT, elements([(0x20000010, "IS", b"99")], IMPLICIT), 99)),
    ("p04", copies_100), ("p05", serials), ("p06", seven_columns), ("p07", root_sent),
    ("p08", near_root_sent), ("p09", no_films), ("p10", all_empty), ("p11", second_delete), ("p12", echo_7),
]
