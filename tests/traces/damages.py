"""Damage: requests and calls that must be refused, failed, dropped or ignored, each with the reply
that the rules give. Every function wants an open console with a session and a film with boxes;
`c.some` hands over all cases to a thorough console, else one at random, or as many as it picks."""
from console import Console
from faults import *
from wire import *

DAMAGES = []


def damage(function):
    DAMAGES.append(function)
    return function


class Damaged(Console):
    def __init__(self, rng, thorough=False, picks=1):
        super().__init__(rng)
        self.thorough, self.picks = thorough, picks
        self.crowded = False    # makes many films

    def some(self, cases):
        cases = list(cases)
        return cases if self.thorough else self.rng.sample(cases, min(self.picks, len(cases)))

    def fails(self, status, request, data=None, named=True, what=""):
        self.count(f"{status:04X}H {what}".strip())
        self.ask(request, data, request.response(status, request.instance if named else None))

    def stops(self, request, data, stop, what):
        """Check 5: the data set cannot be read, and the note says where the reading stopped."""
        self.count(f"0110H {what}")
        self.ask(request, data, request.response(0x0110, request.instance, b"", stop.note()))

    def film(self):
        return self.rng.choice(self.films)

    def box(self):
        film = self.film()
        i = self.rng.randrange(len(film.boxes))
        return film, i

    def sound_requests(self):
        """One request of every operation that a class offers, each on what is live."""
        film, i = self.box()
        return [self.request(C_ECHO, VERIFICATION), self.request(N_CREATE, SESSION),
                self.request(N_CREATE, FILM), self.request(N_CREATE, FILM, "1.2.3.4"),
                self.request(N_SET, SESSION, self.session), self.request(N_SET, FILM, film.uid),
                self.request(N_SET, BOX, film.boxes[i]),
                self.request(N_ACTION, SESSION, self.session, 1),
                self.request(N_ACTION, FILM, film.uid, 1),
                self.request(N_DELETE, SESSION, self.session),
                self.request(N_DELETE, FILM, film.uid)]

    def too_long(self, request, reply):
        """A data set past the message buffer, then its answer."""
        self.send(command(request.rows(True)), None, "wait")
        for one in self.fill_buffer(self.rng.choice((sound(self.syntax), b"unreadable"))):
            self.feed(one, "wait")
        self.feed(fragment(self.context, 2, self.rng.randbytes(self.rng.randint(0, 4))), reply)


BROKEN_UIDS = (b"\0\0", b"  ", b"1.2 ", b"1..2", b".1", b"1.", b"1.02", b"00", b"1.2.a.", b"1.2\0\0\0",
               b"1" * 66, b"1" * 65 + b"\0", b"1." * 32 + b"11", b"-1", b"1,2\0", b"1.9.7.\0\0")
ROOT_UIDS = ("5", "100", "0", "1.2.3")
OTHER_CLASSES = ("1.2.840.10008.5.1.1.16", "1.2.840.10008.5.1.1.4.1", "1.2.840.10008.5.1.1",
                 "1.2.840.10008.5.1.1.11", "1.2.840.10008.1.1.0", "0", "1.2.840.10008.5.1.1.3", "9" * 64)


# ---- checks 1 to 5 ----

@damage
def unknown_field(c):
    for field in c.some((0x0000, 0x0001, 0x0020, 0x0021, 0x0100, 0x0110, 0x0131, 0x0FFF, 0x7FFF)):
        request = c.request(field)
        rows = request.rows(False)
        c.count("0211H unknown field")
        c.send(command(rows), None, request.response(0x0211))
        rows = {**request.rows(True), 0x0002: b"? ", 0x1000: b"?!", 0x1001: b"1..1", 0x1008: b""}
        c.send(command(rows), b"unreadable data", request.response(0x0211))
    c.count("0211H unknown field, data too long")
    c.too_long(request, request.response(0x0211))


@damage
def unknown_class(c):
    for class_uid in c.some(OTHER_CLASSES):
        for request in c.some((c.request(C_ECHO, class_uid), c.request(N_CREATE, class_uid),
                               c.request(N_CREATE, class_uid, "1.2.3"),
                               c.request(N_SET, class_uid, c.session),
                               c.request(N_ACTION, class_uid, "1.2.9", 2),
                               c.request(N_DELETE, class_uid, "1.2.9"))):
            c.fails(0x0118, request, c.rng.choice((None, b"", b"odd")), what="unknown class")
    request = c.request(N_CREATE, OTHER_CLASSES[0], b"1..2")
    c.fails(0x0118, request, None, named=False, what="unknown class, broken UID")
    c.count("0118H data too long")
    c.too_long(request, request.response(0x0118))


@damage
def class_lacks_operation(c):
    offered = {SESSION: FIELDS[1:], FILM: FIELDS[1:], BOX: (N_SET,), VERIFICATION: (C_ECHO,)}
    pairs = [(k, f) for k in offered for f in FIELDS if f not in offered[k]]
    for class_uid, field in c.some(pairs):
        action = 1 if field == N_ACTION else None
        name = None if field == C_ECHO else c.rng.choice((c.session, "1.2.3"))
        request = c.request(field, class_uid, name, action)
        c.fails(0x0211, request, c.rng.choice((None, b"odd")), what="class lacks the operation")
    c.fails(0x0211, c.request(N_CREATE, BOX), what="class lacks the operation")
    request = c.request(N_CREATE, BOX, "1.2.3")
    c.too_long(request, request.response(0x0211, "1.2.3"))


@damage
def data_too_long(c):
    for request in c.some(c.sound_requests()):
        c.count("0213H data too long")
        c.too_long(request, request.response(0x0213, request.instance))


@damage
def data_too_long_at_once(c):
    request = c.request(N_SET, SESSION, c.session)
    c.count("0213H data too long, one fragment")
    c.send(command(request.rows(True)), None, "wait")
    past = bytes(c.length + 1)
    c.feed(fragment(c.context, 2, past), request.response(0x0213, c.session))


@damage
def data_of_the_buffers_length(c):
    """As long as the buffer, and not longer."""
    head = header(0xFFFCFFFC, "OB", 0, c.syntax)
    size = (c.length - len(head)) // 2 * 2
    data = header(0xFFFCFFFC, "OB", size, c.syntax) + bytes(size)
    request = c.request(N_SET, SESSION, c.session)
    c.count("data as long as the buffer")
    c.ask(request, data, request.response(0, c.session))


def faults_and_depths(syntax):
    """Every fault of the reader, at every nesting where it can be."""
    for fault in list(list_faults(syntax)) + list(item_faults(syntax)):
        least = 1 if fault.between_items or fault.undefined else 0
        for depth in range(least, 5):
            yield fault, depth


def every_fault(syntax):
    yield from faults_and_depths(syntax)
    yield from ((fault, 4) for fault in fifth_sequences(syntax))


@damage
def data_unreadable(c):
    for fault, depth in c.some(faults_and_depths(c.syntax)):
        request = c.rng.choice(c.sound_requests())
        c.stops(request, *faulty(fault, depth, c.syntax, c.rng), f"reader: {fault.name}, {c.syntax}")


@damage
def fifth_sequence(c):
    for fault in c.some(fifth_sequences(c.syntax)):
        request = c.rng.choice(c.sound_requests())
        c.stops(request, *faulty(fault, 4, c.syntax, c.rng), "reader: fifth sequence")


def some_faults(c):
    """All of them to a thorough console, else of some numbers and depths one each, so that none is rare."""
    if c.thorough:
        return every_fault(c.syntax)
    alike = {}
    for fault, depth in every_fault(c.syntax):
        alike.setdefault((fault.number, depth), []).append((fault, depth))
    return [c.rng.choice(cases) for cases in c.some(alike.values())]


@damage
def unreadable_amid_sound(c):
    """R-4: the same faults, behind sound elements and items, and with something behind them."""
    amid = Amid(c.syntax, c.rng)
    for fault, depth in some_faults(c):
        request = c.rng.choice(c.sound_requests())
        c.stops(request, *amid.made(fault, depth), f"reader, amid sound: {fault.name}, {c.syntax}")


@damage
def four_sequences(c):
    """Four within one another are read, whatever their lengths."""
    for how in c.some((lambda: True, lambda: False, lambda: c.rng.random() < 0.5)):
        inside = sound(c.syntax) + header(0x00400100, "UN", 4, c.syntax) + b"past"
        data = nest(inside, 4, c.syntax, how, True, DATA_TAGS)
        request = c.request(N_SET, SESSION, c.session)
        c.count("four nested sequences read")
        c.ask(request, data, request.response(0, c.session))


@damage
def odd_but_readable(c):
    """What looks wrong and is not."""
    seq = header(0x00400100, "SQ", UNDEFINED, c.syntax)
    end = tag_bytes(SEQUENCE_END) + u32(0)
    cases = [seq + end, seq + item(b"", True) + item(b"", False) + end,
             header(0x00000000, "UL", 0, c.syntax) + header(0x00000002, "UI", 2, c.syntax) + b"??",
             header(0xFFFF0000, "UN", 0, c.syntax), b"",
             header(0x00080005, "CS", 4, c.syntax) + b"\xfe\xff\x0d\xe0"]
    if c.syntax == IMPLICIT:
        cases.append(header(0x00400100, "", 6, IMPLICIT) + b"opaque")
        cases.append(header(0x00400200, "", 0x100, IMPLICIT) + tag_bytes(ITEM) + b"\xff" * 252)
    else:
        cases.append(tag_bytes(0x00400100) + b"UN\0\0" + u32(4) + b"\xff" * 4)
        for vr in LONG_FORM + SHORT_FORM:
            cases.append(header(0x00400100, vr, 0, EXPLICIT))
    for data in c.some(cases):
        request = c.request(N_SET, SESSION, c.session)
        c.count("odd but readable")
        c.ask(request, data, request.response(0, c.session))


# ---- checks 6 and 7 ----

@damage
def bad_sent_uid(c):
    for class_uid in (SESSION, FILM):
        data = c.encode(c.film_rows("STANDARD\\1,1"))
        for broken in c.some(BROKEN_UIDS):
            request = c.request(N_CREATE, class_uid, broken)
            c.fails(0x0117, request, data, named=False, what="broken UID")
        for end in c.some(ROOT_UIDS):
            request = c.request(N_CREATE, class_uid, f"{c.root}.{end}")
            c.fails(0x0117, request, data, what="begins with root and a dot")
        for name in c.some((c.session, c.film().uid)):
            if not name.startswith(c.root + "."):
                c.fails(0x0111, c.request(N_CREATE, class_uid, name), data, what="live")


@damage
def not_live(c):
    film, i = c.box()
    live = {SESSION: c.session, FILM: film.uid, BOX: film.boxes[i]}
    uses = [(SESSION, f) for f in FIELDS[1:] if f != N_CREATE] + \
           [(FILM, f) for f in FIELDS[1:] if f != N_CREATE] + [(BOX, N_SET)]
    for class_uid, field in c.some(uses):
        action = c.rng.choice((1, 2)) if field == N_ACTION else None
        for name in c.some(("1.2.3", "0", c.root, c.root + ".0", "7" * 64,
                            "1.2.840.10008.5.1.1.17")):
            data = c.rng.choice((None, b""))
            c.fails(0x0112, c.request(field, class_uid, name, action), data, what="not live")
        for other in c.some([k for k in live if k != class_uid]):
            c.fails(0x0119, c.request(field, class_uid, live[other], action), what="another class")


@damage
def action_type(c):
    for number in c.some((0, 2, 0x0100, 0xFFFF)):
        for class_uid, name in c.some(((SESSION, c.session), (FILM, c.film().uid))):
            c.fails(0x0123, c.request(N_ACTION, class_uid, name, number), what="action type")


# ---- check 8 ----

SESSION_WRONG = [
    (0x20000010, "IS", [b"0 ", b"100 ", b"-1", b"+ ", b"- ", b"1 2 ", b"1\\2 ", b"2a", b"1.", b"2\0",
                        b"0000000000001 ", b"99999999999 ", b"-2147483649 ", b"2147483648", b"\t2",
                        b"+-1 ", b"--", b"1e1 ", b"++2 ", b"\\1"]),
    (0x20000020, "CS", [b"low ", b"MEDIUM", b"LOW\\MED ", b"LO", b"LOW\0", b"HIGHER", b"M ED"]),
    (0x20000030, "CS", [b"CLEARFILM ", b"PAPER\0", b"CLEAR  FILM ", b"BLUE", b"paper "]),
    (0x20000040, "CS", [b"BIN_1 ", b"MAGAZINE\\PROCESSOR", b"PROCESSORS"]),
    (0x20000050, "LO", [b"a" * 66, b" " + b"b" * 65, b"a\\b ", b"a\x7f", b"a\x1fb ", b"caf\xe9",
                        b"ab\0\0", b"\r\n"]),
]
SESSION_RIGHT = [
    (0x20000010, "IS", [b"1 ", b"2 ", b"99", b"+7", b" 3", b"  04", b"000000000012", b"+00000000005 ",
                        b"   5   " + b" " * 11]),
    (0x20000020, "CS", [b"LOW ", b"MED ", b"HIGH", b"  HIGH  ", b" LOW" + b" " * 20]),
    (0x20000030, "CS", [b"PAPER ", b"CLEAR FILM", b"BLUE FILM ", b" PAPER"]),
    (0x20000040, "CS", [b"MAGAZINE", b"PROCESSOR "]),
    (0x20000050, "LO", [b"A label~", b"c" * 64, b"  " + b"d" * 64 + b"    ", b"e "]),
]
EMPTY_TEXT = (b"", b"  ", b" " * 16)


def padded(table):
    return [(tag, vr, [text(value) for value in values]) for tag, vr, values in table]


SESSION_WRONG, SESSION_RIGHT = padded(SESSION_WRONG), padded(SESSION_RIGHT)


def right(rng, table=None):
    """Some allowed values, with what Copies they say."""
    rows, copies = [], None
    for tag, vr, values in table or SESSION_RIGHT:
        if rng.random() < 0.6:
            value = rng.choice(values)
            rows.append((tag, vr, value))
            if tag == 0x20000010:
                copies = int(value)
    return rows, copies


@damage
def session_values(c):
    for tag, vr, values in c.some(SESSION_WRONG):
        for value in c.some(values):
            rows = [r for r in right(c.rng)[0] if r[0] != tag] + [(tag, vr, value)]
            data = c.encode(rows)
            request = c.request(N_SET, SESSION, c.session)
            c.fails(0x0106, request, data, what=f"value of {tag:08X}")
            c.fails(0x0106, c.request(N_CREATE, SESSION), data, what=f"value of {tag:08X}")
    for tag, vr, values in c.some(SESSION_RIGHT):
        for value in c.some(values):
            c.count(f"allowed value of {tag:08X}")
            c.set_session([(tag, vr, value)], int(value) if vr == "IS" else None)
        for value in c.some(EMPTY_TEXT):
            c.count(f"empty, so absent: {tag:08X}")
            c.set_session([(tag, vr, value)])


FORMATS_WRONG = (b"STANDARD\\7,1", b"STANDARD\\1,7", b"STANDARD\\0,1", b"STANDARD\\1,0", b"STANDARD\\01,1 ",
                 b"STANDARD\\1-1", b" STANDARD\\1,1 ", b"STANDARD\\1,1\0\0", b"STANDARD\\3 ", b"COL\\7 ", b"ROW\\",
                 b"standard\\1,1", b"STANDARD/1,1", b"STANDARD\\1,1,1 ", b"STANDARD\\11", b"STANDARD1,12",
                 b"STANDARD\\ 1,1 ", b"STANDARD\\1, 1 ", b"STANDARD\\A,1", b"STANDARD\\1,\0", b"STANDARD\\1,:",
                 b"ROW\\1,2, ", b"ROW\\1,0,2 ", b"COL\\1,1,1,1,1,1,1 ", b"COL\\12", b"COL\\1-2 ", b"row\\1,2 ",
                 b"ROWS\\1 ", b"COL1,2 ", b"ROW\\1,2\0", b" COL\\1")
FILM_WRONG = [(0x20100040, "CS", [b"portrait", b"LANDSCAPE\0", b"PORTRAIT\\LANDSCAPE", b"UP"]),
              (0x20100060, "CS", [b"LINEAR", b"NONE\\CUBIC ", b"BI LINEAR ", b"CUBIC\0"])]
FILM_RIGHT = [(0x20100040, "CS", [b"PORTRAIT", b"LANDSCAPE ", b" PORTRAIT "]),
              (0x20100060, "CS", [b"NONE", b"REPLICATE ", b"BILINEAR", b"CUBIC ", b"  CUBIC "])]
FILM_WRONG, FILM_RIGHT = padded(FILM_WRONG), padded(FILM_RIGHT)


def without(rows, *tags):
    return [r for r in rows if r[0] not in tags]


def changed(rows, tag, value):
    return [(t, vr, value if t == tag else v) for t, vr, v in rows]


@damage
def film_values(c):
    good = c.film_rows("STANDARD\\2,2")
    inside = c.reference()

    def film(status, rows, what):
        c.fails(status, c.request(N_CREATE, FILM), c.encode(rows), what=what)

    for tag in (0x20100010, 0x20100500):
        film(0x0120, without(good, tag), f"missing {tag:08X}")
    c.fails(0x0120, c.request(N_CREATE, FILM), None, what="no data set")
    for tag in (0x00081150, 0x00081155):
        film(0x0120, changed(good, 0x20100500, [without(inside, tag)]), f"missing {tag:08X}")
        film(0x0121, changed(good, 0x20100500, [changed(inside, tag, b"")]), f"empty {tag:08X}")
        for broken in c.some(BROKEN_UIDS):
            film(0x0106, changed(good, 0x20100500, [changed(inside, tag, broken)]), f"value of {tag:08X}")
        film(0x0106, changed(good, 0x20100500, [changed(inside, tag, uid(FILM))]), f"value of {tag:08X}")
    for value in EMPTY_TEXT:
        film(0x0121, changed(good, 0x20100010, value), "empty 20100010")
    film(0x0121, changed(good, 0x20100500, []), "empty 20100500")
    film(0x0106, changed(good, 0x20100500, [inside, inside]), "two items of 20100500")
    film(0x0106, changed(good, 0x20100500, [inside, []]), "two items of 20100500")
    for value in c.some(FORMATS_WRONG):
        film(0x0106, changed(good, 0x20100010, text(value)), "value of 20100010")
    for tag, vr, values in FILM_WRONG:
        for value in c.some(values):
            film(0x0106, good + [(tag, vr, value)], f"value of {tag:08X}")
    # Which question comes first, over the whole data set.
    film(0x0120, changed([good[0]], 0x20100010, b""), "missing before empty")
    film(0x0120, changed([good[1]], 0x20100500, []), "missing before empty")
    film(0x0120, changed(good, 0x20100500, [[inside[0]]])[1:] + [(0x20100060, "CS", b"X ")],
         "missing before value")
    film(0x0121, changed(changed(good, 0x20100010, b"STANDARD\\7,7"), 0x20100500, []),
         "empty before value")
    film(0x0120, changed(changed(good, 0x20100010, b""), 0x20100500, [[inside[1]]]),
         "missing inside before empty")
    film(0x0106, changed(good, 0x20100500, [[], []]), "inside of two items does not count")


@damage
def film_sets(c):
    film = c.film()
    for row in c.some(((0x20100010, "ST", b"STANDARD\\1,1"), (0x20100010, "ST", b""),
                       (0x20100500, "SQ", []), (0x20100500, "SQ", [c.reference()]),
                       (0x20100500, "SQ", [[]]), (0x20100500, "SQ", [[], []]))):
        c.fails(0x0106, c.request(N_SET, FILM, film.uid), c.encode([row]), what="film set, fixed part")
    for tag, vr, values in FILM_WRONG:
        for value in c.some(values):
            data = c.encode([(tag, vr, value)])
            c.fails(0x0106, c.request(N_SET, FILM, film.uid), data, what=f"value of {tag:08X}")
    for tag, vr, values in FILM_RIGHT:
        for value in c.some(list(values) + list(EMPTY_TEXT)):
            c.count(f"allowed value of {tag:08X}")
            c.set_film(film, [(tag, vr, value)])
    c.set_film(film, [])


NUMBERS_WRONG = {
    0x00280002: (0, 2, 3, 0x0100), 0x00280010: (0,), 0x00280011: (0,), 0x00280100: (7, 12, 32),
    0x00280101: (7, 10, 16), 0x00280102: (0, 8, 12, 15), 0x00280103: (1, 0x0100),
}


def odd_length(c, place, picture, size):
    """A box's data set whose Pixel Data has an odd length, which the reader refuses, be it that of the pixels too, and
    where its reading stops."""
    before = elements(without(picture, 0x7FE00010), c.syntax)
    wrong = header(0x7FE00010, "OW", size, c.syntax) + bytes(size)
    loose = c.rng.random() < 0.5
    part = in_item(Stopping(before + wrong, Stop(2, len(before), 1)), loose, True, 1)
    part = in_sequence(part, c.syntax, loose, True, (0x20200110, 0x20200110), 0)
    part = beside(part, elements([place], c.syntax), b"")
    return part.data, part.stop


@damage
def box_values(c):
    film, i = c.box()
    picture = c.picture_item(2, 3, False)
    odd = c.picture_item(3, 5, False)
    wide = c.picture_item(2, 3, True)
    place = (0x20200010, "US", u16(film.places[i]))

    def box(status, rows, what):
        c.fails(status, c.request(N_SET, BOX, film.boxes[i]), c.encode(rows), what=what)

    def image(status, items, what):
        box(status, [place, (0x20200110, "SQ", items)], what)

    c.fails(0x0120, c.request(N_SET, BOX, film.boxes[i]), None, what="missing 20200010")
    box(0x0120, [(0x20200020, "CS", b"REVERSE ")], "missing 20200010")
    box(0x0121, [(0x20200010, "US", b"")], "empty 20200010")
    for number in c.some((0, len(film.boxes) + 1, 0x0100, 0xFFFF)):
        box(0x0106, [(0x20200010, "US", u16(number))], "value of 20200010")
    box(0x0106, [(0x20200010, "US", u16(1) + u16(1))], "value of 20200010")
    for value in c.some((b"reverse ", b"REVERSE\0", b"NORMAL\\REVERSE", b"INVERT")):
        box(0x0106, [place, (0x20200020, "CS", text(value))], "value of 20200020")
    image(0x0106, [picture, picture], "two items of 20200110")
    image(0x0106, [[], []], "two items of 20200110")
    for tag, vr, _ in picture:
        image(0x0120, [without(picture, tag)], f"missing {tag:08X}")
        image(0x0121, [changed(picture, tag, b"")], f"empty {tag:08X}")
        if vr == "US":
            image(0x0106, [changed(picture, tag, u16(1) + u16(1))], f"length of {tag:08X}")
    for tag, numbers in NUMBERS_WRONG.items():
        for number in c.some(numbers):
            image(0x0106, [changed(picture, tag, u16(number))], f"value of {tag:08X}")
            image(0x0106, [changed(wide, tag, u16(number))], f"value of {tag:08X}")
    for value in c.some((b"MONOCHROME", b"MONOCHROME3 ", b"MONOCHROME 2", b"RGB ", b"monochrome2 ")):
        image(0x0106, [changed(picture, 0x00280004, text(value))], "value of 00280004")
    image(0x0121, [changed(picture, 0x00280004, b"  ")], "empty 00280004")
    for size in c.some((2, 4, 8, 12, 100)):
        image(0x0106, [changed(picture, 0x7FE00010, bytes(size))], "value of 7FE00010")
    for size in c.some((2, 14, 18, 30, 32)):
        image(0x0106, [changed(odd, 0x7FE00010, bytes(size))], "length of an odd picture")
    for size in c.some((28, 32)):
        image(0x0106, [c.picture_item(3, 5, True, bytes(size))], "value of 7FE00010")
    for item_rows, size in c.some(((odd, 15), (odd, 17), (picture, 5), (picture, 7))):
        data, stop = odd_length(c, place, item_rows, size)
        c.stops(c.request(N_SET, BOX, film.boxes[i]), data, stop, "odd length of 7FE00010")
    for deep in c.some((False, True)):
        image(0x0106, [c.picture_item(0xFFFF, 0xFFFF, deep, bytes(2))], "value of 7FE00010")
    if c.length > 20000:        # 46341 * 46341 * 2 is 9266 in 32 bits
        image(0x0106, [c.picture_item(46341, 46341, True, bytes(9266))], "value of 7FE00010")
    image(0x0106, [changed(wide, 0x00280100, u16(8))], "bits mixed")
    box(0x0120, [(0x20200110, "SQ", [picture])], "missing before all")
    box(0x0120, [(0x20200010, "US", b""), (0x20200110, "SQ", [picture[1:]])], "missing inside first")
    box(0x0121, [(0x20200010, "US", u16(99)), (0x20200110, "SQ", [changed(picture, 0x00280102, b"")])],
        "empty inside before value")
    box(0x0121, [(0x20200010, "US", b""), (0x20200110, "SQ", [picture, picture])], "empty before value")
    for taken in c.some((picture, odd)):
        if c.picture < 2 ** 32:
            c.count("pixels of a sound picture")
            c.fill_box(film, i, film.places[i], taken, [(0x20200020, "CS", b"")])


# ---- unreadable commands ----

def broken_commands(c):
    """(name, bytes) of commands that cannot be read."""
    film, i = c.box()
    create, echo = c.request(N_CREATE, SESSION), c.request(C_ECHO, VERIFICATION)
    action = c.request(N_ACTION, FILM, film.uid, 1)
    setting = c.request(N_SET, BOX, film.boxes[i])
    delete = c.request(N_DELETE, FILM, film.uid)
    good = command(echo.rows(False))
    yield "nothing", b""
    yield "no group length", good[12:]
    for length in (0, len(good) - 13, len(good) - 11, len(good), UNDEFINED):
        yield "group length wrong", good[:8] + u32(length) + good[12:]
    yield "group length of 2 bytes", header(0, "", 2, IMPLICIT) + u16(len(good) - 12) + good[12:]
    yield "group length of 8 bytes", header(0, "", 8, IMPLICIT) + u32(len(good) - 12) + u32(0) + good[12:]
    yield "group length alone", header(0, "", 4, IMPLICIT) + u32(0)
    for tag in (0x00020010, 0x00080005, 0xFFFF0000):
        yield "outside group 0000", command({**echo.rows(False), tag: b"ab"})
    for tag in (0x0100, 0x0110, 0x0800):
        rows = echo.rows(False)
        for value in (b"", b"\1\0\0\0"):
            yield "number not 2 bytes", command({**rows, tag: value})
        del rows[tag]
        yield "number missing", command(rows)
    for field in (0x8000, 0x8001, 0x8030, 0xFFFF):
        yield "field 8000H and above", command(c.request(field).rows(False))
    needed = [(echo, 0x0002), (create, 0x0002)]
    needed += [(r, t) for r in (action, setting, delete) for t in (0x0003, 0x1001)]
    for request, tag in needed:
        rows = request.rows(False)
        for value in c.some(BROKEN_UIDS + (b"",)):
            yield "UID broken", command({**rows, tag: value})
        del rows[tag]
        yield "UID missing", command(rows)
    rows = action.rows(False)
    for value in (b"", b"\1\0\0\0"):
        yield "action type not 2 bytes", command({**rows, 0x1008: value})
    del rows[0x1008]
    yield "action type missing", command(rows)


@damage
def command_unreadable(c):
    for name, data in c.some(broken_commands(c)):
        c.count(f"dropped: {name}")
        c.send(data, None, "dropped")


def with_rest(rows, rest):
    """A command of these rows and then other bytes, its group length counting all."""
    body = command(rows)[12:] + rest
    return header(0, "", 4, IMPLICIT) + u32(len(body)) + body


@damage
def command_refused_by_reader(c):
    rows = c.request(C_ECHO, VERIFICATION).rows(False)
    tags = (0x00005000, 0x00005000)
    # An unnamed sequence of defined length is opaque.
    cases = [(f, d) for f, d in faults_and_depths(IMPLICIT) if not f.between_items or f.undefined is not False]
    for fault, depth in c.some(cases):
        rest, _ = faulty(fault, depth, IMPLICIT, c.rng, tags, True)
        c.count(f"dropped: reader: {fault.name}")
        c.send(with_rest(rows, rest), None, "dropped")


@damage
def command_with_sequences(c):
    """Four nested sequences in a command are read; what lies in items may be of any group."""
    request = c.request(C_ECHO, VERIFICATION)
    inside = sound(IMPLICIT)
    for _ in range(4):
        inside = around(item(inside, c.rng.random() < 0.5), IMPLICIT, True, True, (0x5000, 0x5000))
    c.count("command with sequences")
    c.send(with_rest(request.rows(False), inside), None, request.response(0))
    deeper = around(item(inside, True), IMPLICIT, True, True, (0x5000, 0x5000))
    c.count("dropped: reader: fifth sequence")
    c.send(with_rest(request.rows(False), deeper), None, "dropped")


# ---- collecting ----

@damage
def command_too_long(c):
    rng = c.rng
    c.count("dropped: past 1,024 bytes")
    for _ in c.some(range(4)):
        sizes = rng.choice(([1025], [1024, 1], [1000, 0, 30, 5], [5000], [1, 1024, 0], [1024, 0, 1, 0]))
        for i, size in enumerate(sizes):
            last = i == len(sizes) - 1
            c.feed(fragment(c.context, 3 if last else 1, bytes(size)), "dropped" if last else "wait")


@damage
def command_of_1024(c):
    request = c.request(C_ECHO, VERIFICATION)
    rows = request.rows(False)
    rows[0x5010] = bytes(1024 - len(command(rows)) - 8)
    c.count("command of 1,024 bytes")
    c.send(command(rows), None, request.response(0))
    c.feed(fragment(c.context, 1, command(rows)), "wait")
    c.feed(fragment(c.context, 3, b""), request.response(0))


@damage
def data_in_command(c):
    rng = c.rng
    good = command(c.request(C_ECHO, VERIFICATION).rows(False))
    for size in c.some((0, 20, len(good))):
        c.feed(fragment(c.context, 1, good[:size]), "wait")
        c.count("dropped: data in command")
        c.feed(fragment(c.context, rng.choice((0, 2)), rng.randbytes(rng.randint(0, 9))), "dropped")
    c.feed(fragment(c.context, 1, bytes(1025)), "wait")
    c.count("dropped: data while skipping a command")
    c.feed(fragment(c.context, rng.choice((0, 2)), rng.randbytes(rng.randint(0, 9))), "dropped")
    stray(c)


@damage
def stray(c):
    for _ in range(c.rng.randint(1, 3)):
        c.count("ignored")
        size = c.rng.choice((0, 3, c.length + 5 if c.length < 9000 else 7))
        c.feed(fragment(c.context, c.rng.choice((0, 2)), c.rng.randbytes(size)), "ignored")


@damage
def cut_off(c):
    """Messages that the next command cuts off, in data and skipping data."""
    for request in c.some(c.sound_requests()):
        c.send(command(request.rows(True)), None, "wait")
        c.count("cut off in data")
        if c.rng.random() < 0.8:
            data = c.encode(right(c.rng)[0] + c.passed_over())
            c.feed(fragment(c.context, 0, data[:c.rng.randint(0, len(data))]), "wait")
    after_cut(c)


@damage
def cut_off_while_skipping(c):
    request = c.request(N_SET, SESSION, c.session)
    c.send(command(request.rows(True)), None, "wait")
    c.feed(fragment(c.context, 0, bytes(c.length + 1)), "wait")
    c.count("cut off while skipping data")
    after_cut(c)


def after_cut(c):
    """The message that cuts off, mostly with a data set of its own."""
    film, i = c.box()
    c.rng.choice((c.echo, lambda: c.set_session(*right(c.rng)), lambda: c.move_box(film, i, film.places[i]),
                  lambda: c.fill_box(film, i, film.places[i], c.small_picture())))()


# ---- calls ----

def wrong_headers(c):
    good = fragment(c.context, 3, command(c.request(C_ECHO, VERIFICATION).rows(False)))
    for n in range(6):
        yield "fewer than 6 bytes", good[:n]
    for n in (0, 1):
        yield "n below 2", u32(0)[:3] + bytes([n]) + good[4:6]
    for cut in (good[:-1], good + b"\0", good[:6], b"\xff" * 4 + good[4:], b"\1" + good[1:],
                b"\0\0\0\x03" + good[4:6], b"\xff\xff\xff\xfe" + good[4:6]):
        yield "n+4 not the bytes given", cut
    for context in {c.context ^ 2, c.context ^ 1, 0} - {c.context}:
        yield "another context", good[:4] + bytes([context]) + good[5:]
    for bit in range(2, 8):
        yield "control bits 2 to 7", good[:5] + bytes([3 | 1 << bit]) + good[6:]


def refused_headers(c):
    """Each ends the association, so it opens again. Kept apart from the other damage, since demand 3
    speaks of runs without these."""
    for name, data in c.some(wrong_headers(c)):
        c.count(f"refused 5: {name}")
        c.feed_wrong(data)
        good = fragment(1, 3, command(c.request(C_ECHO, VERIFICATION).rows(False)))
        c.feed(good, "refused 4")
        c.call("close", "refused 4")
        c.open(c.context, c.syntax, c.length)
        again(c)


def again(c):
    """A session and a film, where damage finds something live."""
    if c.session is None:
        c.create_session()
    if not c.films:
        c.create_film(2, 2)


@damage
def refused_calls(c):
    root = c.root.encode()
    for bad in c.some((b"", b".", b"1.", b"1..2", b"01.2", b"1.9.7\0", b"1.9.7 ", b"1." * 20 + b"1", b"a",
                       b"1" * 41, b"1.9.7.", b"\xff")):
        c.count("refused 3: root")
        c.refused_start(bad, 100, 1)
    c.count("refused 3: serial or picture 0")
    c.refused_start(root, 0, 1)
    c.refused_start(root, 1, 0)
    for length in c.some((0, 1, 4095, 16777217, 2 ** 32 + 4096)):
        c.count("refused 2: length out of limits")
        c.refused_open(c.rng.choice((1, 2)), c.rng.choice((1, 9)), length, 2)
    other = 4096 if c.length != 4096 else 8192
    c.count("refused 2: another length while open")
    c.refused_open(c.rng.choice((0, c.context)), c.syntax, other, 2)
    c.count("refused 3: open while open")
    c.refused_open(c.context, c.syntax, c.length, 3)


@damage
def closed_calls(c):
    """What is refused while not open; then open again."""
    c.close()
    c.count("refused 4")
    c.close()
    c.feed(b"", "refused 4")
    c.feed(fragment(c.context, 3, b""), "refused 4")
    for context in c.some((0, 2, 254, 256, 257, 4294967295)):
        c.count("refused 3: context")
        c.refused_open(context, 1, 4096, 3)
    for syntax in c.some((0, 3, 4294967295)):
        c.count("refused 3: syntax")
        c.refused_open(1, syntax, 4096, 3)
    for length in c.some((0, 4095, 16777217, 2 ** 32 + 4096)):
        c.count("refused 2: length out of limits")
        c.refused_open(1, 1, length, 2)
    c.refused_open(0, 0, 4095, 2)
    c.open(c.context, c.syntax, c.length)
    again(c)
