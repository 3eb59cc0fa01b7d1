"""A console that writes a trace: it makes requests, cuts them into fragments, and foretells every
reply while it knows the records. After a message whose fate it does not foretell it goes on
guessing, and foretells again after the next start."""
import struct

from wire import *

FILMS, BOXES, QUEUE = 8, 36, 16
COMMAND_MOST = 1024


class Film:
    def __init__(self, name, boxes):
        self.uid, self.boxes = name, boxes
        self.places = list(range(1, len(boxes) + 1))
        self.pictures = [0] * len(boxes)

    def collides(self):
        places = [p for p, n in zip(self.places, self.pictures) if n]
        return len(places) != len(set(places))

    def empty(self):
        return not any(self.pictures)


class Request:
    def __init__(self, field, class_uid=None, instance=None, action=None, number=0):
        self.field, self.class_uid, self.instance = field, class_uid, instance
        self.action, self.number = action, number

    def rows(self, with_data):
        rows = {0x0100: u16(self.field), 0x0110: u16(self.number),
                0x0800: u16(0x0001 if with_data else 0x0101)}
        sends = self.field in (C_ECHO, N_CREATE)
        if self.class_uid is not None:
            rows[0x0002 if sends else 0x0003] = uid(self.class_uid)
        if self.instance is not None:
            rows[0x1000 if sends else 0x1001] = uid(self.instance)
        if self.action is not None:
            rows[0x1008] = u16(self.action)
        return rows

    def response(self, status, instance=None, data=b"", note="none"):
        """The reply; `instance` is the one that the response names, if any."""
        rows = {0x0100: u16(self.field + 0x8000), 0x0120: u16(self.number),
                0x0800: u16(0x0001 if data else 0x0101), 0x0900: u16(status)}
        if self.field in FIELDS:
            rows[0x0002] = uid(self.class_uid)
            if instance is not None:
                rows[0x1000] = uid(instance)
            if self.field == N_ACTION:
                rows[0x1008] = u16(self.action)
        return f"response {status:04x} {command(rows).hex()} {hexed(data)} {note}"


def pixel_bytes(picture_item):
    """How many bytes of a picture are pixels and not padding: the note covers these alone (R-3)."""
    values = {tag: value for tag, _, value in picture_item}
    rows, columns, bits = (int.from_bytes(values[tag], "little") for tag in (0x00280010, 0x00280011, 0x00280100))
    return rows * columns * bits // 8


class Console:
    def __init__(self, rng):
        self.rng = rng
        self.lines, self.foretold, self.tally = [], [], {}
        self.sure = True
        self.neat = False       # one fragment for a command and one for its data
        self.opened = False
        self.fresh(None, 1, 1)

    # ---- calls ----

    def call(self, line, reply):
        self.lines.append(line)
        self.foretold.append(reply if self.sure else None)

    def count(self, what):
        self.tally[what] = self.tally.get(what, 0) + 1

    def fresh(self, root, serial, picture):
        self.root, self.serial, self.picture, self.ticket = root, serial, picture, 0
        self.queue = []
        self.drop_all()

    def drop_all(self):
        self.session, self.copies, self.films = None, 1, []

    def start(self, root="1.9.7", serial=100, picture=1):
        self.sure = True
        self.call(f"start {hexed(root.encode())} {serial} {picture}", "done")
        self.fresh(root, serial, picture)
        self.opened = False

    def refused_start(self, root, serial, picture):
        self.call(f"start {hexed(root)} {serial} {picture}", "refused 3")

    def open(self, context=1, syntax=IMPLICIT, length=65536):
        self.call(f"open {context} {syntax} {length}", "done")
        self.context, self.syntax, self.length, self.opened = context, syntax, length, True

    def refused_open(self, context, syntax, length, number):
        self.call(f"open {context} {syntax} {length}", f"refused {number}")

    def close(self):
        self.call("close", "done" if self.opened else "refused 4")
        if self.opened:
            self.drop_all()
        self.opened = False

    def take(self):
        if not self.queue:
            self.call("take", "refused 6")
            return
        pictures, ticket, copies, name = self.queue.pop(0)
        entry = struct.pack("<36IHH", *pictures, ticket, copies) + name.encode().ljust(64, b"\0")
        self.call("take", "entry " + entry.hex())

    def feed(self, data, reply):
        self.call("feed " + hexed(data), reply)

    def feed_wrong(self, data):
        """A fragment with a wrong header: the association ends."""
        self.feed(data, "refused 5" if self.opened else "refused 4")
        self.drop_all()
        self.opened = False

    # ---- messages ----

    def pieces(self, data):
        """The data cut anywhere, empty pieces too."""
        rng = self.rng
        if self.neat or rng.random() < 0.5:
            return [data]
        places = sorted(rng.randint(0, len(data)) for _ in range(rng.randint(1, 5)))
        if rng.random() < 0.3:
            places.append(len(data))
        if rng.random() < 0.2:
            places.insert(0, 0)
        return [data[a:b] for a, b in zip([0] + places, places + [len(data)])]

    def fragments(self, data, is_command):
        parts = self.pieces(data)
        for i, part in enumerate(parts):
            control = (1 if is_command else 0) | (2 if i == len(parts) - 1 else 0)
            yield fragment(self.context, control, part)

    def send(self, command_bytes, data, reply):
        """A whole message: every feed but the last waits."""
        feeds = list(self.fragments(command_bytes, True))
        if data is not None:
            feeds += self.fragments(data, False)
        for one in feeds[:-1]:
            self.feed(one, "wait")
        self.feed(feeds[-1], reply)

    def fill_buffer(self, data):
        """Feeds of a data set past the message buffer; all but the last wait."""
        kept = data if self.rng.random() < 0.7 else b""
        room = self.length - len(kept)
        first = fragment(self.context, 0, kept)
        past = fragment(self.context, 0, bytes(room + self.rng.choice((1, 2, 500))))
        after = [fragment(self.context, 0, self.rng.randbytes(self.rng.randint(0, 9)))
                 for _ in range(self.rng.randint(0, 2))]
        return [first, past] + after

    def number(self):
        return self.rng.choice((0, 1, 7, 0x0101, 0xFFFF, self.rng.randint(0, 0xFFFF)))

    def extra_command(self, rows):
        """What this field does not need is not judged."""
        rng = self.rng
        spare = {0x0001: u32(10), 0x0600: text("GATEWAY"), 0x0700: u16(0), 0x1002: u16(1),
                 0x1003: b"odd!", 0x5010: text("a")}
        if 0x0002 in rows:
            spare.update({0x0003: b"x ", 0x1001: b"..", 0x1008: b""})
            if rows[0x0100] == u16(C_ECHO):
                spare[0x1000] = b"not a UID "
        else:
            spare.update({0x0002: b"", 0x1000: b"1..2"})
            if 0x1008 not in rows:
                spare[0x1008] = b"1234"
        for tag in rng.sample(sorted(spare), rng.randint(1, 3)):
            rows.setdefault(tag, spare[tag])

    def ask(self, request, data, reply, extra=None):
        """One request, with data set or without; the reply is its response."""
        rows = request.rows(data is not None)
        if data is not None and self.rng.random() < 0.2:
            rows[0x0800] = u16(self.rng.choice((0, 2, 0x0100, 0x0102, 0xFFFF)))
        if request.field in FIELDS and (extra or (extra is None and self.rng.random() < 0.15)):
            self.extra_command(rows)
        self.send(command(rows), data, reply)

    def encode(self, rows):
        """A data set of rows (tag, vr, value), in the open's syntax, lengths defined or not."""
        rng = self.rng
        style = rng.random()
        undefined = never if style < 0.4 else (lambda: True) if style < 0.7 else \
            (lambda: rng.random() < 0.5)
        return elements(sorted(rows), self.syntax, undefined)

    def request(self, field, class_uid=None, instance=None, action=None):
        return Request(field, class_uid, instance, action, self.number())

    # ---- what is foretold ----

    def serials_left(self):
        return 2 ** 32 - self.serial

    def next_uid(self):
        self.serial += 1
        return f"{self.root}.{self.serial - 1}"

    def echo(self):
        request = self.request(C_ECHO, VERIFICATION)
        data = None if self.rng.random() < 0.8 else self.encode(self.passed_over())
        self.ask(request, data, request.response(0))

    def create_session(self, sent=None, copies=None, rows=()):
        """A session; `copies` is what the rows say, or None."""
        request = self.request(N_CREATE, SESSION, sent)
        data = self.encode(rows) if rows or self.rng.random() < 0.3 else None
        if self.session is not None or (not sent and self.serials_left() < 1):
            self.count("0213H second session" if self.session else "0213H serials (session)")
            self.ask(request, data, request.response(0x0213, sent or None))
            return
        self.session = sent or self.next_uid()
        self.copies = copies or 1
        self.ask(request, data, request.response(0, self.session))

    def film_rows(self, layout, extra=()):
        return [(0x20100010, "ST", text(layout)), (0x20100500, "SQ", [self.reference()])] + list(extra)

    def reference(self):
        return [(0x00081150, "UI", uid(SESSION)), (0x00081155, "UI", uid(self.session or "1.2"))]

    def create_film(self, columns, rows, sent=None, extra=()):
        return self.create_film_of(f"STANDARD\\{columns},{rows}", columns * rows, sent, extra)

    def create_uneven_film(self, word, counts, sent=None, extra=()):
        """R-1: ROW or COL with a count for each row or column."""
        return self.create_film_of(word + "\\" + ",".join(map(str, counts)), sum(counts), sent, extra)

    def create_film_of(self, layout, count, sent, extra):
        request = self.request(N_CREATE, FILM, sent)
        spaces = self.rng.choice(("", "", "  ", " "))
        data = self.encode(self.film_rows(layout + spaces, extra))
        needed = count + (0 if sent else 1)
        if self.session is None:
            self.count("0106H film without session")
            self.ask(request, data, request.response(0x0106, sent or None))
            return None
        if len(self.films) == FILMS or self.serials_left() < needed:
            self.count("0213H ninth film" if len(self.films) == FILMS else "0213H serials (film)")
            self.ask(request, data, request.response(0x0213, sent or None))
            return None
        name = sent or self.next_uid()
        film = Film(name, [self.next_uid() for _ in range(count)])
        self.films.append(film)
        boxes = [[(0x00081150, "UI", uid(BOX)), (0x00081155, "UI", uid(b))] for b in film.boxes]
        answer = elements([(0x20100510, "SQ", boxes)], self.syntax)
        self.ask(request, data, request.response(0, name, answer))
        return film

    def set_session(self, rows, copies=None):
        request = self.request(N_SET, SESSION, self.session)
        if copies:
            self.copies = copies
        self.ask(request, self.encode(rows), request.response(0, self.session))

    def set_film(self, film, rows):
        request = self.request(N_SET, FILM, film.uid)
        data = self.encode(rows) if rows else None
        self.ask(request, data, request.response(0, film.uid))

    def picture_item(self, rows, columns, wide, pixels=None, extra=()):
        """R-3: pixels of an odd number of bytes have a byte of padding behind them, any byte."""
        size = rows * columns * (2 if wide else 1)
        size += size % 2
        bits = (16, 12, 11) if wide else (8, 8, 7)
        pixel_vr = self.rng.choice(("OB", "OW"))
        return sorted([
            (0x00280002, "US", u16(1)),
            (0x00280004, "CS", text(self.rng.choice(("MONOCHROME1", "MONOCHROME2", " MONOCHROME2 ")))),
            (0x00280010, "US", u16(rows)), (0x00280011, "US", u16(columns)),
            (0x00280100, "US", u16(bits[0])), (0x00280101, "US", u16(bits[1])),
            (0x00280102, "US", u16(bits[2])), (0x00280103, "US", u16(0)),
            (0x7FE00010, pixel_vr, self.rng.randbytes(size) if pixels is None else pixels),
        ] + list(extra))

    def small_picture(self, extra=()):
        rng = self.rng
        wide = rng.random() < 0.5
        rows, columns = rng.randint(1, 6), rng.randint(1, 6)
        return self.picture_item(rows, columns, wide, None, extra)

    def fill_box(self, film, i, place, picture_item, extra=()):
        request = self.request(N_SET, BOX, film.boxes[i])
        rows = [(0x20200010, "US", u16(place)), (0x20200110, "SQ", [picture_item])] + list(extra)
        data = self.encode(rows)
        if self.picture == 2 ** 32:
            self.count("0213H pictures")
            self.ask(request, data, request.response(0x0213, film.boxes[i]))
            return
        vr, pixels = next((vr, v) for t, vr, v in picture_item if t == 0x7FE00010)
        head = header(0x7FE00010, vr, len(pixels), self.syntax)
        at = data.index(head + pixels) + len(head)
        film.places[i], film.pictures[i] = place, self.picture
        size = pixel_bytes(picture_item)
        if size % 2:
            self.count("odd picture")
        note = f"picture {self.picture} {at} {size}"
        self.picture += 1
        self.ask(request, data, request.response(0, film.boxes[i], b"", note))

    def move_box(self, film, i, place, erase=False, extra=()):
        request = self.request(N_SET, BOX, film.boxes[i])
        rows = [(0x20200010, "US", u16(place))] + list(extra)
        if erase:
            rows.append((0x20200110, "SQ", []))
            film.pictures[i] = 0
        film.places[i] = place
        self.ask(request, self.encode(rows), request.response(0, film.boxes[i]))

    def queue_films(self, films):
        for film in films:
            pictures = [0] * BOXES
            for place, number in zip(film.places, film.pictures):
                if number:
                    pictures[place - 1] = number
            self.queue.append((pictures, self.ticket, self.copies, film.uid))
            self.ticket = (self.ticket + 1) % 65536

    def print_films(self, films, class_uid, name, no_room, warning):
        request = self.request(N_ACTION, class_uid, name, 1)
        data = None if self.rng.random() < 0.8 else self.encode(self.passed_over())
        if not films:
            status, note = 0xC600, "none"
        elif any(f.collides() for f in films):
            status, note = 0xC604, "none"
        elif len(self.queue) + len(films) > QUEUE:
            status, note = no_room, "none"
        else:
            self.queue_films(films)
            status = warning if any(f.empty() for f in films) else 0
            note = f"queued {len(films)}"
        self.count(f"print {status:04X}H")
        self.ask(request, data, request.response(status, name, b"", note))

    def print_session(self):
        self.print_films(self.films, SESSION, self.session, 0xC601, 0xB602)

    def print_film(self, film):
        self.print_films([film], FILM, film.uid, 0xC602, 0xB603)

    def delete_film(self, film):
        request = self.request(N_DELETE, FILM, film.uid)
        self.films.remove(film)
        self.ask(request, None, request.response(0, film.uid))

    def delete_session(self):
        request = self.request(N_DELETE, SESSION, self.session)
        name = self.session
        self.drop_all()
        self.ask(request, None, request.response(0, name))

    # ---- attributes ----

    def passed_over(self):
        """Attributes that no class of ours knows, and what real consoles pad with."""
        rng = self.rng
        rows = [
            (0x00080000, "UL", u32(rng.randint(0, 99))), (0x00090010, "LO", text("ACME 1.0")),
            (0x00091001, "UN", rng.randbytes(rng.choice((0, 2, 10)))),
            (0x00400100, "SQ", [[(0x00080060, "CS", b"RG")], []]),
            (0x00400275, "SQ", []), (0x21100030, "LO", text("PRINTER")),
            (0x21000500, "SQ", [[(0x00081150, "UI", uid("1.2.3"))]]),
            (0xFFFCFFFC, "OB", bytes(6)), (0xFFFF0001, "UT", b"past"),
        ]
        return sorted(rng.sample(rows, rng.randint(1, 5)))

    def spaced(self, value):
        return text(" " * self.rng.choice((0, 0, 1, 4)) + value + " " * self.rng.choice((0, 0, 2, 5)))
