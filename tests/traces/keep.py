#!/usr/bin/env python3
"""Writes the kept traces with their replies, small ones that show each part of the rules once.
Replies are the second program's; where the console foretold one, they must agree.
Writes too which traces crates/traces is to replay, and what it is to say of them."""
import os
import random
import shutil
import sys

import damages
from examples import EXAMPLES
from generate import *
from program import HERE, ROOT, Run
from stopped import BY_HAND

CRATE = os.path.join(ROOT, "crates", "traces")
KEPT = os.path.join(CRATE, "data")
# the same beside this, for the other tests
COPY = os.path.join(HERE, "kept")

# The longest message buffer that crates/traces lends: it makes no open that lends more.
LENT = 65537

# The most that it reads of a file.
READ = 65536


# The syntax tells in these, so both are kept.
IN_BOTH = (data_unreadable, fifth_sequence, four_sequences, odd_but_readable, unreadable_amid_sound)

# A damage's place gives its trace's seed, so those that came later stand behind.
LATER = [unreadable_amid_sound]

# How many cases are kept, where it is not 10: the first two fill the buffer, the others have many.
PICKS = {data_too_long: 3, cut_off: 3, data_unreadable: 70, command_refused_by_reader: 70,
         command_unreadable: 30, refused_headers: 30, session_values: 20, film_values: 20, unreadable_amid_sound: 31}


def damage_trace(function, i):
    """Some cases of a damage."""
    c = Damaged(random.Random(100 + i), False, PICKS.get(function, 10))
    c.start("1.9.7", 100, 1)
    for syntax in (IMPLICIT, EXPLICIT) if function in IN_BOTH else (IMPLICIT + i % 2,):
        c.open(1, syntax, 4096)
        c.create_session("1.9.70.5")
        c.create_film(2, 2, "1.9.70.6")
        c.create_film(1, 2)
        function(c)
        c.close()
    return c


def sound_trace(seed, steps, near_end=False):
    c = Damaged(random.Random(seed))
    start_some(c, near_end)
    for _ in range(steps):
        sound_step(c)
    return c


def first_job(syntax):
    """As a console does it: a session without data set, a film, its boxes, print, delete."""
    c = Damaged(random.Random(3))
    c.neat = True
    c.start("1.9.7", 100, 1)
    c.open(1, syntax, 4096)
    c.fails(0x0211, c.request(0x0110), None)      # N-GET of Printer comes first
    request = c.request(N_CREATE, SESSION)
    c.session = c.next_uid()
    c.ask(request, None, request.response(0, c.session), False)
    film = c.create_film(2, 3, None, [(0x20100050, "CS", b"14INX17IN "), (0x20100140, "CS", b"NO")])
    for i in range(6):
        picture = c.small_picture([(0x00280034, "IS", b"1\\1 ")])
        c.fill_box(film, i, i + 1, picture, [(0x20100060, "CS", b"CUBIC "), (0x20100080, "CS", b"140 ")])
    c.print_film(film)
    c.delete_film(film)
    c.delete_session()
    c.close()
    c.take()
    return c


def full_queue():
    c = Damaged(random.Random(4))
    c.start("1.9.7", 1, 1)
    c.open(1, EXPLICIT, 4096)
    c.create_session()
    for _ in range(8):
        c.create_film(1, 1)
    for _ in range(2):
        c.print_session()
    c.print_film(c.films[0])
    for _ in range(7):
        c.take()
    c.print_session()
    c.take()
    c.print_session()
    c.close()
    for _ in range(17):
        c.take()
    return c


def colliding():
    c = Damaged(random.Random(5))
    c.start("1.9.7", 1, 1)
    c.open(1, IMPLICIT, 4096)
    c.create_session()
    film, other = c.create_film(2, 1), c.create_film(1, 1)
    fill(c, film, 0, 1)
    c.move_box(film, 1, 1)
    c.print_film(film)
    fill(c, film, 1, 1)
    c.print_film(film)
    c.print_session()
    c.print_film(other)
    c.move_box(film, 0, 2)
    c.print_film(film)
    c.move_box(film, 0, 1, True)
    c.print_session()
    for _ in range(5):
        c.take()
    return c


def uneven():
    """R-1: rows and columns of their own counts; the last box, and a position behind it."""
    c = Damaged(random.Random(9))
    c.start("1.9.7", 1, 1)
    c.open(1, EXPLICIT, 4096)
    c.create_session()
    films = [c.create_uneven_film(word, counts) for word, counts in
             (("ROW", (2, 1, 3)), ("COL", (6, 5, 4, 3, 2, 1)), ("ROW", (6,) * 6), ("COL", (1,)))]
    for film in films:
        last = len(film.boxes)
        fill(c, film, last - 1, last)
        c.fails(0x0106, c.request(N_SET, BOX, film.boxes[0]), c.encode([(0x20200010, "US", u16(last + 1))]))
    c.print_session()
    for _ in films:
        c.take()
    return c


def near_uids():
    """R-2: films whose UIDs differ in the last or the first character alone, and what is near them or a made UID."""
    c = Damaged(random.Random(10))
    root = "1.2.826.0.1.3680043.10.1234.5.6.7.8.9.10"
    middle = ".3" * 31
    c.start(root, 99, 1)
    c.open(1, IMPLICIT, 4096)
    c.create_session()
    films = [c.create_film(2, 1, uid) for uid in ("1" + middle + "4", "1" + middle + "5", "2" + middle + "5")]
    films.append(c.create_film(6, 6))
    made = films[3].boxes
    for uid in ("1" + middle + "6", "3" + middle + "5", "1" + middle, middle[1:] + "5"):
        c.fails(0x0112, c.request(N_DELETE, FILM, uid))
    for uid in (made[-1][:-1], made[-1] + "0", root + ".1" + made[-1][-3:], root + "0." + made[-1][-3:],
                "2" + made[-1][1:], root + made[-1][-3:], root, root + ".0"):
        c.fails(0x0112, c.request(N_SET, BOX, uid))
    c.delete_film(films[1])
    for film in (films[0], films[2]):
        fill(c, film, 1, 1)
    fill(c, films[3], 35, 36)
    c.print_session()
    return c


def odd_pictures():
    """R-3: 3 by 5 and 1 by 1 at 8 bits have a byte of padding, which may hold anything; at 12 bits no length is odd."""
    c = Damaged(random.Random(11))
    c.start("1.9.7", 1, 1)
    for syntax in (IMPLICIT, EXPLICIT):
        c.open(1, syntax, 4096)
        c.create_session()
        film = c.create_film(3, 2)
        pixels = bytes(range(1, 16))
        pictures = [c.picture_item(3, 5, False, pixels + b"\0"), c.picture_item(3, 5, False, pixels + b"\xff"),
                    c.picture_item(1, 1, False, b"\x80\0"), c.picture_item(3, 5, True, pixels * 2)]
        for i, picture in enumerate(pictures):
            c.fill_box(film, i, i + 1, picture)
        place = (0x20200010, "US", u16(5))
        wrong = [c.encode([place, (0x20200110, "SQ", [c.picture_item(rows, columns, wide, bytes(size))])])
                 for rows, columns, wide, size in
                 ((3, 5, False, 14), (3, 5, False, 18), (1, 1, False, 4), (3, 5, True, 28), (3, 5, True, 32))]
        for data in wrong:
            c.fails(0x0106, c.request(N_SET, BOX, film.boxes[4]), data)
        c.stops(c.request(N_SET, BOX, film.boxes[4]), *damages.odd_length(c, place, pictures[0], 15), "odd length")
        c.print_film(film)
        c.take()
        c.close()
    return c


def last_numbers():
    """The last serial and the last picture number, and then none."""
    c = Damaged(random.Random(6))
    c.start("1.9.7", 4294967293, 4294967295)
    c.open(1, IMPLICIT, 4096)
    c.create_session("1.9.70.1")
    c.create_film(2, 2)
    film = c.create_film(2, 1)
    c.create_film(1, 1)
    c.create_film(1, 1, "1.9.70.2")
    fill(c, film, 0, 1)
    fill(c, film, 1, 2)
    c.move_box(film, 1, 2, True)
    c.delete_session()
    c.create_session()
    c.create_session("1.9.70.3")
    return c


def nine_films():
    c = Damaged(random.Random(7))
    c.start("1.9.7", 1, 1)
    c.open(255, EXPLICIT, 5000)
    c.create_session()
    c.create_session()
    for _ in range(9):
        c.create_film(1, 1)
    c.delete_film(c.films[3])
    c.create_film(6, 6)
    c.create_film(1, 1)
    c.delete_session()
    c.create_film(1, 1)
    return c


def unstarted():
    """Calls before a start has made records."""
    c = Damaged(random.Random(8))
    c.refused_start(b"1.", 1, 1)
    for line in ("open 1 1 4096", "open 0 0 1", "feed -", "close", "take"):
        c.call(line, "refused 1")
    c.start("1.9.7", 1, 1)
    c.take()
    return c


def book_run():
    """What crates/rules/proofs/Traced computes: each operation, a film deleted twice, a queue that outlives two closes,
    and which instance a failed create names; both syntaxes, both depths. No two fields of a record hold the same."""
    c = Damaged(random.Random(80))
    c.neat = True
    c.start("1.9.7", 100, 5)
    c.open(1, IMPLICIT, 4096)
    c.create_session(None, 7, [
        (0x20000010, "IS", b" +7 "), (0x20000020, "CS", b"LOW "), (0x20000030, "CS", b" BLUE FILM"),
        (0x20000040, "CS", b"PROCESSOR "), (0x20000050, "LO", b"  a  label  ")])
    film = c.create_film(2, 1, None, [(0x20100040, "CS", b"LANDSCAPE "), (0x20100060, "CS", b"CUBIC ")])
    c.fill_box(film, 0, 2, c.picture_item(1, 3, False), [(0x20200020, "CS", b"REVERSE ")])
    c.fill_box(film, 1, 1, c.picture_item(2, 1, True))
    c.print_film(film)
    c.set_session([(0x20000010, "IS", b"9 ")], 9)
    c.move_box(film, 0, 2, True)
    c.create_film(1, 1, "1.9.70.1")
    c.print_session()
    c.take()
    c.delete_film(film)
    c.fails(0x0112, c.request(N_DELETE, FILM, film.uid))
    c.close()
    c.take()
    c.open(255, EXPLICIT, 4096)
    c.create_session("1.9.70.5")
    c.fails(0x0111, c.request(N_CREATE, SESSION, "1.9.70.5"))
    c.fails(0x0117, c.request(N_CREATE, SESSION, "1.02"), named=False)
    c.fails(0x0213, c.request(N_CREATE, SESSION, ""), named=False)
    c.fails(0x0123, c.request(N_ACTION, SESSION, "1.9.70.5", 2))
    c.create_film(1, 2)
    c.delete_session()
    c.close()
    c.take()
    c.take()
    return c


def wild_trace(seed):
    c = Damaged(random.Random(seed))
    c.start("1.9.7", 100, 1)
    for syntax in (IMPLICIT, EXPLICIT):
        c.open(1, syntax, 4096)
        for _ in range(12):
            ready(c)
            wild(c)
        c.call("close", None)
        c.opened = False
        c.drop_all()
    return c


def kept_traces():
    yield from ((name, make()) for name, make in EXAMPLES + BY_HAND)
    first = [function for function in damages.DAMAGES if function not in LATER]
    for i, function in enumerate(first + [refused_headers] + LATER):
        yield "damage-" + function.__name__.replace("_", "-"), damage_trace(function, i)
    yield "job-implicit", first_job(IMPLICIT)
    yield "job-explicit", first_job(EXPLICIT)
    for seed in (11, 12, 13):
        yield f"sound-{seed}", sound_trace(seed, 25)
    for seed in (14, 15):
        yield f"near-the-end-{seed}", sound_trace(seed, 25, True)
    yield "full-queue", full_queue()
    yield "colliding-positions", colliding()
    yield "uneven-films", uneven()
    yield "near-uids", near_uids()
    yield "odd-pictures", odd_pictures()
    yield "last-numbers", last_numbers()
    yield "nine-films", nine_films()
    yield "wild-1", wild_trace(21)
    yield "wild-2", wild_trace(22)
    yield "unstarted", unstarted()
    yield "book-run", book_run()


def said(name, calls):
    """What crates/traces is to say of a trace."""
    passed = sum(call.startswith("open ") and int(call.split()[3]) > LENT for call in calls)
    return f"{name}.trace: {len(calls) - passed} replies as kept" + (f", calls not made: {passed}" if passed else "")


def write(path, rows):
    text = "\n".join(rows) + "\n"
    if len(text) > READ:
        sys.exit(f"{path}: {len(text)} bytes, more than crates/traces reads")
    with open(path, "w", encoding="ascii") as out:
        out.write(text)


def main():
    args, stdout = [], []
    for name, c in sorted(kept_traces(), key=lambda kept: kept[0]):
        run = Run(c.lines)
        wrong = run.differs(c.lines, c.foretold)
        if wrong:
            sys.exit(f"{name}: {wrong}")
        for ending, rows in (("trace", c.lines), ("replies", run.replies)):
            write(os.path.join(KEPT, f"{name}.{ending}"), rows)
            args.append(f"{name}.{ending}")
        stdout.append(said(name, c.lines))
    shutil.rmtree(COPY)
    shutil.copytree(KEPT, COPY)
    write(os.path.join(CRATE, "args"), args)
    write(os.path.join(CRATE, "stdout"), stdout)


if __name__ == "__main__":
    main()
