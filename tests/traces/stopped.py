"""Where the reading stops, worked out by hand: the data sets of stopped.txt, each sent with a request."""
import os
import random

from damages import Damaged
from faults import Stop
from program import HERE
from wire import *


def cases(syntax):
    """(data set, where its reading stops) in this syntax; the number is 0 where it is read whole."""
    with open(os.path.join(HERE, "stopped.txt"), encoding="ascii") as file:
        rows = [line.split(" | ") for line in file if not line.startswith("#")]
    for of, stop, data, _ in rows:
        if int(of) == syntax:
            yield bytes.fromhex(data.strip("-")), Stop(*map(int, stop.split()))


def stops(syntax):
    """Every operation by turns meets a data set that cannot be read; C-ECHO is done with any other."""
    c = Damaged(random.Random(31))
    c.neat = True
    c.start("1.9.7", 100, 1)
    c.open(1, syntax, 4096)
    c.create_session("1.9.70.5")
    c.create_film(2, 2, "1.9.70.6")
    for i, (data, stop) in enumerate(cases(syntax)):
        requests = c.sound_requests()
        if stop.number:
            c.stops(requests[i % len(requests)], data, stop, "worked out by hand")
        else:
            c.ask(requests[0], data, requests[0].response(0))
    return c


BY_HAND = [("stops-implicit", lambda: stops(IMPLICIT)), ("stops-explicit", lambda: stops(EXPLICIT))]
