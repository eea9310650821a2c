"""Records to ask about, in their ranges and out of them, and the requests `new`, `reconnect` and `tick` on them."""
from model import ACTIVE, CLOSED, LANDED, LEAST_REPLY_ROOM, NO_GAP, RE_ASK, RECORD_WORDS, STORE, WAITING

from .basics import BAR, CALL_TIME, END, LENT, MAX, OURS, PEER, chance, hexed, noise

NUMBERS = (1, 2, 3, 5, 10, 99, 100, 255, 256, 32767, 32768, 65535, 65536, 16777216, 99999999, 100000000, 999999988,
           999999989, 999999990)
USED_UP = (999999991, 999999992, 999999999)
BAD_NUMBERS = (0, 1000000000, 2 ** 31, 2 ** 32, 2 ** 32 + 5, 2 ** 63, MAX)
BAD_HEARTBEATS = (0, 61, 62, 255, 256, 257, 2 ** 32 + 30, MAX)
BAD_STATUSES = (3, 4, 255, 256, 257, 258, 2 ** 32, 2 ** 32 + 1, MAX)
BAD_COMP_IDS = (b"", b"A" * 12, b"A" * 13, b"A" * 64, b"A" * 267, BAR, b"G\x01W", b"A" * 10 + BAR, BAR + b"A",
                b"A" * 11 + BAR)
GOOD_COMP_IDS = (OURS, PEER, b"A", b"A" * 11, b"G=W", b"\x00", b"\xff\xfe", b"MM ", b"B" * 10, b"10=")
TIMES = (0, 1, 999999, 1000000, 86399999999, 86400000000, 951782399999999, 951782400000000, 951868799999999,
         951868800000000, 1709164800000000, 1709251199999999, 1709251200000000, 4107456000000000, 4107542400000000,
         68169600000000, 253402214400000000, END - 1)
LATE = (END, END + 1, 2 ** 63, MAX)
ROOMS = (LEAST_REPLY_ROOM, LEAST_REPLY_ROOM + 1, 600, 1024)
SHORT_ROOMS = (0, 1, 72, 73, 255, 256, LEAST_REPLY_ROOM - 2, LEAST_REPLY_ROOM - 1, *([512] if 4 in LANDED else ()))
BAD_STORES = (0, 1, 511, 512, STORE // 2, STORE - 512, STORE - 1, STORE + 1, STORE + 512, 2 * STORE, 1_048_576)


class Session:
    """A record to ask about, as words."""

    def __init__(self, r, status=None):
        self.ours, self.peer = (OURS, PEER) if chance(r, 0.8) else (r.choice(GOOD_COMP_IDS), r.choice(GOOD_COMP_IDS))
        self.status = r.choice((WAITING, WAITING, ACTIVE, ACTIVE, ACTIVE, ACTIVE, CLOSED)) if status is None else status
        self.expected, self.next_out = r.choice(NUMBERS), r.choice(NUMBERS)
        if chance(r, 0.03):
            setattr(self, r.choice(("expected", "next_out")), r.choice(USED_UP))
        self.heartbeat = r.choice((1, 2, 30, 59, 60))
        self.last = r.choice((0, 1, CALL_TIME, CALL_TIME - 30000000, END, MAX))
        self.at = self.to = 0
        self.gap = NO_GAP

    def replaying(self, r, share=1.0):
        """By chance a replay is running, where one can."""
        if 4 in LANDED and self.status == ACTIVE and self.next_out > 1 and chance(r, share):
            last = self.next_out - 1
            self.to = r.choice((last, last, r.randint(1, last), max(1, last - r.randrange(70))))
            self.at = r.choice((1, self.to, r.randint(1, self.to), max(1, self.to - r.randrange(70))))
        return self

    def gapped(self, r, time, share=1.0):
        """By chance a gap is open, where none is: for E or another number, asked for around ten seconds before this time, or
        behind it."""
        if 5 in LANDED and tuple(self.gap) == NO_GAP and chance(r, share):
            expected = min(max(1, self.expected), 999_999_999)
            number = r.choice((expected, expected, expected, expected - 1 or 1, r.randint(1, expected), r.choice(NUMBERS)))
            highest = expected + r.choice((-1, 0, 0, 1, 1, 2, 3, 1000, r.choice(NUMBERS)))
            asked = r.choice((time, time - 1, time + 1, time + RE_ASK, 0, MAX, time - 5 * RE_ASK,
                              *(time - RE_ASK + beside for beside in (-1, 0, 0, 1, 1))))
            self.gap = 1, number, min(999_999_999, max(1, highest)), min(MAX, max(0, asked))
        return self

    def spoil(self, r):
        """One of the seven out of its range, or the place of a replay, or the gap."""
        name, values = r.choice((("ours", BAD_COMP_IDS), ("peer", BAD_COMP_IDS), ("status", BAD_STATUSES),
                                 ("expected", BAD_NUMBERS), ("next_out", BAD_NUMBERS), ("heartbeat", BAD_HEARTBEATS),
                                 *([("place", self.bad_places())] * 3 if 4 in LANDED else ()),
                                 *([("gap", self.bad_gaps())] * 3 if 5 in LANDED else ())))
        setattr(self, name, r.choice(values))
        return self

    def bad_places(self):
        out = self.next_out
        return ((0, 1), (1, 0), (2, 1), (0, out - 1 or 1), (1, out), (out, out), (out - 1 or 1, out), (1, MAX), (MAX, MAX),
                (MAX, 1), (1, 2 ** 32 + 1), (2 ** 32 + 1, 2 ** 32 + 1), (2 ** 63, 2 ** 63))

    def bad_gaps(self):
        """Of one that is not open a word that is not 0; of an open one a number out of its range; open, but not 1."""
        good = min(max(1, self.expected), 999_999_999)
        closed = ((0, *words) for value in (1, good, 2 ** 32, 2 ** 63, MAX)
                  for words in ((value, 0, 0), (0, value, 0), (0, 0, value)))
        opened = ((1, *words, CALL_TIME) for bad in BAD_NUMBERS for words in ((bad, good), (good, bad), (bad, bad)))
        other = ((word, good, good, CALL_TIME) for word in (0, 2, 3, 255, 256, 257, 2 ** 32, 2 ** 32 + 1, 2 ** 63, MAX))
        return (*closed, *opened, *other, (1, 0, 0, 0), (2, 0, 0, 0), (MAX, 0, 0, 0))

    @property
    def place(self):
        return self.at, self.to

    @place.setter
    def place(self, value):
        self.at, self.to = value

    def words(self):
        words = [hexed(self.ours), hexed(self.peer), self.status, self.expected, self.next_out, self.heartbeat, self.last]
        words += self.place if 4 in LANDED else ()
        words += self.gap if 5 in LANDED else ()
        return " ".join(map(str, words))


def any_session(r, spoilt=0.03):
    session = Session(r)
    return session.spoil(r) if chance(r, spoilt) else session


def any_store(r):
    """A store behind a record, as a word with its space: most often empty, seldom with any bytes or of another length."""
    if 4 not in LANDED or chance(r, 0.9):
        return LENT
    if chance(r, 0.2):
        return f" {r.choice(BAD_STORES)}"
    places = r.sample(range(64), r.choice((1, 1, 2, 5)))
    return LENT + "".join(f",{place}={hexed(noise(r, r.choice((0, 1, 20, 511, 512))))}" for place in places)


def left_by(request, answer, store):
    """The record and the store, as words, that an answer leaves."""
    words = answer.split(" ")
    if 4 in LANDED and words[0] == "ok" and request.startswith(("step", "report")):
        store = " " + words.pop()
    return " ".join(words[-RECORD_WORDS:]), store


def call_time(r):
    if chance(r, 0.02):
        return r.choice(LATE)
    if chance(r, 0.3):
        return CALL_TIME
    return r.choice(TIMES) if chance(r, 0.4) else r.randrange(END)


def room(r):
    return r.choice(SHORT_ROOMS) if chance(r, 0.02) else r.choice(ROOMS)


def new_session(r):
    ids = GOOD_COMP_IDS + BAD_COMP_IDS
    yield f"new {hexed(r.choice(ids))} {hexed(r.choice(ids))}"


def reconnect(r):
    session = any_session(r, spoilt=0.5)
    yield "reconnect " + session.replaying(r, 0.2 if session.place == (0, 0) else 0).gapped(r, CALL_TIME, 0.3).words()


def tick(r):
    session, time = any_session(r), call_time(r)
    session.replaying(r, 0.2 if session.place == (0, 0) else 0).gapped(r, time, 0.3)
    due = session.heartbeat * 1000000
    last = r.choice((0, time - due - 1, time - due, time - due + 1, time - 1, time, time + 1, END, MAX))
    session.last = min(max(0, last), MAX)
    yield f"tick {time} {room(r)} {session.words()}"


def tick_status(r):
    """Every status with used up numbers, a short room and a late time by turns."""
    session = Session(r, r.choice((WAITING, ACTIVE, CLOSED))).replaying(r, 0.2).gapped(r, CALL_TIME, 0.3)
    if chance(r, 0.5):
        session.expected = r.choice(USED_UP + (999999990,))
    else:
        session.next_out = r.choice(USED_UP + (999999990,))
    yield f"tick {r.choice(TIMES + LATE)} {r.choice(ROOMS + SHORT_ROOMS)} {session.words()}"


# How often each comes, beside the others of mixture.py.
WEIGHTS = {new_session: 1, reconnect: 3, tick: 3, tick_status: 1}
