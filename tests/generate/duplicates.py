"""The requests of Q-6: `step` with frames below E that have 43=Y, of which 52 and 122 lie around each other, or are no times."""
from model import ACTIVE

from .basics import byte_mutated, chance, framed, joined
from .bodies import any_type, message, part
from .faults import faulty
from .incoming import asked_step, text
from .records import Session
from .values import TIME_EDGES, good_time

# Year, month, day, hour, minute, second, microsecond: the values that a time is made of, and those that a part may have.
YEARS = (1, 4, 1600, 1999, 2000, 2023, 2024, 2100, 9998, 9999)
MICROSECONDS = (0, 0, 1, 999, 1000, 119_999, 120_000, 120_001, 999_000, 999_998, 999_999)
LEAST, GREATEST = (1, 1, 1, 0, 0, 0, 0), (9999, 12, 28, 23, 59, 60, 999_999)
# Two times that follow each other, where a part has its end.
NEIGHBOURS = tuple(tuple(pair.encode().split(b" ")) for pair in (
    "20240102-09:30:59 20240102-09:30:60", "20240102-09:30:59.999999 20240102-09:30:60", "20240102-09:30:60 20240102-09:31:00",
    "20240102-09:30:60.999999 20240102-09:31:00", "20240102-09:59:60 20240102-10:00:00.000",
    "20240102-23:59:60 20240103-00:00:00",
    "20231231-23:59:60.999 20240101-00:00:00", "20240228-23:59:59 20240229-00:00:00", "20240229-23:59:59 20240301-00:00:00",
    "20230228-12:00:00 20230301-12:00:00", "20240131-00:00:00 20240201-00:00:00", "20240930-23:59:59 20241001-00:00:00",
    "20240102-09:30:00.119999 20240102-09:30:00.120", "20240102-09:30:00.120 20240102-09:30:00.120001",
    "20240102-09:30:00 20240102-09:30:00.001", "20240102-09:30:00 20240102-09:30:00.000001"))


def any_moment(r):
    return [r.choice(YEARS), r.randint(1, 12), r.randint(1, 28), r.randint(0, 23), r.choice((0, 30, 58, 59)),
            r.choice((0, 1, 30, 58, 59, 59, 60, 60)), r.choice(MICROSECONDS)]


def shown(moment, decimals):
    """A moment as text, of its microseconds as many decimals as are asked for, the others cut off."""
    whole = b"%04d%02d%02d-%02d:%02d:%02d.%06d" % tuple(moment)
    return whole[:18 + decimals] if decimals else whole[:17]


def equal(r):
    """One time twice, each with decimals as it pleases, down to those that it needs."""
    moment, least = any_moment(r), r.choice((0, 0, 3, 3, 6))
    moment[6] -= moment[6] % 10 ** (6 - least)
    return tuple(shown(moment, r.choice([decimals for decimals in (0, 3, 6) if decimals >= least])) for _ in range(2))


def beside(r):
    """Two times of which one part differs by one, or the milliseconds; the parts behind it alike, or the other way round."""
    one = any_moment(r)
    other, at = list(one), r.randrange(len(one))
    by = r.choice((-1, 1)) * (r.choice((1, 1000)) if at == 6 else 1)
    other[at] = min(GREATEST[at], max(LEAST[at], one[at] + by))
    if chance(r, 0.5):
        one[at + 1:], other[at + 1:] = (GREATEST[at + 1:], LEAST[at + 1:]) if by > 0 else (LEAST[at + 1:], GREATEST[at + 1:])
    return shown(one, r.choice((0, 3, 6, 6))), shown(other, r.choice((0, 3, 6, 6)))


def neighbours(r):
    pair = r.choice(NEIGHBOURS)
    return pair if chance(r, 0.5) else pair[::-1]


def bad_time(r):
    """No time, or none of the calendar: a listed edge, which is at times good, a byte of a good one changed, empty, missing."""
    changed = byte_mutated(r, good_time(r)).replace(b"\x01", b"")
    return r.choice((r.choice(TIME_EDGES), r.choice(TIME_EDGES), changed, b"", None))


def bad(r):
    """One of the two no time, or both."""
    times = [good_time(r), good_time(r)]
    for at in r.choice(((0,), (1,), (0, 1))):
        times[at] = bad_time(r)
    return tuple(times)


def times(r):
    """52 and 122 of a frame that was sent again; None where there is none."""
    of_both = r.choice((equal, beside, beside, beside, neighbours, bad, bad, lambda r: (good_time(r), good_time(r))))
    return of_both(r)


def step_sent_again(r):
    """Below E, for us and from the peer, of any type: clean, or with a fault that nobody looks at. At times a second 52, 122 or
    43 stands somewhere, and it counts where it is the first."""
    session = Session(r, ACTIVE)
    session.expected = max(2, session.expected)
    msg_type, (again, original) = any_type(r), times(r)
    number = r.choice((session.expected - 1, session.expected - 1, 1))
    given = {49: session.peer, 56: session.ours, 34: text(number), 43: b"Y", 52: again, 122: original}
    given.update({123: b"Y"} if msg_type == b"4" and chance(r, 0.8) else {})
    parts = message(r, msg_type, given)
    if chance(r, 0.15):
        faulty(r, parts, most=1)
    if chance(r, 0.2):
        tag = r.choice((52, 52, 122, 122, 43))
        second = r.choice((b"Y", b"N")) if tag == 43 else bad_time(r) or good_time(r)
        parts.insert(r.randint(1, len(parts)), part(tag, second))
    yield asked_step(r, session, framed(joined(parts)))


# How often it comes, beside the others of mixture.py.
WEIGHTS = {step_sent_again: 7}
