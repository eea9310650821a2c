"""A message that comes in to a session: its numbers and marks around the points where the moves turn."""
from .basics import chance, hexed
from .bodies import any_type, message
from .records import any_store, call_time, room
from .values import NUMBER_EDGES, good_time


def text(number):
    return b"%d" % number


def near(r, *numbers):
    """One of the numbers, or one beside it, as digits; seldom one far off."""
    if chance(r, 0.1):
        return r.choice((b"1", b"999999999", b"999999990", b"2"))
    return text(max(0, r.choice(numbers) + r.choice((-1, 0, 0, 1))))


def number_in(r, session):
    """34: at, below or above the expected number, seldom an edge."""
    if chance(r, 0.04):
        return r.choice(NUMBER_EDGES + (b"", None))
    expected = session.expected
    return text(max(0, r.choice((expected, expected, expected, expected - 1, expected + 1, 1, expected + 1000))))


def resend_range(r, session):
    last = min(session.next_out, 10 ** 9) - 1
    begin = near(r, last, 1)
    return {7: begin, 16: r.choice((b"0", near(r, last), near(r, int(begin)), near(r, int(begin)), b"1"))}


def duplicate_marks(r):
    given = {}
    if chance(r, 0.5):
        given[43] = r.choice((b"Y", b"Y", b"Y", b"N", b"N", b"", b"X", b"y"))
    if chance(r, 0.4):
        given[122] = r.choice((good_time(r), b"", b"x", b"20230229-00:00:00"))
    return given


def special_fields(r, msg_type, session, n):
    """The values that the moves look at, around the points where they turn."""
    if msg_type == b"2":
        return resend_range(r, session)
    if msg_type == b"4":
        at = int(n) if n and n.isdigit() and len(n) < 10 else 1
        return {36: near(r, session.expected, at), 123: r.choice((None, b"Y", b"Y", b"Y", b"N", b"X", b"", b"y"))}
    if msg_type == b"A":
        return {141: r.choice((None, None, b"Y", b"Y", b"N", b"X", b"")), 108: r.choice((b"1", b"30", b"60", b"61"))}
    return {}


def comp_ids(r, session):
    given = {49: session.peer, 56: session.ours}
    if chance(r, 0.06):
        tag = r.choice((49, 56))
        right = given[tag]
        given[tag] = r.choice((None, b"", b"X", right + b" ", right[:-1], session.ours, session.peer, right + b"\x00"))
    return given


def incoming(r, session, msg_type=None):
    """The parts of a message for a session."""
    msg_type = any_type(r) if msg_type is None else msg_type
    n = number_in(r, session)
    given = {**comp_ids(r, session), 34: n, **duplicate_marks(r), **special_fields(r, msg_type, session, n)}
    return message(r, msg_type, given)


def asked_step(r, session, frame, time=None, lent=None, store=None):
    time = call_time(r) if time is None else time
    lent = room(r) if lent is None else lent
    session.replaying(r, 0.15 if session.place == (0, 0) else 0).gapped(r, time, 0.4)
    store = any_store(r) if store is None else store
    return f"step {time} {lent} {hexed(frame)} {session.words()}{store}"
