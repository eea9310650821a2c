"""The request `step`: each rule, each refusal, and sessions as they go."""
import model
from model import ACTIVE, CLOSED, LEAST_REPLY_ROOM, MARK, WAITING

from .basics import (AT_REST, BAR, CALL_TIME, END, LENT, MAX, OURS, PEER, TYPES, byte_mutated, chance, framed, hexed, joined)
from .bodies import any_type, message, part, tag_of
from .faults import double, drop, faulty, put_in, replace_by_edge
from .frames import long_frame, soup
from .groups import GROUP_FAULTS, with_group
from .incoming import asked_step, duplicate_marks, incoming, near, number_in, resend_range, text
from .records import BAD_STORES, USED_UP, Session, any_session, left_by
from .values import edge_value, good_time


def step_any(r):
    session = any_session(r)
    parts = incoming(r, session)
    if chance(r, 0.25):
        faulty(r, parts)
    frame = framed(joined(parts))
    if chance(r, 0.04):
        frame = r.choice((byte_mutated(r, frame), frame + r.choice((b"x", frame)), frame[:-1], b"x" + frame, b""))
    yield asked_step(r, session, frame)


def step_unclean(r):
    """In turn, for us and from the peer, but with a fault: a verdict, or what comes before it."""
    session = Session(r, r.choice((ACTIVE, ACTIVE, ACTIVE, WAITING)))
    parts = message(r, any_type(r), {49: session.peer, 56: session.ours, 34: text(session.expected)})
    if chance(r, 0.3):
        parts, at, end, group = with_group(r)
        r.choice(GROUP_FAULTS)(r, parts, at, end, group)
        parts = [piece for piece in parts if tag_of(piece) not in (49, 56, 34)]
        parts[1:1] = [part(49, session.peer), part(56, session.ours), part(34, text(session.expected))]
    else:
        faulty(r, parts)
    yield asked_step(r, session, framed(joined(parts)))


def slipping_step(r, session, parts, often):
    """A step with these fields, at times with one slip among them."""
    if chance(r, often):
        r.choice((drop, double, replace_by_edge, put_in))(r, parts)
    return asked_step(r, session, framed(joined(parts)))


def step_bare_reset(r):
    """A Sequence Reset without 123=Y, clean or not, whatever its number."""
    session = Session(r, ACTIVE)
    given = {49: session.peer, 56: session.ours, 34: number_in(r, session), 36: near(r, session.expected),
             123: r.choice((None, None, b"N"))}
    yield slipping_step(r, session, message(r, b"4", given), 0.4)


def step_gap_fill(r):
    session = Session(r, ACTIVE)
    n = text(session.expected)
    given = {49: session.peer, 56: session.ours, 34: n, 36: near(r, session.expected, session.expected + 1), 123: b"Y"}
    yield slipping_step(r, session, message(r, b"4", given), 0.2)


def step_resend_request(r):
    """A Resend Request in turn or too high, around the last number that went out."""
    session = Session(r, ACTIVE)
    given = {49: session.peer, 56: session.ours, 34: text(session.expected + r.choice((0, 0, 1, 2))),
             **resend_range(r, session)}
    yield slipping_step(r, session, message(r, b"2", given), 0.15)


def step_waiting(r):
    session = Session(r, WAITING)
    if chance(r, 0.3):
        session.expected = 1
    yield asked_step(r, session, framed(joined(incoming(r, session, r.choice((b"A", b"A", b"A", b"A", any_type(r)))))))


def step_logon(r):
    """A clean logon, with a reset or not, its number 1, below, at or above the expected one, perhaps a duplicate."""
    session = Session(r, WAITING)
    n = r.choice((1, 1, 2, session.expected, session.expected, max(1, session.expected - 1), session.expected + 1))
    given = {49: session.peer, 56: session.ours, 34: text(n), 141: r.choice((b"Y", b"Y", b"N", None)),
             43: r.choice((b"Y", None)), 108: r.choice((b"1", b"30", b"60"))}
    yield asked_step(r, session, framed(joined(message(r, b"A", given))))


def step_active_clean(r):
    """Every type in every position towards the expected number, clean but for what the moves look at."""
    session = Session(r, ACTIVE)
    msg_type = r.choice(TYPES)
    n = text(max(1, session.expected + r.choice((-1, 0, 0, 1))))
    given = {49: session.peer, 56: session.ours, 34: n}
    given.update(resend_range(r, session) if msg_type == b"2" else {})
    given.update({36: near(r, session.expected), 123: r.choice((None, b"Y", b"N"))} if msg_type == b"4" else {})
    yield asked_step(r, session, framed(joined(message(r, msg_type, given))), lent=LEAST_REPLY_ROOM)


def step_duplicate(r):
    """Below the expected number: all combinations of 43 and 122, repeated ones too, and faults that nobody looks at."""
    session = Session(r, ACTIVE)
    session.expected = max(2, session.expected)
    given = {49: session.peer, 56: session.ours, 34: text(session.expected - 1), **duplicate_marks(r)}
    parts = message(r, any_type(r), given)
    for tag in 43, 122:
        if chance(r, 0.2):
            parts.insert(r.randint(1, len(parts)), part(tag, r.choice((b"Y", b"N", b"", good_time(r)))))
    yield asked_step(r, session, framed(joined(parts)))


def step_first_fields(r):
    """A tag that the moves read stands twice, the first or the second telling the truth; or a look-alike before it."""
    session = Session(r, r.choice((WAITING, ACTIVE)))
    parts = incoming(r, session)
    tag = r.choice((34, 49, 56, 43, 122, 123, 36, 7, 16, 141, 108, 112))
    like = part(tag, b"1")
    other = r.choice((part(tag, edge_value(r, tag)), part(tag, b""), b"%d" % tag, b"0" + like, b"1" + like))
    parts.insert(r.randint(1, len(parts)), other)
    yield asked_step(r, session, framed(joined(parts)))


def step_comp_ids(r):
    session = Session(r, r.choice((WAITING, ACTIVE)))
    given = {49: r.choice((session.peer, session.peer, None, b"XX")),
             56: r.choice((session.ours, session.ours, None, b"XX")), 34: number_in(r, session)}
    msg_type = b"A" if session.status == WAITING else any_type(r)
    yield asked_step(r, session, framed(joined(message(r, msg_type, given))))


def step_not_one_frame(r):
    session = any_session(r)
    whole = framed(joined(incoming(r, session)))
    others = (soup(r, 2), whole + whole, whole + BAR, whole[:-1], byte_mutated(r, whole), MARK + whole, long_frame(r))
    yield asked_step(r, session, r.choice(others))


def step_several_refusals(r):
    """Each of the refusals' causes by chance, to see their order."""
    session = Session(r)
    frame = framed(joined(incoming(r, session)))
    if chance(r, 0.3):
        session.spoil(r)
    if chance(r, 0.3):
        session.expected = r.choice(USED_UP)
    if chance(r, 0.3):
        session.next_out = r.choice(USED_UP)
    frame = byte_mutated(r, frame) if chance(r, 0.3) else frame
    time = r.choice((CALL_TIME, CALL_TIME, END - 1, END, MAX))
    store = f" {r.choice(BAD_STORES)}" if LENT and chance(r, 0.3) else LENT
    yield asked_step(r, session, frame, time, r.choice((LEAST_REPLY_ROOM,) * 3 + (LEAST_REPLY_ROOM - 1, 0)), store)


def step_longest_reply(r):
    """CompIDs and numbers at their longest in the least room."""
    session = Session(r, r.choice((WAITING, ACTIVE)))
    session.ours, session.peer = b"G" * 11, b"M" * 11
    session.expected, session.next_out = r.choice((999999989, 999999990)), r.choice((999999989, 999999990))
    parts = incoming(r, session)
    yield asked_step(r, session, framed(joined(parts)), END - 1, LEAST_REPLY_ROOM)


def step_along(r):
    """A session as it goes: each step, tick or reconnect takes the record that the one before gave."""
    words, store = "4757 4d4d 0 1 1 30 0" + AT_REST, LENT
    time, room = r.choice((0, CALL_TIME)), LEAST_REPLY_ROOM
    for _ in range(r.randint(3, 15)):
        time += r.choice((0, 1, 999999, 1000000, 29999999, 30000000, 60000000))
        session = Session(r, ACTIVE)
        session.ours, session.peer = OURS, PEER
        status, session.expected, session.next_out = map(int, words.split(" ")[2:5])
        msg_type = b"A" if status == WAITING and chance(r, 0.9) else any_type(r)
        frame = framed(joined(incoming(r, session, msg_type)))
        request = f"tick {time} {room} {words}" if chance(r, 0.25) else f"step {time} {room} {hexed(frame)} {words}{store}"
        if status == CLOSED and chance(r, 0.8):
            request = f"reconnect {words}"
        yield request
        words, store = left_by(request, model.answer(request), store)


# How often each comes, beside the others of mixture.py.
WEIGHTS = {
    step_any: 8, step_waiting: 4, step_logon: 3, step_active_clean: 8, step_duplicate: 3, step_first_fields: 3,
    step_unclean: 6, step_bare_reset: 3, step_gap_fill: 2, step_resend_request: 4, step_comp_ids: 2,
    step_not_one_frame: 1, step_several_refusals: 2, step_longest_reply: 1, step_along: 0.3,
}
