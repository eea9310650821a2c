"""The requests of Q-5: `step` on records with an open gap, around the points where a too-high frame asks and where the gap
closes; broken gaps; sessions as they go with frames in flight."""
import model
from model import ACTIVE, CLOSED, LEAST_REPLY_ROOM, WAITING

from .basics import AT_REST, CALL_TIME, END, LENT, MAX, OURS, PEER, TYPES, chance, framed, hexed, joined
from .bodies import any_type, message
from .incoming import asked_step, incoming, resend_range, text
from .records import ROOMS, SHORT_ROOMS, TIMES, USED_UP, Session, left_by

ON_THE_WAY = (b"0", b"1", b"AD", b"F", b"AE", b"5", b"A", b"3")
MOMENTS = (0, 0, 1, 4_999_999, 9_999_999, 10_000_000, 10_000_001, 30_000_000, -1, -20_000_000)


def gapped(r, status=ACTIVE):
    """A session with an open gap, and the time of a step on it."""
    session = Session(r, status)
    time = r.choice((CALL_TIME, CALL_TIME, r.choice(TIMES), r.randrange(END)))
    return session.gapped(r, time), time


def around(r, session):
    """A number around E and the highest one seen, as digits; never 0."""
    number = r.choice((session.expected, session.gap[1], session.gap[2])) + r.choice((-1, 0, 0, 1, 1, 2))
    return text(min(999_999_999, max(1, number)))


def sent(r, session, msg_type, given):
    return framed(joined(message(r, msg_type, {49: session.peer, 56: session.ours, **given})))


def step_too_high(r):
    """Every type above E, at, below and above the highest one seen."""
    session, time = gapped(r)
    msg_type = any_type(r) if chance(r, 0.2) else r.choice(TYPES)
    highest = min(max(session.expected + 1, session.gap[2]), 999_999_998)
    n = r.choice((session.expected + 1, session.expected + 2, highest - 1, highest, highest, highest + 1, 999_999_999))
    given = {34: text(max(session.expected + 1, n))}
    given.update(resend_range(r, session) if msg_type == b"2" else {})
    given.update({123: b"Y"} if msg_type == b"4" and chance(r, 0.8) else {})
    yield asked_step(r, session, sent(r, session, msg_type, given), time)


def step_in_turn(r):
    """Every type at E and below it, with an open gap that E may be at the end of, or behind."""
    session, time = gapped(r)
    msg_type, below = r.choice(TYPES), chance(r, 0.2)
    given = {34: text(max(1, session.expected - below))}
    given.update({43: b"Y", 122: b"20240102-09:30:00"} if below and chance(r, 0.8) else {})
    yield asked_step(r, session, sent(r, session, msg_type, given), time)


def step_filling(r):
    """A gap fill to around the highest one seen, or a bare reset to around it and to E."""
    session, time = gapped(r)
    given = {34: text(session.expected), 36: around(r, session), 123: b"Y"}
    if chance(r, 0.5):
        new = r.choice((around(r, session), text(session.expected)))
        given = {34: around(r, session), 36: new, 123: r.choice((None, b"N"))}
    yield asked_step(r, session, sent(r, session, b"4", given), time)


def step_logon_in_gap(r):
    """A Logon, in turn, above E, below it, with a reset, or none, while the gap of the last line is still open."""
    session, time = gapped(r, WAITING)
    given = {34: r.choice((around(r, session), text(session.expected), text(session.expected + 1), b"1")),
             141: r.choice((b"Y", b"N", None, None)), 108: r.choice((b"30", b"30", b"30", b"61"))}
    yield asked_step(r, session, sent(r, session, b"A" if chance(r, 0.9) else any_type(r), given), time)


def step_stranger_in_gap(r):
    """A number above E that rule 4 does not see: from another, for another, unreadable, or of a bare reset."""
    session, time = gapped(r)
    msg_type, given = r.choice((b"0", b"4")), {34: text(min(999_999_999, session.gap[2] + r.choice((0, 1, 5)))), 36: b"1"}
    given[r.choice((49, 56, 34))] = r.choice((None, b"XX", b"", b"x"))
    yield asked_step(r, session, sent(r, session, msg_type, given), time)


def broken_gap(r):
    """Any call on a record of which the gap's words are out of their ranges, other causes of refusals by chance."""
    session = Session(r)
    frame = framed(joined(incoming(r, session)))
    session.gap = r.choice(session.bad_gaps())
    if chance(r, 0.1):
        session.gap = r.choice(((0, 0, 0, 0), (1, 1, 1, MAX), (1, 999_999_999, 999_999_999, 0), (1, 999_999_999, 1, 1)))
    if chance(r, 0.2):
        session.expected = r.choice(USED_UP)
    time, lent = r.choice((CALL_TIME, CALL_TIME, END)), r.choice(ROOMS + ROOMS + SHORT_ROOMS)
    words = session.words()
    yield r.choice((f"step {time} {lent} {hexed(frame)} {words}{LENT}", f"tick {time} {lent} {words}", f"reconnect {words}",
                    f"replay {time} {lent} {words}{LENT}", f"report {time} {lent} {words}{LENT}"))


# ---- Sessions as they go ---------------------------------------------------------------------------------------------

def in_flight(r, session):
    """A frame on its way behind a lost one; now and then a Resend Request, or one of no sense."""
    n = text(min(999_999_999, session.expected + r.choice((1, 1, 2, 3, 4, 5, 9))))
    if chance(r, 0.15):
        return sent(r, session, b"2", {34: n, **resend_range(r, session)})
    return sent(r, session, r.choice(ON_THE_WAY), {34: n})


def what_was_missed(r, session, highest):
    """A replayed frame in turn, a gap fill up to the highest one seen or past it, or a bare reset."""
    given = {34: text(session.expected), 43: b"Y", 122: b"20240102-09:30:00"}
    if chance(r, 0.5):
        return sent(r, session, r.choice((b"0", b"AD", b"F")), given)
    new = max(session.expected, highest + r.choice((-1, 0, 1, 1, 1, 2)))
    given.update({36: text(min(999_999_999, new)), 123: b"Y" if chance(r, 0.8) else None})
    return sent(r, session, b"4", given)


def next_request(r, time, words, store):
    """By the status and the gap: frames in flight, what was missed, a logon, a reconnect, seldom a tick."""
    session = Session(r, ACTIVE)
    session.ours, session.peer = OURS, PEER
    _, _, status, session.expected, session.next_out, *_, highest, _ = words.split(" ")
    status, session.expected, session.next_out, highest = map(int, (status, session.expected, session.next_out, highest))
    if status == CLOSED or chance(r, 0.02):
        return f"reconnect {words}"
    if chance(r, 0.05):
        return f"tick {time} {LEAST_REPLY_ROOM} {words}"
    if status == WAITING:
        n = text(session.expected + r.choice((0, 0, 1, 3)))
        frame = sent(r, session, b"A", {34: n, 141: None, 43: None, 108: b"30"})
    elif chance(r, 0.03):
        frame = framed(joined(incoming(r, session)))
    else:
        frame = in_flight(r, session) if chance(r, 0.65) else what_was_missed(r, session, highest)
    return f"step {time} {LEAST_REPLY_ROOM} {hexed(frame)} {words}{store}"


def gap_along(r):
    """A record with its gap as it goes, on a clock that stands, goes, jumps by ten seconds, and goes back."""
    expected, time = r.choice((1, 5, 99, 999_999_970)), CALL_TIME
    words, store = f"4757 4d4d 1 {expected} {r.choice((1, 30))} 30 0{AT_REST}", LENT
    for _ in range(r.randint(5, 30)):
        asked = int(words.split(" ")[-1])
        time = max(0, (asked if asked and chance(r, 0.5) else time) + r.choice(MOMENTS))
        request = next_request(r, time, words, store)
        yield request
        words, store = left_by(request, model.answer(request), store)


# How often each comes, beside the others of mixture.py.
WEIGHTS = {step_too_high: 6, step_in_turn: 2, step_filling: 3, step_logon_in_gap: 2, step_stranger_in_gap: 0.7, broken_gap: 1.5,
           gap_along: 0.3}
