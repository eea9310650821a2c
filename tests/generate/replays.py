"""The requests of Q-4: `replay`, and `report` and `step` on stores with reports in them; sessions as they go, with a store."""
import model
from model import ACTIVE, CLOSED, LEAST_REPLY_ROOM, WAITING

from .basics import AT_REST, CALL_TIME, END, LENT, MAX, OURS, PEER, chance, framed, hexed, joined
from .bodies import any_type, message
from .incoming import asked_step, incoming, near, text
from .records import BAD_STORES, ROOMS, SHORT_ROOMS, USED_UP, Session, any_session, any_store, call_time, left_by, room
from .reports import VALUE_FAULTS, Report, asked
from .stores import DAMAGES, Lent, any_reports, full, kept_report, some_reports


def replaying(r):
    """A session of which a replay is running, most often with few numbers out."""
    session = Session(r, ACTIVE)
    if chance(r, 0.8):
        session.next_out = r.choice((2, 3, 10, 42, 80, r.randint(2, 90)))
    return session.replaying(r).gapped(r, CALL_TIME, 0.2)


def is_replaying(words):
    """Whether a replay is running by the words of a record."""
    return model.record_of(words.split(" ")).at != 0


def asked_replay(session, time, lent, store):
    return f"replay {time} {lent} {session.words()}{store}"


def replay_some(r):
    session = replaying(r)
    yield asked_replay(session, call_time(r), room(r), any_reports(r, session))


def replay_empty(r):
    session = replaying(r)
    yield asked_replay(session, call_time(r), room(r), any_store(r))


def replay_idle(r):
    """Nothing is running, in any status."""
    session = any_session(r).gapped(r, CALL_TIME, 0.2)
    yield asked_replay(session, call_time(r), room(r), any_store(r))


def replay_several_refusals(r):
    """Each of the refusals' causes by chance, to see their order: 11, 14, 7, 6."""
    session = replaying(r) if chance(r, 0.7) else any_session(r)
    if chance(r, 0.3):
        session.spoil(r)
    if chance(r, 0.2):
        session.expected = r.choice(USED_UP)
    store = f" {r.choice(BAD_STORES)}" if chance(r, 0.3) else LENT
    yield asked_replay(session, r.choice((CALL_TIME, CALL_TIME, END - 1, END, MAX)), r.choice(ROOMS + ROOMS + SHORT_ROOMS), store)


def replay_whole(r):
    """A replay from its start, or from its midst, to its end."""
    session = replaying(r)
    session.next_out = min(session.next_out, 90)
    session.at, session.to = (min(number, session.next_out - 1) for number in session.place)
    store, words, time = any_reports(r, session), session.words(), CALL_TIME
    for _ in range(100):
        request = f"replay {time} {LEAST_REPLY_ROOM} {words}{store}"
        yield request
        words, _ = left_by(request, model.answer(request), store)
        time += r.choice((0, 1, 1000))
        if not is_replaying(words):
            return


def one_place(r, session, number, place):
    """A store with one report, most often damaged, in this place."""
    frame = kept_report(r, session.ours, session.peer, number)
    return Lent({place: r.choice(DAMAGES)(r, frame) if chance(r, 0.9) else frame}).word()


def place_by_report(r):
    """What one place holds, as a report sees it: it goes there or into the next one."""
    session = Session(r, ACTIVE)
    store = one_place(r, session, r.choice((1, 7, session.next_out, 999999990)), 0)
    yield asked(r, session, Report(r, 0), CALL_TIME, 512, store)


def place_by_replay(r):
    """What one place holds, as a replay sees it that begins at its number or before it; also at the last usable number."""
    session = Session(r, ACTIVE)
    number = r.choice((2, 9, 10, 99, 100, 999999989, 999999990))
    session.next_out = min(999999999, number + r.choice((1, 2, 9)))
    session.at, session.to = max(1, number - r.choice((0, 0, 0, 1, 5))), session.next_out - 1
    yield asked_replay(session, call_time(r), LEAST_REPLY_ROOM, one_place(r, session, number, r.choice((0, 17, 63))))


def report_stored(r):
    """A report into a store with some others."""
    session, report = Session(r, ACTIVE), Report(r)
    if chance(r, 0.3):
        r.choice(VALUE_FAULTS)(r, report)
    yield asked(r, session, report, call_time(r), r.choice((512, 512, 512, 200)), any_reports(r, session))


def report_full(r):
    """A report into a full store, or into one that is full but for damage."""
    session = Session(r, ACTIVE)
    session.next_out = r.choice((100, 999999989, 999999990))
    yield asked(r, session, Report(r, 1), CALL_TIME, 512, full(r, session).word())


def report_refusals_and_store(r):
    """11, 13, 14, 7 and those behind them, each cause by chance."""
    session, report = Session(r, r.choice((ACTIVE, ACTIVE, ACTIVE, WAITING, CLOSED))), Report(r)
    session.replaying(r, 0.4)
    if chance(r, 0.2):
        session.spoil(r)
    if chance(r, 0.2):
        session.expected = r.choice(USED_UP)
    if chance(r, 0.3):
        r.choice(VALUE_FAULTS)(r, report)
    store = f" {r.choice(BAD_STORES)}" if chance(r, 0.4) else any_reports(r, session)
    yield asked(r, session, report, r.choice((CALL_TIME, CALL_TIME, END - 1, END)), r.choice((512, 512, 100)), store)


def step_starting(r):
    """A Resend Request that starts a replay, replaces one, or cannot be served: in turn or too high, with few numbers out."""
    session = replaying(r) if chance(r, 0.6) else Session(r, ACTIVE)
    if chance(r, 0.7):
        session.next_out = max(session.next_out, r.choice((10, 42)))
    last = min(session.next_out, 10 ** 9) - 1
    begin = near(r, last, 1, session.at, session.to)
    end = r.choice((b"0", near(r, last), near(r, int(begin)), text(last + 1), b"999999999"))
    given = {49: session.peer, 56: session.ours, 34: text(session.expected + r.choice((0, 0, 0, 1, 9))), 7: begin, 16: end}
    store = any_reports(r, session) if chance(r, 0.1) else any_store(r)
    yield asked_step(r, session, framed(joined(message(r, b"2", given))), store=store)


def step_logon_stored(r):
    """A Logon on a store that is not empty: 141=Y zeroes it if it is accepted."""
    session = Session(r, WAITING)
    n = r.choice((1, 1, 1, 2, session.expected))
    given = {49: session.peer, 56: session.ours, 34: text(n), 141: r.choice((b"Y", b"Y", b"Y", b"N", None)), 108: b"30"}
    if chance(r, 0.1):
        given[r.choice((49, 108))] = b"99"
    yield asked_step(r, session, framed(joined(message(r, b"A", given))), store=some_reports(r, session, 2).word())


def step_while_replaying(r):
    """Any message while a replay is running: it goes on, unless the session closes or another one is asked for."""
    session = replaying(r)
    yield asked_step(r, session, framed(joined(incoming(r, session))))


# ---- A session with its store as it goes -----------------------------------------------------------------------------

def next_request(r, time, words, store):
    """A request that suits the status: logons while Waiting, reconnects while Closed, replay calls while one is running."""
    session = Session(r, ACTIVE)
    session.ours, session.peer = OURS, PEER
    status, session.expected, session.next_out = map(int, words.split(" ")[2:5])
    if status == CLOSED and chance(r, 0.8):
        return f"reconnect {words}"
    choice = r.random()
    if is_replaying(words) and choice < 0.5 or choice < 0.05:
        return f"replay {time} {LEAST_REPLY_ROOM} {words}{store}"
    if choice < 0.7 and status == ACTIVE:
        return f"report {time} 512 {words}{store} {Report(r, r.choice((0, 1))).words(r)}"
    if choice < 0.75:
        return f"tick {time} {LEAST_REPLY_ROOM} {words}"
    if status == ACTIVE and choice < 0.9:
        last = max(1, session.next_out - 1)
        given = {49: PEER, 56: OURS, 34: text(session.expected + r.choice((0, 0, 0, 1))),
                 7: text(r.randint(1, last)), 16: r.choice((b"0", text(last), text(r.randint(1, last))))}
        return f"step {time} {LEAST_REPLY_ROOM} {hexed(framed(joined(message(r, b'2', given))))} {words}{store}"
    frame = framed(joined(incoming(r, session, b"A" if status == WAITING and chance(r, 0.9) else any_type(r))))
    return f"step {time} {LEAST_REPLY_ROOM} {hexed(frame)} {words}{store}"


def store_along(r):
    """A record and its store as they go: each request takes both as the one before left them."""
    session = Session(r, ACTIVE)
    session.ours, session.peer, session.next_out = OURS, PEER, r.choice((1, 30, 200))
    store = LENT if chance(r, 0.5) else any_reports(r, session)
    words, time = f"4757 4d4d 1 1 {session.next_out} 30 0{AT_REST}", CALL_TIME
    for _ in range(r.randint(5, 30)):
        time += r.choice((0, 1, 999999, 1000000, 30000000))
        request = next_request(r, time, words, store)
        yield request
        words, store = left_by(request, model.answer(request), store)


def store_last_64(r):
    """More reports than there are places, one behind the other, then a replay of all of them."""
    words, store, time = f"4757 4d4d 1 1 1 30 0{AT_REST}", LENT, CALL_TIME
    report = Report(r, 0)
    for _ in range(r.randint(60, 70)):
        time += 1
        if chance(r, 0.1):
            words = " ".join(words.split(" ")[:4] + [str(int(words.split(" ")[4]) + r.randint(1, 3))] + words.split(" ")[5:])
        request = f"report {time} 512 {words}{store} {report.words(r)}"
        yield request
        words, store = left_by(request, model.answer(request), store)
    frame = framed(joined(message(r, b"2", {49: PEER, 56: OURS, 34: b"1", 7: b"1", 16: b"0"})))
    request = f"step {time} {LEAST_REPLY_ROOM} {hexed(frame)} {words}{store}"
    while request:
        yield request
        words, store = left_by(request, model.answer(request), store)
        request = f"replay {time} {LEAST_REPLY_ROOM} {words}{store}" if is_replaying(words) else None


# How often each comes, beside the others of mixture.py.
WEIGHTS = {
    replay_some: 4, replay_empty: 1.5, replay_idle: 0.7, replay_several_refusals: 1, replay_whole: 0.15, place_by_report: 4,
    place_by_replay: 4, report_stored: 2, report_full: 0.3, report_refusals_and_store: 1, step_starting: 3,
    step_logon_stored: 0.7, step_while_replaying: 2, store_along: 0.12, store_last_64: 0.004,
}
