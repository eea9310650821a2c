"""The request `report` (Q-1): values clean, at an edge, absent, of no report, as long as may be; every refusal."""
import model
from model import ACTIVE, CLOSED, LEAST_REPLY_ROOM, WAITING

from .basics import AT_REST, BAR, CALL_TIME, END, LENT, MAX, OURS, PEER, chance, filler, framed, hexed, joined
from .incoming import incoming
from .records import USED_UP, Session, any_session, any_store, call_time, left_by
from .values import edge_value, good_decimal, good_value

LISTED = model.ENTRIES.get(b"AE", {})       # there is no report before Q-1 lands
FOREIGN_TAGS = (0, 8, 34, 35, 43, 49, 52, 58, 75, 447, 448, 452, 453, 552, 9999, 2 ** 32 + 571, 2 ** 32 + 31, MAX)
WHOLES = (0, 1, 5, 10 ** 14, 10 ** 15 - 1, 10 ** 15, 10 ** 15 + 1, 2 ** 32, 2 ** 63, MAX)
PLACES = (0, 1, 2, 7, 8, 9, 10, 16, 255, 256, 258, 2 ** 32, 2 ** 32 + 2, 2 ** 63, MAX)
ROOMS = (0, 1, 100, 200, 400, 511, 512, 512, 513, 4096)
STRETCHED = (571, 48, 1427)


class Report:
    """Values to be reported, as the model holds them: fields by tag, and parties."""

    def __init__(self, r, parties=None):
        self.fields = {tag: good_decimal(r) if tag in model.DECIMALS else good_value(r, tag, LISTED[tag])
                       for tag in model.VALUE_TAGS if LISTED[tag].required or chance(r, 0.5)}
        count = r.choice((0, 0, 1, 1, 2, 2, 3, 4, 5, 8)) if parties is None else parties
        self.parties = [good_party(r) for _ in range(count)]

    def words(self, r):
        """In any order, the parties in theirs."""
        words = [f"{tag}={word(value)}" for tag, value in self.fields.items()]
        r.shuffle(words)
        at = r.randint(0, len(words))
        parties = ["party=" + ",".join(map(hexed, one)) for one in self.parties]
        return " ".join(words[:at] + parties + words[at:])


def word(value):
    return f"d{value.whole}.{value.places}" if isinstance(value, model.Decimal) else f"b{hexed(value)}"


def good_party(r):
    return tuple(good_value(r, tag, LISTED[tag]) for tag in model.PARTY_TAGS)


def asked(r, session, report, time, lent, store=None):
    store = any_store(r) if store is None else store
    session.gapped(r, time, 0.2)
    return " ".join(filter(None, ["report", str(time), str(lent), session.words() + store, report.words(r)]))


def answered(session, report, time, lent=4096):
    """What the model answers: a refusal or None, and the reply."""
    record = model.record_of(session.words().split(" "))
    outcome = model.report(record, model.Values(report.fields, report.parties), time, lent)
    return outcome.refusal, outcome.reply


def exact_room(r, session, report, time):
    """The report's exact length, one less, one more, or any other."""
    refusal, reply = answered(session, report, time)
    if refusal or chance(r, 0.3):
        return r.choice(ROOMS)
    return len(reply) + r.choice((-1, 0, 0, 1, 64))


# ---- One fault in the values -----------------------------------------------------------------------------------------

def absent(r, report):
    if report.fields:
        report.fields.pop(r.choice(tuple(report.fields)))


def at_an_edge(r, report):
    tag = r.choice(model.VALUE_TAGS)
    if tag in model.DECIMALS:
        return decimal_at_an_edge(r, report)
    report.fields[tag] = r.choice((edge_value(r, tag), edge_value(r, tag), b"", BAR, b"x" + BAR, good_value(r, tag) + BAR))
    return None


def decimal_at_an_edge(r, report):
    report.fields[r.choice((31, 32))] = model.Decimal(r.choice(WHOLES), r.choice(PLACES))


def foreign(r, report):
    report.fields[r.choice(FOREIGN_TAGS)] = r.choice((b"", b"1", b"x", model.Decimal(1, 0)))


def party_at_an_edge(r, report):
    one = list(good_party(r))
    at = r.randrange(3)
    one[at] = r.choice((edge_value(r, model.PARTY_TAGS[at]), b"", BAR, one[at] + BAR, one[at] * 33))
    report.parties.insert(r.randint(0, len(report.parties)), tuple(one))


def too_many_parties(r, report):
    report.parties = [good_party(r) for _ in range(r.choice((9, 9, 10, 16, 257)))]


VALUE_FAULTS = (absent, at_an_edge, at_an_edge, at_an_edge, decimal_at_an_edge, decimal_at_an_edge, foreign, party_at_an_edge,
                party_at_an_edge, too_many_parties)


# ---- Lengths ---------------------------------------------------------------------------------------------------------

def stretch(r, report, by):
    """Strings of the report made longer by so many bytes, each up to 32."""
    for tag in STRETCHED:
        if tag in report.fields:
            more = min(by, 32 - len(report.fields[tag]))
            report.fields[tag] += filler(r, more)
            by -= more
    for at, (party_id, *rest) in enumerate(report.parties):
        more = min(by, 32 - len(party_id))
        report.parties[at] = (party_id + filler(r, more), *rest)
        by -= more


def report_length(r):
    """Around 512 bytes, with a buffer that is long enough, or short by one."""
    session, report, time = Session(r, ACTIVE), Report(r, r.choice((6, 7, 8, 8))), r.choice((CALL_TIME, END - 1))
    report.parties = [(party_id[:4], *rest) for party_id, *rest in report.parties]
    refusal, reply = answered(session, report, time)
    length = r.choice((509, 510, 511, 512, 512, 513, 514))
    if not refusal:
        stretch(r, report, max(0, length - len(reply)))
    yield asked(r, session, report, time, r.choice((length, length, length - 1, length + 1, 512, 511, 513, 0, 4096)))


def report_longest(r):
    """Everything at its longest: CompIDs, numbers, strings, decimals, eight parties or fewer."""
    session, report = Session(r, ACTIVE), Report(r, r.choice((3, 4, 5, 6, 8)))
    session.ours, session.peer, session.next_out = b"G" * 11, b"M" * 11, r.choice((999999989, 999999990))
    report.fields.update({32: model.Decimal(10 ** 15 - 1, 8), 31: model.Decimal(r.choice((0, 1, 10 ** 15 - 1)), 8),
                          64: b"20240104", 1427: b"E"})
    stretch(r, report, 1000)
    time = END - 1
    yield asked(r, session, report, time, exact_room(r, session, report, time))


# ---- The request -----------------------------------------------------------------------------------------------------

def report_clean(r):
    session, report, time = Session(r, ACTIVE), Report(r), call_time(r)
    yield asked(r, session, report, time, exact_room(r, session, report, time))


def report_faulty(r):
    session, report, time = Session(r, ACTIVE), Report(r), call_time(r)
    for _ in range(r.choice((1, 1, 1, 2))):
        r.choice(VALUE_FAULTS)(r, report)
    yield asked(r, session, report, time, exact_room(r, session, report, time))


def report_any(r):
    """Any record and any time; clean but for one in three."""
    session, report, time = any_session(r, spoilt=0.1), Report(r), call_time(r)
    if chance(r, 0.3):
        r.choice(VALUE_FAULTS)(r, report)
    yield asked(r, session, report, time, r.choice(ROOMS))


def report_parties(r):
    """None to nine."""
    session, report, time = Session(r, ACTIVE), Report(r, r.randint(0, 9)), CALL_TIME
    report.parties = [(party_id[:8], *rest) for party_id, *rest in report.parties]
    yield asked(r, session, report, time, r.choice((512, exact_room(r, session, report, time))))


def report_of_nothing(r):
    report = Report(r, 0)
    report.fields = {}
    yield asked(r, any_session(r), report, call_time(r), r.choice(ROOMS))


def report_several_refusals(r):
    """Each of the refusals' causes by chance, to see their order."""
    session, report = Session(r, r.choice((ACTIVE, ACTIVE, ACTIVE, WAITING, CLOSED))), Report(r)
    if chance(r, 0.4):
        setattr(session, r.choice(("expected", "next_out")), r.choice(USED_UP + (999999990,)))
    if chance(r, 0.15):
        session.spoil(r)
    if chance(r, 0.4):
        report.parties = [good_party(r) for _ in range(8)]
        stretch(r, report, 1000)
    if chance(r, 0.4):
        r.choice(VALUE_FAULTS)(r, report)
    yield asked(r, session, report, r.choice((CALL_TIME, CALL_TIME, 0, END - 1, END, MAX)), r.choice((4096, 512, 200, 0)))


def report_along(r):
    """A session as it goes, with reports among its steps and ticks: each takes the record that the one before gave."""
    words, store, time = "4757 4d4d 1 1 1 30 0" + AT_REST, LENT, r.choice((0, CALL_TIME))
    for _ in range(r.randint(3, 12)):
        time += r.choice((0, 1, 999999, 1000000, 30000000))
        session, report = Session(r, ACTIVE), Report(r)
        session.ours, session.peer = OURS, PEER
        status, session.expected, session.next_out = map(int, words.split(" ")[2:5])
        frame = framed(joined(incoming(r, session, b"A" if status == WAITING else None)))
        request = r.choice((f"report {time} 512 {words}{store} {report.words(r)}",
                            f"report {time} 512 {words}{store} {report.words(r)}",
                            f"step {time} {LEAST_REPLY_ROOM} {hexed(frame)} {words}{store}",
                            f"tick {time} {LEAST_REPLY_ROOM} {words}"))
        if status == CLOSED and chance(r, 0.7):
            request = f"reconnect {words}"
        yield request
        words, store = left_by(request, model.answer(request), store)


def written_body(r):
    """The body of a report that a call wrote."""
    refusal, reply = 8, b""
    while refusal:
        refusal, reply = answered(Session(r, ACTIVE), Report(r, r.randint(0, 4)), CALL_TIME)
    start, end = model.good_frame(reply)
    return reply[start:end - model.TRAILER]


# How often each comes, beside the others of mixture.py.
WEIGHTS = {
    report_clean: 4, report_faulty: 5, report_any: 2, report_parties: 1, report_of_nothing: 0.2, report_several_refusals: 1.5,
    report_length: 1.5, report_longest: 1, report_along: 0.15,
}
