"""Requests of Q-1 on bodies and frames: `verdict`, `report-values` and `step` with reports, and new tags in old messages."""
import model
from model import ACTIVE, CLOSED, WAITING

from .basics import BAR, TYPES, byte_mutated, chance, filler, framed, hexed, joined
from .bodies import any_type, message, part, tag_of
from .faults import faulty, place
from .groups import with_group
from .incoming import asked_step, comp_ids, duplicate_marks, number_in, text
from .records import Session, any_session
from .reports import written_body
from .sides import faulty_side, in_three
from .values import edge_value, good_value

NEW_TAGS = (571, 31, 32, 64, 574, 552, 1427)
OLD_TYPES = TYPES[:9]


def asked(r, body):
    return r.choice(("verdict ", "verdict ", "report-values ")) + hexed(body)


def clean_report(r, given=()):
    return [piece for row in in_three(r, given) for piece in row]


def verdict_report(r):
    yield asked(r, joined(clean_report(r)))


def verdict_report_groups(r):
    parts = faulty_side(r)
    if chance(r, 0.1):
        faulty(r, parts, most=1)
    yield asked(r, joined(parts))


def verdict_report_faulty(r):
    yield asked(r, joined(faulty(r, clean_report(r), most=2)))


def verdict_report_edge(r):
    """One tag of a report at an edge of its kind, 31, 32 and 64 more often."""
    parts = clean_report(r, {64: b"20240104"} if chance(r, 0.5) else {})
    at = place(r, parts)
    if chance(r, 0.6):
        wanted = r.choice((31, 32, 64 if part(64, b"20240104") in parts else 31))
        at = next(at for at, piece in enumerate(parts) if tag_of(piece) == wanted)
    parts[at] = part(tag_of(parts[at]), edge_value(r, tag_of(parts[at])))
    yield asked(r, joined(parts))


def verdict_report_missing(r):
    """One to three required tags that stand next to each other in the dictionary left out."""
    required = [tag for tag, entry in model.MESSAGES[b"AE"].items() if entry.required and tag != 552]
    at = r.randrange(len(required))
    parts = clean_report(r, {tag: None for tag in required[at:at + r.choice((1, 2, 2, 3))]})
    yield asked(r, joined(parts))


def verdict_new_tag(r):
    """A new tag in one of the nine old messages, anywhere, in a group too."""
    parts = with_group(r)[0] if chance(r, 0.3) else message(r, r.choice(OLD_TYPES))
    tag = r.choice(NEW_TAGS)
    value = r.choice((good_value(r, tag), good_value(r, tag), edge_value(r, tag), b""))
    parts.insert(r.randint(1, len(parts)), part(tag, value))
    yield asked(r, joined(parts))


def verdict_828(r):
    """The one tag with two lists, in both messages and in another."""
    msg_type = r.choice((b"AD", b"AD", b"AE", b"AE", b"F"))
    parts = message(r, msg_type, {828: None})
    parts.append(part(828, r.choice((b"0", b"54", b"99", b"99", b"9", b"5", b"00", b""))))
    yield asked(r, joined(parts))


def values_of_any(r):
    """Reading back what may be no report: any message, clean or not, any bytes."""
    parts = message(r, any_type(r))
    body = joined(faulty(r, parts) if chance(r, 0.3) else parts)
    others = b"", b"35=\x01", b"35=AE\x01", b"35=AEx", b"36=AE\x01", (b"35=AE\x0158=" + filler(r, 2050))[:2047] + BAR
    yield "report-values " + hexed(r.choice(others) if chance(r, 0.1) else body)


def values_byte(r):
    yield "report-values " + hexed(byte_mutated(r, joined(clean_report(r))))


def values_written(r):
    """Reading back what a report call wrote."""
    yield "report-values " + hexed(written_body(r))


def own_report(r, session, number, marks=()):
    """A report for a session, clean or with a fault of any kind."""
    given = {**comp_ids(r, session), 34: number, **dict(marks)}
    parts = r.choice((clean_report, clean_report, faulty_side))(r, given)
    return faulty(r, parts, most=1) if chance(r, 0.2) else parts


def step_report(r):
    """Every status, every position towards the expected number."""
    session = any_session(r)
    yield asked_step(r, session, framed(joined(own_report(r, session, number_in(r, session), duplicate_marks(r)))))


def step_report_in_turn(r):
    """For us, from the peer and in turn, whatever is wrong with it; or just below or above."""
    session = Session(r, r.choice((ACTIVE, ACTIVE, ACTIVE, ACTIVE, WAITING, CLOSED)))
    number = max(1, session.expected + r.choice((0, 0, 0, 0, -1, 1)))
    given = {49: session.peer, 56: session.ours, 34: text(number)}
    parts = r.choice((clean_report, faulty_side))(r, given)
    yield asked_step(r, session, framed(joined(faulty(r, parts) if chance(r, 0.3) else parts)))


def step_report_too_low(r):
    session = Session(r, ACTIVE)
    session.expected = max(2, session.expected)
    given = {49: session.peer, 56: session.ours, 34: text(session.expected - 1), **duplicate_marks(r)}
    yield asked_step(r, session, framed(joined(r.choice((clean_report, faulty_side))(r, given))))


def step_new_tag(r):
    """One of the nine in turn with a new tag."""
    session = Session(r, ACTIVE)
    parts = message(r, r.choice(OLD_TYPES), {49: session.peer, 56: session.ours, 34: text(session.expected)})
    tag = r.choice(NEW_TAGS)
    parts.insert(r.randint(1, len(parts)), part(tag, r.choice((good_value(r, tag), edge_value(r, tag)))))
    yield asked_step(r, session, framed(joined(parts)))


# How often each comes, beside the others of mixture.py.
WEIGHTS = {
    verdict_report: 2, verdict_report_groups: 7, verdict_report_faulty: 2, verdict_report_edge: 4,
    verdict_report_missing: 1, verdict_new_tag: 2, verdict_828: 0.5, values_of_any: 1.5, values_byte: 0.5,
    values_written: 1.5, step_report: 2, step_report_in_turn: 2, step_report_too_low: 0.5, step_new_tag: 0.5,
}
