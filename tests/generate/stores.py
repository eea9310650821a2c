"""Stores to lend (Q-4): what a place may hold, a report of this session or one damaged in any way, and stores made of them."""
import model
from model import ACTIVE, PLACE, PLACES, Record

from .basics import BAR, CALL_TIME, END, MARK, TYPES, byte_mutated, chance, framed, hexed, joined, noise
from .bodies import message, part
from .faults import faulty
from .records import TIMES
from .reports import Report, stretch
from .values import TIME_EDGES, edge_value

HEAD = 5                        # the fields of a report's header: 35, 49, 56, 34, 52


def sent_at(r):
    """A time at which a report went out."""
    return r.choice((CALL_TIME, CALL_TIME, CALL_TIME - r.randrange(10 ** 9), r.choice(TIMES), r.randrange(END)))


def kept_report(r, ours, peer, number, like=None):
    """The frame of a report as a call of this session writes it, of at most 512 bytes."""
    report = like or Report(r, r.choice((0, 0, 1, 2, 3)))
    if like is None and chance(r, 0.05):
        stretch(r, report, 100)
    values = model.Values(report.fields, report.parties)
    frame = model.written(Record(ours, peer, ACTIVE, next_out=number), values, sent_at(r))
    return frame if len(frame) <= PLACE else kept_report(r, ours, peer, number)


# ---- Damage: a frame to the bytes of a place -------------------------------------------------------------------------

def parts_of(frame):
    start, end = model.good_frame(frame)
    return model.parts(frame[start:end - model.TRAILER])


def reframed(parts):
    return framed(joined(parts))


def with_field(frame, place, *pieces):
    """One field of the header replaced by these."""
    parts = parts_of(frame)
    parts[place:place + 1] = pieces
    return reframed(parts)


def byte_changed(r, frame):
    return byte_mutated(r, frame)


def bit_changed(r, frame):
    at = r.randrange(len(frame))
    return frame[:at] + bytes([frame[at] ^ (1 << r.randrange(8))]) + frame[at + 1:]


def body_changed(r, frame):
    """A byte of the body changed, its length and its sum mended: it may still be a report."""
    start, end = model.good_frame(frame)
    return framed(byte_mutated(r, frame[start:end - model.TRAILER]))


def field_changed(r, frame):
    return reframed(faulty(r, parts_of(frame), most=1))


def fields_swapped(r, frame):
    """Two that stand beside each other, in the header or behind it."""
    parts = parts_of(frame)
    at = r.randrange(1, len(parts) - 1)
    parts[at], parts[at + 1] = parts[at + 1], parts[at]
    return reframed(parts)


def number_changed(r, frame):
    """34 at and behind the last usable number, or with zeros in front."""
    number = parts_of(frame)[3].partition(b"=")[2]
    others = (b"0" + number, b"000" + number, b"999999990", b"999999991", b"999999999", b"1000000000", b"0", b"", b"x",
              b"1", number + b"0", b"+" + number)
    return with_field(frame, 3, b"34=" + r.choice(others))


def time_changed(r, frame):
    """52 of another form, second 60, before 1970, off the calendar."""
    time = parts_of(frame)[4].partition(b"=")[2]
    others = (time[:17], time[:21], time[:15] + b"60" + time[17:], time[:15] + b"59" + time[17:], b"1969" + time[4:],
              b"1970" + time[4:], b"1899" + time[4:], b"0001" + time[4:], b"9999" + time[4:], b"19691231-23:59:59.999999",
              b"19700101-00:00:00.000000", b"99991231-23:59:59.999999", b"99991231-23:59:60.999999", time + b"0",
              r.choice(TIME_EDGES), r.choice(TIME_EDGES)[:17] + b".000000")
    return with_field(frame, 4, b"52=" + r.choice(others))


def transact_time_changed(r, frame):
    """60 is the host's own, and may be any clean one."""
    parts = parts_of(frame)
    parts[HEAD + 2] = part(60, r.choice((b"20240102-09:30:60", b"00010101-00:00:00.123", r.choice(TIME_EDGES))))
    return reframed(parts)


def parties_changed(r, frame):
    """Short ones, up to nine and none, or a count that is not theirs."""
    parts = [piece for piece in parts_of(frame) if not piece.startswith((b"453=", b"448=", b"447=", b"452="))]
    count = r.choice((0, 1, 7, 8, 8, 9, 9, 10))
    said = count if chance(r, 0.7) else r.choice((0, count - 1, count + 1, 8, 9))
    return reframed(parts + [b"453=%d" % max(0, said)] + [b"448=P", b"447=D", b"452=1"] * count)


def value_changed(r, frame):
    """One of the report's own at an edge of its kind."""
    parts = parts_of(frame)
    at = r.randrange(HEAD, len(parts))
    tag = model.cut(parts[at])[0]
    parts[at] = part(tag, edge_value(r, tag))
    return reframed(parts)


def marked(r, frame):
    """A header with more in it: as a duplicate, as our replay sends it, as another engine may."""
    time = parts_of(frame)[4].partition(b"=")[2]
    at = r.choice((3, 4))
    more = r.choice(([b"43=Y"], [b"43=N"], [b"43=Y", b"122=" + time], [b"97=N"], [b"1128=9"], [b"122=" + time]))
    parts = parts_of(frame)
    parts[at + 1:at + 1] = more
    return reframed(parts)


def of_another_peer(r, frame):
    at = r.choice((1, 2))
    piece = parts_of(frame)[at]
    return with_field(frame, at, r.choice((piece + b"X", piece[:-1] + b"?", piece[:3], piece[:3] + b"X" * 11, piece[:3] + b"X" * 12)))


def comp_ids_swapped(r, frame):
    parts = parts_of(frame)
    parts[1], parts[2] = b"49=" + parts[2][3:], b"56=" + parts[1][3:]
    return reframed(parts)


def not_at_the_start(r, frame):
    return r.choice((b"\0", b"x", BAR, b"\0" * 7, MARK, frame[:r.randint(1, 13)])) + frame


def bytes_behind(r, frame):
    """A byte behind the frame or at the place's end, zeros before it or not, or a second frame."""
    room = PLACE - len(frame)
    if room < 1:
        return frame
    return frame + r.choice((b"\1", b"\xff", b"0", b"\0" * (room - 1) + b"\1", b"\0\0x", frame))


def cut(r, frame):
    return frame[:r.randrange(len(frame))]


def length_changed(r, frame):
    """The length's digits: zeros in front, another number; the sum right for what stands there."""
    start, end = model.good_frame(frame)
    body = frame[start:end - model.TRAILER]
    digits = b"%d" % len(body)
    return framed(body, length=r.choice((b"0" + digits, b"00" + digits, b"%d" % (len(body) - 1), b"%d" % (len(body) + 1), b"99")))


def sum_changed(r, frame):
    digits = b"%03d" % ((int(frame[-4:-1]) + r.randint(1, 255)) % 256)
    return frame[:-4] + r.choice((digits, digits, b"256", b"   ")) + BAR


def another_message(r, frame):
    """Of any type, as a member may send it or as we do."""
    return framed(joined(message(r, r.choice(TYPES), {34: b"%d" % r.randint(1, 99)})))


def any_bytes(r, frame):
    return r.choice((noise(r, r.choice((1, 40, 512))), b"\xff" * PLACE, MARK, MARK + b"200", BAR * PLACE, b"\0" * 511 + b"\1"))


DAMAGES = (byte_changed, bit_changed, bit_changed, body_changed, field_changed, fields_swapped, number_changed, number_changed,
           time_changed, time_changed, transact_time_changed, parties_changed, value_changed, value_changed, marked,
           of_another_peer, comp_ids_swapped, not_at_the_start, bytes_behind, cut, length_changed, sum_changed, another_message,
           any_bytes)


# ---- Stores ----------------------------------------------------------------------------------------------------------

class Lent:
    """A store to lend: the bytes of its places, without zeros at their ends."""

    def __init__(self, places):
        self.places = places

    def word(self):
        """With a space in front, as it stands behind a record."""
        held = ((place, data[:PLACE].rstrip(b"\0")) for place, data in sorted(self.places.items()))
        return " 32768" + "".join(f",{place}={hexed(data)}" for place, data in held if data)


def numbers_near(r, session, count):
    """Numbers for reports, most of them in a replay's range or just outside it, seldom one twice."""
    last = min(session.next_out, 10 ** 9) - 1
    low, high = max(1, (session.at or last - 40) - 3), min(999_999_990, (session.to or last) + 3)
    high = max(low, high)
    low = low if high - low < 200 or chance(r, 0.3) else max(low, high - 100)
    found = [r.randint(low, high) for _ in range(count)]
    if chance(r, 0.4):
        start = r.randint(low, high)
        found = [min(999_999_990, start + place) for place in range(count)]
    if chance(r, 0.3):
        found[r.randrange(count)] = r.choice((session.at or 1, session.to or 1, 1, 999_999_990))
    return found


def damaged_here_and_there(r, places):
    """One place in three damaged, or one of them, or none; seldom a report twice, or one across two places."""
    share = r.choice((0, 0, 0.05, 0.3, 0.3, 1))
    for place, frame in places.items():
        if chance(r, share):
            places[place] = r.choice(DAMAGES)(r, frame)
    if places and chance(r, 0.15):
        places[r.randrange(PLACES)] = r.choice(tuple(places.values()))
    return places


def some_reports(r, session, count=None):
    """A store with some reports of this session in any places, some of them damaged."""
    count = count or r.choice((1, 2, 3, 5, 8))
    places = r.sample(range(PLACES), count) if chance(r, 0.6) else range(count)
    frames = (kept_report(r, session.ours, session.peer, number) for number in numbers_near(r, session, count))
    return Lent(damaged_here_and_there(r, dict(zip(places, frames))))


def full(r, session):
    """A report in every place, or in all but few; all alike but for number and time, so that they are soon made."""
    like = Report(r, r.choice((0, 1)))
    like.parties = [(party_id[:4], *rest) for party_id, *rest in like.parties]
    numbers = numbers_near(r, session, PLACES)
    if chance(r, 0.7):
        first = max(1, min(numbers[0], 999_999_990 - PLACES))
        numbers = list(range(first, first + PLACES))
        r.shuffle(numbers)
    places = {place: kept_report(r, session.ours, session.peer, number, like) for place, number in enumerate(numbers)}
    for place in r.sample(range(PLACES), r.choice((0, 0, 0, 1, 2))):
        places[place] = b"" if chance(r, 0.5) else r.choice(DAMAGES)(r, places[place])
    if chance(r, 0.2):
        places[r.randrange(PLACES)] = places[r.randrange(PLACES)]
    return Lent(places)


def any_reports(r, session):
    """Empty, with some reports, or full, as a word with its space."""
    if chance(r, 0.1):
        return Lent({}).word()
    return (full if chance(r, 0.08) else some_reports)(r, session).word()
