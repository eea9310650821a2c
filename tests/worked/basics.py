"""What the worked cases are made with: one assertion, messages as text, a record, and a step's outcome in short."""
import model
from model import ACTIVE, NO_GAP, Gap, Record

HELD = 0
AT = 1_704_187_800_000_000                              # 20240102-09:30:00.000000
NOW = "20240102-09:30:00.000000"
ROOM = model.LEAST_REPLY_ROOM
NO_REPLAY = " 0 0" if 4 in model.LANDED else ""         # behind the first seven words of a record
NONE_OPEN = " 0 0 0 0" if 5 in model.LANDED else ""     # no gap, behind these
AT_REST = NO_REPLAY + NONE_OPEN
LENT = " 32768" if 4 in model.LANDED else ""            # an empty store, behind a whole record


def same(got, wanted):
    global HELD
    assert got == wanted, f"\n   got {got!r}\nwanted {wanted!r}"
    HELD += 1


def raw(text):
    return text.replace("|", "\x01").encode("latin-1")


def framed(body):
    """The good frame around a body."""
    front = raw("8=FIXT.1.1|9=%d|" % len(body)) + body
    return front + raw("10=%03d|" % (sum(front) % 256))


def is_good(frame):
    found = model.good_frame(frame)
    return found is not None and found[1] == len(frame)


# ---- Messages -------------------------------------------------------------------------------------------------------

HEADER = "49=MM|56=GW|34={n}|52=20240102-09:30:00|"
PARTY = "448=P|447=D|452=1|"
FIELDS = {
    "0": "", "1": "112=T|", "2": "7=1|16=0|", "3": "45=1|", "4": "36=9|", "5": "", "A": "98=0|108=30|1137=9|",
    "F": "11=a|41=b|54=1|48=c|22=8|60=20240102-09:30:00|",
    "AD": "568=a|569=0|22=8|48=c|580=1|75=20240102|",
}
AE_FRONT = "571=R|828=0|60=20240102-09:30:00|32=100|31=12.50|574=4|48=c|22=8|"
if 1 in model.LANDED:
    FIELDS["AE"] = AE_FRONT + "552=1|54=1|"


def body(msg_type, fields=None, n=5, header=HEADER):
    own = FIELDS[msg_type] if fields is None else fields
    return raw(f"35={msg_type}|" + header.format(n=n) + own)


def found(text):
    """The verdict on a body given as text."""
    whole = raw(text)
    assert model.is_body(whole), text
    return model.verdict(whole)


def finding(msg_type, fields=None, header=HEADER):
    return model.verdict(body(msg_type, fields, header=header))


F_FIELDS, AD_FIELDS = FIELDS["F"], FIELDS["AD"]


# ---- Session --------------------------------------------------------------------------------------------------------

def record(status=ACTIVE, expected=5, next_out=3, heartbeat=30, last=7, at=0, to=0, gap=NO_GAP):
    return Record(b"GW", b"MM", status, expected, next_out, heartbeat, last, at, to, gap)


def gap(highest, expected=5, asked=AT):
    """The gap that is open behind a too-high frame; none before Q-5."""
    return Gap(1, expected, highest, asked) if 5 in model.LANDED else NO_GAP


def stepped(incoming, before=None, time=AT, room=ROOM):
    """(refusal, delivered, reply's bodies without header, record) of a step."""
    outcome = model.step(before or record(), framed(incoming), time, room)
    return outcome.refusal, outcome.delivered, bodies(outcome.reply), outcome.record


def no_time_first_sent(named):
    """What a duplicate number 4 is answered of which 122 is there and is no time: nothing before Q-6, then a Reject that names
    the type so."""
    if 6 in model.LANDED:
        return None, False, [f"35=3|34=3|45=4|371=122|{named}373=6|"], after(wrote=1)
    return None, False, [], record()


def bodies(reply):
    """The messages of a reply as text, each checked to be whole and clean; the constant header parts taken out."""
    messages = []
    frames, pending = model.read_in_pieces([reply])
    assert pending == b"" and b"".join(frame for _, frame in frames) == reply
    for _, frame in frames:
        start, end = model.good_frame(frame)
        inner = frame[start:end - 7]
        assert model.verdict(inner) is None, inner
        text = inner.decode("latin-1").replace("\x01", "|")
        assert "|49=GW|56=MM|34=" in text and f"|52={NOW}|" in text, text
        messages.append(text.replace("|49=GW|56=MM|", "|").replace(f"52={NOW}|", "").replace(NOW, "NOW"))
    return messages


def after(**changes):
    """The record of `record()` after a step that wrote something (`wrote` messages with new numbers)."""
    wrote = changes.pop("wrote", 0)
    changed = record(**changes)
    changed.next_out += wrote
    changed.last_sent = AT if wrote or changes.get("last") is AT else changed.last_sent
    return changed
