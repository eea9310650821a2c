"""Replays (Q-4): what starts, replaces and drops one, each message of one, the record's place, the refusals of the call."""
import model
from model import ACTIVE, CLOSED, NO_GAP, STORE, WAITING, Values

from .basics import AT, ROOM, after, bodies, body, framed, gap, raw, record, same, stepped
from .reporting import FULL, PARTIES, values
from .stores import reported, stored

LATER = AT + 60_000_000
FIELDS = "571=T1|828=0|60=20240102-09:29:59|32=100|31=12.50|574=4|48=133215|22=8|552=1|54=1|"


def fill(begin, end):
    return f"35=4|34={begin}|43=Y|122=NOW|123=Y|36={end + 1}|"


def again(number):
    return f"35=AE|34={number}|43=Y|122=20240102-09:29:00.000000|{FIELDS}"


def kept(*numbers):
    """A store of these reports, which went out a minute ago."""
    return stored(**{f"p{place}": reported(number, AT - 60_000_000) for place, number in enumerate(numbers)})


def played(before, store, most=100):
    """All messages of a replay, and the record behind them."""
    texts = []
    while before.at and most:
        outcome = model.replay(before, AT, ROOM, store)
        assert outcome.refusal is None and not outcome.delivered and outcome.record.next_out == before.next_out
        texts += bodies(outcome.reply)
        before, most = outcome.record, most - 1
    return texts, before


def test_literal_messages():
    store = model.report(record(next_out=3), Values(FULL, PARTIES), AT, 512).store
    outcome = model.replay(record(next_out=10, at=3, to=5), LATER, ROOM, store)
    same(outcome.reply, raw(
        "8=FIXT.1.1|9=242|35=AE|49=GW|56=MM|34=3|43=Y|52=20240102-09:31:00.000000|122=20240102-09:30:00.000000|571=T1|828=99|"
        "60=20240102-09:29:59.123456|32=0.05|31=0|64=20240104|574=22|48=133215|22=8|552=1|54=2|1427=DESK|453=2|448=ALPHA|"
        "447=D|452=1|448=B|447=D|452=76|10=115|"))
    same(outcome.record, record(next_out=10, last=LATER, at=4, to=5))
    outcome = model.replay(outcome.record, LATER, ROOM, store)
    same(outcome.reply, raw("8=FIXT.1.1|9=95|35=4|49=GW|56=MM|34=4|43=Y|52=20240102-09:31:00.000000|"
                            "122=20240102-09:31:00.000000|123=Y|36=6|10=097|"))
    same(outcome.record, record(next_out=10, last=LATER))


def test_runs():
    """Reports and longest runs of other numbers, in number order, whatever the places are."""
    for numbers, at, to, wanted in (
            ((), 1, 9, [fill(1, 9)]), ((), 4, 4, [fill(4, 4)]), ((5,), 1, 9, [fill(1, 4), again(5), fill(6, 9)]),
            ((1, 9), 1, 9, [again(1), fill(2, 8), again(9)]), ((9, 1), 1, 9, [again(1), fill(2, 8), again(9)]),
            ((3, 4, 5), 3, 5, [again(3), again(4), again(5)]), ((4, 2, 6), 2, 6, [again(2), fill(3, 3), again(4), fill(5, 5), again(6)]),
            ((2, 8), 3, 7, [fill(3, 7)]), ((2, 8), 2, 2, [again(2)]), ((8, 8, 3, 3), 3, 9, [again(3), fill(4, 7), again(8), fill(9, 9)]),
            ((12, 900_000_000), 1, 9, [fill(1, 9)])):
        texts, left = played(record(next_out=10, at=at, to=to), kept(*numbers))
        same((texts, left), (wanted, record(next_out=10, last=AT)))


def test_two_to_forty():
    """What was sent: reports at 3, 4, 20 and 39, everything else administrative; 16=0 asks up to the last one."""
    before = record(next_out=42)
    _, _, replies, started = stepped(body("2", "7=2|16=40|"), before)
    same((replies, started), ([], after(expected=6, next_out=42, at=2, to=40)))
    texts, left = played(started, kept(39, 4, 3, 20))
    same(texts, [fill(2, 2), again(3), again(4), fill(5, 19), again(20), fill(21, 38), again(39), fill(40, 40)])
    same(left, record(expected=6, next_out=42, last=AT))
    same(stepped(body("2", "7=2|16=0|"), before)[3], after(expected=6, next_out=42, at=2, to=41))


def test_starting_in_rule_4():
    """The replay starts and our Resend Request goes out; L is from before the step."""
    same(stepped(body("2", "7=1|16=0|", n=9), record(next_out=4)),
         (None, False, ["35=2|34=4|7=5|16=0|"], after(next_out=4, wrote=1, at=1, to=3, gap=gap(9))))
    same(stepped(body("2", "7=4|16=0|", n=9), record(next_out=4)),
         (None, False, ["35=2|34=4|7=5|16=0|"], after(next_out=4, wrote=1, gap=gap(9))))
    same(stepped(body("2", "7=3|16=4|", n=9), record(next_out=4)),
         (None, False, ["35=2|34=4|7=5|16=0|"], after(next_out=4, wrote=1, at=3, to=3, gap=gap(9))))


def test_starting_writes_nothing():
    """Last sent is let alone; the first message is due at once."""
    same(stepped(body("2", "7=1|16=0|"), record(next_out=4, last=99)),
         (None, False, [], record(expected=6, next_out=4, last=99, at=1, to=3)))


def test_replacing():
    running = record(next_out=10, at=4, to=8)
    for fields, at, to in ("7=1|16=0|", 1, 9), ("7=9|16=9|", 9, 9), ("7=4|16=8|", 4, 8), ("7=2|16=50|", 2, 9):
        for n, expected, wrote, left in (5, 6, 0, NO_GAP), (7, 5, 1, gap(7)):
            same(stepped(body("2", fields, n=n), running)[3],
                 after(expected=expected, next_out=10, wrote=wrote, at=at, to=to, gap=left))


def test_going_on():
    """A Resend Request that cannot be served or is not clean, one below E, and every other step that does not close."""
    running = record(next_out=10, at=4, to=8)
    for fields in "7=10|16=0|", "7=5|16=4|", "7=0|16=0|", "7=1|16=0|58=x|", "7=1|":
        same(stepped(body("2", fields), running)[3], after(expected=6, next_out=10, wrote=1, at=4, to=8))
        same(stepped(body("2", fields, n=6), running)[3], after(next_out=10, wrote=1, at=4, to=8, gap=gap(6)))
    header = "49=MM|56=GW|34={n}|52=20240102-09:30:00|43=Y|122=20240102-09:30:00|"
    same(stepped(body("2", "7=1|16=0|", n=4, header=header), running)[3], running)
    for msg_type in "0", "1", "3", "4", "A", "F", "AD", "AE":
        left = stepped(body(msg_type), running)[3]
        same((left.at, left.to, left.status), (4, 8, ACTIVE))
        left = stepped(body(msg_type, n=7), running)[3]
        same((left.at, left.to, left.status), (4, 8, ACTIVE))
    left = model.tick(record(next_out=10, at=4, to=8), AT, ROOM)
    same((bodies(left.reply), left.record), (["35=0|34=10|"], record(next_out=11, last=AT, at=4, to=8)))


def test_dropping():
    """Closing or a reconnect, by a refusal too."""
    running = record(next_out=10, at=4, to=8)
    for incoming in (body("5"), body("0", n=4), body("0", n="x"), body("0", header="49=XX|56=GW|34={n}|52=20240102-09:30:00|")):
        left = stepped(incoming, running)[3]
        same((left.status, left.at, left.to), (CLOSED, 0, 0))
    same(model.reconnect(running), (None, record(status=WAITING, next_out=10)))
    used_up = record(next_out=10, expected=999_999_991, at=4, to=8)
    for outcome in model.step(used_up, framed(body("0")), AT, ROOM), model.tick(used_up, AT, ROOM):
        same(outcome[:4], (5, False, b"", record(status=CLOSED, next_out=10, expected=999_999_991)))


def test_place_under_refusal_11():
    for status, next_out, at, to in ((ACTIVE, 10, 0, 1), (ACTIVE, 10, 1, 0), (ACTIVE, 10, 5, 4), (ACTIVE, 10, 1, 10),
                                     (ACTIVE, 10, 10, 10), (ACTIVE, 1, 1, 1), (ACTIVE, 10, 2**64 - 1, 2**64 - 1),
                                     (WAITING, 10, 1, 9), (CLOSED, 10, 1, 9), (WAITING, 10, 0, 9), (ACTIVE, 10, 1, 2**64 - 1)):
        broken = record(status=status, next_out=next_out, at=at, to=to)
        same(model.in_range(broken), False)
        same(model.replay(broken, 0, 0, b"")[:4], (11, False, b"", broken))
        same(model.reconnect(broken), (11, broken))
        same(model.step(broken, b"", 0, 0)[:4], (11, False, b"", broken))
        same(model.tick(broken, 0, 0)[:4], (11, False, b"", broken))
        same(model.report(broken, values(), 0, 0)[:4], (11, False, b"", broken))
    for at, to in (0, 0), (1, 1), (1, 9), (9, 9):
        same(model.in_range(record(next_out=10, at=at, to=to)), True)


def test_refusals_of_a_replay_call():
    """11, 14, 7, 6; no 2 and no 5: with none running nothing is due in every status."""
    late, running = 253_402_300_800_000_000, record(next_out=10, at=4, to=8)
    for size in 0, STORE - 1, STORE + 1:
        same(model.replay(running, late, 0, bytes(size))[:4], (14, False, b"", running))
    same(model.replay(running, late, 0, kept())[:4], (7, False, b"", running))
    same(model.replay(running, late - 1, 599, kept())[:4], (6, False, b"", running))
    same(model.replay(running, AT, 600, kept())[0], None)
    used_up = record(next_out=999_999_991, expected=999_999_999, at=4, to=8)
    same(bodies(model.replay(used_up, AT, 600, kept(4)).reply), [again(4)])
    for status in WAITING, ACTIVE, CLOSED:
        for idle in record(status=status), record(status=status, expected=999_999_991):
            same(model.replay(idle, AT, 600, kept(1, 2))[:4], (None, False, b"", idle))
            same(model.replay(idle, AT, 599, kept(1, 2))[0], 6)


def test_the_longest_message():
    """A report of 512 bytes again: 43=Y and 122 are 34 bytes more."""
    parties = [(b"x" * size, b"D", b"1") for size in (32, 32, 32, 32, 32, 32, 20, 1)]
    before = record(next_out=3)
    outcome = model.report(before, values(parties), AT, 512)
    same(len(outcome.reply), 512)
    same(len(model.replay(record(next_out=10, at=3, to=3), AT, ROOM, outcome.store).reply), 546)


def test_after_a_replay_reports_go_on():
    store = kept(2)
    texts, left = played(record(next_out=4, at=2, to=3), store)
    same(texts, [again(2), fill(3, 3)])
    outcome = model.report(left, values(), AT, 512, store)
    same((outcome.refusal, outcome.record), (None, record(next_out=5, last=AT)))
    same(played(record(next_out=5, at=1, to=4), outcome.store)[0],
         [fill(1, 1), again(2), fill(3, 3), again(4).replace("20240102-09:29:00.000000", "NOW")])
