"""The report call (Q-1): literal frames, what it leaves in the record, refusals in order, values, lengths, reading back."""
import model
from model import ACTIVE, CLOSED, WAITING, Decimal, Record, Values

from .basics import AT, NOW, after, raw, record, same

LATE = 253_402_300_800_000_000
SHORTEST = {571: b"T1", 828: b"0", 60: b"20240102-09:29:59", 32: Decimal(100, 0), 31: Decimal(1250, 2), 574: b"4",
            48: b"133215", 22: b"8", 54: b"1"}
FULL = {571: b"T1", 828: b"99", 60: b"20240102-09:29:59.123456", 32: Decimal(5, 2), 31: Decimal(0, 0), 64: b"20240104",
        574: b"22", 48: b"133215", 22: b"8", 54: b"2", 1427: b"DESK"}
PARTIES = [(b"ALPHA", b"D", b"1"), (b"B", b"D", b"76")]
SHORTEST_FRAME = raw(
    "8=FIXT.1.1|9=133|35=AE|49=GW|56=MM|34=3|52=20240102-09:30:00.000000|571=T1|828=0|60=20240102-09:29:59|32=100|31=12.50|"
    "574=4|48=133215|22=8|552=1|54=1|10=078|")
FULL_FRAME = raw(
    "8=FIXT.1.1|9=208|35=AE|49=GW|56=MM|34=3|52=20240102-09:30:00.000000|571=T1|828=99|60=20240102-09:29:59.123456|32=0.05|"
    "31=0|64=20240104|574=22|48=133215|22=8|552=1|54=2|1427=DESK|453=2|448=ALPHA|447=D|452=1|448=B|447=D|452=76|10=253|")


def values(parties=(), **changes):
    """SHORTEST with some values changed, t571 for 571; None takes one away."""
    fields = {**SHORTEST, **{int(name[1:]): value for name, value in changes.items()}}
    return Values({tag: value for tag, value in fields.items() if value is not None}, list(parties))


def reported(given, before=None, time=AT, room=512):
    return model.report(before or record(), given, time, room)[:4]


def refusal(room=512, parties=(), **changes):
    """The refusal of a report while Active, which leaves the record as it is; None if it goes out."""
    number, _, reply, left = reported(values(parties, **changes), room=room)
    assert number is None or (reply, left) == (b"", record())
    return number


def test_literal_frames():
    same(reported(values()), (None, False, SHORTEST_FRAME, after(wrote=1)))
    same(reported(Values(FULL, PARTIES)), (None, False, FULL_FRAME, after(wrote=1)))
    same((len(SHORTEST_FRAME), len(FULL_FRAME)), (157, 232))
    for frame in SHORTEST_FRAME, FULL_FRAME:
        same(model.read(frame), (True, 0, len(frame)))


def test_room():
    """There is no 6: a buffer that holds the report is enough."""
    for room, wanted in (0, 9), (156, 9), (157, None), (158, None), (511, None), (512, None):
        same(refusal(room), wanted)


def test_record():
    """The next number out, and the call's time as last sent, also where the clock went back; E is let alone."""
    for last in 0, AT + 1, 2**64 - 1:
        same(reported(values(), record(last=last))[3], record(next_out=4, last=AT))
    same(reported(values(), time=0)[3], record(next_out=4, last=0))
    same(b"|52=19700101-00:00:00.000000|".replace(b"|", model.BAR) in reported(values(), time=0)[2], True)
    same(reported(values(), record(next_out=999_999_990))[3], record(next_out=999_999_991, last=AT))
    same(reported(values(), record(expected=999_999_990))[0], None)


def test_refusals_in_order():
    """A call that has several faults at once, of which one after the other is mended: 11, 7, 2, 5, 8, 12, 9."""
    long = [(b"x" * 32, b"D", b"76")] * 8
    bad, too_long = values(long, t571=b""), values(long)

    def told(before, given, time, room):
        number, _, reply, left = model.report(before, given, time, room)[:4]
        return number, left == before, reply
    broken, used_up = {"heartbeat": 0, "expected": 999_999_991}, {"expected": 999_999_991}
    for status in WAITING, CLOSED:
        same(told(record(status=status, **broken), bad, LATE, 0), (11, True, b""))
        same(told(record(status=status, **used_up), bad, LATE, 0), (7, True, b""))
        same(told(record(status=status, **used_up), bad, LATE - 1, 0), (2, True, b""))
        same(told(record(status=status), values(), AT, 512), (2, True, b""))
    for numbers in used_up, {"next_out": 999_999_991}, {"next_out": 999_999_999}:
        same(reported(bad, record(**numbers), LATE - 1, 0), (5, False, b"", record(status=CLOSED, **numbers)))
    same(told(record(), bad, LATE - 1, 0), (8, True, b""))
    same(told(record(), too_long, LATE - 1, 0), (12, True, b""))
    same(told(record(), too_long, LATE - 1, 4096), (12, True, b""))
    same(told(record(), values(), LATE - 1, 0), (9, True, b""))
    same(told(record(), values(), LATE - 1, 512)[0], None)
    same(told(Record(b"", b"MM", ACTIVE), values(), AT, 512), (11, True, b""))


def test_required_values():
    for tag in SHORTEST:
        same(refusal(**{f"t{tag}": None}), 8)
    for tag in 64, 1427:
        same(refusal(**{f"t{tag}": b""}), 8)                        # empty isn't absent
    same(model.report(record(), Values({}, []), AT, 512).refusal, 8)
    for tag in 0, 8, 35, 34, 49, 52, 447, 448, 452, 453, 552, 58, 9999, 2**64 - 1:
        same(refusal(**{f"t{tag}": b"1"}), 8)                       # no value of a report
        same(refusal(**{f"t{tag}": Decimal(1, 0)}), 8)


def test_lists_and_strings():
    for tag, good, bad in ((828, "0 54 99", "5 00 9 x"), (574, "2 4 7 22", "1 3 24 02"), (22, "8", "4 08 88"),
                           (54, "1 2", "3 0 12 x"), (60, "20240229-00:00:00 00010101-00:00:60.123",
                                                     "20230229-00:00:00 20240102 20240102-09:30:00.1 x"),
                           (64, "20240229 99991231", "20230229 2024022 20240229-00:00:00 00000101")):
        for value in good.split(" "):
            same(refusal(**{f"t{tag}": value.encode()}), None)
        for value in bad.split(" "):
            same(refusal(**{f"t{tag}": value.encode()}), 8)
    for tag in 571, 48, 1427:
        for value, wanted in ((b"x" * 32, None), (b"x" * 33, 8), (b"x" * 3000, 8), (b"", 8), (b"a\x01b", 8), (b"\x01", 8),
                              (b"a=b", None), (b"\x00\xff", None)):
            same(refusal(**{f"t{tag}": value}), wanted)


def test_decimals():
    for tag in "t31", "t32":
        for whole, places in (0, 0), (0, 8), (1, 8), (999_999_999_999_999, 0), (999_999_999_999_999, 8):
            same(refusal(**{tag: Decimal(whole, places)}), None)
        for whole, places in ((0, 9), (5, 9), (10**15, 0), (10**15, 8), (2**64 - 1, 0), (0, 2**64 - 1), (1, 2**32 + 2),
                              (2**64 - 1, 2**64 - 1), (10**15 + 5, 1)):
            same(refusal(**{tag: Decimal(whole, places)}), 8)


def test_parties():
    party = (b"P", b"D", b"1")
    for count in range(9):
        number, _, reply, _ = reported(values([party] * count))
        same((number, reply.count(b"\x01448=P\x01447=D\x01452=1")), (None, count))
        same(b"453=%d\x01" % count in reply, count > 0)
    for count in 9, 10, 256, 257:
        same(refusal(parties=[party] * count), 8)
    for place, goods, bads in ((0, (b"x" * 32, b"=", b"\x00"), (b"x" * 33, b"", b"a\x01")),
                               (1, (b"D",), (b"", b"d", b"DD", b"C")),
                               (2, (b"1", b"3", b"12", b"17", b"76"), (b"", b"2", b"01", b"77", b"x"))):
        for value in goods + bads:
            changed = party[:place] + (value,) + party[place + 1:]
            same(refusal(parties=[party, changed]), None if value in goods else 8)


def test_lengths():
    """511, 512 and 513 bytes: each party of one byte takes 18; SHORTEST has 157, and 6 for the count."""
    def stretched(extra):
        sizes = [min(32, 1 + max(0, extra - 31 * at)) for at in range(8)]
        return values([(b"x" * size, b"D", b"1") for size in sizes])
    same(len(reported(stretched(0))[2]), 157 + 6 + 8 * 18)
    for length, wanted in (510, None), (511, None), (512, None), (513, 12), (514, 12):
        number, _, reply, _ = reported(stretched(length - 307), room=4096)
        same((number, len(reply)), (wanted, 0 if wanted else length))
    for room, wanted in (511, 9), (512, None):
        same(reported(stretched(512 - 307), room=room)[0], wanted)
    same(reported(stretched(513 - 307), room=0)[0], 12)             # 12 before 9
    same(reported(stretched(512 - 307), record(next_out=10), room=4096)[0], 12)


def test_reading_back():
    for given in values(), Values(FULL, PARTIES), values(PARTIES * 4), values(t64=b"20240104"), values(t1427=b"a=b"):
        reply = reported(given)[2]
        start, end = model.good_frame(reply)
        same(model.verdict(reply[start:end - 7]), None)
        same(model.values_in(reply[start:end - 7]), given)


def test_reading_another_engine():
    """Members in another order, fields behind the group, a time of another look."""
    body = raw("35=AE|34=9|52=20240102-09:30:00|56=GW|49=MM|552=1|54=2|453=2|448=P|452=3|447=D|448=Q|447=D|452=1|1427=E|"
               f"22=8|48=c|574=2|31=0.10|32=7|60={NOW}|828=54|571=R|")
    same(model.verdict(body), None)
    same(model.values_in(body),
         Values({571: b"R", 828: b"54", 60: NOW.encode(), 32: Decimal(7, 0), 31: Decimal(10, 2), 574: b"2", 48: b"c",
                 22: b"8", 54: b"2", 1427: b"E"}, [(b"P", b"D", b"3"), (b"Q", b"D", b"1")]))
