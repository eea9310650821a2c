"""Refusals in order, the record's ranges, new session and reconnect, the tick, the largest reply."""
import model
from model import ACTIVE, CLOSED, WAITING, Record

from .basics import AT, ROOM, after, bodies, body, framed, record, same, stepped


def test_refusals_of_a_step_in_order():
    """A call that has several faults at once, of which one after the other is mended: 11, 10, 7, 6, 2, 5."""
    good, bad = framed(body("0")), framed(body("0"))[:-1]
    late = 253_402_300_800_000_000
    used_up = record(status=CLOSED, expected=999_999_991)
    broken = record(status=3, expected=999_999_991)

    def refusal(before, frame, time, room):
        outcome = model.step(before, frame, time, room)
        return outcome.refusal, outcome.record == before, outcome.reply
    same(refusal(broken, bad, late, ROOM - 1), (11, True, b""))
    same(refusal(used_up, bad, late, ROOM - 1), (10, True, b""))
    same(refusal(used_up, good, late, ROOM - 1), (7, True, b""))
    same(refusal(used_up, good, late - 1, ROOM - 1), (6, True, b""))
    same(refusal(used_up, good, late - 1, ROOM), (2, True, b""))
    for status in WAITING, ACTIVE:
        for numbers in {"expected": 999_999_991}, {"next_out": 999_999_991}:
            same(model.step(record(status=status, **numbers), good, late - 1, ROOM)[:4],
                 (5, False, b"", record(status=CLOSED, **numbers)))
    same(model.step(record(next_out=999_999_990), framed(body("0", n=6)), AT, ROOM).record.next_out, 999_999_991)
    for frame in good + b"x", b"x" + good, b"", good + good:
        same(refusal(record(), frame, AT, ROOM), (10, True, b""))


def test_ranges_of_the_record():
    for bad in (Record(b"", b"MM"), Record(b"x" * 12, b"MM"), Record(b"G\x01", b"MM"), Record(b"GW", b""),
                Record(b"GW", b"x" * 12), Record(b"GW", b"M\x01"), record(status=3), record(status=2**64 - 1),
                record(expected=0), record(expected=10**9), record(next_out=0), record(next_out=10**9),
                record(heartbeat=0), record(heartbeat=61), record(heartbeat=2**64 - 1)):
        same(model.in_range(bad), False)
        same(model.reconnect(bad), (11, bad))
        same(model.step(bad, b"", 0, 0)[:4], (11, False, b"", bad))
        same(model.tick(bad, 0, 0)[:4], (11, False, b"", bad))
    for good in (record(), record(last=2**64 - 1), record(status=CLOSED, expected=999_999_999, next_out=999_999_999),
                 record(heartbeat=1), record(heartbeat=60), Record(b"x" * 11, b"y")):
        same(model.in_range(good), True)


def test_new_and_reconnect():
    same(model.new_session(b"GW", b"MM"), (None, Record(b"GW", b"MM", WAITING, 1, 1, 30, 0)))
    for ours, peer in (b"", b"MM"), (b"GW", b""), (b"x" * 12, b"MM"), (b"GW", b"x\x01"):
        same(model.new_session(ours, peer), (11, Record(b"", b"", CLOSED, 1, 1, 30, 0)))
    for status in WAITING, ACTIVE, CLOSED:
        same(model.reconnect(record(status=status, heartbeat=7)), (None, record(status=WAITING, heartbeat=7)))


def test_tick():
    def ticked(before, time=AT, room=ROOM):
        return model.tick(before, time, room)[:4]
    late = 253_402_300_800_000_000
    for status in WAITING, ACTIVE, CLOSED:
        same(ticked(record(status=status), late, ROOM - 1), (7, False, b"", record(status=status)))
        same(ticked(record(status=status), late - 1, ROOM - 1), (6, False, b"", record(status=status)))
    for status in WAITING, CLOSED:
        for numbers in {}, {"expected": 999_999_991}:
            same(ticked(record(status=status, **numbers)), (None, False, b"", record(status=status, **numbers)))
    for last in AT, AT - 1, 0:                                                  # even if nothing is due
        same(ticked(record(expected=999_999_991, last=last)),
             (5, False, b"", record(status=CLOSED, expected=999_999_991, last=last)))
    for last in AT - 29_999_999, AT, AT + 1, 2**64 - 1:                         # not due; a clock that went back
        same(ticked(record(last=last)), (None, False, b"", record(last=last)))
    for last in AT - 30_000_000, AT - 30_000_001, 0:
        refusal, _, reply, now = ticked(record(last=last))
        same((refusal, bodies(reply), now), (None, ["35=0|34=3|"], after(wrote=1)))


def test_last_sent_goes_back_with_the_clock():
    same(stepped(body("1"), record(last=2**64 - 1))[3].last_sent, AT)
    same(stepped(body("0"), record(last=2**64 - 1))[3].last_sent, 2**64 - 1)


def test_the_largest_reply():
    """All kinds of reply with both CompIDs and all numbers at their longest."""
    n, e = 999_999_990, 999_999_989
    before = Record(b"G" * 11, b"M" * 11, ACTIVE, e, n, 60, 0)
    header = f"49={'M' * 11}|56={'G' * 11}|34={{n}}|52=20240102-09:30:00|"

    def size(incoming, start=before):
        return len(model.step(start, framed(incoming), AT, ROOM).reply)
    logging_on = model.reconnect(before)[1]
    sizes = [size(body("2", f"7={n - 1}|16=0|", n=n, header=header)),
             size(body("AD", n=n, header=header.replace("G" * 11, "G"))),
             size(body("1", f"112={'x' * 64}|", n=e, header=header)),
             size(body("A", "98=0|108=60|1137=9|", n=n, header=header), logging_on)]
    same(max(sizes), 241 if 4 in model.LANDED else 269)             # no gap fill stands before another then
