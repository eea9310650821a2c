"""The store (Q-4): which report a place holds, the second of two, where a new one goes, what zeroes it."""
import model
from model import ACTIVE, CLOSED, PLACE, STORE, WAITING, Decimal, Record

from .basics import AT, HEADER, NOW, ROOM, body, framed, raw, record, same
from .reporting import FULL_FRAME, SHORTEST_FRAME, values

HEAD = "35=AE|49=GW|56=MM|34=3|52=20240102-09:30:00.000000|"
OWN = "571=T1|828=0|60=20240102-09:29:59|32=100|31=12.50|574=4|48=133215|22=8|552=1|54=1|"
PARTIED = OWN + "453=2|448=P|447=D|452=1|448=Q|447=D|452=76|"


def padded(frame):
    return frame + bytes(PLACE - len(frame))


def placed(text):
    return padded(framed(raw(text)))


def number_in(place, ours=b"GW", peer=b"MM"):
    found = model.kept_in(ours, peer, place)
    return found.number if found else None


def stored(**reports):
    """A store with these bytes in its places: p0 for place 0."""
    store = bytearray(STORE)
    for name, data in reports.items():
        at = PLACE * int(name[1:])
        store[at:at + len(data)] = data
    return bytes(store)


def reported(number, time=AT):
    return model.report(record(next_out=number), values(), time, 512).reply


def test_what_a_report_call_writes_is_kept():
    same(placed(HEAD + OWN), padded(SHORTEST_FRAME))
    for frame in SHORTEST_FRAME, FULL_FRAME:
        same(number_in(padded(frame)), 3)
    for text, number in ((HEAD + PARTIED, 3), (HEAD.replace("34=3", "34=999999990") + OWN, 999_999_990),
                         (HEAD.replace("20240102-09:30", "19700101-00:00") + OWN, 3),
                         (HEAD.replace("20240102-09:30:00.000000", "99991231-23:59:59.999999") + OWN, 3),
                         (HEAD + OWN.replace("60=20240102-09:29:59", "60=00010101-00:00:60.123"), 3),
                         (HEAD + OWN.replace("31=12.50", "31=12.5"), 3), (HEAD + OWN.replace("31=12.50", "31=0.00000000"), 3),
                         (HEAD + OWN.replace("574=4", "64=20240229|574=4") + "1427=E|", 3)):
        same(number_in(placed(text)), number)
    same(number_in(placed(HEAD.replace("MM", "A=B").replace("GW", "x") + OWN), b"x", b"A=B"), 3)
    same(model.kept_in(b"GW", b"MM", padded(FULL_FRAME)).time, AT)


def test_what_it_does_not_write_counts_as_empty():
    """Each is a good frame with a clean verdict but for what it is here for."""
    for old, new in (("34=3", "34=999999991"), ("34=3", "34=999999999"), ("34=3", "34=03"), ("34=3", "34=0"),
                     ("34=3|52=20240102-09:30:00.000000", "34=3|43=Y|52=20240102-09:30:00.000000|122=" + NOW),
                     ("34=3", "34=3|43=N"), ("34=3", "34=3|97=N"), ("34=3", "34=3|1128=9"),
                     ("09:30:00.000000", "09:30:00.000"), ("09:30:00.000000", "09:30:00"),
                     ("09:30:00.000000", "09:30:60.000000"), ("09:30:00.000000", "24:30:00.000000"),
                     ("52=2024", "52=1969"), ("52=2024", "52=0001"), ("52=20240102", "52=20230229"),
                     ("49=GW|56=MM", "56=MM|49=GW"), ("49=GW", "49=GX"), ("56=MM", "56=MX"), ("49=GW", "49=MM"),
                     ("35=AE", "35=AD"), ("35=AE", "35=0"), ("35=AE", "35=AF"),
                     ("571=T1|828=0", "828=0|571=T1"), ("31=12.50|574=4", "31=12.50|574=4|64=20240104"),
                     ("828=0|", ""), ("828=0", "828=1"), ("31=12.50", "31=012.50"), ("31=12.50", "31=12."),
                     ("31=12.50", "31=1000000000000000"), ("32=100", "32="), ("552=1", "552=2"), ("54=1", "54=3"),
                     ("571=T1", "571=" + "x" * 33), ("552=1|54=1", "54=1"), ("22=8", "22=8|9999=x"), ("22=8", "22=8|58=x"),
                     ("448=P|447=D|452=1", "448=P|452=1|447=D"), ("453=2", "453=1"), ("453=2", "453=3"), ("453=2", "453=02"),
                     ("|448=Q|447=D|452=76", ""), ("452=76", "452=76|448=R"), ("452=76", "452=76|1427=E")):
        text = HEAD + PARTIED
        assert old in text, old
        same(number_in(placed(text.replace(old, new, 1))), None)


def test_damaged_places():
    frame = SHORTEST_FRAME
    for place in (bytes(PLACE), b"\0" + padded(frame)[:-1], padded(frame + b"\1"), padded(frame + frame),
                  padded(frame)[:-1] + b"\1", padded(frame[:-1]), padded(frame[:-8]), b"\xff" * PLACE,
                  padded(framed(body("0"))), padded(framed(body("AE", header=HEADER)))):
        same(number_in(place), None)
    for at in range(len(frame)):                                                # the sum is wrong then
        for bit in 1, 128:
            same(number_in(padded(frame[:at] + bytes([frame[at] ^ bit]) + frame[at + 1:])), None)
    for ours, peer in (b"GW", b"MX"), (b"G", b"MM"), (b"MM", b"GW"), (b"GW2", b"MM"), (b"GW", b"M"):
        same(number_in(padded(frame), ours, peer), None)


def numbers_of(store):
    return {place: report.number for place, report in enumerate(model.kept(record(), store)) if report}


def test_the_second_of_two():
    one, other = reported(7), reported(7, AT + 1)
    store = stored(p5=one, p6=b"x", p9=other, p10=reported(8), p63=one)
    same(numbers_of(store), {5: 7, 10: 8})
    same(model.kept(record(), store)[5].time, AT)
    same(numbers_of(stored(p3=other[:-1], p9=one)), {9: 7})                     # of two of which the first is none


def test_the_first_empty_place():
    new = reported(9)
    for store, place in ((stored(), 0), (stored(p0=reported(1)), 1), (stored(p0=reported(1), p2=reported(2)), 1),
                         (stored(p0=b"damaged", p1=reported(1)), 0), (stored(p0=reported(5), p1=reported(5)), 1),
                         (stored(p1=reported(1), p2=reported(2)), 0)):
        left = model.keep(record(), store, new)
        same(left[PLACE * place:PLACE * (place + 1)], padded(new))
        same(left[:PLACE * place] + left[PLACE * (place + 1):], store[:PLACE * place] + store[PLACE * (place + 1):])


def test_the_lowest_number():
    """All 64 hold a report; their numbers do not rise with their places."""
    numbers = [100 + 7 * place % 64 for place in range(64)]
    store = stored(**{f"p{place}": reported(number) for place, number in enumerate(numbers)})
    for number in range(500, 503):
        place = numbers.index(min(numbers))
        store = model.keep(record(), store, reported(number))
        numbers[place] = number
        same(numbers_of(store), dict(enumerate(numbers)))
    same(model.keep(record(), store, reported(1))[PLACE * numbers.index(103):][:PLACE], padded(reported(1)))


def test_the_last_64():
    """From an empty store on, whatever the number of reports."""
    store, before = model.EMPTY_STORE, record(next_out=1)
    for count in range(1, 131):
        outcome = model.report(before, values(), AT + count, 512, store)
        same((outcome.refusal, outcome.record.next_out, len(outcome.store)), (None, count + 1, STORE))
        before, store = outcome.record, outcome.store
        same(sorted(numbers_of(store).values()), list(range(max(1, count - 63), count + 1)))


def test_a_report_keeps_what_went_out():
    outcome = model.report(record(), values(), AT, 512, stored(p1=b"x"))
    same(outcome.store, stored(p0=SHORTEST_FRAME, p1=b"x"))
    for before, given, time, room in ((record(), values(t571=b""), AT, 512), (record(), values(), AT, 156),
                                      (record(status=CLOSED), values(), AT, 512), (record(), values(), 2**63, 512),
                                      (record(next_out=999_999_991), values(), AT, 512)):
        same(model.report(before, given, time, room, stored(p1=b"x")).store, None)


def test_a_logon_with_reset_zeroes_the_store():
    """One that is answered by a Logout, and any other step, leave it."""
    logon, store = "98=0|108=20|1137=9|141=Y|", stored(p0=reported(1), p3=b"x")

    def left(incoming, before):
        return model.step(before, framed(incoming), AT, ROOM, store).store
    waiting = record(status=WAITING)
    same(left(body("A", logon, n=1), waiting), model.EMPTY_STORE)
    same(left(body("A", logon, n=5), waiting), store)
    same(left(body("A", logon.replace("141=Y", "141=N"), n=5), waiting), store)
    same(left(body("A", logon.replace("141=Y|", ""), n=5), waiting), store)
    same(left(body("A", logon, n=5), record()), store)                          # a Reject while Active
    same(left(body("A", logon.replace("108=20", "108=61"), n=1), waiting), None)    # refusal 4
    for msg_type in "0", "1", "2", "5", "F":
        same(left(body(msg_type), record()), store)


def test_refusals_14_and_13():
    """Step 11, 14, 10; report 11, 13, 14, 7."""
    late = 253_402_300_800_000_000
    for size in 0, 512, STORE - 1, STORE + 1, 2 * STORE:
        store = bytes(size)
        same(model.step(record(heartbeat=0), b"", late, 0, store)[:4], (11, False, b"", record(heartbeat=0)))
        same(model.step(record(status=CLOSED), b"", late, 0, store)[:4], (14, False, b"", record(status=CLOSED)))
        same(model.report(record(heartbeat=0), values(), late, 0, store)[:4], (11, False, b"", record(heartbeat=0)))
        same(model.report(record(at=1, to=1), values(), late, 0, store)[:4], (13, False, b"", record(at=1, to=1)))
        same(model.report(record(status=CLOSED), values(), late, 0, store)[:4], (14, False, b"", record(status=CLOSED)))
    same(model.report(record(at=2, to=2, expected=999_999_991), values(), AT, 512)[:4],
         (13, False, b"", record(at=2, to=2, expected=999_999_991)))


def test_numbers_above_next_out_count():
    """The words ask for the frame's look alone."""
    same(numbers_of(stored(p0=reported(900_000_000))), {0: 900_000_000})
    same(model.kept(Record(b"GW", b"MM", ACTIVE), stored(p0=reported(9)))[0].values.fields[31], Decimal(1250, 2))
