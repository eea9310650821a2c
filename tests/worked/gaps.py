"""The gap (Q-5): what opens one, which too-high frame asks, what raises the highest number, what closes it, its ranges under
refusal 11, and its words in the driver's lines."""
import model
from model import ACTIVE, CLOSED, NO_GAP, WAITING, Gap

from .basics import AT, HEADER, ROOM, after, body, framed, gap, record, same, stepped
from .reporting import values

TEN_SECONDS = 10_000_000
GREATEST = 999_999_999
ASKING = "35=2|34=3|7=5|16=0|"
LOGON = "98=0|108=30|1137=9|"
RESENT = HEADER + "43=Y|122=20240102-09:29:00|"


def left_open(incoming, opened, time=AT, **record_words):
    """What a step on a record with this gap writes, and the gap that it leaves."""
    _, _, replies, left = stepped(incoming, record(gap=opened, **record_words), time)
    return replies, left.gap


# ---- Asking ----------------------------------------------------------------------------------------------------------

def test_w8_is_the_first_frame_of_a_gap():
    """02: W8 is the first frame of a gap."""
    same(stepped(body("0", n=7)), (None, False, [ASKING], after(wrote=1, gap=Gap(1, 5, 7, AT))))


def test_five_frames_in_flight():
    """02: After a line fault each frame in flight makes us ask again. One request for each gap."""
    asked, left = [], record()
    for n in 7, 6, 9, 8, 9:
        _, _, replies, left = stepped(body("AD", n=n), left)
        asked += replies
    same((asked, left), ([ASKING], after(wrote=1, gap=Gap(1, 5, 9, AT))))


def test_a_frame_that_does_not_ask():
    """Nothing goes out, last sent stays; it raises the highest, and neither the number nor the time that was asked for."""
    for opened, n, highest in (gap(7), 6, 7), (gap(7), 7, 7), (gap(7), 8, 8), (gap(7), GREATEST, GREATEST):
        for msg_type in "0", "1", "3", "5", "A", "F", "AD", "AE":
            same(stepped(body(msg_type, n=n), record(gap=opened)),
                 (None, False, [], record(gap=opened._replace(highest=highest))))
    same(stepped(body("4", "36=9|123=Y|", n=8), record(gap=gap(7))), (None, False, [], record(gap=gap(8))))
    same(stepped(body("0", "x|", n=8), record(gap=gap(7))), (None, False, [], record(gap=gap(8))))


def test_ten_seconds():
    """02: or 10 seconds have passed on the step's clock. Exactly ten have; what was asked for is set then alone."""
    for since in 0, 1, 5_000_000, TEN_SECONDS - 1:
        asked = AT - since
        same(left_open(body("0", n=6), gap(7, asked=asked)), ([], gap(7, asked=asked)))
        same(left_open(body("0", n=9), gap(7, asked=asked)), ([], gap(9, asked=asked)))
    for since in TEN_SECONDS, TEN_SECONDS + 1, 60_000_000, AT:
        asked = AT - since
        same(left_open(body("0", n=6), gap(7, asked=asked)), ([ASKING], gap(7)))
        same(left_open(body("0", n=9), gap(7, asked=asked)), ([ASKING], gap(9)))


def test_time_is_counted_from_the_asking():
    """Frames that do not ask do not put it off."""
    first = AT - TEN_SECONDS
    left = record(gap=gap(7, asked=first))
    for time, asked in (first + 6_000_000, first), (AT - 1, first), (AT, AT), (AT + 6_000_000, AT):
        left = model.step(left, framed(body("0", n=8)), time, ROOM).record
        same(left.gap, gap(8, asked=asked))


def test_a_clock_that_went_back():
    """02: a clock that went back counts as passed"""
    for asked in AT + 1, AT + TEN_SECONDS, 2**63, 2**64 - 1:
        same(left_open(body("0", n=6), gap(7, asked=asked)), ([ASKING], gap(7)))
    outcome = model.step(record(gap=gap(7, asked=1)), framed(body("0", n=6)), 0, ROOM)
    same((outcome.reply != b"", outcome.record.gap), (True, gap(7, asked=0)))


def test_e_has_moved():
    """02: or E has moved since. The highest is the larger of the old one and N."""
    for before, n, highest in (4, 8, 9), (4, 9, 9), (4, 11, 11), (1, 6, 9), (6, 6, 9), (GREATEST, 6, 9):
        same(left_open(body("0", n=n), gap(9, expected=before)), ([ASKING], gap(highest)))
        same(left_open(body("0", n=n), gap(9, expected=before, asked=AT - 1)), ([ASKING], gap(highest)))
    replies, left = left_open(body("0", n=5), gap(9))
    same((replies, left), ([], gap(9)))                             # E is 6 now, and 9 is still to come
    same(left_open(body("0", n=8), left, expected=6), (["35=2|34=3|7=6|16=0|"], gap(9, expected=6)))


def test_resend_request_too_high():
    """It is served first, whether it asks or not; one that cannot be served, or is unclean, is not."""
    for opened, replies, left in (NO_GAP, [ASKING], gap(8)), (gap(7), [], gap(8)), (gap(7, expected=4), [ASKING], gap(8)):
        wrote = len(replies)
        same(stepped(body("2", "7=1|16=0|", n=8), record(gap=opened)),
             (None, False, replies, after(wrote=wrote, at=1, to=2, gap=left)))
        for fields in "7=3|16=0|", "7=2|16=1|", "7=1|", "7=1|16=0|58=x|":
            same(stepped(body("2", fields, n=8), record(gap=opened)), (None, False, replies, after(wrote=wrote, gap=left)))
    same(stepped(body("2", "7=2|16=2|", n=8), record(gap=gap(7), at=1, to=2)),
         (None, False, [], record(at=2, to=2, gap=gap(8))))


def test_frames_that_are_not_seen():
    """Of a number above E: rule 1 has none, rule 2 is before rule 4, and so is a bare reset."""
    same(left_open(body("0", n="x"), gap(7)), (["35=5|34=3|1409=101|"], gap(7)))
    for header in HEADER.replace("MM", "XX"), HEADER.replace("GW", "XX"), HEADER.replace("49=MM|", ""):
        same(left_open(body("0", n=9, header=header), gap(7))[1], gap(7))
        same(left_open(body("0", n=9, header=header), NO_GAP)[1], NO_GAP)
    same(left_open(body("4", "36=4|", n=9), gap(7)), (["35=3|34=3|45=9|371=36|372=4|373=5|"], gap(7)))


# ---- Closing ---------------------------------------------------------------------------------------------------------

def test_replayed_frames_close_it():
    """02: E above the highest seen closes it"""
    left = record(gap=gap(7))
    for n, opened in (5, gap(7)), (6, gap(7)), (7, NO_GAP):
        refusal, delivered, replies, left = stepped(body("AD", n=n, header=RESENT), left)
        same((refusal, delivered, replies, left.gap, left.expected), (None, True, [], opened, n + 1))
    same(left, record(expected=8))
    for msg_type, fields in ("0", None), ("0", "x|"), ("AE", None), ("5", None), ("A", None), ("ZZ", ""):
        for highest, opened in (5, NO_GAP), (6, gap(6)):
            same(left_open(body(msg_type, fields), gap(highest))[1], opened)


def test_gap_fills():
    """A gap fill closes by E alone: past the highest, not up to it, and not if it is rejected."""
    for new, opened in (6, gap(7)), (7, gap(7)), (8, NO_GAP), (9, NO_GAP):
        same(left_open(body("4", f"36={new}|123=Y|"), gap(7)), ([], opened))
    same(left_open(body("4", "36=5|123=Y|"), gap(7)), (["35=3|34=3|45=5|371=36|372=4|373=5|"], gap(7)))
    same(left_open(body("4", "36=5|123=Y|"), gap(5)), (["35=3|34=3|45=5|371=36|372=4|373=5|"], NO_GAP))


def test_a_stranger_in_turn():
    """Rule 2 moves E and closes the session; the gap is looked at as behind any step."""
    for highest, opened in (5, NO_GAP), (6, gap(6)):
        same(left_open(body("0", header=HEADER.replace("MM", "XX")), gap(highest))[1], opened)


def test_bare_resets():
    """02: as do logon and any reset. Also one to E itself; a rejected one does not."""
    for n in 1, 5, 9:
        for new in 5, 6, 8, GREATEST:
            same(stepped(body("4", f"36={new}|", n=n), record(gap=gap(7))), (None, False, [], after(expected=new)))
        for fields in "36=4|", "36=0|", "", "36=6|58=x|", "123=X|36=6|":
            replies, opened = left_open(body("4", fields, n=n), gap(7))
            same((len(replies), opened), (1, gap(7)))


def test_e_above_the_highest_on_any_record():
    """A record that no run of ours leaves: behind a step that is not refused it is closed, whatever the step does."""
    passed = gap(4)
    for incoming in (body("0", n="x"), body("0", header=HEADER.replace("MM", "XX"), n=9), body("4", "36=4|"), body("0", n=4),
                     body("0", n=4, header=RESENT), body("AD"), body("0", "x|"), body("5"), body("2", "7=1|16=0|")):
        same(left_open(incoming, passed)[1], NO_GAP)
    same(left_open(body("0", n=6), passed), ([], gap(6)))           # it is open, for E, and asked for: the frame is seen
    same(left_open(body("0", n=6), gap(4, asked=0)), ([ASKING], gap(6)))
    waiting = record(status=WAITING, gap=passed)
    same(stepped(body("A", LOGON, n=4), waiting), (None, False, ["35=5|34=3|1409=101|"], after(status=CLOSED, wrote=1)))


def test_refused_steps_leave_it():
    for highest in 4, 7:
        waiting, used_up = (record(gap=gap(highest), **words) for words in ({"status": WAITING}, {"expected": GREATEST}))
        same(stepped(body("0"), waiting), (3, False, [], record(status=CLOSED, gap=gap(highest))))
        same(stepped(body("A", LOGON + "58=x|"), waiting), (4, False, [], record(status=CLOSED, gap=gap(highest))))
        same(stepped(body("0"), used_up), (5, False, [], record(status=CLOSED, expected=GREATEST, gap=gap(highest))))
        for refusal, before, frame, time, room in (
                (2, record(status=CLOSED, gap=gap(highest)), framed(body("0")), AT, ROOM),
                (6, record(gap=gap(highest)), framed(body("0")), AT, ROOM - 1),
                (7, record(gap=gap(highest)), framed(body("0")), model.END_OF_TIME, ROOM),
                (10, record(gap=gap(highest)), b"x", AT, ROOM)):
            same(model.step(before, frame, time, room)[:4], (refusal, False, b"", before))


def test_other_calls_leave_it():
    """A tick, a report and a replay, a reconnect; also with E above the highest."""
    for highest in 4, 7:
        opened = {"gap": gap(highest)}
        same(model.tick(record(last=0, **opened), AT, ROOM).record, record(next_out=4, last=AT, **opened))
        same(model.tick(record(last=AT, **opened), AT, ROOM).record, record(last=AT, **opened))
        same(model.tick(record(expected=GREATEST, **opened), AT, ROOM)[:4],
             (5, False, b"", record(status=CLOSED, expected=GREATEST, **opened)))
        same(model.report(record(**opened), values(), AT, 512).record, record(next_out=4, last=AT, **opened))
        same(model.replay(record(at=2, to=2, **opened), AT, ROOM, model.EMPTY_STORE).record, record(last=AT, **opened))
        for status in WAITING, ACTIVE, CLOSED:
            same(model.reconnect(record(status=status, **opened)), (None, record(status=WAITING, **opened)))


def test_logout_leaves_it():
    """Ours and the answer to theirs; the next accepted logon closes it."""
    same(left_open(body("0", n=4), gap(7)), (["35=5|34=3|1409=101|"], gap(7)))
    same(left_open(body("5"), gap(7)), (["35=5|34=3|1409=4|"], gap(7)))
    call = model.Writing(record(gap=gap(7)), AT)
    call.log_out()
    same(call.record, after(status=CLOSED, wrote=1, gap=gap(7)))


# ---- Logons ----------------------------------------------------------------------------------------------------------

def test_logons():
    """02: as do logon and any reset; a logon above E opens one. It is anew: with N as the highest and the step's time."""
    waiting = record(status=WAITING, gap=gap(90, asked=AT - 1))
    same(stepped(body("A", LOGON), waiting), (None, False, ["35=A|34=3|" + LOGON], after(expected=6, wrote=1)))
    same(stepped(body("A", LOGON + "141=Y|", n=1), waiting),
         (None, False, ["35=A|34=1|" + LOGON + "141=Y|"], after(expected=2, next_out=1, wrote=1)))
    for opened in waiting.gap, gap(90, expected=4), NO_GAP:
        same(stepped(body("A", LOGON, n=7), record(status=WAITING, gap=opened)),
             (None, False, ["35=A|34=3|" + LOGON, "35=2|34=4|7=5|16=0|"], after(wrote=2, gap=Gap(1, 5, 7, AT))))


def test_logons_that_are_answered_by_a_logout():
    for fields, n in (LOGON, 4), (LOGON + "141=Y|", 5), (LOGON + "141=Y|", 9):
        same(stepped(body("A", fields, n=n), record(status=WAITING, gap=gap(90))),
             (None, False, ["35=5|34=3|1409=101|"], after(status=CLOSED, wrote=1, gap=gap(90))))


def test_the_first_frame_behind_a_logon_above_e():
    """The logon has asked: the frames behind it do not."""
    _, _, _, left = stepped(body("A", LOGON, n=7), record(status=WAITING))
    same(stepped(body("0", n=8), left), (None, False, [], after(next_out=5, last=AT, gap=gap(8))))


# ---- The record ------------------------------------------------------------------------------------------------------

def test_a_new_session_has_none():
    for ours in b"GW", b"":
        same(model.new_session(ours, b"MM")[1].gap, Gap(0, 0, 0, 0))


def test_ranges():
    """02: Under refusal 11 an open gap's two numbers are 1 to 999,999,999; with none open all three are 0. Open is 0 or 1."""
    for opened in (Gap(0, 1, 0, 0), Gap(0, 0, 1, 0), Gap(0, 0, 0, 1), Gap(0, 5, 7, AT), Gap(0, 0, 0, 2**64 - 1), Gap(2, 5, 7, AT),
                   Gap(2, 0, 0, 0), Gap(2**64 - 1, 5, 7, AT), Gap(256, 5, 7, AT), Gap(2**32 + 1, 5, 7, AT), Gap(1, 0, 7, AT),
                   Gap(1, 5, 0, AT), Gap(1, 0, 0, 0), Gap(1, 10**9, 7, AT), Gap(1, 5, 10**9, AT), Gap(1, 2**64 - 1, 7, AT),
                   Gap(1, 5, 2**32 + 7, AT)):
        for status in WAITING, ACTIVE, CLOSED:
            broken = record(status=status, gap=opened)
            same(model.in_range(broken), False)
            same(model.reconnect(broken), (11, broken))
            same(model.step(broken, b"", 0, 0, b"")[:4], (11, False, b"", broken))
            same(model.tick(broken, 0, 0)[:4], (11, False, b"", broken))
            same(model.report(broken, values(), 0, 0, b"")[:4], (11, False, b"", broken))
            same(model.replay(broken, 0, 0, b"")[:4], (11, False, b"", broken))
    for opened in (NO_GAP, Gap(1, 1, 1, 0), Gap(1, GREATEST, GREATEST, 2**64 - 1), Gap(1, 9, 1, 0), Gap(1, 1, GREATEST, AT)):
        for status in WAITING, ACTIVE, CLOSED:
            same(model.in_range(record(status=status, gap=opened)), True)


def test_lines():
    """OPEN FOR HIGH ASKED behind the place of a replay; an answer repeats the words of a record that breaks its ranges."""
    before, lent = "4757 4d4d 1 5 3 30 7 0 0", "32768"
    asked = framed(body("0", n=7)).hex()
    told = model.answer(f"step {AT} 600 {asked} {before} 0 0 0 0 {lent}").split(" ")
    same((told[:2], told[3:]), (["ok", "0"], f"4757 4d4d 1 5 4 30 {AT} 0 0 1 5 7 {AT} {lent}".split(" ")))
    same(model.answer(f"step {AT} 600 {asked} {before} 1 5 6 {AT - 1} {lent}"), f"ok 0 - {before} 1 5 7 {AT - 1} {lent}")
    same(model.answer(f"reconnect {before} 1 5 6 7"), "ok 4757 4d4d 0 5 3 30 7 0 0 1 5 6 7")
    same(model.answer(f"reconnect {before} 18446744073709551615 5 6 7"), f"refusal 11 {before} 18446744073709551615 5 6 7")
    same(model.answer("new 4757 4d4d"), "ok 4757 4d4d 0 1 1 30 0 0 0 0 0 0 0")
    for words in "", " 0 0 0", " 0 0 0 0 0", " 0 0 0 -", " 0 0 0 18446744073709551616":
        for request, behind in ("reconnect", ""), (f"tick {AT} 600", ""), (f"step {AT} 600 {asked}", f" {lent}"):
            same(model.answer(f"{request} {before}{words}{behind}"), "error")
