"""Frames below E with 43=Y (Q-6): the answers of rule 5 in their order, which of two times is the later, what is no time, and
what plays no part in it."""
import model
from model import ACTIVE, CLOSED, NO_GAP, WAITING

from .basics import AT, HEADER, ROOM, after, body, framed, gap, record, same, stepped

FRONT = "49=MM|56=GW|34={n}|43=Y|"
TIME, BEFORE, BEHIND = "20240102-09:30:00", "20240102-09:29:59", "20240102-09:30:01"
GOOD, LATE = f"52={TIME}|122={BEFORE}|", f"52={TIME}|122={BEHIND}|"
IGNORED = (None, False, [], record())
LOGOUT = (None, False, ["35=5|34=3|1409=101|"], after(status=CLOSED, wrote=1))
TYPES = {"4": "36=9|123=Y|", **dict.fromkeys(("0", "1", "2", "3", "5", "A", "AD", "AE", "F"))}


def rejected(reason, tag, named="372=0|", n=4):
    """A Reject, and of the record only the next out and last sent are others: E stays."""
    return None, False, [f"35=3|34=3|45={n}|371={tag}|{named}373={reason}|"], after(wrote=1)


def low(marks, msg_type="0", fields=None, n=4, front=FRONT):
    """A step with a frame below E that has these fields behind 43=Y."""
    return stepped(body(msg_type, fields, n, front + marks))


def resent(again, original):
    return low(f"52={again}|122={original}|")


# ---- The answers, in their order -------------------------------------------------------------------------------------

def test_each_answer():
    same(low(GOOD, front=FRONT.replace("43=Y", "43=N")), LOGOUT)
    same(low(f"52={TIME}|"), rejected(1, 122))
    same(low(f"122={BEFORE}|"), rejected(1, 52))
    same(low(f"52=x|122={BEFORE}|"), rejected(6, 52))
    same(low(f"52={TIME}|122=x|"), rejected(6, 122))
    same(low(LATE), rejected(10, 122))
    same(low(GOOD), IGNORED)


def test_the_first_that_speaks():
    """02: All this follows the check for 122. 52 first. Neighbours, and those further apart."""
    for mark in "", "43=N|", "43=|", "43=y|", "43=N|43=Y|":
        for marks in "", f"52={TIME}|", f"122={TIME}|", "52=x|122=x|", LATE:
            same(low(marks, front=FRONT.replace("43=Y|", mark)), LOGOUT)
    for marks in "", "52=|", "52=x|", "52=20230229-00:00:00|":
        same(low(marks), rejected(1, 122))                              # no 122, and 52 missing or bad
    for original in "", "x", "20230229-00:00:00", BEHIND:
        same(low(f"122={original}|"), rejected(1, 52))                  # no 52, and 122 bad or good
    for again in "", "x", "20230229-00:00:00":
        for original in "", "x", "20230229-00:00:00", "99991231-23:59:60", "00010101-00:00:00":
            same(resent(again, original), rejected(6, 52))
    for original in "", "x", "20250229-00:00:00", "20230229-00:00:00":  # bad: whether it would be later or not
        same(resent(TIME, original), rejected(6, 122))


def test_an_empty_value_is_bad_and_not_missing():
    same(resent("", BEFORE), rejected(6, 52))
    same(resent(TIME, ""), rejected(6, 122))
    same(resent("", ""), rejected(6, 52))
    same(low("122=|"), rejected(1, 52))
    same(low("52=|"), rejected(1, 122))


# ---- Later -----------------------------------------------------------------------------------------------------------

# Neighbours, the second the later: one more in one part, the parts behind it alike, or the greatest and the least.
STEPS = (
    ("20240102-09:30:00.120000", "20240102-09:30:00.120001"), ("20240102-09:30:00.119999", "20240102-09:30:00.120"),
    ("20240102-09:30:00.120", "20240102-09:30:00.120001"), ("20240102-09:30:00", "20240102-09:30:00.000001"),
    ("20240102-09:30:00.119", "20240102-09:30:00.120"), ("20240102-09:30:00", "20240102-09:30:00.001"),
    ("20240102-09:30:00.000999", "20240102-09:30:00.001"), ("20240102-09:30:00.012345", "20240102-09:30:00.120"),
    ("20240102-09:30:00.000120", "20240102-09:30:00.120"), ("20240102-09:30:00.999998", "20240102-09:30:00.999999"),
    (TIME, BEHIND), ("20240102-09:30:00.999999", "20240102-09:30:01"), ("20240102-09:30:00.999", "20240102-09:30:01.000000"),
    (TIME, "20240102-09:31:00"), ("20240102-09:30:59.999", "20240102-09:31:00"),
    (TIME, "20240102-10:30:00"), ("20240102-09:59:59", "20240102-10:00:00"), ("20240102-09:59:60", "20240102-10:00:00"),
    (TIME, "20240103-09:30:00"), ("20240102-23:59:59.999999", "20240103-00:00:00"), ("20240109-23:59:59", "20240110-00:00:00"),
    (TIME, "20240202-09:30:00"), ("20240131-23:59:59", "20240201-00:00:00"), ("20240930-23:59:59", "20241001-00:00:00"),
    (TIME, "20250102-09:30:00"), ("20231231-23:59:60.999999", "20240101-00:00:00"), ("00010101-00:00:00", "00020101-00:00:00"),
    ("00991231-00:00:00", "01000101-00:00:00"), ("19991231-23:59:59", "20000101-00:00:00"),
    ("00010101-00:00:00", "99991231-23:59:60.999999"),
    ("20240228-23:59:59", "20240229-00:00:00"), ("20240229-23:59:59", "20240301-00:00:00"),
    ("20230228-23:59:59", "20230301-00:00:00"), ("20240228-12:00:00", "20240229-12:00:00"),
)


def test_one_step_later_and_one_earlier():
    for one, next_one in STEPS:
        same(resent(one, next_one), rejected(10, 122))
        same(resent(next_one, one), IGNORED)
        same(resent(one, one), IGNORED)
        same(resent(next_one, next_one), IGNORED)


def test_second_60():
    """Behind second 59 of its minute, and before the next minute: part by part, not by a sum of seconds."""
    ends = "30:59", "30:59.999999", "30:60", "30:60.000001", "30:60.999", "30:60.999999", "31:00", "31:00.000001", "31:01"
    row = ["20240102-09:" + end for end in ends]
    for place, one in enumerate(row):
        for other in row[place + 1:]:
            same(resent(one, other), rejected(10, 122))
            same(resent(other, one), IGNORED)
    same(resent("20241231-23:59:60.999999", "20250101-00:00:00"), rejected(10, 122))
    same(resent("20250101-00:00:00", "20241231-23:59:60.999999"), IGNORED)


def test_equal_times_pass():
    """02: A seconds-only time counts as having zero decimals; equal times pass."""
    for second in TIME, "20240102-09:30:59", "20240102-09:30:60", "00010101-00:00:00", "99991231-23:59:60":
        texts = [second + decimals for decimals in ("", ".000", ".000000")]
        for again in texts:
            for original in texts:
                same(resent(again, original), IGNORED)
    for milliseconds in ".120", ".001", ".100", ".999":
        texts = TIME + milliseconds, TIME + milliseconds + "000"
        for again in texts:
            for original in texts:
                same(resent(again, original), IGNORED)
            same(resent(TIME, again), rejected(10, 122))
            same(resent(again, TIME), IGNORED)


# ---- What is no time -------------------------------------------------------------------------------------------------

BAD_FORM = (
    "x", " ", "20240102", "20240102-09:30", "20240102 09:30:00", "20240102-9:30:00", "20240102-09-30-00", "2024-01-02-09:30:00",
    "20240102-09:30:00.", "20240102-09:30:00.1", "20240102-09:30:00.12", "20240102-09:30:00.1234", "20240102-09:30:00.12345",
    "20240102-09:30:00.1234567", "20240102-09:30:00.12x", "20240102-09:30:00.12345x", "20240102-09:30:00,123", "20240102-09:30:00Z",
    "20240102-09:30:0x", "x0240102-09:30:00", " 20240102-09:30:00", "20240102-09:30:00 ", "2024010209:30:00", "=20240102-09:30:00",
    "+2024102-09:30:00", "20240102-09:30:00.+12", "20240102-09:30:00\x00", "20240102-09:30:00\n")
BAD_CALENDAR = (
    "00000101-00:00:00", "20240001-00:00:00", "20241301-00:00:00", "20240100-00:00:00", "20240132-00:00:00", "20240230-00:00:00",
    "20230229-00:00:00", "19000229-00:00:00", "21000229-00:00:00", "20240431-00:00:00", "20240631-00:00:00", "20240931-00:00:00",
    "20241131-00:00:00", "20240102-24:00:00", "20240102-09:60:00", "20240102-09:30:61", "20240102-24:00:00.000",
    "20240102-99:99:99", "20240102-09:30:61.999999")
FAR = ("00010101-00:00:00", "00010101-00:00:60.000001", "20240229-00:00:00", "20000229-12:00:00.000", "24000229-23:59:59",
       "20240131-23:59:60", "99991231-23:59:60.999999")


def test_bad_times():
    """The form and the calendar: both are Reject 6, where a verdict says 5 of the calendar."""
    for bad in BAD_FORM + BAD_CALENDAR:
        same(resent(bad, BEFORE), rejected(6, 52))
        same(resent(TIME, bad), rejected(6, 122))
        same(resent(bad, bad), rejected(6, 52))


def test_times_at_the_ends_of_the_calendar():
    for far in FAR:
        same(resent("99991231-23:59:60.999999", far), IGNORED)
        same(resent(far, "00010101-00:00:00.000000"), IGNORED)
        same(resent(far, far), IGNORED)


# ---- What plays no part ----------------------------------------------------------------------------------------------

def test_first_fields():
    """The first 43, 52 and 122 of the body, wherever they stand; those behind them are not looked at."""
    for second in "", "x", "00010101-00:00:00", "99991231-23:59:60":
        for tag in 52, 122:
            same(low(f"{GOOD}{tag}={second}|"), IGNORED)
            same(low(f"{LATE}{tag}={second}|"), rejected(10, 122))
            same(low(GOOD, fields=f"{tag}={second}|"), IGNORED)
    for marks, reply in ((f"52=x|{GOOD}", (6, 52)), (f"122=x|{GOOD}", (6, 122)), (f"122={BEHIND}|{GOOD}", (10, 122)),
                         (f"52={BEFORE}|122={TIME}|{GOOD}", (10, 122)), (f"52=|52={TIME}|122={BEFORE}|", (6, 52))):
        same(low(marks), rejected(*reply))
    same(low(GOOD + "43=N|"), IGNORED)
    for marks in f"122={BEHIND}|52={TIME}|", f"58=x|52={TIME}|453=1|122={BEHIND}|", f"122={BEHIND}|112=52=x|52={TIME}|":
        same(low(marks), rejected(10, 122))
    same(stepped(body("0", LATE + "43=Y|", n=4, header="49=MM|56=GW|34={n}|")), rejected(10, 122))


def test_look_alikes_are_not_the_field():
    for other in "52", "052=" + TIME, "152=" + TIME, "522=" + TIME, "5=2", " 52=" + TIME, "58=52=" + TIME:
        same(low(f"{other}|122={BEFORE}|"), rejected(1, 52))
        same(low(f"{other}|{GOOD}"), IGNORED)
    for other in "122", "0122=" + TIME, "1122=" + TIME, "1222=" + TIME, "22=" + TIME:
        same(low(f"52={TIME}|{other}|"), rejected(1, 122))
        same(low(f"52={TIME}|{other}|122={BEHIND}|"), rejected(10, 122))


def test_every_type():
    """372 names one of the ten types, and no other."""
    for msg_type, fields in TYPES.items():
        named = f"372={msg_type}|"
        same(low(GOOD, msg_type, fields), IGNORED)
        same(low(LATE, msg_type, fields), rejected(10, 122, named))
        same(low(f"122={BEFORE}|", msg_type, fields), rejected(1, 52, named))
        same(low(f"52=x|122={BEFORE}|", msg_type, fields), rejected(6, 52, named))
        same(low(f"52={TIME}|122=x|", msg_type, fields), rejected(6, 122, named))
    for msg_type in "ZZ", "", "D", "00", "8", "AF":
        same(low(GOOD, msg_type, ""), IGNORED)
        same(low(LATE, msg_type, ""), rejected(10, 122, ""))
        same(low(f"122={BEFORE}|", msg_type, ""), rejected(1, 52, ""))
        same(low("52=|122=|", msg_type, ""), rejected(6, 52, ""))
        same(low(f"52={TIME}|122=|", msg_type, ""), rejected(6, 122, ""))


def test_the_verdict_is_not_asked():
    for fields in "x|", "58=|", "9999=x|", "36=x|", "8=x|", "7=1|7=1|", "453=2|448=P|", "60=20230229-00:00:00|", "97=X|":
        for msg_type in "0", "F", "AD", "AE":
            same(low(GOOD, msg_type, fields), IGNORED)
            same(low(LATE, msg_type, fields), rejected(10, 122, f"372={msg_type}|"))


def test_every_number_below_e():
    for n in 1, 2, 3, 4, "0004":
        same(low(GOOD, n=n), IGNORED)
        same(low(LATE, n=n), rejected(10, 122, n=int(n)))


def test_at_and_above_e():
    """Rule 6 and rule 4 do not compare the two times."""
    same(low(LATE, "AD", n=5), (None, True, [], after(expected=6)))
    same(low("52=x|", "AD", n=5), (None, False, ["35=3|34=3|45=5|371=52|372=AD|373=6|"], after(expected=6, wrote=1)))
    same(low(LATE, n=6), (None, False, ["35=2|34=3|7=5|16=0|"], after(wrote=1, gap=gap(6))))


def test_the_rules_before():
    """Rule 1, rule 2, and rule 3: a bare reset below E is judged by its verdict, to which a day that is none is 5."""
    same(low(LATE, n="x"), LOGOUT)
    for front, tag in (FRONT.replace("MM", "XX"), 49), (FRONT.replace("GW", "XX"), 56), (FRONT.replace("49=MM|", ""), 49):
        same(low(LATE, front=front), (None, False, [f"35=3|34=3|45=4|371={tag}|372=0|373=9|", "35=5|34=4|1409=101|"],
                                      after(status=CLOSED, wrote=2)))
    for mode in "", "123=N|":
        same(low(LATE, "4", "36=9|" + mode), (None, False, [], after(expected=9)))
        same(low(LATE, "4", "36=4|" + mode), rejected(5, 36, "372=4|"))
        same(low(f"52={TIME}|122=20230229-00:00:00|", "4", "36=9|" + mode), rejected(5, 122, "372=4|"))
        same(low(f"52={TIME}|", "4", "36=9|" + mode), (None, False, [], after(expected=9)))


def test_outside_active():
    """A Logon that is too low is answered as before, whatever its times."""
    for marks in GOOD, LATE, "52=x|":
        same(stepped(body("0", n=4, header=FRONT + marks), record(status=CLOSED)), (2, False, [], record(status=CLOSED)))
        same(stepped(body("0", n=4, header=FRONT + marks), record(status=WAITING)), (3, False, [], record(status=CLOSED)))
    for marks in GOOD, LATE:
        same(stepped(body("A", n=4, header=FRONT + marks), record(status=WAITING)), LOGOUT)


# ---- The record ------------------------------------------------------------------------------------------------------

def test_what_is_left():
    """E stays, and with it a gap that is open and a replay that is running; an ignored frame changes nothing at all."""
    for kept in ({}, {"gap": gap(7)}, {"gap": gap(5, expected=4, asked=0)}, {"at": 1, "to": 2},
                 {"at": 2, "to": 2, "gap": gap(7, asked=AT - 1)}):
        same(stepped(body("AD", n=4, header=FRONT + GOOD), record(**kept)), (None, False, [], record(**kept)))
        for marks in LATE, "", f"122={TIME}|", "52=|122=|", f"52={TIME}|122=|":
            refusal, delivered, replies, left = stepped(body("AD", n=4, header=FRONT + marks), record(**kept))
            same((refusal, delivered, len(replies), left), (None, False, 1, after(wrote=1, **kept)))
    same(stepped(body("AD", n=4, header=FRONT + LATE), record(gap=gap(4)))[3].gap, NO_GAP)      # E is above the highest


def test_sent_again_with_good_times():
    """A rejected duplicate, repaired: ignored. The session goes on, and E with what is in turn."""
    _, _, _, left = low(LATE, "F")
    same(left.status, ACTIVE)
    same(stepped(body("F", n=4, header=FRONT + GOOD), left), (None, False, [], after(wrote=1)))
    _, delivered, _, behind = stepped(body("F", n=5, header=HEADER), left)
    same((delivered, behind.expected), (True, 6))


def test_the_sessions_clock_plays_no_part():
    for time in 0, 1, AT - 10**12, AT + 10**12, model.END_OF_TIME - 1:
        ignored, answered = (model.step(record(), framed(body("0", n=4, header=FRONT + marks)), time, ROOM)
                             for marks in (GOOD, LATE))
        same((ignored.reply, ignored.record), (b"", record()))
        same((b"\x01371=122\x01372=0\x01373=10\x01" in answered.reply, answered.record), (True, record(next_out=4, last=time)))
