"""Steps while Waiting: refusals 3 and 4, logons with a reset and without."""
from model import ACTIVE, CLOSED, WAITING

from .basics import FIELDS, HEADER, after, body, gap, raw, record, same, stepped

LOGON = "98=0|108=20|1137=9|"
OUR_LOGON = "98=0|108=20|1137=9|"


def waiting(**changes):
    return record(status=WAITING, **changes)


def test_waiting_refusals():
    for msg_type in FIELDS:
        if msg_type != "A":
            same(stepped(body(msg_type), waiting()), (3, False, [], record(status=CLOSED)))
    same(stepped(raw("35=0|34=x|"), waiting()), (3, False, [], record(status=CLOSED)))          # 3 before 4
    strange_peer, strange_target = HEADER.replace("MM", "XX"), HEADER.replace("GW", "XX")
    for bad in (raw("35=A|"), body("A", LOGON, n="x"), body("A", LOGON, n="0"), body("A", LOGON + "58=x|"),
                body("A", LOGON, header=strange_peer), body("A", LOGON, header=strange_target),
                body("A", LOGON + "x|"), body("A", LOGON.replace("20", "61"))):
        same(stepped(bad, waiting()), (4, False, [], record(status=CLOSED)))


def test_logon():
    same(stepped(body("A", LOGON, n=5), waiting()),
         (None, False, ["35=A|34=3|" + OUR_LOGON], after(status=ACTIVE, expected=6, heartbeat=20, wrote=1)))
    same(stepped(body("A", LOGON + "141=N|", n=5), waiting()),
         (None, False, ["35=A|34=3|" + OUR_LOGON], after(status=ACTIVE, expected=6, heartbeat=20, wrote=1)))
    same(stepped(body("A", LOGON, n=7), waiting()),
         (None, False, ["35=A|34=3|" + OUR_LOGON, "35=2|34=4|7=5|16=0|"],
          after(status=ACTIVE, expected=5, heartbeat=20, wrote=2, gap=gap(7))))
    low = (None, False, ["35=5|34=3|1409=101|"], after(status=CLOSED, expected=5, wrote=1))
    same(stepped(body("A", LOGON, n=4), waiting()), low)
    same(stepped(body("A", LOGON, n=4, header=HEADER + "43=Y|122=20240102-09:30:00|"), waiting()), low)


def test_logon_with_reset():
    same(stepped(body("A", LOGON + "141=Y|", n=1), waiting()),
         (None, False, ["35=A|34=1|" + OUR_LOGON + "141=Y|"],
          after(status=ACTIVE, expected=2, next_out=1, heartbeat=20, wrote=1)))
    for n in 2, 4, 5, 6:
        same(stepped(body("A", LOGON + "141=Y|", n=n), waiting()),
             (None, False, ["35=5|34=3|1409=101|"], after(status=CLOSED, wrote=1)))
