"""Steps with a Trade Capture Report from a member (Q-1): rule 6 rejects it whatever its verdict, the others as any type."""
from model import CLOSED, WAITING

from .basics import AE_FRONT, FIELDS, HEADER, after, body, gap, no_time_first_sent, raw, record, same, stepped

BODIES = (AE_FRONT + "552=1|54=1|", AE_FRONT, AE_FRONT + "552=1|54=1|453=2|448=P|", "x|", "", "9999=x|", "571=|")


def test_in_turn():
    """Reject 11, tag 35, no 372, E + 1: before its verdict."""
    for fields in BODIES:
        same(stepped(body("AE", fields)),
             (None, False, ["35=3|34=3|45=5|371=35|373=11|"], after(expected=6, wrote=1)))
    same(stepped(raw("35=AE|49=MM|56=GW|34=5|")),
         (None, False, ["35=3|34=3|45=5|371=35|373=11|"], after(expected=6, wrote=1)))
    same(stepped(body("AE", header=HEADER + "43=Y|")),
         (None, False, ["35=3|34=3|45=5|371=35|373=11|"], after(expected=6, wrote=1)))


def test_too_high():
    for fields in BODIES:
        same(stepped(body("AE", fields, n=6)), (None, False, ["35=2|34=3|7=5|16=0|"], after(wrote=1, gap=gap(6))))


def test_too_low():
    logout = (None, False, ["35=5|34=3|1409=101|"], after(status=CLOSED, wrote=1))
    for fields in BODIES:
        same(stepped(body("AE", fields, n=4)), logout)
        same(stepped(body("AE", fields, n=4, header=HEADER + "43=Y|")),
             (None, False, ["35=3|34=3|45=4|371=122|372=AE|373=1|"], after(wrote=1)))
        same(stepped(body("AE", fields, n=4, header=HEADER + "43=Y|122=20240102-09:30:00|")), (None, False, [], record()))
        same(stepped(body("AE", fields, n=4, header=HEADER + "43=Y|122=x|")), no_time_first_sent("372=AE|"))


def test_from_a_stranger():
    for n, expected in (5, 6), (4, 5), (6, 5):
        for header, tag in (HEADER.replace("MM", "XX"), 49), (HEADER.replace("GW", "XX"), 56):
            same(stepped(body("AE", n=n, header=header)),
                 (None, False, [f"35=3|34=3|45={n}|371={tag}|372=AE|373=9|", "35=5|34=4|1409=101|"],
                  after(status=CLOSED, expected=expected, wrote=2)))


def test_unreadable_number():
    for number in "x", "0", "0000000000005", "":
        same(stepped(body("AE", n=number)), (None, False, ["35=5|34=3|1409=101|"], after(status=CLOSED, wrote=1)))


def test_waiting_and_closed():
    for fields in BODIES:
        same(stepped(body("AE", fields), record(status=WAITING)), (3, False, [], record(status=CLOSED)))
        same(stepped(body("AE", fields), record(status=CLOSED)), (2, False, [], record(status=CLOSED)))


def test_types_of_the_nine_that_have_a_new_tag():
    same(stepped(body("0", "31=1|")), (None, False, ["35=3|34=3|45=5|371=31|372=0|373=2|"], after(expected=6, wrote=1)))
    same(stepped(body("F", FIELDS["F"] + "552=1|")),
         (None, False, ["35=3|34=3|45=5|371=552|372=F|373=2|"], after(expected=6, wrote=1)))
