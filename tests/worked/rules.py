"""Steps while Active: the six rules, rule 6 by type, serving."""
from model import CLOSED, LANDED

from .basics import AT, HEADER, after, body, gap, no_time_first_sent, raw, record, same, stepped


def test_rule_1():
    logout = (None, False, ["35=5|34=3|1409=101|"], after(status=CLOSED, wrote=1))
    for unreadable in "34=x|", "34=|", "34=0|", "34=00|", "34=1234567890|", "34=0000000000005|", "", "34=x|34=5|":
        for msg_type in "0", "4", "ZZ", "A":
            same(stepped(raw(f"35={msg_type}|49=XX|56=GW|{unreadable}36=9|")), logout)


def test_rule_2():
    for header, tag in ((HEADER.replace("MM", "M"), 49), (HEADER.replace("49=MM|", ""), 49),
                        (HEADER.replace("GW", "G"), 56), (HEADER.replace("56=GW|", ""), 56),
                        (HEADER.replace("MM", "XX").replace("GW", "YY"), 49), (HEADER.replace("MM", ""), 49),
                        ("49=XX|" + HEADER, 49)):
        for n, expected in (5, 6), (4, 5), (6, 5):
            same(stepped(body("4", "", n=n, header=header)),
                 (None, False, [f"35=3|34=3|45={n}|371={tag}|372=4|373=9|", "35=5|34=4|1409=101|"],
                  after(status=CLOSED, expected=expected, wrote=2)))
    same(stepped(raw("35=ZZ|34=5|"))[2][0], "35=3|34=3|45=5|371=49|373=9|")


def test_rule_3():
    for n in 1, 5, 9:
        for mode in "", "123=N|":
            same(stepped(body("4", "36=6|" + mode, n=n)), (None, False, [], after(expected=6)))
            same(stepped(body("4", "36=999999999|" + mode, n=n)), (None, False, [], after(expected=999999999)))
            same(stepped(body("4", "36=4|" + mode, n=n)),
                 (None, False, [f"35=3|34=3|45={n}|371=36|372=4|373=5|"], after(wrote=1)))
        for fields, tag, reason in (("36=0|", 36, 5), ("123=X|36=6|", 123, 6), ("123=|36=6|", 123, 4),
                                    ("123=N|123=Y|36=6|", 123, 13), ("", 36, 1)):
            same(stepped(body("4", fields, n=n)),
                 (None, False, [f"35=3|34=3|45={n}|371={tag}|372=4|373={reason}|"], after(wrote=1)))


def test_rule_4():
    ours = "7=5|16=0|"
    for msg_type in "0", "1", "3", "5", "A", "F", "AD":
        same(stepped(body(msg_type, n=6)), (None, False, ["35=2|34=3|" + ours], after(wrote=1, gap=gap(6))))
    same(stepped(body("4", "36=9|123=Y|", n=6)), (None, False, ["35=2|34=3|" + ours], after(wrote=1, gap=gap(6))))
    same(stepped(raw("35=ZZ|49=MM|56=GW|34=6|")), (None, False, ["35=2|34=3|" + ours], after(wrote=1, gap=gap(6))))
    fills, place = served(1, 2)
    same(stepped(body("2", "7=1|16=0|", n=6)), (None, False, [*fills, "35=2|34=3|" + ours], after(wrote=1, gap=gap(6), **place)))
    for fields in "7=3|16=0|", "7=2|16=1|", "7=0|16=0|", "7=1|", "7=1|16=0|58=x|":
        same(stepped(body("2", fields, n=6)), (None, False, ["35=2|34=3|" + ours], after(wrote=1, gap=gap(6))))


def served(begin, last):
    """What a step that serves these numbers writes for it, and what it changes in the record: one gap fill; with Q-4
    nothing, and the place of a replay."""
    if 4 in LANDED:
        return [], {"at": begin, "to": last}
    return [f"35=4|34={begin}|43=Y|122=NOW|123=Y|36={last + 1}|"], {"last": AT}


def test_rule_5():
    logout = (None, False, ["35=5|34=3|1409=101|"], after(status=CLOSED, wrote=1))
    for header in HEADER, HEADER + "43=N|", HEADER + "43=N|43=Y|", HEADER + "43=|", HEADER + "122=20240102-09:30:00|":
        same(stepped(body("0", n=4, header=header)), logout)
    same(stepped(body("0", n=4, header=HEADER + "43=Y|")),
         (None, False, ["35=3|34=3|45=4|371=122|372=0|373=1|"], after(wrote=1)))
    times = "52=20240102-09:30:00|122=20240102-09:30:00|"
    same(stepped(body("5", "58=|" + times, n=4, header="49=MM|56=GW|34={n}|43=Y|")), (None, False, [], record()))
    same(stepped(raw("35=ZZ|49=MM|56=GW|34=4|43=Y|" + times)), (None, False, [], record()))
    for original in "122=|", "122=x|":
        same(stepped(body("5", "58=|", n=4, header=HEADER + "43=Y|" + original)), no_time_first_sent("372=5|"))
        same(stepped(raw("35=ZZ|49=MM|56=GW|34=4|52=20240102-09:30:00|43=Y|" + original)), no_time_first_sent(""))


def test_rule_6_verdicts():
    same(stepped(body("5", "x|")), (None, False, ["35=3|34=3|45=5|372=5|373=0|"], after(expected=6, wrote=1)))
    same(stepped(body("5", "11=x|")), (None, False, ["35=3|34=3|45=5|371=11|372=5|373=2|"], after(expected=6, wrote=1)))
    same(stepped(raw("35=ZZ|49=MM|56=GW|34=5|")),
         (None, False, ["35=3|34=3|45=5|371=35|373=11|"], after(expected=6, wrote=1)))
    same(stepped(body("F", "453=1|")), (None, False, ["35=3|34=3|45=5|371=453|372=F|373=16|"],
                                        after(expected=6, wrote=1)))


def test_rule_6_by_type():
    for msg_type in "0", "3":
        same(stepped(body(msg_type)), (None, False, [], after(expected=6)))
    for msg_type in "AD", "F":
        same(stepped(body(msg_type)), (None, True, [], after(expected=6)))
    same(stepped(body("1", "112=a=b|")), (None, False, ["35=0|34=3|112=a=b|"], after(expected=6, wrote=1)))
    same(stepped(body("5")), (None, False, ["35=5|34=3|1409=4|"], after(status=CLOSED, expected=6, wrote=1)))
    same(stepped(body("A")), (None, False, ["35=3|34=3|45=5|371=35|372=A|373=99|"], after(expected=6, wrote=1)))
    same(stepped(body("4", "36=6|123=Y|")), (None, False, [], after(expected=6)))
    same(stepped(body("4", "36=9|123=Y|")), (None, False, [], after(expected=9)))
    for new in 1, 5:
        same(stepped(body("4", f"36={new}|123=Y|")),
             (None, False, ["35=3|34=3|45=5|371=36|372=4|373=5|"], after(expected=6, wrote=1)))
    same(stepped(body("AD", header=HEADER + "43=Y|")), (None, True, [], after(expected=6)))     # 43, 122 not looked at


def test_serving():
    def asked(begin, end, next_out):
        return stepped(body("2", f"7={begin}|16={end}|"), record(next_out=next_out))
    for begin, end, last in (1, 0, 9), (1, 5, 5), (1, 9, 9), (1, 50, 9), (9, 9, 9), (3, 3, 3):
        fills, changes = served(begin, last)
        same(asked(begin, end, 10), (None, False, fills, after(expected=6, next_out=10, **changes)))
    for begin, end, next_out, tag in (1, 0, 1, 7), (10, 0, 10, 7), (10, 5, 10, 7), (5, 4, 10, 16), (5, 1, 10, 16):
        same(asked(begin, end, next_out),
             (None, False, [f"35=3|34={next_out}|45=5|371={tag}|372=2|373=5|"],
              after(expected=6, next_out=next_out, wrote=1)))
