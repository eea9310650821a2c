"""The desk examples W1 to W12, and those that document 01 has run by a program."""
import model

from .basics import AT, F_FIELDS, HEADER, NOW, PARTY, ROOM, after, body, finding, framed, gap, is_good, raw, record, same, stepped


def test_desk_examples_of_frames():
    w1 = raw("8=FIXT.1.1|9=5|35=0|10=241|")
    same(model.read(w1), (True, 0, 27))                                                                         # W1
    same(model.read(raw("8=FIXT.1.1|9=5|35=0|10=242|")), (False, 27))                                           # W2
    same(model.read(raw("8=FIXT.1.1|9=05|35=0|10=241|")), (False, 28))                                          # W3
    same(model.read(raw("8=FIXT.1.1|9=05|35=0|10=033|")), (True, 0, 28))            # 02: a frame when its sum is made right
    same(model.read(b""), (False, 0))                                                                           # W4
    same(model.read(raw("8=FIXT.1.1|9=40|") + w1), (True, 16, 27))                                              # W5


def test_desk_examples_of_the_session():
    w6 = raw("8=FIXT.1.1|9=50|35=0|49=GW|56=MM|34=2|52=20240102-09:30:00.000000|10=207|")
    same(len(w6), 73)                                                                                           # W6
    same(model.tick(record(next_out=2, last=0), AT, ROOM).reply, w6)
    values = {49: b"GW", 56: b"MM", 34: 2, 52: NOW.encode()}
    same(model.write(73, b"0", values), (None, w6))
    same(model.write(72, b"0", values), (9, None))
    same(stepped(body("AD", n=32768), record(expected=32768)),
         (None, True, [], after(expected=32769)))                                                               # W7
    same(stepped(body("0", n=7)), (None, False, ["35=2|34=3|7=5|16=0|"], after(wrote=1, gap=gap(7))))           # W8
    same(stepped(body("4", "36=5|", n=9)), (None, False, [], after(expected=5)))                                # W9
    same(stepped(body("4", "36=4|", n=9)),
         (None, False, ["35=3|34=3|45=9|371=36|372=4|373=5|"], after(wrote=1)))
    same(stepped(body("4", "36=5|123=Y|")),
         (None, False, ["35=3|34=3|45=5|371=36|372=4|373=5|"], after(expected=6, wrote=1)))                     # W10
    same(finding("F", F_FIELDS + "453=2|" + PARTY), (16, 453))                                                  # W11
    same(finding("F", F_FIELDS + "453=1|447=D|448=P|452=1|"), (15, 447))                                        # W12


def test_desk_examples_run_by_a_program():
    same(len(framed(raw("35=0|58=" + "x" * 2039 + "|"))), 2073)                 # with two zeros in front of 2048, 2,075
    same(is_good(framed(raw("35=0|58=" + "x" * 2039 + "|"))), True)             # a body of 2,048
    same(is_good(framed(raw("35=0|58=" + "x" * 2040 + "|"))), False)            # and of 2,049
    same(finding("0", "", HEADER.replace("20240102", "20230229")), (5, 52))
    same(finding("0", "", HEADER.replace("20240102", "20240229")), None)
