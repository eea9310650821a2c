"""Document 02's Q-3: zeros in front of the body length and of the numbers in fields, in frames, verdicts and moves."""
import model

from .basics import AD_FIELDS, F_FIELDS, HEADER, PARTY, after, body, finding, framed, gap, raw, record, same, stepped

FRONT = "8=FIXT.1.1|9="


def summed(text):
    """The frame that text begins, up to its body's end."""
    whole = raw(text)
    return whole + raw("10=%03d|" % (sum(whole) % 256))


def test_w3_with_its_sum_made_right():
    same(model.read(raw("8=FIXT.1.1|9=05|35=0|10=241|")), (False, 28))
    same(model.read(raw("8=FIXT.1.1|9=05|35=0|10=033|")), (True, 0, 28))


def test_body_lengths_in_up_to_six_digits():
    for digits in "5", "05", "005", "0005", "00005", "000005":
        same(model.read(summed(f"{FRONT}{digits}|35=0|")), (True, 0, 26 + len(digits)))
    for digits in "0000005", "000004", "000006", "4", "06", "":
        same(model.read(summed(f"{FRONT}{digits}|35=0|"))[0], False)
    longest = "35=0|58=" + "x" * 2039 + "|"
    same(model.read(summed(f"{FRONT}002048|{longest}")), (True, 0, 2075))
    same(len(model.read_in_pieces([summed(f"{FRONT}002048|{longest}")[:-1]])[1]), 2074)
    for digits in "002049", "0002048", "02047":
        same(model.read(summed(f"{FRONT}{digits}|{longest}"))[0], False)
    same(model.read(summed(f"{FRONT}002049|{longest[:-1]}x|"))[0], False)


def test_live_positions():
    for digits in "0", "00", "00000", "00004", "0204", "002048", "2048", "000005", "01", "02048":
        same(model.read(raw(FRONT + digits)), (False, 0))
    for digits in "000000", "000004", "02049", "20480", "002049", "0000005", "0000000", "000004|", "000|", "00004|", "00x":
        same(model.read(raw(FRONT + digits)), (False, 13 + len(digits)))
    for digits in "00005|", "002048|", "000005|":
        same(model.live(raw(FRONT + digits), 0), True)


def test_numbers_in_up_to_twelve_digits():
    for number in "01", "000000001", "000000000001", "000999999999":
        same(finding("2", f"7={number}|16=0|"), None)
    for number in "1000000000", "999999999999", "000000000000", "00", "001000000000":
        same(finding("2", f"7={number}|16=0|"), (5, 7))
    for number in "0000000000001", "1000000000000", "0000000000000":
        same(finding("2", f"7={number}|16=0|"), (6, 7))
    same(finding("2", "7=1|16=000000000000|"), None)
    same(finding("0", "", HEADER.replace("{n}", "000000000000")), (5, 34))
    same(finding("A", "98=0|108=030|1137=9|"), None)
    same(finding("A", "98=0|108=061|1137=9|"), (5, 108))
    same(finding("3", "45=01|371=000|373=099|"), None)
    same(finding("5", "1409=000000000004|"), None)


def test_counts():
    same(finding("F", F_FIELDS + "453=01|" + PARTY), None)
    same(finding("F", F_FIELDS + "453=000000000002|" + PARTY), (16, 453))
    same(finding("F", F_FIELDS + "453=4294967297|" + PARTY), (5, 453))
    same(finding("F", F_FIELDS + "453=0000000000001|" + PARTY), (6, 453))
    same(finding("AD", AD_FIELDS.replace("580=1", "580=001")), None)


def test_what_is_no_number_stays():
    same(finding("A", "98=00|108=30|1137=9|"), (5, 98))
    same(finding("A", "98=0|108=30|1137=09|"), (5, 1137))
    same(finding("F", F_FIELDS.replace("22=8", "22=08")), (5, 22))
    same(finding("0", "", HEADER + "058=x|"), (0, 0))


def test_moves_read_them():
    same(stepped(body("0", n="000000000005")), (None, False, [], after(expected=6)))
    for unreadable in "0000000000005", "1000000000", "000000000000":
        same(stepped(body("0", n=unreadable))[2], ["35=5|34=3|1409=101|"])
    same(stepped(body("0", n="0007")), (None, False, ["35=2|34=3|7=5|16=0|"], after(wrote=1, gap=gap(7))))
    same(stepped(body("4", "36=0009|123=Y|", n="05")), (None, False, [], after(expected=9)))
    same(stepped(body("4", "36=007|", n="9")), (None, False, [], after(expected=7)))


def test_what_is_written_has_none():
    same(stepped(body("0", "112=|", n="005"))[2], ["35=3|34=3|45=5|371=112|372=0|373=4|"])
    waiting = record(status=model.WAITING, expected=1, next_out=1)
    logon = stepped(body("A", "98=0|108=030|1137=9|", n="01"), waiting)
    same(logon[2], ["35=A|34=1|98=0|108=30|1137=9|"])
    same(logon[3].heartbeat, 30)
    same(framed(raw("35=0|")), raw("8=FIXT.1.1|9=5|35=0|10=241|"))
