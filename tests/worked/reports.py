"""Verdicts on Trade Capture Reports (Q-1): groups in groups, lists and kinds, the one table of tags."""
from .basics import AD_FIELDS, AE_FRONT, F_FIELDS, FIELDS, HEADER, PARTY, finding, found, same


def side(fields):
    """The finding in a report with this behind its fields outside groups."""
    return finding("AE", AE_FRONT + fields)


def test_clean_reports():
    same(side("552=1|54=1|"), None)
    same(side("552=1|54=2|1427=E|"), None)
    same(side("552=1|54=1|453=1|" + PARTY), None)
    same(side("552=1|54=1|1427=E|453=8|" + PARTY * 8), None)
    same(side("552=1|54=1|453=2|448=P|447=D|452=1|448=Q|452=3|447=D|1427=E|64=20240104|"), None)
    same(finding("AE", "552=1|54=1|453=1|" + PARTY + AE_FRONT), None)           # the group first
    same(finding("AE", "64=20240104|22=8|48=c|574=22|31=0|32=0.00|60=20240102-09:30:00.123|828=99|571=R|552=1|54=1|"), None)


def test_inner_group():
    """The inner group's missing member, then its count, before all that is said of the outer and of the field."""
    same(side("552=1|54=1|453=2|448=P|447=D|452=1|"), (16, 453))                # by the end of the body
    same(side("552=1|54=1|453=2|448=P|447=D|452=1|1427=E|"), (16, 453))         # by a member of the outer one
    same(side("552=1|54=1|453=2|448=P|447=D|452=1|54=2|"), (16, 453))           # by a new instance of the outer one
    same(side("552=1|54=1|453=2|448=P|447=D|452=1|64=20240104|"), (16, 453))    # by a field outside both
    same(side("552=1|54=1|453=1|"), (16, 453))
    same(side("552=1|54=1|453=1|" + PARTY + PARTY), (16, 453))
    same(side("552=1|54=1|453=1|448=P|447=D|"), (1, 452))
    same(side("552=1|54=1|453=1|448=P|452=1|54=2|"), (1, 447))
    same(side("552=1|54=1|453=2|448=P|448=Q|447=D|452=1|"), (1, 447))
    same(side("552=1|54=1|453=2|448=P|447=D|"), (1, 452))                       # missing before count
    same(side("552=1|54=1|453=1|447=D|"), (15, 447))
    same(side("552=1|54=1|453=2|448=P|447=D|452=1|452=3|"), (13, 452))
    for behind in "x|", "0=x|", "9999=x|", "58=|", "8=x|", "571=R|", "112=x|", "49=MM|", "453=1|", "552=1|", "1427=|":
        same(side("552=1|54=1|453=1|448=P|452=1|" + behind), (1, 447))
        same(side("552=1|54=1|453=2|" + PARTY + behind), (16, 453))


def test_outer_group():
    same(side("552=1|54=1|453=1|" + PARTY + "54=2|"), (16, 552))                # two sides
    same(side("552=1|54=1|54=2|"), (16, 552))
    same(side("552=1|54=1|54=2|64=20240104|"), (16, 552))
    same(side("552=1|54=1|54=3|"), (5, 54))                                     # the second side, while the group is open
    same(side("552=1|"), (16, 552))
    same(side("552=1|x|"), (16, 552))
    same(side("552=1|448=P|"), (16, 552))                                       # 448 is no member of 552
    same(side("552=1|54=1|448=P|"), (15, 448))
    same(side("552=1|54=1|1427=E|452=1|"), (15, 452))
    same(side("552=1|1427=E|54=1|"), (15, 1427))
    same(side("552=1|453=1|" + PARTY), (15, 453))                               # before 54
    same(side("552=1|54=1|1427=E|1427=E|"), (13, 1427))
    same(side("552=1|54=1|453=1|" + PARTY + "453=1|" + PARTY), (13, 453))
    same(side("552=1|54=1|453=1|" + PARTY + "1427=E|453=1|" + PARTY), (13, 453))
    same(side("552=1|54=1|453=1|" + PARTY + "54=2|453=1|" + PARTY), (16, 552))  # twice, but not in one side
    same(side("552=1|54=1|453=1|" + PARTY + "54=2|453=2|" + PARTY), (16, 453))
    same(side("552=1|54=1|552=1|54=1|"), (13, 552))
    same(side("552=1|552=1|"), (16, 552))
    same(side("552=1|54=1|64=20240104|54=1|"), (15, 54))                        # again behind its group
    same(side("552=1|54=1|64=20240104|1427=E|"), (15, 1427))
    same(side("552=1|54=1|64=20240104|453=1|"), (15, 453))


def test_outside_their_groups():
    for fields, tag in ("453=1|", 453), ("54=1|", 54), ("1427=E|", 1427), ("448=P|", 448), ("447=D|", 447), ("452=1|", 452):
        same(side(fields), (15, tag))
    same(side("453=9|"), (15, 453))                                             # 15 of step 8 before 5
    same(side("453=|"), (4, 453))


def test_counts():
    for value in "0", "2", "3", "8", "999999999":
        same(side(f"552={value}|54=1|"), (5, 552))
    for value in "x", "1.", "-1", "+1", "1234567890123":
        same(side(f"552={value}|54=1|"), (6, 552))
    same(side("552=|54=1|"), (4, 552))
    for value, reason in ("0", 5), ("9", 5), ("x", 6), ("09", 5), ("", 4):
        same(side(f"552=1|54=1|453={value}|" + PARTY), (reason, 453))
    same(side("552=1|54=1|453=9|" + PARTY * 9), (5, 453))


def test_malformed_parts_in_groups():
    same(side("552=1|54=1|x|"), (0, 0))
    same(side("552=1|54=1|453=1|" + PARTY + "x|"), (0, 0))
    same(side("552=1|54=1|453=1|448=P|x|"), (1, 447))
    same(side("552=1|54=1|453=1|x|" + PARTY), (16, 453))


def test_lists_and_kinds():
    def of(old, new):
        return finding("AE", FIELDS["AE"].replace(old, new))
    for value, wanted in (("0", None), ("54", None), ("99", None), ("5", (5, 828)), ("00", (5, 828)), ("9", (5, 828))):
        same(of("828=0", f"828={value}"), wanted)
    for value, wanted in (("2", None), ("4", None), ("7", None), ("22", None), ("1", (5, 574)), ("24", (5, 574))):
        same(of("574=4", f"574={value}"), wanted)
    for value, wanted in (("1", None), ("2", None), ("3", (5, 54)), ("x", (5, 54)), ("", (4, 54))):
        same(of("54=1", f"54={value}"), wanted)
    same(of("22=8", "22=4"), (5, 22))
    for tag in "571=R", "48=c":
        same(of(tag, tag[:-1] + "x" * 32), None)
        same(of(tag, tag[:-1] + "x" * 33), (5, int(tag[:-2])))
    same(side("552=1|54=1|1427=" + "x" * 32 + "|"), None)
    same(side("552=1|54=1|1427=" + "x" * 33 + "|"), (5, 1427))
    for value, wanted in (("20240229", None), ("20230229", (5, 64)), ("2024022", (6, 64)), ("20240229-09:30:00", (6, 64)),
                          ("00000101", (5, 64)), ("x", (6, 64)), ("", (4, 64))):
        same(side(f"64={value}|552=1|54=1|"), wanted)
    same(of("60=20240102-09:30:00", "60=20240102"), (6, 60))
    same(of("60=20240102-09:30:00", "60=20240102-09:30:61"), (5, 60))


def test_walked_as_AD_and_F():
    same(side("9999=x|552=1|54=1|"), (3, 9999))
    same(side("55=x|552=1|54=1|"), (3, 55))
    same(side("58=x|552=1|54=1|"), (2, 58))
    same(side("75=20240102|552=1|54=1|"), (2, 75))
    same(side("568=a|552=1|54=1|"), (2, 568))
    same(side("571=S|552=1|54=1|"), (13, 571))
    same(side("8=x|552=1|54=1|"), (13, 8))
    same(side("552=1|54=1|43=Y|"), (14, 43))
    same(side("552=1|54=1|453=1|" + PARTY + "43=Y|"), (14, 43))
    same(found("35=AE|x|"), (0, 0))
    same(found("35=AEE|x|"), (11, 35))


def test_missing_tags_in_order():
    given = {571: "R", 828: "0", 60: "20240102-09:30:00", 32: "1", 31: "1", 574: "4", 48: "c", 22: "8"}
    for tag in given:
        same(finding("AE", "".join(f"{t}={v}|" for t, v in given.items() if t != tag) + "552=1|54=1|"), (1, tag))
    for at, tag in enumerate(given):                                            # all from here on
        same(finding("AE", "".join(f"{t}={v}|" for t, v in list(given.items())[:at])), (1, tag))
    same(side(""), (1, 552))
    same(side("64=20240102|"), (1, 552))
    same(finding("AE", "552=1|"), (16, 552))                                    # before the missing tags
    same(finding("AE", FIELDS["AE"], HEADER.replace("49=MM|", "")), (1, 49))


def test_the_one_table():
    """The new tags are of the dictionary for every message: 2 where they do not belong, 4 if empty."""
    for tag in 571, 31, 32, 64, 574, 552, 1427:
        for msg_type in "0", "1", "2", "3", "4", "5", "A", "F", "AD":
            same(finding(msg_type, FIELDS[msg_type] + f"{tag}=x|"), (2, tag))
            same(finding(msg_type, FIELDS[msg_type] + f"{tag}=|"), (4, tag))
    same(finding("0", "552=1|54=1|"), (2, 552))                                 # and opens nothing
    same(found("35=0|31=1|49=MM|"), (2, 31))
    same(finding("AD", AD_FIELDS + "828=99|"), (5, 828))                        # AD keeps its list
    same(finding("AD", AD_FIELDS + "828=54|"), None)
    same(finding("F", F_FIELDS + "453=1|" + PARTY + "1427=E|"), (2, 1427))
    same(finding("F", F_FIELDS + "453=2|" + PARTY + "1427=E|"), (16, 453))
