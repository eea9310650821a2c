"""Fields and the verdict: types, malformed parts, groups, skipped tags, header tags, missing tags."""
import model

from .basics import AD_FIELDS, F_FIELDS, FIELDS, HEADER, PARTY, finding, found, raw, same


def test_fields():
    same([model.cut(part) for part in model.parts(raw("35=0|58=|58=a=b|0=x|01=x|123456=x|12345=x|x|=x||1a=|"))],
         [(35, b"0"), (58, b""), (58, b"a=b"), (None, b"0=x"), (None, b"01=x"), (None, b"123456=x"), (12345, b"x"),
          (None, b"x"), (None, b"=x"), (None, b""), (None, b"1a=")])
    same(model.first_field(raw("35=0|134=1|34|34=|34=2|"), 34), b"")
    same(model.first_field(raw("35=0|134=1|"), 34), None)
    for bad in "", "35=|", "35=0", "36=0|", "35=" + "x" * 2045 + "|":
        same(model.is_body(raw(bad)), False)
    for good in "35=0|", "35=||", "35=" + "x" * 2044 + "|":
        same(model.is_body(raw(good)), True)


def test_clean_messages():
    for msg_type in FIELDS:
        same(finding(msg_type), None)
    same(finding("F", F_FIELDS + "453=2|" + PARTY + PARTY), None)
    same(finding("AD", "453=1|" + PARTY + AD_FIELDS + "60=20240102-09:30:00|58=x|"), None)


def test_type_before_the_walk():
    same(found("35=||"), (11, 35))
    same(found("35=B|x|"), (11, 35))
    same(found("35=00|"), (11, 35))
    same(found("35=AD=|"), (11, 35))


def test_malformed_parts():
    for bad in "0=x|", "01=x|", "123456=x|", "x|", "|", "=|", "12|", "+1=x|", "1 =x|":
        same(finding("0", bad), (0, 0))
        same(finding("F", bad), (0, 0))


def test_step_1_before_all_others():
    for behind in "x|", "0=x|", "9999=x|", "58=|", "8=x|", "11=a|", "112=x|", "49=MM|", "":
        same(finding("F", F_FIELDS + "453=1|448=P|447=D|" + behind), (1, 452))
        same(finding("F", F_FIELDS + "453=2|" + PARTY + behind), (16, 453))
        same(finding("F", F_FIELDS + "453=1|" + PARTY + PARTY + behind), (16, 453))
        same(finding("F", F_FIELDS + "453=1|" + behind), (16, 453))
    same(finding("F", F_FIELDS + "453=2|448=P|448=|"), (1, 447))                # readings: a new instance that is empty
    same(finding("F", F_FIELDS + "453=2|448=P|452=1|448=Q|"), (1, 447))
    same(finding("F", F_FIELDS + "453=3|" + PARTY + "448=|"), (4, 448))
    same(finding("F", F_FIELDS + "453=1|" + PARTY * 3), (16, 453))              # readings: more instances than said
    same(finding("F", F_FIELDS + "453=1|" + PARTY * 2 + "448=P|447=X|"), (5, 447))
    same(finding("F", "453=2|" + PARTY), (16, 453))                             # before the missing tags


def test_members_of_groups():
    same(finding("F", F_FIELDS + "453=1|" + PARTY + "9999=x|"), (3, 9999))
    same(finding("AD", AD_FIELDS + "453=1|" + PARTY + "447=D|452=1|448=Q|"), (13, 447))
    same(finding("AD", "453=1|" + PARTY + AD_FIELDS + "448=P|"), (15, 448))     # readings: again after its group
    same(finding("AD", "453=1|" + PARTY + "75=20240102|" + AD_FIELDS), (15, 75))    # a member of the other group
    same(finding("AD", "453=1|448=P|75=20240102|" + AD_FIELDS), (1, 447))
    same(finding("AD", "448=P|" + AD_FIELDS), (15, 448))
    same(finding("AD", "60=20240102-09:30:00|" + AD_FIELDS), (15, 60))
    same(finding("F", "75=20240102|" + F_FIELDS), (2, 75))
    same(finding("0", "453=1|448=P|"), (2, 453))                                # and opens nothing
    same(finding("0", "448=P|"), (2, 448))
    same(finding("AD", AD_FIELDS.replace("580=1|75=20240102|", "580=1|60=20240102-09:30:00|75=20240102|")), (15, 60))
    same(finding("AD", AD_FIELDS + "60=20240102-09:30:00|"), None)
    same(finding("AD", AD_FIELDS + "60=20240102-09:30:00|60=20240102-09:30:00|"), (13, 60))
    same(finding("AD", AD_FIELDS.replace("580=1|", "580=2|") + "60=20240102-09:30:00|75=20240103|"), None)
    same(finding("AD", AD_FIELDS.replace("580=1|", "580=2|") + "60=20240102-09:30:00|"), (16, 580))
    same(finding("F", F_FIELDS + "453=1|448=P|452=1|447=D|"), None)             # the others follow in any order
    same(finding("F", F_FIELDS + "453=1|448=P|452=99|452=1|447=D|"), (5, 452))
    same(finding("F", F_FIELDS + "453=1|448=P|452=1|452=99|447=D|"), (13, 452))  # 13 of step 8 before 5
    same(finding("F", F_FIELDS + "453=1|447=X|"), (15, 447))                    # 15 of step 8 before 5
    same(finding("F", F_FIELDS + "453=1|" + PARTY + "453=1|" + PARTY), (13, 453))
    same(finding("F", F_FIELDS + "453=8|" + PARTY * 8), None)
    same(finding("F", F_FIELDS + "453=9|" + PARTY * 9), (5, 453))


def test_skipped_and_frame_tags():
    same(finding("0", "9999=|9999=|58888=x|"), None)
    same(found("35=0|9999=x|9999=|49=MM|56=GW|34=1|52=20240102-09:30:00|"), None)       # not "non-header"
    same(finding("F", "9999=|"), (3, 9999))
    for tag in 8, 9, 10:
        same(finding("0", f"{tag}=x|"), (13, tag))
        same(finding("0", f"{tag}=|"), (4, tag))
        same(finding("F", f"{tag}=x|"), (13, tag))
    same(finding("0", "11=a|"), (2, 11))
    same(finding("0", "11=|"), (4, 11))
    same(finding("1", "112=a|112=b|"), (13, 112))
    same(finding("1", "112=a|112=|"), (4, 112))


def test_header_tags():
    same(found("35=0|52=20240102-09:30:00|34=1|43=Y|1128=9|97=N|122=20240102-09:30:00.123|56=GW|49=MM|"), None)
    same(finding("0", "112=x|49=MM|"), (13, 49))
    same(finding("0", "112=x|97=|"), (4, 97))
    same(finding("0", "112=x|97=x|"), (14, 97))
    same(finding("0", "97=x|"), (6, 97))
    same(finding("F", F_FIELDS + "453=1|" + PARTY + "43=Y|"), (14, 43))
    same(found("35=0|35=0|"), (13, 35))


def test_missing_tags_in_order():
    same(found("35=0|"), (1, 49))
    same(found("35=A|98=0|"), (1, 49))
    for tag, wanted in (("49=MM|", 49), ("56=GW|", 56), ("34={n}|", 34), ("52=20240102-09:30:00|", 52)):
        same(finding("F", "", HEADER.replace(tag, "")), (1, wanted))
    same(finding("F", "11=a|41=b|54=1|60=20240102-09:30:00|"), (1, 48))
    same(finding("AD", "568=a|569=0|580=1|75=20240102|"), (1, 22))
    same(finding("AD", "568=a|569=0|22=8|48=c|"), (1, 580))
    for msg_type, fields, tag in (("F", "", 11), ("AD", "", 568), ("1", "", 112), ("2", "", 7), ("2", "7=1|", 16),
                                  ("3", "", 45), ("4", "", 36), ("A", "", 98), ("A", "98=0|", 108),
                                  ("A", "98=0|108=1|", 1137)):
        same(finding(msg_type, fields), (1, tag))
