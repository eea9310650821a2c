"""The kinds: numbers, lists, yes and no, strings, times and dates."""
from .basics import AD_FIELDS, F_FIELDS, HEADER, finding, found, same


def test_numbers():
    for bad in "1234567890123", "-1", "+1", "1.0", " 1", "x":
        same(finding("2", f"7={bad}|16=0|"), (6, 7))
    same(found("35=0|34=0|"), (5, 34))
    same(finding("2", "7=0|16=0|"), (5, 7))
    same(finding("2", "7=1|16=0|"), None)
    same(finding("2", "7=999999999|16=999999999|"), None)
    same(finding("3", "45=0|"), (5, 45))
    same(finding("3", "45=1|371=0|373=0|"), None)
    same(finding("4", "36=0|"), (5, 36))
    same(finding("5", "1409=0|"), None)
    same(finding("F", F_FIELDS + "453=0|"), (5, 453))
    same(finding("F", F_FIELDS + "453=9|"), (5, 453))
    same(finding("F", F_FIELDS + "453=09|"), (5, 453))
    same(finding("AD", AD_FIELDS.replace("580=1", "580=3")), (5, 580))
    same(finding("AD", AD_FIELDS.replace("580=1", "580=0")), (5, 580))
    for value in "0", "61", "999999999":
        same(finding("A", f"98=0|108={value}|1137=9|"), (5, 108))
    for value in "1", "60":
        same(finding("A", f"98=0|108={value}|1137=9|"), None)


def test_lists_are_strings():
    for text, tag in (("98=1|", 98), ("98=00|", 98), ("98=x|", 98), ("98=0|108=1|1137=x|", 1137)):
        same(finding("A", text), (5, tag))
    same(finding("0", "", HEADER + "1128=09|"), (5, 1128))
    for good, bad in ("54=1", "54=3"), ("54=1", "54=x"), ("22=8", "22=08"), ("22=8", "22=xyz"):
        same(finding("F", F_FIELDS.replace(good, bad)), (5, int(good[:2])))
    for good, bad, tag in ("569=0", "569=1", 569), ("569=0", "569=0|263=1", 263), ("569=0", "569=0|828=5", 828):
        same(finding("AD", AD_FIELDS.replace(good, bad)), (5, tag))
    same(finding("AD", AD_FIELDS.replace("569=0", "569=0|828=54")), None)
    for value in "1", "3", "12", "17", "76":
        same(finding("F", F_FIELDS + f"453=1|448=P|447=D|452={value}|"), None)
    for value in "2", "01", "x", "123":
        same(finding("F", F_FIELDS + f"453=1|448=P|447=D|452={value}|"), (5, 452))


def test_yes_and_no():
    for value in "y", "YN", "1", "X":
        same(finding("4", f"36=9|123={value}|"), (6, 123))
    for tag in 43, 97:
        same(finding("0", "", HEADER + f"{tag}=X|"), (6, tag))


def test_strings():
    same(finding("0", "112=" + "x" * 64 + "|"), None)
    same(finding("0", "112=" + "x" * 65 + "|"), (5, 112))
    same(finding("5", "58=" + "x" * 256 + "|"), None)
    same(finding("5", "58=" + "x" * 257 + "|"), (5, 58))
    same(finding("0", "", HEADER.replace("MM", "x" * 32)), None)
    same(finding("0", "", HEADER.replace("MM", "x" * 33)), (5, 49))
    same(finding("0", "112=a=b\x00\xff|"), None)


def test_times_and_dates():
    def of(value):
        return finding("0", "", HEADER.replace("20240102-09:30:00", value))
    for clean in ("20240102-09:30:00", "20240102-09:30:00.000", "20240102-23:59:60.999999", "00010101-00:00:00",
                  "99991231-12:34:60", "20000229-00:00:00", "20240229-00:00:00"):
        same(of(clean), None)
    for shape in ("20240102-09:30:00.", "20240102-09:30:00.1", "20240102-09:30:00.12", "20240102-09:30:00.1234",
                  "20240102-09:30:00.12345", "20240102-09:30:00.1234567", "20240102 09:30:00", "2024010-09:30:00",
                  "20240102-09:30:0", "20240102-9:30:00", "20240102", "20240102-09-30-00", "20240102-09:30:00,123",
                  "x0240102-09:30:00", "20240102-09:30:00.12x", "20241302-25:61:6x"):
        same(of(shape), (6, 52))
    for value in ("20241302-09:30:00", "20240002-09:30:00", "20240100-09:30:00", "20240132-09:30:00",
                  "20240431-09:30:00", "20230229-09:30:00", "19000229-09:30:00", "21000229-00:00:00",
                  "20240102-24:00:00", "20240102-09:60:00", "20240102-09:30:61", "00000101-00:00:00"):
        same(of(value), (5, 52))
    for value, wanted in (("20240229", None), ("20230229", (5, 75)), ("2024022", (6, 75)), ("202402290", (6, 75)),
                          ("20240102-09:30:00", (6, 75)), ("00000101", (5, 75)), ("00010101", None)):
        same(finding("AD", AD_FIELDS.replace("75=20240102", f"75={value}")), wanted)
