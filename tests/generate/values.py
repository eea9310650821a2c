"""Values of a tag: good ones, and those at the edges of its kind."""
import model

from .basics import BAR, byte_mutated, chance, filler

NUMBER_EDGES = (b"0", b"1", b"2", b"3", b"8", b"9", b"10", b"59", b"60", b"61", b"99", b"999999999", b"999999990",
                b"1000000000", b"4294967297", b"4294967326", b"18446744073709551617", b"01", b"00", b"007", b"-1",
                b"+1", b" 1", b"1 ", b"1.0", b"1e3", b"x", b"1x", b"0x1", b"000000000", b"000000001", b"0000000001",
                b"000000000000", b"0000000000000", b"000000000001", b"0000000000001", b"000999999999", b"001000000000",
                b"0999999999999", b"999999999999", b"9999999999999", b"00000000001x", b"060", b"000000000061")
YES_NO_EDGES = (b"Y", b"N", b"y", b"n", b"YY", b"YN", b"1", b" ", b"Y ", b"\xd9")
TIME_EDGES = tuple(text.encode() for text in (
    "20240102-09:30:00", "20240102-09:30:00.000", "20240102-09:30:00.999999", "20240102-09:30:00.",
    "20240102-09:30:00.1", "20240102-09:30:00.12", "20240102-09:30:00.1234", "20240102-09:30:00.12345",
    "20240102-09:30:00.1234567", "20240102-09:30:00.12x", "20240102-09:30:00.12345x", "20240102-09:30:00,123",
    "20240102 09:30:00", "20240102-9:30:00", "20240102-09-30-00", "20240102-09:30", "20240102", "2024-01-02", "",
    "x0240102-09:30:00", "20240102-09:30:0x", "20240102-09:30:00Z", "20240102-24:00:00", "20240102-23:59:59",
    "20240102-00:60:00", "20240102-00:59:60", "20240102-00:00:61", "20240102-99:99:99", "20240102-23:59:60.999999",
    "00000101-00:00:00", "00010101-00:00:00", "99991231-23:59:60", "20240229-00:00:00", "20230229-00:00:00",
    "20000229-00:00:00", "19000229-00:00:00", "21000229-00:00:00", "24000229-00:00:00", "00040229-00:00:00",
    "01000229-00:00:00", "20240230-00:00:00", "20240131-00:00:00", "20240132-00:00:00", "20240430-00:00:00",
    "20240431-00:00:00", "20240631-00:00:00", "20240931-00:00:00", "20241131-00:00:00", "20240731-00:00:00",
    "20240831-00:00:00", "20241231-00:00:00", "20240001-00:00:00", "20241301-00:00:00", "20240100-00:00:00",
    "20240100-24:60:61", "2024/102-09:30:00", "2024:102-09:30:00"))
DATE_EDGES = tuple(edge[:8] for edge in TIME_EDGES) + (b"2024010", b"202401022", b"2024010x", b"20240102-09:30:00")
STRING_LENGTHS = (1, 2, 31, 32, 33, 34, 63, 64, 65, 66, 255, 256, 257, 258, 300)
LIST_EDGES = (b"0", b"1", b"2", b"3", b"8", b"9", b"12", b"17", b"54", b"76", b"7", b"5", b"00", b"08", b"09", b"D",
              b"d", b"DD", b"99", b"x", b"8 ", b"1, 2", b"12345678901", b"x" * 33)
DECIMAL_EDGES = tuple(text.encode() for text in (
    "0", "0.0", "0.00000000", "0.000000000", "0.05", "0.5", "1", "1.0", "10", "1.", ".5", ".", "0.", "00", "01",
    "00.5", "01.5", "+1", "-1", "-0", "+0.5", " 1", "1 ", "1e3", "1,5", "1.5.", "1.5.5", "1..5", "x", "1x", "1.x",
    "x.1", "1.5x", "1.-5", "=1", "999999999999999", "1000000000000000", "9999999999999999", "99999999999999.9",
    "999999999999999.0", "99999999999999.99", "9999999.99999999", "10000000.00000000", "1.00000000", "1.000000000",
    "0.12345678", "0.123456789", "4294967296", "4294967296.0", "18446744073709551615", "18446744073709551616",
    "18446744073709551621", "18446744073709551626.5", "184467440737095.51616", "1844674407370955.1616",
    "100000000000000000000000000000000", "0.00000000000000000000000000000000", "0000000000000001", "000000000000000.5",
    "1111111111111111111111111.", "11111111111111111111111x", "0.1111111111111111111x"))


def good_time(r):
    month = r.randint(1, 12)
    date = b"%04d%02d%02d" % (r.choice((1, 4, 1600, 1999, 2000, 2023, 2024, 2100, 9999)), month, r.randint(1, 28))
    clock = b"-%02d:%02d:%02d" % (r.randint(0, 23), r.randint(0, 59), r.randint(0, 60))
    return date + clock + r.choice((b"", b".%03d" % r.randrange(1000), b".%06d" % r.randrange(1000000)))


def written(r, number):
    """A number's digits, as a rule without zeros in front, else up to twelve."""
    return b"%0*d" % (r.randint(1, 12) if chance(r, 0.2) else 1, number)


def good_number(r, least, greatest):
    return written(r, r.choice((least, greatest, r.randint(least, greatest), r.randint(least, min(greatest, least + 20)))))


def good_string(r, longest):
    size = r.choice((1, 2, 3, 5, longest - 1, longest)) if chance(r, 0.3) else r.randint(1, 6)
    return bytes(r.choice(b"abcMGW019=- \x00\xff\x02") for _ in range(size))


def good_decimal(r):
    """Whole number and places in their ranges."""
    whole = r.choice((0, 1, 5, 10, 99, 100, 1250, 10 ** 14, 10 ** 15 - 1, r.randrange(10 ** r.randint(1, 15))))
    return model.Decimal(whole, r.choice((0, 0, 1, 2, 2, 7, 8, r.randint(0, 8))))


def edge_decimal(r):
    """A listed one, or digits around the greatest number of them with a point anywhere, or one byte of a good one changed."""
    if chance(r, 0.6):
        return r.choice(DECIMAL_EDGES)
    if chance(r, 0.3):
        return byte_mutated(r, model.in_digits(good_decimal(r))).replace(BAR, b"")
    digits = b"%d" % r.randrange(10 ** r.choice((1, 2, 8, 9, 14, 15, 16, 17, 19, 20)))
    at = r.randint(0, len(digits))
    return digits[:at] + r.choice((b"", b".", b".")) + digits[at:]


def is_number(tag):
    return tag in model.FROM_ONE or tag in model.FROM_ZERO


def good_value(r, tag, entry=None):
    """A value that a tag may have, from the list of this entry if it has another in one message than in others."""
    if is_number(tag):
        return good_number(r, *model.number_range(tag))
    if tag in model.YES_OR_NO:
        return r.choice((b"Y", b"N"))
    if tag in model.TIMES:
        return good_time(r)
    if tag in model.DATES:
        return good_time(r)[:8]
    if tag in model.DECIMALS:
        return model.in_digits(good_decimal(r))
    entry = entry or model.IN_DICTIONARY.get(tag)
    if entry and entry.values:
        return r.choice(entry.values)
    return good_string(r, model.STRING_LENGTHS.get(tag, 32))


def edge_value(r, tag):
    if chance(r, 0.05):
        return b""
    if is_number(tag):
        return r.choice(NUMBER_EDGES)
    if tag in model.YES_OR_NO:
        return r.choice(YES_NO_EDGES)
    if tag in model.TIMES:
        return r.choice(TIME_EDGES)
    if tag in model.DATES:
        return r.choice(DATE_EDGES)
    if tag in model.DECIMALS:
        return edge_decimal(r)
    if tag in model.IN_DICTIONARY and model.IN_DICTIONARY[tag].values:
        return r.choice(LIST_EDGES)
    return filler(r, r.choice(STRING_LENGTHS))
