"""The decimals of Q-1: form, range, whole number and places, and how they are written."""
import model
from model import Decimal

from .basics import FIELDS, body, finding, same


def with_price(value):
    return FIELDS["AE"].replace("31=12.50", f"31={value}")


def test_whole_number_and_places():
    for value, whole, places in (("0", 0, 0), ("5", 5, 0), ("10", 10, 0), ("12.5", 125, 1), ("12.50", 1250, 2),
                                 ("0.05", 5, 2), ("0.50", 50, 2), ("0.00", 0, 2), ("0.00000000", 0, 8),
                                 ("1.00000001", 100_000_001, 8), ("100.000", 100_000, 3),
                                 ("999999999999999", 999_999_999_999_999, 0),
                                 ("9999999.99999999", 999_999_999_999_999, 8)):
        same(finding("AE", with_price(value)), None)
        same(model.values_in(body("AE", with_price(value))).fields[31], Decimal(whole, places))
        same(model.in_digits(Decimal(whole, places)), value.encode())


def test_bad_form():
    for value in ("1.", ".5", ".", "01", "00", "00.5", "01.5", "+1", "-1", "-0", "1e3", "1,5", " 1", "1 ", "1.5.", "1.5.5",
                  "1..5", "x", "1x", "1.x", "1.5x", "0x1", "1. 5", "1.-5", "=", "1=", "\u00b2"):
        same(finding("AE", with_price(value)), (6, 31))
        same(finding("AE", FIELDS["AE"].replace("32=100", f"32={value}")), (6, 32))
    same(finding("AE", with_price("")), (4, 31))


def test_out_of_range():
    """Sixteen digits or nine places, however many there are: nothing may overflow on the way."""
    for value in ("1000000000000000", "9999999999999999", "100000000000000.0", "999999999999999.0", "10000000.00000000",
                  "0.000000000", "0.123456789", "1.000000000", "18446744073709551616", "18446744073709551615",
                  "18446744073709551621", "1" + "0" * 40, "0." + "0" * 40, "9" * 20 + "." + "9" * 20,
                  "4294967296.5" + "0" * 9, "1" + "0" * 300, "0." + "0" * 300 + "1"):
        same(finding("AE", with_price(value)), (5, 31))
    for value in "0" + "1" * 40, "1" * 40 + ".", "0." + "0" * 40 + "x", "1" * 40 + "x", "-" + "1" * 40:
        same(finding("AE", with_price(value)), (6, 31))             # where the form is wrong too


def test_written():
    for whole, places, text in ((5, 2, b"0.05"), (0, 2, b"0.00"), (0, 0, b"0"), (0, 1, b"0.0"), (0, 8, b"0.00000000"),
                                (7, 1, b"0.7"), (10, 1, b"1.0"), (99, 2, b"0.99"), (100, 2, b"1.00"), (1250, 2, b"12.50"),
                                (1250, 0, b"1250"), (1, 8, b"0.00000001"), (100_000_000, 8, b"1.00000000"),
                                (999_999_999_999_999, 8, b"9999999.99999999"),
                                (999_999_999_999_999, 0, b"999999999999999")):
        same(model.in_digits(Decimal(whole, places)), text)
