"""The decimals of document 02, Q-1: text to whole number and places, and back."""
import re
from collections import namedtuple

# 02: decimals given as a whole number from 0 to 999,999,999,999,999 and 0 to 8 places. The whole number is all the
# digits without the point: 12.50 is 1250 with 2 places, 0.05 is 5 with 2.
Decimal = namedtuple("Decimal", "whole places")
GREATEST_WHOLE, MOST_PLACES = 999_999_999_999_999, 8

# 02: digits without leading zero but a lone 0, then a point only if places follow (else 6 ..)
DECIMAL_SHAPE = re.compile(rb"(0|[1-9][0-9]*)(?:\.([0-9]+))?")


def decimal_in(value):
    """The decimal that a value of good form says: 02: reading gives back both"""
    before, behind = DECIMAL_SHAPE.fullmatch(value).groups(b"")
    return Decimal(int(before + behind), len(behind))


def decimal_range(decimal):
    """02: out of range 5"""
    return decimal.whole <= GREATEST_WHOLE and decimal.places <= MOST_PLACES


def in_digits(decimal):
    """A decimal in range as it is written: zeros in front, so that a digit stands before the point."""
    digits = b"%0*d" % (decimal.places + 1, decimal.whole)
    return digits[:-decimal.places] + b"." + digits[-decimal.places:] if decimal.places else digits
