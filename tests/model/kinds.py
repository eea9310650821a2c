"""The kinds of document 01 and the decimals of document 02: form and value of one field."""
from .decimals import DECIMAL_SHAPE, decimal_in, decimal_range
from .dictionary import (DATES, DECIMALS, FROM_ONE, FROM_ZERO, GROUP_RANGES, IN_DICTIONARY, STRING_LENGTHS, TIMES,
                         YES_OR_NO)
from .frame import BAR
from .landed import LANDED
from .times import DATE_SHAPE, TIME_SHAPE, calendar_date, calendar_time


def number_form(value):
    """01: Numbers are 1 to 9 digits with no leading zero ("0" itself stands). 02: Field numbers (31 and 32 apart) may have
    up to 12 digits"""
    if 3 in LANDED:
        return 1 <= len(value) <= 12 and value.isdigit()
    return 1 <= len(value) <= 9 and value.isdigit() and (value == b"0" or not value.startswith(b"0"))


def number_range(tag):
    if tag in GROUP_RANGES:
        return GROUP_RANGES[tag]
    if IN_DICTIONARY[tag].least is not None:
        return IN_DICTIONARY[tag].least, IN_DICTIONARY[tag].greatest
    return (1 if tag in FROM_ONE else 0), 999_999_999


def bad_form(tag, value):
    """01: bad form: 6 (numbers, Y/N, the shape of dates)"""
    if tag in FROM_ONE or tag in FROM_ZERO:
        return not number_form(value)
    if tag in YES_OR_NO:
        return value not in (b"Y", b"N")
    if tag in TIMES:
        return not TIME_SHAPE.fullmatch(value)
    if tag in DATES:
        return not DATE_SHAPE.fullmatch(value)
    if tag in DECIMALS:
        return not DECIMAL_SHAPE.fullmatch(value)
    return False


def bad_value(entry, value):
    """01: bad value: 5 (ranges, lists, string length, calendar). Asked of a value of good form alone."""
    tag = entry.tag
    if tag in FROM_ONE or tag in FROM_ZERO:
        least, greatest = number_range(tag)
        return not least <= int(value) <= greatest
    if tag in YES_OR_NO:
        return False
    if tag in TIMES:
        return not calendar_time(value)
    if tag in DATES:
        return not calendar_date(value)
    if tag in DECIMALS:
        return not decimal_range(decimal_in(value))
    if entry.values is not None:
        return value not in entry.values
    return BAR in value or not 1 <= len(value) <= STRING_LENGTHS.get(tag, 32)


def of_its_kind(tag, value, table=IN_DICTIONARY):
    """Whether a value has form and range of its tag, with the list that this table gives it."""
    return not bad_form(tag, value) and not bad_value(table[tag], value)
