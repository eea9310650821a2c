"""Times and dates in document 01: their shape, the calendar, and a reply's time from microseconds since 1970; which of two is the
later in document 02."""
import re
from datetime import datetime, timedelta

TIME_SHAPE = re.compile(rb"(\d{8})-(\d\d):(\d\d):(\d\d)(?:\.\d{3}(?:\d{3})?)?")
DATE_SHAPE = re.compile(rb"(\d{8})")


def calendar_date(digits):
    """01: Gregorian calendar, years 0001 to 9999"""
    year, month, day = int(digits[:4]), int(digits[4:6]), int(digits[6:8])
    if year < 1 or not 1 <= month <= 12 or day < 1:
        return False
    if month == 2:
        return day <= (29 if year % 4 == 0 and (year % 100 != 0 or year % 400 == 0) else 28)
    return day <= (30 if month in (4, 6, 9, 11) else 31)


def calendar_time(value):
    """01: seconds 00 to 60 in any minute"""
    date, hour, minute, second = TIME_SHAPE.fullmatch(value).groups()
    return calendar_date(date) and int(hour) <= 23 and int(minute) <= 59 and int(second) <= 60


def is_time(value):
    """Whether it keeps its shape and the calendar. 02: a 52 or 122 that breaks its form or the calendar"""
    return TIME_SHAPE.fullmatch(value) is not None and calendar_time(value)


def moment(value):
    """Year, month, day, hour, minute, second and microseconds of a time. 02: A seconds-only time counts as having zero
    decimals"""
    date, clock, decimals = value[:8], value[9:17], value[18:]
    return tuple(map(int, (date[:4], date[4:6], date[6:], *clock.split(b":"), decimals.ljust(6, b"0"))))


def is_later(value, other):
    """02: a 122 later than its 52. The first part that differs decides: second 60 stands behind 59, and before the next
    minute."""
    return moment(value) > moment(other)


def in_utc(time):
    """01: A reply's 52 has six decimals."""
    at = datetime(1970, 1, 1) + timedelta(microseconds=time)
    return b"%04d%02d%02d-%02d:%02d:%02d.%06d" % (
        at.year, at.month, at.day, at.hour, at.minute, at.second, at.microsecond)
