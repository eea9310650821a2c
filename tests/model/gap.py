"""The gap of document 02, Q-5: what the record holds of it, when a too-high frame asks, what it sees, and what closes it."""
from collections import namedtuple

RE_ASK = 10_000_000                         # microseconds; 02: or 10 seconds have passed on the step's clock

# 02: whether a gap is open, for which expected number, the highest number seen, and when it was last asked for
Gap = namedtuple("Gap", "is_open expected highest asked")
NO_GAP = Gap(0, 0, 0, 0)


def has_passed(gap, time):
    """02: a clock that went back counts as passed. Ten seconds exactly have passed."""
    return time < gap.asked or time - gap.asked >= RE_ASK


def asks(gap, expected, time):
    """02: A too-high frame asks only if no gap is open, or E has moved since, or 10 seconds have passed on the step's
    clock"""
    return not gap.is_open or gap.expected != expected or has_passed(gap, time)


def asked_for(gap, expected, n, time):
    """The gap behind an asking: its highest is the larger of the one before and N, 0 where none was open."""
    return Gap(1, expected, max(gap.highest, n), time)


def seen(gap, n):
    """The gap behind a too-high frame that does not ask."""
    return gap._replace(highest=max(gap.highest, n))


def closed_by(gap, expected):
    """02: E above the highest seen closes it"""
    return NO_GAP if expected > gap.highest else gap
