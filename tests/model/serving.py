"""Serving a Resend Request in document 01: what cannot be served, and the gap fill that goes out; in document 02, Q-4, the
replay that starts instead."""
from .landed import LANDED
from .times import in_utc


def unservable(move):
    """01: L one below the next out; b > L is Reject 5, tag 7; then 0 < e < b is Reject 5, tag 16. That tag, or None if it
    can be served."""
    begin, end = int(move.first(7)), int(move.first(16))
    if begin > move.last_before:
        return 7
    return 16 if 0 < end < begin else None


def serve(move):
    """A Resend Request that can be served, up to the smaller of e and L (L if e = 0)."""
    begin, end = int(move.first(7)), int(move.first(16))
    last = move.last_before if end == 0 else min(end, move.last_before)
    if 4 in LANDED:
        start_replay(move, begin, last)
    else:
        gap_fill_out(move, begin, last)


def gap_fill_out(move, begin, last):
    """01: one message 4, 34=b, 43=Y, 122 equal to 52, 123=Y, 36 one above the smaller of e and L (L if e = 0). It uses
    no new number"""
    move.send_as(begin, b"4", {43: b"Y", 122: in_utc(move.time), 123: b"Y", 36: last + 1})


def start_replay(move, begin, last):
    """02: The step, in rule 4 too, only starts this, with L from before the step. .. a new Resend Request that can be
    served replaces it"""
    move.record.at, move.record.to = begin, last
