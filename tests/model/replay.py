"""The replay of document 02, Q-4: what goes out at its place, and where it stands then."""
from dataclasses import replace

from .record import no_replay
from .report import MSG_TYPE, own_fields
from .store import kept
from .times import in_utc
from .writer import message, whole


def again(record, report, time):
    """02: each kept report goes out again under its old number with 43=Y, a new 52 and its first 52 as 122"""
    header = [(35, MSG_TYPE), (49, record.ours), (56, record.peer), (34, b"%d" % report.number), (43, b"Y"),
              (52, in_utc(time)), (122, in_utc(report.time))]
    return whole(header + own_fields(report.values))


def gap_fill(record, begin, end, time):
    """01: one message 4, 34=b, 43=Y, 122 equal to 52, 123=Y, 36 one above"""
    return message(b"4", {49: record.ours, 56: record.peer, 34: begin, 43: b"Y", 52: in_utc(time), 122: in_utc(time),
                          123: b"Y", 36: end + 1})


def next_message(record, store, time):
    """The message at the replay's place, and the last number that it covers: 02: and each longest run of other numbers
    becomes one gap fill"""
    reports = {report.number: report for report in kept(record, store) if report}
    if record.at in reports:
        return again(record, reports[record.at], time), record.at
    end = min([record.to, *(number - 1 for number in reports if number > record.at)])
    return gap_fill(record, record.at, end, time), end


def moved_on(record, end, time):
    """The place behind a message that covers the numbers up to this one. 01: Every message written in a session sets last
    sent to the call's time."""
    after = replace(record, at=end + 1, last_sent=time)
    return after if end < record.to else no_replay(after)
