"""One call on a session under way: what it writes with which numbers, and what a step reads of its frame."""
from dataclasses import replace

from .dictionary import MESSAGES
from .fields import first_field
from .gap import NO_GAP, asked_for, closed_by
from .kinds import of_its_kind
from .landed import LANDED
from .record import CLOSED, no_replay
from .times import in_utc
from .walk import verdict
from .writer import message


class Writing:
    """One call on a session under way: a record of its own, and what has been written so far."""

    def __init__(self, record, time):
        self.record = replace(record)
        self.time = time
        self.reply = b""

    def send_as(self, number, msg_type, values):
        """01: Every message written in a session sets last sent to the call's time."""
        header = {49: self.record.ours, 56: self.record.peer, 34: number, 52: in_utc(self.time)}
        self.reply += message(msg_type, {**header, **values})
        self.record.last_sent = self.time

    def send(self, msg_type, values):
        """01: other replies use the next"""
        self.send_as(self.record.next_out, msg_type, values)
        self.record.next_out += 1

    def log_out(self, session_status=101):
        """01: Logouts of ours set Closed and carry 1409=101; the answer to a Logout carries 1409=4. 02: Closing .. drops
        an unfinished replay"""
        self.send(b"5", {1409: session_status})
        self.record = no_replay(replace(self.record, status=CLOSED))


class Move(Writing):
    """One step under way, with what the incoming frame says."""

    def __init__(self, record, time, body):
        super().__init__(record, time)
        self.body = body
        self.msg_type = first_field(body, 35)
        n = first_field(body, 34)       # "unreadable if absent or not of its kind"
        self.n = int(n) if n is not None and of_its_kind(34, n) else None
        self.last_before = record.next_out - 1      # 02: with L from before the step
        self.delivered = False
        self.zeroes_store = False

    def first(self, tag):
        return first_field(self.body, tag)

    def verdict(self):
        return verdict(self.body)

    def wrong_comp_id(self):
        """49 if it is missing or not the peer's, or else 56 if it is missing or not ours, or else None."""
        if self.first(49) != self.record.peer:
            return 49
        return 56 if self.first(56) != self.record.ours else None

    def ask_from_expected(self):
        """01: Resend Request 7=E, 16=0. 02: when it was last asked for"""
        self.send(b"2", {7: self.record.expected, 16: 0})
        if 5 in LANDED:
            self.record.gap = asked_for(self.record.gap, self.record.expected, self.n, self.time)

    def close_gap(self):
        self.record.gap = NO_GAP

    def close_passed_gap(self):
        """Behind every step that is not refused, by E as the move leaves it."""
        self.record.gap = closed_by(self.record.gap, self.record.expected)

    def reject(self, reason, tag, naming_type=True):
        """01: Reject writes 45 (N), 371 unless 0, 372 only if the type is one of the nine, 373. 02: AE as a tenth
        type"""
        values = {45: self.n, 373: reason}
        if tag != 0:
            values[371] = tag
        if naming_type and self.msg_type in MESSAGES:
            values[372] = self.msg_type
        self.send(b"3", values)
