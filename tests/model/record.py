"""The session's record of document 01 with the place of a replay and the gap of document 02: its ranges, a new session, a
reconnect, and what a call on a record answers."""
from collections import namedtuple
from dataclasses import dataclass, replace

from .frame import BAR
from .gap import NO_GAP, Gap
from .landed import LANDED

WAITING, ACTIVE, CLOSED = 0, 1, 2
GREATEST_NUMBER = 999_999_999
LAST_USABLE_NUMBER = 999_999_990            # refusal 5 above
LEAST_REPLY_ROOM = 600 if 4 in LANDED else 512      # refusal 6 below; 02: Refusal 6 now reads 600 bytes
END_OF_TIME = 253_402_300_800_000_000       # refusal 7 from here on
SECOND = 1_000_000


@dataclass
class Record:
    ours: bytes
    peer: bytes
    status: int = WAITING
    expected: int = 1
    next_out: int = 1
    heartbeat: int = 30
    last_sent: int = 0
    at: int = 0                             # of a replay the next number, and the last one asked for; 0 and 0 for none
    to: int = 0
    gap: Gap = NO_GAP


# What a call answers: a refusal's number or None, whether the message is delivered, the reply's bytes, the record
# afterwards, the rule that fitted (for counting alone: "Waiting" or a number, None if refused before), and the store
# afterwards, None for a call that is lent none to change.
Outcome = namedtuple("Outcome", "refusal delivered reply record rule store", defaults=[None])


def good_comp_id(comp_id):
    return 1 <= len(comp_id) <= 11 and BAR not in comp_id


def in_range(record):
    """01: record breaks its ranges (CompIDs as above, numbers 1 to 999,999,999, heartbeat 1 to 60)"""
    return (good_comp_id(record.ours) and good_comp_id(record.peer)
            and record.status in (WAITING, ACTIVE, CLOSED)
            and 1 <= record.expected <= GREATEST_NUMBER and 1 <= record.next_out <= GREATEST_NUMBER
            and 1 <= record.heartbeat <= 60 and (is_running(record) or (record.at, record.to) == (0, 0))
            and gap_in_range(record.gap))


def is_running(record):
    """02: the place, within 1 to L, is held in the record under refusal 11. Closing or a reconnect drops an unfinished
    replay, so that one is running while Active alone."""
    return record.status == ACTIVE and 1 <= record.at <= record.to <= record.next_out - 1


def gap_in_range(gap):
    """02: Under refusal 11 an open gap's two numbers are 1 to 999,999,999; with none open all three are 0. The word for
    open is 0 or 1."""
    if gap.is_open:
        return gap.is_open == 1 and 1 <= gap.expected <= GREATEST_NUMBER and 1 <= gap.highest <= GREATEST_NUMBER
    return gap == NO_GAP


def no_replay(record):
    return replace(record, at=0, to=0)


def numbers_used_up(record):
    """01: E or next out above 999,999,990"""
    return record.expected > LAST_USABLE_NUMBER or record.next_out > LAST_USABLE_NUMBER


def new_session(ours, peer):
    """(refusal, record); "a refused new one: as new, but Closed and both CompIDs empty"."""
    if not good_comp_id(ours) or not good_comp_id(peer):
        return 11, Record(b"", b"", status=CLOSED)
    return None, Record(ours, peer)


def reconnect(record):
    """01: A reconnect sets Waiting and keeps the numbers. 02: Closing or a reconnect drops an unfinished replay; an open gap
    stays."""
    if not in_range(record):
        return 11, record
    return None, no_replay(replace(record, status=WAITING))
