"""Step and tick of document 01, the report and the replay of document 02: their refusals in order, then what they do."""
from dataclasses import replace

from .frame import TRAILER, good_frame
from .landed import LANDED
from .moves import Move, Writing
from .record import (ACTIVE, CLOSED, END_OF_TIME, LEAST_REPLY_ROOM, SECOND, WAITING, Outcome, in_range, is_running, no_replay,
                     numbers_used_up)
from .replay import moved_on, next_message
from .report import LONGEST_REPORT, dictionary_rejects, written
from .rules import RULES
from .store import EMPTY_STORE, STORE, keep
from .waiting import waiting


def refused(refusal, record, status=None):
    """02: no refusal changes the store. Closing .. drops an unfinished replay"""
    after = record if status is None else no_replay(replace(record, status=status))
    return Outcome(refusal, False, b"", after, None)


def step(record, frame, time, room, store=EMPTY_STORE):
    """01: Step order: 11, 10, 7, 6, 2, 5, then the moves. 02: 14 .. in a step after 11"""
    if not in_range(record):
        return refused(11, record)
    if len(store) != STORE:
        return refused(14, record)
    found = good_frame(frame)
    if not found or found[1] != len(frame):
        return refused(10, record)
    if time >= END_OF_TIME:
        return refused(7, record)
    if room < LEAST_REPLY_ROOM:
        return refused(6, record)
    if record.status == CLOSED:
        return refused(2, record)
    if numbers_used_up(record):
        return refused(5, record, status=CLOSED)
    move = Move(record, time, frame[found[0]:len(frame) - TRAILER])
    if record.status == WAITING:
        refusal = waiting(move)
        if refusal:
            return refused(refusal, record, status=CLOSED)
        move.close_passed_gap()
        return Outcome(None, False, move.reply, move.record, "Waiting", EMPTY_STORE if move.zeroes_store else store)
    number = next(number for number, rule in enumerate(RULES, 1) if rule(move))
    move.close_passed_gap()
    return Outcome(None, move.delivered, move.reply, move.record, number, store)


def tick(record, time, room):
    """01: Tick: 11, 7, 6, status, 5."""
    if not in_range(record):
        return refused(11, record)
    if time >= END_OF_TIME:
        return refused(7, record)
    if room < LEAST_REPLY_ROOM:
        return refused(6, record)
    if record.status != ACTIVE:
        return Outcome(None, False, b"", record, None)
    if numbers_used_up(record):
        return refused(5, record, status=CLOSED)
    call = Writing(record, time)
    if time - record.last_sent >= record.heartbeat * SECOND:    # below zero for "a clock that went back"
        call.send(b"0", {})
    return Outcome(None, False, call.reply, call.record, None)


def refusal_of_report(record, time, store):
    """02: Refusals: 13, report while replaying, after 11; 14, store not of 32,768 bytes, after 13. The order for a report is
    11, 7, 2, 5, 8, 12, 9. Outside Active a report is refusal 2."""
    if not in_range(record):
        return 11
    if is_running(record):
        return 13
    if len(store) != STORE:
        return 14
    if time >= END_OF_TIME:
        return 7
    if record.status != ACTIVE:
        return 2
    return 5 if numbers_used_up(record) else None


def report(record, values, time, room, store=EMPTY_STORE):
    """02: 8, 9 and 12 change nothing. A report from the host takes the next number out; Q-4: Keep the last 64 reports"""
    refusal = refusal_of_report(record, time, store)
    if refusal:
        return refused(refusal, record, status=CLOSED if refusal == 5 else None)
    if dictionary_rejects(values):
        return refused(8, record)
    reply = written(record, values, time)
    if len(reply) > LONGEST_REPORT:
        return refused(12, record)
    if len(reply) > room:
        return refused(9, record)
    after = replace(record, next_out=record.next_out + 1, last_sent=time)
    return Outcome(None, False, reply, after, None, keep(record, store, reply) if 4 in LANDED else None)


def replay(record, time, room, store):
    """02: A replay call: 11, 14, 7, 6. With none running nothing is due. Each replay call writes one message"""
    if not in_range(record):
        return refused(11, record)
    if len(store) != STORE:
        return refused(14, record)
    if time >= END_OF_TIME:
        return refused(7, record)
    if room < LEAST_REPLY_ROOM:
        return refused(6, record)
    if not is_running(record):
        return Outcome(None, False, b"", record, None)
    reply, end = next_message(record, store, time)
    return Outcome(None, False, reply, moved_on(record, end, time), None)
