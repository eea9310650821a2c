"""The driver's answer to each request line, by its word (words.py has the grammar)."""
from .calls import replay, report, step, tick
from .fields import cut, first_field, is_body, parts
from .frame import read, read_in_pieces
from .landed import LANDED
from .record import new_session, reconnect
from .report import MSG_TYPE, values_in
from .store import EMPTY_STORE
from .walk import verdict
from .words import (GREATEST_ROOM, RECORD_WORDS, Unreadable, bytes_of, in_hex, in_words, number_of, pairs_of, record_of,
                    report_values_of, report_words, store_of, store_word)
from .writer import write


def answer_read(words):
    found, *where = read(bytes_of(words[0]))
    return "frame %d %d" % tuple(where) if found else "refusal 1 %d" % where[0]


def answer_stream(words):
    frames, pending = read_in_pieces([bytes_of(word) for word in words])
    return " ".join(["frames", *(f"{number}:{frame.hex()}" for number, frame in frames), "pending", in_hex(pending)])


def answer_fields(words):
    body = bytes_of(words[0])
    if not is_body(body):
        return "refusal 10"
    return " ".join(["fields", *(f"{tag or '!'}={in_hex(value)}" for tag, value in map(cut, parts(body)))])


def answer_verdict(words):
    body = bytes_of(words[0])
    if not is_body(body):
        return "refusal 10"
    finding = verdict(body)
    return "finding %d %d" % finding if finding else "clean"


def answer_write(words):
    refusal, written = write(number_of(words[0], GREATEST_ROOM), bytes_of(words[1]), pairs_of(words[2:]))
    return f"refusal {refusal}" if refusal else f"written {written.hex()}"


def answer_new(words):
    refusal, record = new_session(bytes_of(words[0]), bytes_of(words[1]))
    return f"{f'refusal {refusal}' if refusal else 'ok'} {in_words(record)}"


def answer_reconnect(words):
    refusal, record = reconnect(record_of(words))
    return f"{f'refusal {refusal}' if refusal else 'ok'} {in_words(record)}"


def record_and_store(words):
    """A record, the store behind it, and the words behind both. Before Q-4 none is lent."""
    record, rest = record_of(words[:RECORD_WORDS]), words[RECORD_WORDS:]
    return (record, store_of(rest[0]), rest[1:]) if 4 in LANDED else (record, EMPTY_STORE, rest)


def with_store(line, store):
    return f"{line} {store_word(store)}" if 4 in LANDED else line


def outcome_of_step(words):
    time, room, frame = number_of(words[0]), number_of(words[1], GREATEST_ROOM), bytes_of(words[2])
    record, store, _ = record_and_store(words[3:])
    return step(record, frame, time, room, store)


def answer_step(words):
    outcome = outcome_of_step(words)
    if outcome.refusal:
        return f"refusal {outcome.refusal} {in_words(outcome.record)}"
    line = f"ok {int(outcome.delivered)} {in_hex(outcome.reply)} {in_words(outcome.record)}"
    return with_store(line, outcome.store)


def answer_tick(words):
    time, room = number_of(words[0]), number_of(words[1], GREATEST_ROOM)
    outcome = tick(record_of(words[2:]), time, room)
    if outcome.refusal:
        return f"refusal {outcome.refusal} {in_words(outcome.record)}"
    return f"ok {in_hex(outcome.reply)} {in_words(outcome.record)}"


def answer_landed(words):
    return " ".join(["landed", *map(str, LANDED)])


def answer_report(words):
    time, room = number_of(words[0]), number_of(words[1], GREATEST_ROOM)
    record, store, values = record_and_store(words[2:])
    outcome = report(record, report_values_of(values), time, room, store)
    if outcome.refusal:
        return f"refusal {outcome.refusal} {in_words(outcome.record)}"
    return with_store(f"ok {in_hex(outcome.reply)} {in_words(outcome.record)}", outcome.store)


def answer_replay(words):
    time, room = number_of(words[0]), number_of(words[1], GREATEST_ROOM)
    record, store, _ = record_and_store(words[2:])
    outcome = replay(record, time, room, store)
    if outcome.refusal:
        return f"refusal {outcome.refusal} {in_words(outcome.record)}"
    return f"ok {in_hex(outcome.reply)} {in_words(outcome.record)}"


def answer_report_values(words):
    """A clean body of another type is told as one that is of none: 11, 35."""
    body = bytes_of(words[0])
    if not is_body(body):
        return "refusal 10"
    finding = verdict(body) or (None if first_field(body, 35) == MSG_TYPE else (11, 35))
    return "finding %d %d" % finding if finding else f"values {report_words(values_in(body))}"


# The request's word: how it is answered, and the least and greatest number of words that may follow it.
STORE_WORDS = 1 if 4 in LANDED else 0
REQUESTS = {
    "read": (answer_read, 1, 1),
    "stream": (answer_stream, 0, None),
    "fields": (answer_fields, 1, 1),
    "verdict": (answer_verdict, 1, 1),
    "write": (answer_write, 2, None),
    "new": (answer_new, 2, 2),
    "reconnect": (answer_reconnect, RECORD_WORDS, RECORD_WORDS),
    "step": (answer_step, 3 + RECORD_WORDS + STORE_WORDS, 3 + RECORD_WORDS + STORE_WORDS),
    "tick": (answer_tick, 2 + RECORD_WORDS, 2 + RECORD_WORDS),
}
if LANDED:
    REQUESTS["landed"] = (answer_landed, 0, 0)
if 1 in LANDED:
    REQUESTS.update({"report": (answer_report, 2 + RECORD_WORDS + STORE_WORDS, None),
                     "report-values": (answer_report_values, 1, 1)})
if 4 in LANDED:
    REQUESTS["replay"] = (answer_replay, 3 + RECORD_WORDS, 3 + RECORD_WORDS)


def words_of(line):
    """The request's word and the words behind it."""
    words = line.split(" ")
    if words[0] == "fixt":
        words = words[1:]
    if not words or words[0] not in REQUESTS:
        raise Unreadable
    _, least, greatest = REQUESTS[words[0]]
    if len(words) - 1 < least or (greatest is not None and len(words) - 1 > greatest):
        raise Unreadable
    return words[0], words[1:]


def answer(line):
    """The answer line to a request line, both without their line feed."""
    try:
        word, rest = words_of(line)
        return REQUESTS[word][0](rest)
    except Unreadable:
        return "error"


def rule_of(line):
    """The rule that answers a `step` request ("Waiting" or a number), None where there is none."""
    try:
        word, rest = words_of(line)
        return outcome_of_step(rest).rule if word == "step" else None
    except Unreadable:
        return None
