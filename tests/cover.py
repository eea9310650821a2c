"""Sorts answers into classes, to see that a comparison reaches every refusal, every reason and every rule's replies."""
from collections import Counter

import cover_duplicates
import model

TYPE_NAMES = {b"0": "Heartbeat", b"1": "Test Request", b"2": "Resend Request", b"3": "Reject", b"4": "Sequence Reset",
              b"5": "Logout", b"A": "Logon", b"AD": "AD", b"F": "F", b"AE": "AE"}
KINDS = ("number", "yes or no", "time", "date", "list", "string")
NEW_TAGS = (571, 31, 32, 64, 574, 552, 1427)            # of Q-1: in no message but a report


def kind_of(tag):
    if tag in model.FROM_ONE or tag in model.FROM_ZERO:
        return "number"
    if tag in model.YES_OR_NO:
        return "yes or no"
    if tag in model.TIMES:
        return "time"
    if tag in model.DATES:
        return "date"
    if tag in model.DECIMALS:
        return "decimal"
    return "list" if model.IN_DICTIONARY[tag].values else "string"


def sort_of_tag(msg_type, tag):
    """What a tag is to a message: one of the frame's, a header tag, a group's count, a member or one of its own."""
    if tag in model.FRAME_TAGS:
        return "frame tag"
    if tag in model.HEADER:
        return "header tag"
    if tag in model.GROUP_OF_MEMBER.get(msg_type, {}):
        return "member"
    return "count" if tag in model.GROUPS else "own tag"


def class_of_finding(body, reason, tag):
    """The reason, told apart by what the tag is where several sentences give it."""
    msg_type = model.first_field(body, 35)
    if reason in (5, 6):
        return f"reason {reason}, {kind_of(tag)}"
    if reason in (1, 4, 13):
        return f"reason {reason}, {sort_of_tag(msg_type, tag)}"
    if reason == 15:
        count = model.GROUP_OF_MEMBER[msg_type][tag].count
        return f"reason 15, {'without' if model.first_field(body, count) is None else 'with'} its count"
    if msg_type == b"AE" and reason == 16:
        return f"reason 16, tag {tag}"
    return f"reason {reason}" + (", new tag" if reason == 2 and tag in NEW_TAGS else "")


def class_of_verdict(words, answer):
    body = model.bytes_of(words[0])
    of_report = "AE " if 1 in model.LANDED and model.first_field(body, 35) == b"AE" and model.is_body(body) else ""
    if not answer.startswith("finding"):
        return f"verdict {of_report}{answer}"
    return f"verdict {of_report}{class_of_finding(body, *map(int, answer.split(' ')[1:]))}"


def classes_of_report(words, answer):
    """A report that went out by its parties, a refused one by its number; at the limits of length and room by these. With a
    store also by the place that it took."""
    told = "report " + (" ".join(answer.split(" ")[:2]) if answer.startswith("refusal") else "ok")
    record, behind = model.record_of(words[2:2 + model.RECORD_WORDS]), words[2 + model.RECORD_WORDS:]
    if 4 in model.LANDED and told == "report ok":
        yield f"report ok, {place_taken(record, model.store_of(behind[0]))}"
    yield class_of_report(words, told, record, model.report_values_of(behind[1 if 4 in model.LANDED else 0:]))


def place_taken(record, store):
    held = model.kept(record, store)
    if None not in held:
        return "in the lowest number's place"
    place = held.index(None)
    data = store[model.PLACE * place:model.PLACE * (place + 1)]
    if not any(data):
        return "in a place of zeros"
    return "in the second's place" if model.kept_in(record.ours, record.peer, data) else "in a damaged place"


def class_of_report(words, told, record, values):
    if told in ("report ok", "report refusal 9", "report refusal 12"):
        length = len(model.written(record, values, int(words[0])))
        if length in (511, 512, 513) and told != "report refusal 9":
            return f"{told}, {length} bytes"
        if length - int(words[1]) in (0, 1) and told != "report refusal 12":
            return f"{told}, {('just the room', 'short by one')[length - int(words[1])]}"
    return f"report ok, {len(values.parties)} parties" if told == "report ok" else told


def class_of_report_values(words, answer):
    if answer.startswith("values"):
        return f"report-values, {answer.count('party=')} parties"
    if answer.startswith("finding 11") and model.first_field(model.bytes_of(words[0]), 35) in model.MESSAGES:
        return "report-values of another type"
    return "report-values " + " ".join(answer.split(" ")[:2 if answer.startswith("refusal") else 1])


def described(frame):
    """A reply's message: its type, a Reject with its reason and a Logout with its SessionStatus."""
    start, end = model.good_frame(frame)
    body = frame[start:end]
    msg_type = model.first_field(body, 35)
    detail = {b"3": 373, b"5": 1409}.get(msg_type)
    return TYPE_NAMES[msg_type] + (" " + model.first_field(body, detail).decode() if detail else "")


def described_reply(words):
    frames, _ = model.read_in_pieces([model.bytes_of(words)])
    return " + ".join(described(frame) for _, frame in frames) or "nothing"


def left_by(word, answer):
    """The record that an answer leaves."""
    words = answer.split(" ")
    if 4 in model.LANDED and words[0] == "ok" and word in ("step", "report"):
        words.pop()
    return model.record_of(words[-model.RECORD_WORDS:])


def of_the_replay(before, after):
    """What became of a replay, as words behind a class; none where nothing did."""
    if (before.at, before.to) == (after.at, after.to):
        return ""
    if not after.at:
        return ", a replay is dropped"
    return ", a replay is replaced" if before.at else ", a replay starts"


def classes_of_gap(line, words, answer):
    """What became of a gap in a step, and by what; nothing where none was open and none opens."""
    before, after = model.record_of(words[3:3 + model.RECORD_WORDS]), left_by("step", answer)
    if before.gap == after.gap == model.NO_GAP:
        return
    if not answer.startswith("ok"):
        yield f"gap, step {' '.join(answer.split(' ')[:2])}: left as it is"
        return
    by = moved_by(line, words)
    if after.gap == model.NO_GAP:
        yield f"gap, {by}: closed"
    elif by == "rule 4":
        yield f"gap, {by}: {why_it_asks(before, after, int(words[0]))}"
    elif by == "Waiting" and after.gap != before.gap:
        yield f"gap, {by}: opened{', which was open' if before.gap.is_open else ''}"
    else:
        yield f"gap, {by}: left as it is"


def moved_by(line, words):
    """The rule that a step came to, in rule 6 for a Sequence Reset with its type."""
    rule, frame = model.rule_of(line), model.bytes_of(words[2])
    kind = ", type 4" if rule == 6 and model.first_field(frame[model.good_frame(frame)[0]:], 35) == b"4" else ""
    return "Waiting" if rule == "Waiting" else f"rule {rule}{kind}"


def why_it_asks(before, after, time):
    """Of a too-high frame on an open gap, the first reason of the sentence, and at the edges of ten seconds these."""
    gap, since = before.gap, time - before.gap.asked
    if not gap.is_open:
        return "opened"
    if gap.expected != before.expected:
        return "asked for again, E has moved"
    if since < 0:
        return "asked for again, the clock went back"
    edge = {model.RE_ASK - 1: ", a microsecond before", model.RE_ASK: ", just then"}.get(since, "")
    if since >= model.RE_ASK:
        return "asked for again, ten seconds have passed" + edge
    return f"not asked for, the highest {'rises' if after.gap.highest > gap.highest else 'stays'}" + edge


def class_of_replay(words, answer):
    """A message by its type, and whether it is the first of several, the last of them, or in their midst."""
    if not answer.startswith("ok"):
        return "replay " + " ".join(answer.split(" ")[:2])
    before, after = model.record_of(words[2:-1]), left_by("replay", answer)
    if not before.at:
        return f"replay {('Waiting', 'Active', 'Closed')[before.status]}: nothing"
    return f"replay: {described_reply(answer.split(' ')[1])}{', the last' if not after.at else ''}"


def class_of_step(line, words, answer):
    before = model.record_of(words[3:3 + model.RECORD_WORDS])
    replay = of_the_replay(before, left_by("step", answer))
    if not answer.startswith("ok"):
        return "step " + " ".join(answer.split(" ")[:2]) + replay
    rule = model.rule_of(line)
    frame = model.bytes_of(words[2])
    msg_type = model.first_field(frame[model.good_frame(frame)[0]:], 35)
    _, delivered, reply = answer.split(" ")[:3]
    what = "delivered" if delivered == "1" else described_reply(reply)
    by_type = f", type {msg_type.decode()}" if rule in (3, 6) and msg_type in model.MESSAGES or msg_type == b"AE" else ""
    is_zeroed = 4 in model.LANDED and answer.endswith(" 32768") and any(model.store_of(words[-1]))
    zeroed = ", the store is zeroed" if is_zeroed else ""
    return f"step {'Waiting' if rule == 'Waiting' else f'rule {rule}'}{by_type}: {what}{zeroed}{replay}"


def class_of_tick(words, answer):
    replay = of_the_replay(model.record_of(words[2:]), left_by("tick", answer))
    if not answer.startswith("ok"):
        return "tick " + " ".join(answer.split(" ")[:2]) + replay
    status = ("Waiting", "Active", "Closed")[int(words[4])]
    return f"tick {status}: {described_reply(answer.split(' ')[1])}"


def classes_of(line, answer):
    word, words = model.words_of(line) if answer != "error" else ("error", [])
    if word == "report":
        return classes_of_report(words, answer)
    gaps = classes_of_gap(line, words, answer) if word == "step" and 5 in model.LANDED else ()
    duplicates = cover_duplicates.classes_of_duplicate(line, words, answer) if word == "step" and 6 in model.LANDED else ()
    return [class_of(line, word, words, answer), *gaps, *duplicates]


def class_of(line, word, words, answer):
    if word == "error":
        return "error"
    if word == "verdict":
        return class_of_verdict(words, answer)
    if word == "step":
        return class_of_step(line, words, answer)
    if word == "tick":
        return class_of_tick(words, answer)
    if word == "replay":
        return class_of_replay(words, answer)
    if word == "reconnect":
        replay = of_the_replay(model.record_of(words), left_by("reconnect", answer))
        return " ".join([word, *answer.split(" ")[:2 if answer.startswith("refusal") else 1]]) + replay
    if word == "report-values":
        return class_of_report_values(words, answer)
    if word == "write" and answer.startswith("written"):
        return f"write {TYPE_NAMES[model.bytes_of(words[1])]}"
    if word == "stream":
        return f"stream, {min(3, answer.count(':'))}{' or more' if answer.count(':') > 2 else ''} frames"
    return " ".join([word, *answer.split(" ")[:2 if answer.startswith("refusal") else 1]])


# Every class that must come out; others may.
WANTED = (
    "error", "read frame", "read refusal 1", "fields fields", "fields refusal 10", "verdict refusal 10",
    "verdict clean",
    *(f"stream, {frames} frames" for frames in ("0", "1", "2", "3 or more")),
    *(f"verdict reason {reason}" for reason in (0, 2, 3, 11, 14, 16)),
    *(f"verdict reason 1, {sort}" for sort in ("header tag", "own tag", "member", "count")),
    *(f"verdict reason 4, {sort}" for sort in ("header tag", "own tag", "member", "count", "frame tag")),
    *(f"verdict reason 13, {sort}" for sort in ("header tag", "own tag", "member", "count", "frame tag")),
    "verdict reason 15, with its count", "verdict reason 15, without its count",
    *(f"verdict reason 5, {kind}" for kind in KINDS if kind != "yes or no"),
    *(f"verdict reason 6, {kind}" for kind in KINDS if kind not in ("list", "string")),
    *(f"write {TYPE_NAMES[msg_type]}" for msg_type in model.ADMINISTRATIVE), "write refusal 8", "write refusal 9",
    "new ok", "new refusal 11", "reconnect ok", "reconnect refusal 11",
    *(f"step refusal {refusal}" for refusal in (2, 3, 4, 5, 6, 7, 10, 11)),
    *(f"step Waiting: {what}" for what in ("Logon", "Logon + Resend Request", "Logout 101")),
    "step rule 1: Logout 101", "step rule 2: Reject 9 + Logout 101",
    "step rule 3, type 4: nothing", *(f"step rule 3, type 4: Reject {reason}" for reason in (1, 4, 5, 6, 13)),
    "step rule 4: Resend Request",
    "step rule 5: Logout 101", "step rule 5: Reject 1", "step rule 5: nothing",
    "step rule 6: Reject 11", "step rule 6, type 0: nothing", "step rule 6, type 1: Heartbeat",
    "step rule 6, type 2: Reject 5", "step rule 6, type 3: nothing",
    "step rule 6, type 4: nothing", "step rule 6, type 4: Reject 5", "step rule 6, type 5: Logout 4",
    "step rule 6, type A: Reject 99",
    "step rule 6, type AD: delivered", "step rule 6, type F: delivered",
    *(f"step rule 6, type {msg_type}: Reject {reason}" for msg_type in "012345A" for reason in (0, 13)),
    *(f"step rule 6, type {msg_type}: Reject {reason}" for msg_type in ("AD", "F") for reason in (0, 3, 13)),
    *(f"tick refusal {refusal}" for refusal in (5, 6, 7, 11)),
    "tick Waiting: nothing", "tick Closed: nothing", "tick Active: nothing", "tick Active: Heartbeat",
)
OF_REPORTS = (
    "landed landed", "verdict AE clean", "verdict reason 2, new tag",
    *(f"verdict AE reason {reason}" for reason in (0, 2, 3, 14)),
    "verdict AE reason 16, tag 453", "verdict AE reason 16, tag 552",
    *(f"verdict AE reason 1, {sort}" for sort in ("header tag", "own tag", "member", "count")),
    *(f"verdict AE reason 4, {sort}" for sort in ("header tag", "own tag", "member", "count", "frame tag")),
    *(f"verdict AE reason 13, {sort}" for sort in ("header tag", "own tag", "member", "count", "frame tag")),
    "verdict AE reason 15, with its count", "verdict AE reason 15, without its count",
    *(f"verdict AE reason 5, {kind}" for kind in (*KINDS, "decimal") if kind != "yes or no"),
    *(f"verdict AE reason 6, {kind}" for kind in (*KINDS, "decimal") if kind not in ("list", "string")),
    *(f"report ok, {parties} parties" for parties in range(9)), "report ok, 511 bytes", "report ok, 512 bytes",
    *(f"report refusal {refusal}" for refusal in (2, 5, 7, 8, 9, 11, 12)), "report refusal 12, 513 bytes",
    "report ok, just the room", "report refusal 9, short by one",
    *(f"report-values, {parties} parties" for parties in range(9)), "report-values of another type", "report-values finding",
    "report-values refusal 10",
    "step rule 1, type AE: Logout 101", "step rule 2, type AE: Reject 9 + Logout 101", "step rule 4, type AE: Resend Request",
    "step rule 5, type AE: Logout 101", "step rule 5, type AE: Reject 1", "step rule 5, type AE: nothing",
    "step rule 6, type AE: Reject 11",
)
OF_GAP_FILLS = ("step rule 4: Sequence Reset + Resend Request", "step rule 6, type 2: Sequence Reset")
OF_REPLAYS = (
    "step refusal 14", "step refusal 5, a replay is dropped", "tick refusal 5, a replay is dropped",
    "reconnect ok, a replay is dropped", "report refusal 13", "report refusal 14",
    *(f"step rule {rule}, a replay {becomes}" for becomes in ("starts", "is replaced")
      for rule in ("4: Resend Request", "6, type 2: nothing")),
    *(f"step rule {rule}, a replay is dropped" for rule in (
        "1: Logout 101", "2: Reject 9 + Logout 101", "5: Logout 101", "6, type 5: Logout 4")),
    "step Waiting: Logon, the store is zeroed",
    *(f"report ok, in {place}" for place in ("a place of zeros", "a damaged place", "the second's place",
                                             "the lowest number's place")),
    *(f"replay refusal {refusal}" for refusal in (6, 7, 11, 14)),
    *(f"replay {status}: nothing" for status in ("Waiting", "Active", "Closed")),
    *(f"replay: {what}{last}" for what in ("AE", "Sequence Reset") for last in ("", ", the last")),
)
OF_GAPS = (
    "step rule 4: nothing", "step rule 4, type AE: nothing",
    *(f"step rule 4: nothing, a replay {becomes}" for becomes in ("starts", "is replaced")),
    "gap, rule 4: opened",
    *(f"gap, rule 4: asked for again, {why}" for why in (
        "E has moved", "the clock went back", "ten seconds have passed", "ten seconds have passed, just then")),
    *(f"gap, rule 4: not asked for, the highest {becomes}{edge}" for becomes in ("rises", "stays")
      for edge in ("", ", a microsecond before")),
    *(f"gap, {by}: {becomes}" for becomes in ("closed", "left as it is")
      for by in ("Waiting", "rule 1", "rule 2", "rule 3", "rule 5", "rule 6", "rule 6, type 4")),
    "gap, Waiting: opened", "gap, Waiting: opened, which was open",
    *(f"gap, step refusal {refusal}: left as it is" for refusal in (2, 3, 4, 5, 6, 7, 10, 11, 14)),
)
WANTED += OF_REPORTS if 1 in model.LANDED else ()
WANTED += OF_GAPS if 5 in model.LANDED else ()
WANTED += cover_duplicates.WANTED if 6 in model.LANDED else ()
WANTED += OF_REPLAYS if 4 in model.LANDED else OF_GAP_FILLS


def report(counts):
    """The classes with how often each came out, and those that never did."""
    lines = [f"{counts[name]:8}  {name}" for name in sorted(counts)]
    never = [name for name in WANTED if not counts[name]]
    return "\n".join(lines + [f"never reached: {', '.join(never) or 'none'}"])


def count(counter: Counter, line, answer):
    counter.update(classes_of(line, answer))
