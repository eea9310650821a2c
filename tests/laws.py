"""What must hold of a session's calls one behind the other, whatever they are: numbers out used once, replays that cover their
range, the last 64 reports in the store, refusals that change nothing, numbers in that rise, one request for each gap,
duplicates whose original time is not later than the resend. It looks at requests and answers alone, by splitting them, and does
not use the model."""
from collections import Counter, namedtuple

from messages import PLACES, first, messages, number, readable, replayed, said_of_times, stamp

Record = namedtuple("Record", "ours peer status expected next_out heartbeat last at to open gap_for high asked")
Call = namedtuple("Call", "word time frame before store")       # what was asked: the record and the store as they were lent
Answer = namedtuple("Answer", "refusal delivered reply after store")
WAITING, ACTIVE, CLOSED = 0, 1, 2
NONE = (0, 0)
NO_GAP = (0, 0, 0, 0)
TEN_SECONDS = 10_000_000
CLOSING = (3, 4, 5)                                             # the refusals that close


class Broken(Exception):
    """A law that does not hold, in words."""


def must(holds, what):
    if not holds:
        raise Broken(what)


def record_of(words):
    return Record(*words[:2], *map(int, words[2:]))


def bytes_of(word):
    return b"" if word == "-" else bytes.fromhex(word)


def answer_of(word, line):
    """The parts of an answer line; one that is neither ok nor refusal is the driver's complaint."""
    words = line.split(" ")
    if words[0] == "refusal":
        return Answer(int(words[1]), False, b"", record_of(words[2:]), None)
    must(words[0] == "ok", "the driver complains")
    store = words.pop() if word in ("step", "report") else None
    after = record_of(words[-len(Record._fields):])
    rest = words[1:-len(Record._fields)]
    return Answer(None, word == "step" and rest[0] == "1", bytes_of(rest[-1]) if rest else b"", after, store)


def asked_range(frame, last):
    """01: 7=b, 16=e, up to the smaller of e and L (L if e = 0). None where the frame does not ask for one."""
    begin, end = first(frame, 7), first(frame, 16)
    if first(frame, 35) != b"2" or not (begin or b"").isdigit() or not (end or b"").isdigit():
        return None
    return int(begin), min(int(end), last) if int(end) else last


def gap_of(record):
    return record.open, record.gap_for, record.high, record.asked


def is_bare_reset(frame):
    return first(frame, 35) == b"4" and first(frame, 123) != b"Y"


def counted(call):
    """The number of a frame that comes to rules 4 to 6: the CompIDs are right, and it is no bare reset. Else None."""
    if call.word != "step" or call.before.status != ACTIVE:
        return None
    sender, target = ((first(call.frame, tag) or b"").hex() for tag in (49, 56))
    is_for_us = (sender, target) == (call.before.peer, call.before.ours)
    return readable(call.frame, 34) if is_for_us and not is_bare_reset(call.frame) else None


def too_high(call):
    n = counted(call)
    return n if n and n > call.before.expected else None


def is_duplicate(call):
    n = counted(call)
    return bool(n) and n < call.before.expected and first(call.frame, 43) == b"Y"


def requests_in(answer):
    """7 and 16 of each Resend Request that goes out."""
    return [(first(message, 7), first(message, 16)) for message in messages(answer.reply) if first(message, 35) == b"2"]


class Laws:
    """What has gone out and come in since the last reset, as the answers told it."""

    def __init__(self):
        self.counts = Counter()
        self.refusals = Counter()
        self.begin_anew()

    def begin_anew(self):
        """A new session, or an accepted logon with 141=Y: the numbers begin again, and the store is zeros."""
        self.next_out = 1
        self.delivered = 0
        self.first_sent = {}                    # every report by its number, in their order
        self.kept = {}                          # the last 64 of them
        self.replay = None                      # [begin, end, the numbers that were covered so far] of one that is running
        self.forget_gap()

    def forget_gap(self):
        """No Resend Request of ours counts any more: behind a new session, a logon, or a reset."""
        self.asking = None                      # the number that the last one asked from, and when
        self.highest = 0                        # of the too-high frames since the gap is open; 0 if none is

    def see(self, call, line):
        """Holds one answer to all laws."""
        answer = answer_of(call.word, line)
        if answer.refusal:
            return self.see_refusal(call, answer)
        if call.word == "new":
            must(gap_of(answer.after) == NO_GAP, "a new session has no gap open")
            return self.begin_anew()
        self.is_reset = False
        self.numbers_out(call, answer)
        self.numbers_in(call, answer)
        self.replays(call, answer)
        self.gaps(call, answer)
        if is_duplicate(call):
            self.duplicate(call, answer)
        return self.stores(call, answer)

    def see_refusal(self, call, answer):
        """01: 3, 4 and 5: Closed, else unchanged; the others unchanged. 02: Closing .. drops an unfinished replay"""
        self.refusals[answer.refusal] += 1
        wanted = call.before
        if answer.refusal in CLOSING:
            wanted = wanted._replace(status=CLOSED, at=0, to=0)
            self.drop()
        must(answer.after == wanted, f"refusal {answer.refusal} changes nothing but, where it closes, the status and the replay")
        self.counts["gaps left by a refusal"] += answer.refusal in CLOSING and answer.after.open
        must(answer.refusal != 13 or (call.before.at, call.before.to) != NONE, "13 is for a report while replaying")

    def drop(self):
        self.counts["dropped"] += self.replay is not None
        self.replay = None

    def numbers_out(self, call, answer):
        """01: It uses no new number; other replies use the next. Every message written in a session sets last sent to the
        call's time."""
        must(call.before.next_out == self.next_out, "the record's next out is one above the number that went out last")
        for message in messages(answer.reply):
            must(first(message, 52) == stamp(call.time), "a reply's 52 is the call's time")
            must((first(message, 43) == b"Y") == (call.word == "replay"), "43=Y in what a replay sends, and in nothing else")
            if call.word != "replay":
                self.number_out(call, answer, message)
        must(answer.after.next_out == self.next_out, "the next out is one above the number that went out last")
        must(answer.after.last == (call.time if answer.reply else call.before.last), "last sent is the call's time if it wrote")

    def number_out(self, call, answer, message):
        if first(message, 35) == b"A" and first(message, 141) == b"Y":
            must(call.before.status == WAITING and answer.after.expected == 2, "a logon with 141=Y makes E 2")
            self.begin_anew()
            self.is_reset = True
            self.counts["resets"] += 1
        must(number(message) == self.next_out, "a number goes out once, one above the number before")
        self.next_out += 1
        if call.word == "report":
            must(answer.reply == message and first(message, 35) == b"AE", "a report is one AE")
            self.first_sent[number(message)] = self.kept[number(message)] = message
            if len(self.kept) > PLACES:
                self.kept.pop(min(self.kept))
            self.counts["reports"] += 1
            self.counts["filled"] += len(self.first_sent) == PLACES + 1

    def numbers_in(self, call, answer):
        """Without a reset E never falls, and each delivered message has a greater number than the one before."""
        must(self.is_reset or answer.after.expected >= call.before.expected, "E does not fall without a reset")
        must(call.word == "step" or answer.after.expected == call.before.expected, "E is a step's to change")
        if answer.delivered:
            n = number(call.frame)
            must(first(call.frame, 35) in (b"AD", b"F") and n == call.before.expected, "AD and F are delivered in turn")
            must(n > self.delivered, "no number is delivered twice")
            self.delivered = n
            self.counts["delivered"] += 1

    def replays(self, call, answer):
        """02: The step .. only starts this. Each replay call writes one message. With none running nothing is due."""
        before, after = ((record.at, record.to) for record in (call.before, answer.after))
        if call.word == "replay":
            return self.replay_on(call, answer)
        asked = asked_range(call.frame, call.before.next_out - 1)
        must(after == asked or not self.is_served(call, answer), "a Resend Request that can be served starts its replay")
        if after == NONE:
            must(before == NONE or answer.after.status != ACTIVE, "closing and a reconnect drop a replay, and nothing else")
            return self.drop()
        must(answer.after.status == ACTIVE, "a replay is running while Active alone")
        must(call.word != "report", "a report while replaying is refused")
        if after != before:
            must(call.word == "step" and after == asked, "a replay is of the range that was asked for")
            self.counts["started" if before == NONE else "replaced"] += 1
            self.replay = [*after, []]
        return None

    def is_served(self, call, answer):
        """A Resend Request in turn that is answered by nothing: no Reject, so it can be served. 02: a new Resend Request that
        can be served replaces it"""
        return (call.word == "step" and call.before.status == ACTIVE and first(call.frame, 35) == b"2" and not answer.reply
                and answer.after.expected == call.before.expected + 1)

    def replay_on(self, call, answer):
        """The next message of a replay: 02: a finished replay's numbers cover the requested range exactly, each once"""
        if self.replay is None:
            return must(not answer.reply and answer.after == call.before, "with none running nothing is due")
        begin, to, covered = self.replay
        at = begin + len(covered)
        must((call.before.at, call.before.to) == (at, to), "the record holds the place of the replay")
        wanted, _ = replayed(self.kept, at, to, call.time)
        must(messages(answer.reply) == [wanted], f"the reports of the last 64 go out again, and gap fills between them: {wanted}")
        self.cover(answer.reply, covered)
        if (answer.after.at, answer.after.to) != NONE:
            return must(covered[-1] < to, "a replay ends with the last number that was asked for")
        must(covered == list(range(begin, to + 1)), "a replay covers its range, each number once")
        self.counts["finished"] += 1
        self.replay = None
        return None

    def cover(self, message, covered):
        """34 for a report, 34 to one below 36 for a gap fill; a report as it was first sent under its number."""
        n = number(message)
        if first(message, 35) == b"4":
            covered.extend(range(n, int(first(message, 36))))
            return
        sent = self.first_sent[n]
        must(first(message, 122) == first(sent, 52), "122 is the first 52")
        must(message.split(b"\x01")[9:-2] == sent.split(b"\x01")[7:-2], "a report goes out again with its values")
        covered.append(n)
        self.counts["reports again"] += 1

    def gaps(self, call, answer):
        """02: The session record shall hold whether a gap is open, for which expected number, the highest number seen, and when
        it was last asked for."""
        before, after = gap_of(call.before), gap_of(answer.after)
        must(call.word == "step" or after == before, "a gap is a step's to change")
        if call.word == "step":
            self.asks(call, answer)
        if answer.after.expected > self.highest:
            self.highest = 0                    # 02: E above the highest seen closes it
        wanted = (1, self.asking[0], self.highest, self.asking[1]) if self.highest else NO_GAP
        must(after == wanted, f"the record holds the gap that is open, {wanted}, and zeros where there is none")
        must(after == NO_GAP or after[1] <= answer.after.expected <= after[2], "while open E lies from its number to the highest")
        self.counts["gaps closed"] += before != NO_GAP and after == NO_GAP

    def asks(self, call, answer):
        """What one step asks for: once for each gap. 02: E above the highest seen closes it, as do logon and any reset; a logon
        above E opens one"""
        n, is_logon = too_high(call), call.before.status == WAITING and answer.after.status == ACTIVE
        is_reset = call.before.status == ACTIVE and is_bare_reset(call.frame) and not answer.reply
        if is_logon or is_reset:
            self.counts["gaps closed by a logon or a reset"] += self.highest > 0
            self.forget_gap()
            n = number(call.frame) if is_logon and answer.after.expected < number(call.frame) else None
        why = self.reason_to_ask(call) if n else None
        wanted = [(b"%d" % call.before.expected, b"0")] if why else []
        must(requests_in(answer) == wanted, f"a frame asks {'once: ' + why if why else 'for nothing'}")
        if n:
            self.counts[why or "not asked again"] += 1
            self.counts["highest raised"] += not why and n > self.highest
            self.highest = max(self.highest, n)
            self.asking = (call.before.expected, call.time) if why else self.asking

    def reason_to_ask(self, call):
        """02: A too-high frame asks only if no gap is open, or E has moved since, or 10 seconds have passed on the step's clock;
        a clock that went back counts as passed. None if it does not."""
        if not self.highest:
            return "no gap is open"
        expected, time = self.asking
        if expected != call.before.expected:
            return "E has moved"
        if call.time < time:
            return "the clock went back"
        return "ten seconds have passed" if call.time - time >= TEN_SECONDS else None

    def duplicate(self, call, answer):
        """02: In the low-number rule, a frame with 43=Y and a 122 later than its 52 is now Reject 10, tag 122 .. equal times pass
        .. E stays."""
        said = [(first(message, 373), first(message, 371)) for message in messages(answer.reply)] or [None]
        right = said_of_times(first(call.frame, 52), first(call.frame, 122))
        must(said == [right], f"of a duplicate's times is said {right}")
        stays = answer.after.expected == call.before.expected and answer.after.status == ACTIVE
        must(stays and not answer.delivered, "behind a duplicate E stays, and the session goes on")
        self.counts["duplicates ignored" if said == [None] else f"duplicates, Reject {said[0][0].decode()}"] += 1

    def stores(self, call, answer):
        """02: Keep the last 64 reports .. in a store. An accepted logon with 141=Y zeroes the store"""
        if answer.store is None:
            return
        length, *places = answer.store.split(",")
        held = sorted(place.partition("=")[2] for place in places)
        must(length == "32768", "a store has 32,768 bytes")
        must(held == sorted(report.hex() for report in self.kept.values()), "the store holds the last 64 reports")
        must(call.word == "report" or answer.store in (call.store, "32768"), "a step changes no place of the store")
