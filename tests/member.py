"""A member's engine as tests/playing.py plays it: its own numbers, the messages it sends in turn or not, and a line with
faults."""
from generate.basics import byte_mutated, chance, framed, joined
from generate.bodies import message
from generate.faults import faulty
from messages import OURS, PEER, first, messages, number, stamp

# What it sends while logged on, and how often.
SENDS = {"heartbeat": 12, "test_request": 8, "resend_request": 15, "unservable": 3, "gap_fill": 4, "gap_fill_back": 1,
         "bare_reset": 3, "reject": 4, "request": 16, "cancel": 16, "report": 2, "unclean": 4, "duplicate": 3, "too_high": 3,
         "in_flight": 3, "too_low": 0.5, "logon_again": 1, "stranger": 0.5, "unnumbered": 0.4, "logout": 1.2,
         "end_of_numbers": 0.1}
LOGONS = {"in_turn": 61, "reset": 12, "high": 7, "low": 4, "reset_high": 4, "no_logon": 6, "bad_logon": 6}
# What becomes of a frame on its way, and how often. A cut one comes in two pieces, the second of a torn one with the next; a
# late one comes once more behind some others.
FAULTS = {"lost": 0.01, "doubled": 0.003, "damaged": 0.017, "overtaken": 0.01, "torn": 0.05, "cut": 0.21}
ANSWERS_LATE = 0.25     # how often it sends something else before what it owes
REPAIRED = 0.15         # how often its clock was put back before it sends something again
SENT = 1_704_187_800_000_000                                        # from when on it sent what it sends again
APART = (0, 0, 1, 1000, 1_000_000, 60_000_000, 86_400_000_000)      # microseconds from the first sending to the next
KINDS = {"heartbeat": b"0", "test_request": b"1", "reject": b"3", "request": b"AD", "cancel": b"F", "report": b"AE",
         "logon_again": b"A", "logout": b"5"}


def text(number):
    return b"%d" % number


def shown(r, time):
    """A time with no, three or six decimals, the others cut off."""
    return stamp(time)[:r.choice((17, 21, 24))]


class Member:
    """It counts what it sends and what it has got, and answers a Resend Request of ours."""

    def __init__(self, r, sends, logons):
        self.r, self.kinds, self.logons = r, sends, logons
        self.next = 1           # its next number out
        self.seen = 0           # the greatest of our numbers that it has got
        self.owed = []          # answers to our Resend Requests

    def made(self, kind, given=(), at=None):
        """A message under its next number, or under another one that it does not count."""
        n = self.next if at is None else at
        self.next += at is None
        return message(self.r, kind, {49: PEER, 56: OURS, 34: text(n), 43: None, 122: None, **dict(given)})

    def sends(self):
        """The frames that it sends at a turn: what it owes, else something new."""
        if self.owed and not chance(self.r, ANSWERS_LATE):
            owed, self.owed = self.owed, []
            return owed
        what = self.r.choices(tuple(self.kinds), tuple(self.kinds.values()))[0]
        if what == "in_flight":
            return self.in_flight()
        return [framed(joined(getattr(self, what, lambda: self.made(KINDS[what]))()))]

    def logs_on(self):
        what = self.r.choices(tuple(self.logons), tuple(self.logons.values()))[0]
        return framed(joined(getattr(self, what)()))

    def gets(self, reply):
        """What we send it: it counts, and owes an answer to each Resend Request."""
        for got in messages(reply):
            self.seen = max(self.seen, number(got))
            if first(got, 35) == b"A" and first(got, 141) == b"Y":
                self.seen = 1
            if first(got, 35) == b"2":
                self.owed += self.resent(int(first(got, 7)))

    def resent(self, begin):
        """All that it sent from this number on: few of them one by one, else as a gap fill."""
        if self.next - begin in range(1, 4):
            return [framed(joined(self.made(self.r.choice((b"F", b"AD")), self.again(), at=n))) for n in range(begin, self.next)]
        return [framed(joined(self.made(b"4", {**self.again(), 123: b"Y", 36: text(max(self.next, begin))}, at=begin)))]

    def again(self):
        """43, 52 and 122 of what it sends once more. 02: One member's clock repair sent duplicates whose 122 lies after their
        52."""
        r = self.r
        first_sent = SENT + r.randrange(10**9)
        sent = first_sent + r.choice(APART) * (-1 if chance(r, REPAIRED) else 1)
        return {43: b"Y", 52: shown(r, sent), 122: shown(r, first_sent)}

    # ---- What it sends while logged on -------------------------------------------------------------------------------

    def resend_request(self):
        """A range of what went out, short, longer or all of it, seldom beyond; now and then too high a number."""
        r, last = self.r, max(1, self.seen)
        begin = r.choice((r.randint(1, last), r.randint(max(1, last - 70), last), max(1, last - r.randrange(8)), 1))
        end = min(last, begin + r.choice((0, 1, 4, 4, 4, 20)))
        ends = text(r.choice((end, end, end, end, end, 0, last, last + 5, 999_999_999)))
        return self.made(b"2", {7: text(begin), 16: ends}, at=self.next + 1 if chance(r, 0.05) else None)

    def unservable(self):
        r = self.r
        begin = r.choice((self.seen + 1000, 999_999_999, max(2, self.seen)))
        return self.made(b"2", {7: text(begin), 16: text(r.choice((0, 1, begin - 1)))})

    def gap_fill(self):
        """Forward, or to its own number, which is rejected."""
        new = self.next + self.r.choice((1, 1, 2, 5, 0))
        parts = self.made(b"4", {123: b"Y", 36: text(new)})
        self.next = max(self.next, new)
        return parts

    def gap_fill_back(self):
        """To a number before its own, or to it: rejected."""
        return self.made(b"4", {123: b"Y", 36: text(max(1, self.next - self.r.choice((1, 1, 3))))})

    def bare_reset(self):
        new = max(1, self.next + self.r.choice((0, 1, 3, -1, -5)))
        parts = self.made(b"4", {123: self.r.choice((None, b"N")), 36: text(new)}, at=self.next)
        self.next = max(self.next, new)
        return parts

    def end_of_numbers(self):
        return self.made(b"4", {123: None, 36: b"999999991"}, at=self.next)

    def unclean(self):
        return faulty(self.r, self.made(self.r.choice((b"0", b"1", b"2", b"AD", b"F", b"F"))), most=1)

    def duplicate(self):
        """Now and then without a 122 or a 52, or with one that is no time."""
        marks, kind = self.again(), self.r.choice((b"0", b"F", b"AD", b"AE"))
        if chance(self.r, 0.3):
            marks[self.r.choice((52, 122, 122))] = self.r.choice((None, None, b"", b"20230229-00:00:00"))
        return self.made(kind, marks, at=max(1, self.next - self.r.randint(1, 3)))

    def too_high(self):
        return self.made(self.r.choice((b"0", b"F", b"AE", b"4")), at=self.next + self.r.choice((1, 2, 500)))

    def in_flight(self):
        """Frames that are on their way, of which the first is lost: 02: After a line fault each frame in flight .."""
        self.next += 1
        return [framed(joined(self.made(self.r.choice((b"0", b"F", b"AD", b"1"))))) for _ in range(self.r.randint(2, 6))]

    def too_low(self):
        return self.made(b"0", at=max(1, self.next - 1))

    def stranger(self):
        tag = self.r.choice((49, 56))
        return self.made(b"0", {tag: self.r.choice((None, b"XX", b"M", b"GWW"))}, at=self.next + self.r.choice((0, 1)))

    def unnumbered(self):
        return self.made(b"0", {34: self.r.choice((None, b"x", b"01", b"0"))}, at=self.next)

    # ---- How it logs on ----------------------------------------------------------------------------------------------

    def logon(self, reset=None, at=None):
        return self.made(b"A", {108: self.r.choice((b"30", b"5", b"60")), 141: reset}, at=at)

    def in_turn(self):
        return self.logon(self.r.choice((None, b"N")))

    def reset(self):
        self.next = 1
        self.owed = []
        return self.logon(b"Y")

    def high(self):
        self.next += self.r.choice((1, 2, 50))
        return self.logon()

    def low(self):
        return self.logon(at=1)

    def reset_high(self):
        return self.logon(b"Y", at=self.next + 5)

    def no_logon(self):
        return self.made(b"0", at=self.next)

    def bad_logon(self):
        return self.made(b"A", self.r.choice(({108: b"61"}, {49: b"XX"}, {56: None}, {34: b"x"}, {98: b"1"})), at=self.next)


class Line:
    """The bytes between the member and the host: frames get lost, doubled, damaged, torn, or pass each other. It counts how
    often, in `met`."""

    def __init__(self, r, faults, met):
        self.r, self.faults, self.met = r, faults, met
        self.held = []          # frames that come behind the next one
        self.rest = b""         # of a torn piece
        self.copies = []        # frames that come once more, each with the number of frames before it

    def carry(self, frames):
        """The pieces that arrive."""
        return [piece for frame in frames for piece in self.arriving(frame)]

    def fault(self):
        """What becomes of a frame; None where it arrives whole."""
        left = self.r.random()
        for fault, share in self.faults.items():
            left -= share
            if left < 0:
                self.met[fault] += 1
                return fault
        return None

    def due(self):
        """The copies whose turn it is."""
        self.copies = [(frames - 1, copy) for frames, copy in self.copies]
        due = [copy for frames, copy in self.copies if frames == 0]
        self.copies = [(frames, copy) for frames, copy in self.copies if frames]
        return due

    def arriving(self, frame):
        before, self.held = self.held, []
        rest, self.rest = self.rest, b""
        fault = self.fault()
        carried = [frame]
        if fault == "lost":
            carried = []
        elif fault == "doubled":
            carried = [frame, frame]
        elif fault == "damaged":
            carried = [byte_mutated(self.r, frame)]
        elif fault == "overtaken":
            self.held, carried = [frame], []
        elif fault == "torn":
            at = self.r.randrange(1, len(frame))
            carried, self.rest = [frame[:at]], frame[at:]
        elif fault == "cut":
            at = self.r.randrange(len(frame))
            carried = [frame[:at], frame[at:]] if at else [frame]
        elif fault == "late":
            self.copies.append((self.r.randint(2, 20), frame))
        return ([rest] if rest else []) + carried + before + self.due()
