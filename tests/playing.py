"""One session played on the compiled calls, its record and its store carried along: a member (tests/member.py) on a line with
faults, and a host that makes slips. tests/runs and tests/sequence play it, and hold each answer to what they know."""
import random
from collections import Counter

from generate.basics import chance, framed, joined, noise
from generate.records import LATE
from generate.reports import VALUE_FAULTS, Report, good_party, stretch
from laws import ACTIVE, CLOSED, TEN_SECONDS, WAITING, Broken, Call, answer_of, bytes_of
from member import FAULTS, LOGONS, SENDS, Line, Member
from messages import LAST_USABLE

NEW = "new 4757 4d4d"
EMPTY = "32768"
DOES = {                                        # what the host does next, by the status, and while a replay is running
    WAITING: {"logon": 75, "tick": 8, "report": 5, "replay": 5, "slip": 4, "reconnect": 3},
    ACTIVE: {"frames": 36, "report": 42, "tick": 8, "replay": 3, "slip": 3, "reconnect": 0.3},
    CLOSED: {"reconnect": 60, "frames": 12, "report": 8, "tick": 8, "replay": 6, "slip": 4},
    "replaying": {"replay": 80, "frames": 8, "tick": 4, "report": 3, "slip": 2, "reconnect": 0.1},
}


class Fault(Exception):
    """An answer that is not as it should be: the request, the answer, what should be, and by whom."""


class Play:
    """A game of one session. The one that plays it says what it is held to: `wanted` of each request, `see` of each call."""
    does, sends, logons, faults = DOES, SENDS, LOGONS, FAULTS

    def __init__(self, driver, seed):
        self.driver, self.r = driver, random.Random(seed)
        self.calls, self.met = 0, Counter()

    def wanted(self, request):
        """The one right answer, where it is known."""
        return None

    def see(self, call, line, kept):
        """A call and its answer; `kept` where it is on the session's own record. Raises Broken where a law does not hold."""

    def begin(self):
        """A new session with a store of zeros, and a member that begins with it."""
        self.time = 1_704_187_800_000_000
        self.member, self.store = Member(self.r, self.sends, self.logons), EMPTY
        self.new_line()
        self.call("new", NEW)

    def new_line(self):
        self.line, self.pending = Line(self.r, self.faults, self.met), "-"

    def ask(self, request):
        """The driver's answer, which must be the right one."""
        self.driver.put(request)
        wanted = self.wanted(request)
        got = self.driver.take()
        if wanted not in (None, got):
            raise Fault(request, got, wanted, "model")
        return got

    def call(self, word, request, frame=b"", at=None, record=None):
        """One call, held to the laws. A record that is not ours to lend is not kept."""
        self.calls += 1
        before = record or (self.record if word != "new" else None)
        line = self.ask(request)
        try:
            self.see(Call(word, self.time if at is None else at, frame, before, self.store), line, record is None)
        except Broken as broken:
            raise Fault(request, line, str(broken), "law") from None
        answer = answer_of(word, line)
        if record is None:
            self.record, self.store = answer.after, answer.store or self.store
        self.member.gets(answer.reply)
        return answer

    def words(self, record=None):
        return " ".join(map(str, record or self.record))

    # ---- What the host does ------------------------------------------------------------------------------------------

    def act(self):
        """The next thing, by the status. Where the numbers are used up, a new session, sooner or later."""
        r = self.r
        self.time = max(0, self.time + r.choice((0, 1, 1, 400_000, 1_000_000, 7_000_000, 31_000_000 * chance(r, 0.2))))
        self.time -= r.choice((1, 20_000_000, 90_000_000)) * chance(r, 0.02)
        if self.record.open and chance(r, 0.2):         # just before the last asking, at it, and around ten seconds behind it
            self.time = max(0, self.record.asked + r.choice((-1, 0, TEN_SECONDS - 1, TEN_SECONDS)))
        if self.record.expected > LAST_USABLE and self.record.status == CLOSED and chance(r, 0.3):
            return self.begin()
        does = self.does["replaying" if self.record.at else self.record.status]
        return getattr(self, r.choices(tuple(does), tuple(does.values()))[0])()

    def frames(self):
        self.off_the_line(self.member.sends())

    def logon(self):
        self.off_the_line([self.member.logs_on()])

    def off_the_line(self, frames):
        """The pieces that come of these frames are read behind what is pending, and each frame in them is a step."""
        pieces = [piece.hex() for piece in self.line.carry(frames)]
        words = self.ask(" ".join(["stream", self.pending, *pieces])).split(" ")
        self.pending = words[-1]
        for word in words[1:-2]:
            self.step(bytes_of(word.partition(":")[2]))

    def step(self, frame):
        self.call("step", f"step {self.time} 600 {frame.hex() or '-'} {self.words()} {self.store}", frame)

    def tick(self):
        self.call("tick", f"tick {self.time} 600 {self.words()}")

    def replay(self):
        self.call("replay", f"replay {self.time} 600 {self.words()} {self.store}")

    def reconnect(self):
        """The line is a new one: what was pending, or on its way, is gone."""
        self.call("reconnect", f"reconnect {self.words()}")
        self.new_line()
        self.member.owed = []

    def report(self):
        """One in eight has a bad value, is too long, or too long for the room."""
        r = self.r
        report, room = Report(r, r.choice((0, 0, 0, 1, 2))), 512
        fault = r.random()
        if fault < 0.05:
            r.choice(VALUE_FAULTS)(r, report)
        elif fault < 0.08:
            report.parties = [good_party(r) for _ in range(8)]
            stretch(r, report, 1000)
        elif fault < 0.12:
            room = r.choice((0, 100, 150))
        self.call("report", f"report {self.time} {room} {self.words()} {self.store} {report.words(r)}".rstrip(" "))

    # ---- The host's slips: each is refused, or does no harm ----------------------------------------------------------

    def slip(self):
        r, at, room, record, store = self.r, self.time, 600, self.record, self.store
        word = r.choice(("step", "tick", "replay", "report"))
        slip = r.choice(("room", "time", "store", "record", "frame"))
        if slip == "room":
            room = r.choice((0, 511, 512, 599)) if word != "report" else 0
        elif slip == "time":
            at = r.choice(LATE)
        elif slip == "store":
            store = r.choice(("0", "512", "32767", "32769", "65536", f"512,0={noise(r, 20).hex()}"))
        elif slip == "record":
            record = self.spoilt()
        frame = self.no_frame() if slip == "frame" else self.in_turn()
        behind = {"step": f" {store}", "tick": "", "replay": f" {store}", "report": f" {store} {Report(r, 0).words(r)}"}[word]
        front = f"{word} {at} {room} " + (f"{frame.hex() or '-'} " if word == "step" else "")
        self.call(word, front + self.words(record) + behind, frame, at, record if slip == "record" else None)

    def spoilt(self):
        """A record that breaks its ranges."""
        out = self.record.next_out
        return self.record._replace(**self.r.choice((
            {"heartbeat": 0}, {"next_out": 0}, {"expected": 10 ** 9}, {"status": 3}, {"ours": "-"}, {"at": out, "to": out},
            {"at": 2, "to": 1}, {"open": 2}, {"open": 0, "high": 1}, {"open": 0, "asked": 1, "high": 0, "gap_for": 0},
            {"open": 1, "gap_for": 0}, {"open": 1, "high": 10 ** 9})))

    def in_turn(self):
        """What the member would send next."""
        return framed(joined(self.member.made(self.r.choice((b"0", b"F", b"AD")), at=self.member.next)))

    def no_frame(self):
        """Bytes that are not exactly one good frame."""
        frame = self.in_turn()
        return self.r.choice((frame[:-1], frame + b"x", b"x" + frame, frame + frame, frame[:-4] + b"xxx\1", b""))
