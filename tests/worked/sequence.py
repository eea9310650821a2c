"""The checker of Q-10's sentences by itself (tests/sentences.py): a worked morning of which they hold, and calls of wrong
sessions, of which one does not."""
from laws import ACTIVE, CLOSED, WAITING, Answer, Broken, Record
import sentences
from sentences import Made

from .basics import HEADER, body, framed, raw, same

REJECT = framed(raw("35=3|49=GW|56=MM|34=2|52=20240102-09:30:00|45=5|373=5|"))
ASKING = framed(raw("35=2|49=GW|56=MM|34=2|52=20240102-09:30:00|7=5|16=0|"))
LOGOUT = framed(raw("35=5|49=GW|56=MM|34=2|52=20240102-09:30:00|1409=101|"))
BEAT = framed(raw("35=0|49=GW|56=MM|34=2|52=20240102-09:30:00|"))
GAP_FILL = "123=Y|36={}|"
STRANGE = HEADER.replace("MM", "XX")


def record(expected, status=ACTIVE):
    return Record("4757", "4d4d", status, expected, 2, 30, 0, 0, 0, 0, 0, 0, 0)


def made(before, after, msg_type=None, n=5, fields=None, refusal=None, delivered=False, reply=b"", status=ACTIVE, then=ACTIVE,
         header=HEADER):
    """A call on a record that expects `before` and is left expecting `after`: a step with that message, or a tick."""
    frame = None if msg_type is None else framed(body(msg_type, fields, n, header))
    answer = Answer(refusal, delivered, reply, record(after, then), None)
    return Made("step" if frame else "tick", frame, record(before, status), answer)


def torn(call):
    """The same with the last bytes of its frame missing."""
    return call._replace(frame=call.frame[:-3])


def holds(*calls):
    """Whether the sentences hold of them; the words of the first that does not."""
    try:
        sentences.hold(list(calls))
    except Broken as broken:
        return str(broken).split(":")[0].split(",")[0]
    return True


def breaks(words, *calls):
    same(words in str(holds(*calls)), True)


def test_morning():
    """Deliveries, a gap, a gap fill, a duplicate, a rejected message, a refused step, a tick, a rejected reset, no frame."""
    same(holds(), True)
    same(holds(
        made(1, 2, "A", 1, status=WAITING), made(2, 3, "AD", 2, delivered=True), made(3, 3, "0", 5, reply=ASKING),
        made(3, 5, "4", 3, GAP_FILL.format(5)), made(5, 5, "F", 2), made(5, 6, "0", 5, reply=REJECT),
        made(6, 6, "0", 6, refusal=10), made(6, 6), made(6, 7, "F", 6, delivered=True),
        made(7, 7, "4", 9, "36=4|", reply=REJECT)), True)


def test_rejected_duplicates():
    """It contributes nothing, and its number is passed; what was delivered in turn may be rejected when it comes again."""
    same(holds(made(5, 5, "AD", 4, reply=REJECT), made(5, 6, "AD", 5, delivered=True)), True)
    same(holds(made(5, 6, "AD", 5, delivered=True), made(6, 6, "AD", 5, reply=REJECT), made(6, 6, "AD", 5)), True)
    breaks("E at the end", made(5, 6, "AD", 4, reply=REJECT))


def test_shares():
    """The number; the numbers up to 36; nothing, where the number is not E, or the bytes are no frame."""
    same(sentences.share(made(5, 6, "0")), (5, 6))
    same(sentences.share(made(5, 9, "4", 5, GAP_FILL.format(9))), (5, 9))
    same(sentences.share(made(5, 9, "4", 5, GAP_FILL.format(9), reply=BEAT)), (5, 9))
    same(sentences.share(made(5, 6, "4", 5, GAP_FILL.format(6))), (5, 6))
    same(sentences.share(made(5, 6, "4", 5, GAP_FILL.format(5), reply=REJECT)), (5, 6))
    same(sentences.share(made(5, 5, "0", 7)), None)
    same(sentences.share(torn(made(5, 6, "0"))), None)
    same(sentences.share(made(5, 5)), None)


def test_resets():
    logon = "98=0|108=30|1137=9|141=Y|"
    same(sentences.is_reset(made(5, 2, "A", 1, logon, status=WAITING, reply=ASKING)), True)
    same(sentences.is_reset(made(5, 5, "A", 5, logon, status=WAITING, then=CLOSED, reply=LOGOUT)), False)
    same(sentences.is_reset(made(5, 9, "0", 5, "141=Y|", status=WAITING)), False)
    same(sentences.is_reset(made(5, 9, "4", 3, "36=9|")), True)
    same(sentences.is_reset(made(5, 9, "4", 3, "123=N|36=9|")), True)
    same(sentences.is_reset(made(5, 5, "4", 3, "36=4|", reply=REJECT)), False)
    same(sentences.is_reset(made(5, 9, "4", 5, GAP_FILL.format(9))), False)
    same(sentences.is_reset(made(5, 5, "4", 3, "36=9|", refusal=10)), False)
    same(sentences.is_reset(torn(made(5, 9, "4", 3, "36=9|"))), False)


def test_wrong_gap_fills():
    """One that leaves E short, that steps back, that is ignored, that counts as one message; E raised by a too-high frame, by a
    tick, by a duplicate, by bytes that are no frame."""
    breaks("E at the end", made(5, 8, "4", 5, GAP_FILL.format(9)))
    breaks("a call contributes", made(5, 4, "4", 5, GAP_FILL.format(4)))
    breaks("E at the end", made(5, 5, "4", 5, GAP_FILL.format(9)))
    breaks("E at the end", made(5, 6, "4", 5, GAP_FILL.format(9), reply=BEAT))
    breaks("E at the end", made(5, 8, "0", 7))
    breaks("E at the end", made(5, 6))
    breaks("E at the end", made(5, 6, "AD", 4))
    breaks("E at the end", torn(made(5, 6, "AD", 5)))


def test_wrong_deliveries():
    """A message in turn that is delivered and does not count; one below E, or torn, or none at all; one delivered twice; a
    refused step and a duplicate that count; a Reject of a message that is read again, or of none; a message that is rejected,
    now or before; calls that do not follow each other."""
    breaks("a frame that counts", made(5, 5, "AD", 5, delivered=True))
    breaks("a frame that counts", made(5, 5, "AD", 4, delivered=True))
    breaks("a frame that counts", torn(made(5, 5, "AD", 5, delivered=True)))
    breaks("a frame that counts", made(5, 5, delivered=True))
    breaks("rise strictly", made(5, 6, "AD", 5, delivered=True), made(6, 5), made(5, 6, "AD", 5, delivered=True))
    breaks("a refused step", made(5, 6, "AD", 5, refusal=3))
    breaks("a duplicate", made(5, 6, "0", 4), made(6, 5))
    breaks("what is rejected is passed", made(5, 5, "AD", 5, reply=REJECT))
    breaks("only a frame", made(5, 5, reply=REJECT))
    breaks("a rejected message", made(5, 6, "AD", 5, delivered=True, reply=REJECT))
    breaks("a rejected message", made(5, 5, "AD", reply=REJECT, header=STRANGE),
           made(5, 6, "AD", delivered=True, header=STRANGE))
    breaks("each call is on the record", made(5, 6, "AD", 5), made(7, 8, "AD", 7))
