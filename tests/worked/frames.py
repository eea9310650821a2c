"""Good frames, live positions and cuttings, live positions also against brute force."""
import itertools
import random

import model

from .basics import framed, is_good, raw, same


def test_live_positions():
    front = "8=FIXT.1.1|9="
    for digits in "1", "4", "5", "9", "204", "205", "999", "2048", "1000", "":
        same(model.live(raw(front + digits), 0), True)
    for digits in "2049", "9999", "10000", "4|", "1|", "x", "5x", "-1", "2049|", "0|", "|":
        same(model.live(raw(front + digits), 0), False)
    for digits in "5|", "40|", "2048|":
        same(model.live(raw(front + digits), 0), True)
    same(model.read(raw(front + "4")), (False, 0))
    same(model.read(raw(front + "4|")), (False, 15))
    same(model.read(raw(front + "2049")), (False, 17))
    same(model.read(raw(front + "204")), (False, 0))


def test_a_second_mark_in_the_body():
    outer = raw("8=FIXT.1.1|9=100|35=0|")
    for size in range(13):
        same(model.read(outer + model.MARK[:size]), (False, 0))
    same(model.read(outer + model.MARK), (False, len(outer)))


def test_bodies_cut_short():
    front = raw("8=FIXT.1.1|9=10|")
    same(model.live(front + raw("35=012345x"), 0), False)           # whole, without its `|`
    same(model.live(front + raw("35=012345"), 0), True)             # one byte missing, whatever it holds
    same(model.live(front + bytes([51, 53, 61]) + bytes([1, 1, 255, 0, 1, 1]), 0), True)
    same(model.live(front + raw("36"), 0), False)
    same(model.live(front + raw("35|"), 0), False)


def test_trailers_cut_short():
    whole = raw("8=FIXT.1.1|9=5|35=0|10=241|")
    for size in range(1, 28):
        same(model.read(whole[:size]), (False, 0) if size < 27 else (True, 0, 27))
    for wrong in "0", "11", "100", "10=1", "10=3", "10=25", "10=240", "10=2411", "10=242":
        same(model.live(whole[:20] + raw(wrong), 0), False)


def test_the_sum_runs_to_the_trailer():
    frame = framed(raw("35=0|10=000|58=x|"))
    same(is_good(frame), True)
    same(is_good(framed(raw("35=||"))), True)
    same(model.verdict(raw("35=||")), (11, 35))
    same(model.good_frame(framed(raw("35=0|8=FIXT.1.1|9=5|35=0|"))), None)


def brute_force_live(rest):
    """Whether some continuation of a short rest makes a good frame: every body length, with a body that is free."""
    for size in range(5, 2049):
        fronts = [raw("8=FIXT.1.1|9=%0*d|" % (digits, size)) for digits in range(len(str(size)), 7)]
        front = next((front for front in fronts if front.startswith(rest) or rest.startswith(front)), None)
        if not front:
            continue
        inner = rest[len(front):len(front) + size]
        for filler in b"x", b"\x00":
            whole = inner + (b"35=" + filler * size)[len(inner):size - 1] + b"\x01"
            frame = front + (inner if len(inner) == size else whole[:size])
            frame += raw("10=%03d|" % (sum(frame) % 256))
            if is_good(frame) and (frame.startswith(rest) or rest.startswith(frame)):
                return True
    return False


def test_live_against_brute_force():
    choose = random.Random(1)
    wholes = [framed(raw("35=0|")), framed(raw("35=0|58=abc|")),
              raw("8=FIXT.1.1|9=30|35=0|8=FIXT.1.1|9=5|35=0|10=241|"), raw("8=FIXT.1.1|9=00005|35=0|10=177|")]
    for _ in range(300):
        rest = bytearray(choose.choice(wholes)[:choose.randrange(1, 46)])
        if choose.random() < 0.5:
            rest[choose.randrange(len(rest))] = choose.choice(b"0123456789=|\x0158x")
        same(model.live(bytes(rest), 0), brute_force_live(bytes(rest)))


def test_reading_is_the_same_for_every_cutting():
    whole = framed(raw("35=0|"))
    stream = (raw("8=FI8=FIXT.1.1|9=40|") + whole + raw("x8=FIXT.1.1|9=5|35=0|10=242|") + whole + whole
              + raw("8=FIXT.1.1|9="))
    frames = [frame for _, frame in model.read_in_pieces([stream])[0]]
    same(frames, [whole] * 3)
    for a, b in itertools.combinations(range(len(stream)), 2):
        pieces = [stream[:a], b"", stream[a:b], stream[b:]]
        got, pending = model.read_in_pieces(pieces)
        assert [frame for _, frame in got] == frames and pending == raw("8=FIXT.1.1|9=")
    same(model.read_in_pieces([stream[k:k + 1] for k in range(len(stream))])[1], raw("8=FIXT.1.1|9="))
    same(model.read_in_pieces([]), ([], b""))
    same(model.read_in_pieces([whole[:9], b"", whole[9:] + whole]), ([(2, whole), (2, whole)], b""))
    longest = framed(raw("35=0|58=" + "x" * 2039 + "|"))
    same(len(model.read_in_pieces([longest[:-1]])[1]), 2072)                    # 2,074 with zeros in front of its length
