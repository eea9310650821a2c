"""Frames and what looks like one, and the requests `read` and `stream` on them."""
from .basics import BAR, MARK, TYPES, byte_mutated, chance, filler, framed, hexed, joined, noise
from .bodies import message


def with_zeros(r, body):
    """A frame around a body, the body length as a rule without zeros in front, else in up to six digits."""
    return framed(body, length=b"%0*d" % (r.randint(1, 6) if chance(r, 0.2) else 1, len(body)))


def short_frame(r):
    return with_zeros(r, joined(message(r, r.choice(TYPES))) if chance(r, 0.5) else b"35=0\x01")


def long_frame(r):
    size = r.choice((2048, 2047, 2046, 1000, 999, 100, 99, 10, 9, 6, 5))
    return with_zeros(r, b"35=" + filler(r, size - 4) + BAR)


def wrong_sum(r):
    """A frame whose sum is wrong in one digit, of two digits, of four, or no digit."""
    whole = short_frame(r)
    digits = bytearray(whole[-4:-1])
    at = r.randrange(3)
    digits[at] = 48 + (digits[at] - 48 + r.randint(1, 9)) % 10
    right, wrong = whole[-4:-1], bytes(digits)
    return whole[:-4] + r.choice((wrong, wrong, right[:2], right + b"0", b"x" + right[1:], b"", b"256", b"999")) + BAR


LENGTHS = (b"", b"0", b"1", b"4", b"5", b"05", b"00", b"005", b"0005", b"00005", b"6", b"9", b"10", b"20", b"40",
           b"99", b"100", b"204", b"205", b"999", b"1000", b"2047", b"2048", b"2049", b"2050", b"9999", b"10000",
           b"20480", b"65541", b"4294967301", b"x", b"5x", b"-5", b"+5", b" 5", b"5 ", b"00000", b"000000", b"0000000",
           b"00004", b"000004", b"000005", b"0000005", b"000010", b"02048", b"02049", b"002048", b"002049", b"0002048",
           b"000204", b"000205", b"00000x", b"000005x")


def lying_length(r):
    """A frame with another body length than its body has, its sum right for what stands there."""
    return framed(r.choice((b"35=0\x01", b"35=0\x0158=" + filler(r, r.randrange(60)) + BAR)), length=r.choice(LENGTHS))


def true_odd_length(r):
    """A body of a length at the limits, with its own length in front, zeros before it or not."""
    size = r.choice((4, 5, 6, 9, 10, 99, 100, 999, 1000, 2047, 2048, 2049))
    body = (b"35=" + filler(r, max(0, size - 4)) + BAR)[:size]
    return framed(body, length=r.choice((b"%d", b"%d", b"0%d", b"%05d", b"%06d", b"%07d")) % size)


def odd_body(r):
    """A frame with a sum that is right around a body that doesn't begin or end as it should."""
    return framed(r.choice((
        b"35=0x", b"36=0\x01", b"\x0135=0\x01", b"35\x01=0\x01", b"35=\x01\x01", b"35=\x01x", b"035=0\x01",
        b"35=0\x01x", b"xxxx\x01", b"35=0\x0110=000\x01", b"35=0\x0135=0\x01", b"35=" + filler(r, 3) + BAR)))


def nested(r):
    """A frame that swallows another: the outer length covers a whole frame, or a part of one."""
    inner = r.choice((short_frame, wrong_sum))(r)
    cut = inner[:r.randint(0, len(inner))] if chance(r, 0.5) else inner
    body = b"35=0\x01" + filler(r, r.randrange(4)) + cut
    lying = MARK + b"%d\x01" % r.randint(5, 300) + body
    return r.choice((framed(body), framed(body + BAR), framed(body)[:-r.randint(1, 7)], lying))


def mark_at_the_end(r):
    """A frame whose body ends in the front of a mark, and bytes behind it that would go on with that mark."""
    size = r.randint(1, 13)
    body = b"35=0\x0158=" + MARK[:size]
    whole = framed(body if body.endswith(BAR) else body + BAR)
    return whole + r.choice((b"", MARK[size:], b"9=", b"9=5\x0135=0\x01", MARK[11:] + b"5\x0135=0\x0110=241\x01"))


def partial_mark(r):
    return MARK[:r.randint(1, 13)]


def cut_frame(r):
    whole = r.choice((short_frame, long_frame, wrong_sum, true_odd_length))(r)
    return whole[:r.randint(1, len(whole))]


def cut_trailer(r):
    whole = r.choice((short_frame, wrong_sum))(r)
    return whole[:len(whole) - r.randint(1, 8)]


def mutated_frame(r):
    return byte_mutated(r, short_frame(r))


def repaired_frame(r):
    """A byte of the body changed, body length and sum mended."""
    return framed(byte_mutated(r, joined(message(r, r.choice(TYPES)))))


TOKENS = (short_frame, short_frame, short_frame, long_frame, wrong_sum, lying_length, true_odd_length, odd_body,
          nested, mark_at_the_end, partial_mark, partial_mark, cut_frame, cut_trailer, mutated_frame,
          repaired_frame, lambda r: noise(r, r.randint(0, 20)), lambda r: MARK + r.choice(LENGTHS),
          lambda r: MARK + r.choice(LENGTHS) + BAR, lambda r: MARK * r.randint(1, 5),
          lambda r: r.choice((b"8", b"8=", b"9=", b"10=", b"35=", BAR, b"")))


def soup(r, most):
    return b"".join(r.choice(TOKENS)(r) for _ in range(r.randint(1, most)))


def read_noise(r):
    yield "read " + hexed(noise(r, r.choice((0, 1, 12, 13, 14, 20, 27, 60, 300))))


def read_one(r):
    yield "read " + hexed(r.choice(TOKENS)(r))


def read_length(r):
    """A mark, a body length at an edge or any, and what may follow it."""
    some = b"%d" % r.choice((r.randint(1, 30), r.randint(190, 220), r.randint(2000, 2100)))
    digits = r.choice(LENGTHS) if chance(r, 0.6) else some
    behind = r.choice((b"", b"", BAR, b"\x013", b"\x0135=0\x01", b"\x0136", b"x", b"\x01x"))
    yield "read " + hexed(MARK + digits + behind)


def read_soup(r):
    yield "read " + hexed(soup(r, 5))


def read_far(r):
    """A frame behind more bytes than sixteen bits count."""
    yield "read " + hexed(b"x" * r.choice((65535, 65536, 66000)) + r.choice((short_frame, cut_frame))(r))


def read_every_front(r):
    """All fronts of one short run of bytes: the smallest live position must move as the bytes come in."""
    whole = r.choice((nested, mark_at_the_end, lying_length, odd_body, wrong_sum))(r)
    start = r.randrange(len(whole))
    for size in range(start, min(len(whole), start + 20) + 1):
        yield "read " + hexed(whole[:size])


def cut_in_pieces(r, whole):
    pieces, at = [], 0
    while at < len(whole):
        size = r.choice((0, 1, 2, 13, 20, 100, 1000, len(whole))) if chance(r, 0.5) else r.randint(0, 80)
        pieces.append(whole[at:at + size])
        at += size
    return pieces + [b""] * r.randint(0, 1)


def stream_of_soup(r):
    yield " ".join(["stream", *map(hexed, cut_in_pieces(r, soup(r, 14)))])


def stream_of_frames(r):
    frames = b"".join(r.choice((short_frame, short_frame, long_frame, wrong_sum))(r) for _ in range(r.randint(2, 10)))
    yield " ".join(["stream", *map(hexed, cut_in_pieces(r, frames))])


def stream_byte_by_byte(r):
    whole = soup(r, 4)[:700]
    yield " ".join(["stream", *(hexed(whole[at:at + 1]) for at in range(len(whole)))])


def stream_of_nothing(r):
    yield " ".join(["stream", *(["-"] * r.randint(0, 3))])


# How often each comes, beside the others of mixture.py.
WEIGHTS = {
    read_noise: 2, read_one: 5, read_length: 2, read_soup: 6, read_every_front: 0.5, read_far: 0.02,
    stream_of_soup: 3, stream_of_frames: 1, stream_byte_by_byte: 0.3, stream_of_nothing: 0.05,
}
