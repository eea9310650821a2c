"""The good frame of document 01: what it is, which positions are live, one reading, and reading in pieces."""
from .landed import LANDED

BAR = b"\x01"
MARK = b"8=FIXT.1.1|9=".replace(b"|", BAR)
LEAST_BODY, GREATEST_BODY = 5, 2048
LENGTH_DIGITS = 6 if 3 in LANDED else 4
TRAILER = len(b"10=ddd|")
LONGEST_FRAME = 2075 if 3 in LANDED else 2073       # 02: The longest frame becomes 2,075 bytes


def trailer(before):
    """01: The three digits are the sum of all bytes before `10=`, modulo 256."""
    return b"10=%03d" % (sum(before) % 256) + BAR


def body_length(digits):
    """01: 1 to 4 digits, no leading zero, value 5 to 2,048. 02: the body length up to 6 digits with the value still 5 to
    2,048. None for anything else."""
    if not 1 <= len(digits) <= LENGTH_DIGITS or not digits.isdigit():
        return None
    if 3 not in LANDED and digits.startswith(b"0"):
        return None
    return int(digits) if LEAST_BODY <= int(digits) <= GREATEST_BODY else None


def begins_and_ends_as_body(body):
    return body.startswith(b"35=") and body.endswith(BAR)


def good_frame(s, p=0):
    """Where the body of the good frame at p begins and where the frame ends, if one lies there whole; else None."""
    if not s.startswith(MARK, p):
        return None
    bar = s.find(BAR, p + len(MARK), p + len(MARK) + LENGTH_DIGITS + 1)
    if bar < 0:
        return None
    size = body_length(s[p + len(MARK):bar])
    if size is None:
        return None
    body_end = bar + 1 + size
    end = body_end + TRAILER
    if end > len(s) or not begins_and_ends_as_body(s[bar + 1:body_end]):
        return None
    if s[body_end:end] != trailer(s[p:body_end]):
        return None
    if s.find(MARK, p + 1, end) >= 0:       # "The start mark occurs nowhere in the frame but at its first byte."
        return None
    return bar + 1, end


def finished(digits):
    """The digits of a body length that has begun, with one behind them where they are worth less than 5."""
    if not digits.isdigit():
        return digits or b"5"
    further = b"5" if 3 in LANDED else b"0"             # 02 lets 0 become 05; 01 had 1 to 4 become 10 to 40
    return digits + further if int(digits) < LEAST_BODY else digits


def completed(rest):
    """rest with bytes behind it that make a good frame of it, if any bytes could.

    Whatever is forced is put as it must be. What is free is put so that it harms nothing: a short body length that goes
    on from the digits at hand, and `x` in the body, which stands in no mark. No forced byte can end a mark: it
    ends in `9=`, and the forced ones are `35=` behind a `|`, the body's last `|` and `10=ddd|`.
    """
    whole = rest + MARK[len(rest):]
    bar = whole.find(BAR, len(MARK), len(MARK) + LENGTH_DIGITS + 1)
    if bar < 0:
        whole = whole[:len(MARK)] + finished(whole[len(MARK):]) + BAR
        bar = len(whole) - 1
    size = body_length(whole[len(MARK):bar])
    if size is None:
        return rest
    body = whole[bar + 1:bar + 1 + size]
    if len(body) < size:
        body += b"35="[len(body):]
        whole = whole[:bar + 1] + body + b"x" * (size - 1 - len(body)) + BAR
    body_end = bar + 1 + size
    return whole + trailer(whole[:body_end])[len(whole) - body_end:]


def live(s, p):
    """01: Position p of a byte string is live if some bytes, possibly none, could follow so that a good frame starts at
    p."""
    return good_frame(completed(s[p:p + LONGEST_FRAME])) is not None


def marks(s):
    """The positions of all start marks, from the left."""
    p = s.find(MARK)
    while p >= 0:
        yield p
        p = s.find(MARK, p + 1)


def unfinished_marks(s):
    """The positions from which the bytes run out inside a start mark, from the left."""
    return (p for p in range(max(0, len(s) - len(MARK) + 1), len(s)) if MARK.startswith(s[p:]))


def read(s):
    """One reading: (True, skipped, length) or (False, number of bytes to drop), the latter being refusal 1."""
    for p in marks(s):
        found = good_frame(s, p)
        if found:
            return True, p, found[1] - p
    for positions in marks(s), unfinished_marks(s):
        for p in positions:
            if live(s, p):
                return False, p
    return False, len(s)


def read_in_pieces(pieces):
    """01: Reading in pieces puts each piece (it may be empty) behind the pending rest, reads and drops until refusal 1,
    and keeps what isn't dropped. The frames, each with its piece's number, and the pending rest."""
    frames, pending = [], b""
    for number, piece in enumerate(pieces):
        pending += piece
        found, *where = read(pending)
        while found:
            skip, length = where
            frames.append((number, pending[skip:skip + length]))
            pending = pending[skip + length:]
            found, *where = read(pending)
        pending = pending[where[0]:]
    return frames, pending
