"""What all generators are made with: the types, two CompIDs, a time, and bytes framed, joined, at random or damaged."""
from model import BAR, LANDED, MARK

MAX = 2 ** 64 - 1
END = 253_402_300_800_000_000
TYPES = (b"0", b"1", b"2", b"3", b"4", b"5", b"A", b"AD", b"F") + ((b"AE",) if 1 in LANDED else ())
OTHER_TYPES = (b"", b"6", b"00", b"a", b"AF" if 1 in LANDED else b"AE", b"D", b"ADF", b"A ", b"=", b"0=", b"35=0",
               b"x" * 33, b"\x00")
OURS, PEER = b"GW", b"MM"
CALL_TIME = 1_704_187_800_000_000
NONE_OPEN = " 0 0 0 0" if 5 in LANDED else ""           # at the end of a record: no gap is open
AT_REST = (" 0 0" if 4 in LANDED else "") + NONE_OPEN   # behind its first seven words, no replay and no gap
LENT = " 32768" if 4 in LANDED else ""                  # an empty store, behind a record


def hexed(value):
    return value.hex() or "-"


def chance(r, share):
    return r.random() < share


def framed(body, length=None, total=None):
    """A frame around a body; another body length or other digits of the sum on request."""
    front = MARK + (b"%d" % len(body) if length is None else length) + BAR + body
    return front + b"10=" + (b"%03d" % (sum(front) % 256) if total is None else total) + BAR


def joined(parts):
    return b"".join(part + BAR for part in parts)


def noise(r, size):
    alphabet = r.choice((bytes(range(256)), b"0123456789=\x01", MARK, MARK + b"35=0\x0110=", b"\x01", b"=\x01"))
    return bytes(r.choice(alphabet) for _ in range(size))


def filler(r, size):
    return bytes(r.choice(b"abcxyz0189=FIXT.") for _ in range(size))


def byte_mutated(r, data):
    """One byte flipped, removed, doubled, put in or replaced by a byte that means something, or the rest cut off."""
    if not data:
        return bytes([r.randrange(256)])
    at = r.randrange(len(data))
    return r.choice((
        lambda: data[:at] + bytes([data[at] ^ (1 << r.randrange(8))]) + data[at + 1:],
        lambda: data[:at] + data[at + 1:],
        lambda: data[:at] + data[at:at + 1] + data[at:],
        lambda: data[:at] + bytes([r.choice(b"0189=\x01X|")]) + data[at:],
        lambda: data[:at] + bytes([r.choice(b"0189=\x01X|")]) + data[at + 1:],
        lambda: data[:at],
    ))()
