"""The request `write`: values clean, at an edge, absent, of another message, and the room they need."""
import model

from .basics import BAR, MAX, chance, filler, hexed
from .values import edge_value, good_time, good_value, is_number

WRITER_NUMBERS = (0, 1, 2, 30, 59, 60, 61, 99999, 999999999, 1000000000, 2 ** 32, 2 ** 32 + 1, 2 ** 32 + 30,
                  2 ** 63, MAX)
FOREIGN_TAGS = (0, 8, 9, 10, 11, 35, 97, 453, 448, 1128, 9999, 99999, 100000, 2 ** 32 + 34, 2 ** 32 + 49, MAX)


def writer_values(r, msg_type):
    """Clean values for one of the seven messages."""
    values = {49: good_value(r, 49), 56: good_value(r, 56), 34: good_value(r, 34), 52: good_time(r)}
    for tag in 43, 122:
        if chance(r, 0.4):
            values[tag] = good_value(r, tag)
    for tag, entry in model.MESSAGES[msg_type].items():
        if entry.required or chance(r, 0.6):
            values[tag] = good_value(r, tag)
    return {tag: int(value) if is_number(tag) else value for tag, value in values.items()}


def writer_edge(r, tag):
    if is_number(tag):
        return r.choice(WRITER_NUMBERS)
    return r.choice((edge_value(r, tag), b"", BAR, b"x" + BAR, good_value(r, tag) + BAR))


def absent(r, values):
    values.pop(r.choice(tuple(values)))


def at_an_edge(r, values):
    tag = r.choice(tuple(values))
    values[tag] = writer_edge(r, tag)


def of_another_message(r, values):
    tag = r.choice(tuple(model.WRITER_TAGS))
    values.setdefault(tag, int(good_value(r, tag)) if is_number(tag) else good_value(r, tag))


def foreign(r, values):
    values[r.choice(FOREIGN_TAGS)] = r.choice((b"", b"x", 0, 1))


def pair(tag, value):
    return f"{tag}=n{value}" if isinstance(value, int) else f"{tag}=b{hexed(value)}"


def asked_write(r, lent, msg_type, values):
    pairs = [pair(tag, value) for tag, value in values.items()]
    r.shuffle(pairs)
    return " ".join(["write", str(lent), hexed(msg_type), *pairs])


def exact_room(r, msg_type, values):
    """The message's exact length, one less, one more, or any other."""
    refusal, written = model.write(4096, msg_type, values)
    if refusal or chance(r, 0.2):
        return r.choice((0, 1, 73, 511, 512, 4096))
    return len(written) + r.choice((-1, 0, 0, 1, 64))


def write_clean(r):
    msg_type = r.choice(model.ADMINISTRATIVE)
    values = writer_values(r, msg_type)
    yield asked_write(r, exact_room(r, msg_type, values), msg_type, values)


def write_faulty(r):
    msg_type = r.choice(model.ADMINISTRATIVE)
    values = writer_values(r, msg_type)
    for _ in range(r.choice((1, 1, 1, 2))):
        r.choice((absent, at_an_edge, at_an_edge, at_an_edge, of_another_message, foreign))(r, values)
    yield asked_write(r, exact_room(r, msg_type, values), msg_type, values)


def write_other_type(r):
    msg_type = r.choice((b"AD", b"F", b"6", b"", b"00", b"a", b"A" * 40, b"\x00", b"0\x01", b"AE"))
    yield asked_write(r, r.choice((0, 512)), msg_type, writer_values(r, r.choice(model.ADMINISTRATIVE)))


def write_long(r):
    """Every field there, each at its longest."""
    msg_type = r.choice(model.ADMINISTRATIVE)
    values = {}
    for tag in model.ORDER[msg_type]:
        if tag == 35:
            continue
        if is_number(tag):
            values[tag] = model.number_range(tag)[1]
        elif tag in (49, 56, 112, 58, 372):
            values[tag] = filler(r, model.STRING_LENGTHS.get(tag, 32))
        else:
            values[tag] = good_value(r, tag)
    yield asked_write(r, exact_room(r, msg_type, values), msg_type, values)


# How often each comes, beside the others of mixture.py.
WEIGHTS = {write_clean: 4, write_faulty: 6, write_other_type: 0.3, write_long: 0.5}
