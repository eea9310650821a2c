"""A Trade Capture Report (Q-1) in three rows of parts: before its side, the side, behind it; and one fault in its groups."""
import model

from .basics import PEER, chance
from .bodies import MALFORMED, UNKNOWN_TAGS, field_or_group, header_parts, own_blocks, part, tag_of
from .values import edge_value, good_value

MEMBERS = (54, 1427, 453, 448, 447, 452)


def party(r):
    others = [447, 452]
    r.shuffle(others)
    return [part(tag, good_value(r, tag)) for tag in (448, *others)]


def parties(r, count):
    return [piece for _ in range(count) for piece in party(r)]


def side(r):
    """Group 552 with one side: 54, then 1427 and group 453 in either order, each by chance."""
    count = r.choice((0, 1, 1, 2, 2, 3, 8, r.randint(1, 8)))
    blocks = [[part(1427, good_value(r, 1427))]] if chance(r, 0.5) else []
    if count:
        blocks.append([part(453, b"%d" % count)] + parties(r, count))
    r.shuffle(blocks)
    return [part(552, b"1"), part(54, r.choice((b"1", b"2")))] + [piece for block in blocks for piece in block]


def in_three(r, given=()):
    """A clean report: what stands before its side, the side, and what stands behind it."""
    given = dict(given)
    blocks = own_blocks(r, b"AE", {**given, 552: None})
    cut = r.choice((len(blocks), len(blocks), r.randint(0, len(blocks))))
    before = [b"35=AE"] + header_parts(r, given) + [piece for block in blocks[:cut] for piece in block]
    return before, side(r), [piece for block in blocks[cut:] for piece in block]


def place_of(row, tag):
    """Where a tag stands in a row first, or its end."""
    return next((at for at, piece in enumerate(row) if tag_of(piece) == tag), len(row))


def with_parties(r, inside):
    """The side's row, which has a group 453 now, and where."""
    if place_of(inside, 453) == len(inside):
        inside += [part(453, b"1")] + party(r)
    return place_of(inside, 453)


# ---- One fault; each takes the three rows, of which the second is the side -------------------------------------------

def inner_count(r, before, inside, behind):
    at = with_parties(r, inside)
    inside[at] = part(453, r.choice((b"0", b"1", b"2", b"3", b"8", b"9", b"01", b"x", b"", b"1.0", b"4294967297")))


def inner_member_gone(r, before, inside, behind):
    at = with_parties(r, inside)
    del inside[r.randrange(at + 1, len(inside)) if at + 1 < len(inside) else at]


def inner_member_edge(r, before, inside, behind):
    at = with_parties(r, inside)
    where = r.randrange(at, len(inside))
    inside[where] = part(tag_of(inside[where]), edge_value(r, tag_of(inside[where])))


def inner_member_twice(r, before, inside, behind):
    at = with_parties(r, inside)
    inside.insert(r.randint(at + 1, len(inside)), inside[r.randrange(at, len(inside))])


def inner_swapped(r, before, inside, behind):
    a, b = r.randrange(len(inside)), r.randrange(len(inside))
    inside[a], inside[b] = inside[b], inside[a]


def inner_first(r, before, inside, behind):
    """453 before 54, alone or with its parties."""
    at = with_parties(r, inside)
    end = r.choice((at + 1, len(inside)))
    block = inside[at:end]
    del inside[at:end]
    inside[1:1] = block


def inner_twice(r, before, inside, behind):
    """Group 453 again in the same side, with 1427 between or not, or in a second side."""
    at = with_parties(r, inside)
    inside += r.choice(([], [part(1427, b"E")], [part(54, b"2")])) + inside[at:at + 4]


def inner_without_count(r, before, inside, behind):
    """A party's members straight in a side."""
    inside.insert(r.randint(1, len(inside)), part(r.choice((448, 447, 452)), b"1"))


def foreign_inside(r, before, inside, behind):
    """A part that ends the groups, anywhere in them or behind them."""
    tag = r.choice((64, 571, 31, 48, 22, 60))
    intruder = r.choice((
        r.choice(MALFORMED), part(r.choice(UNKNOWN_TAGS), b"x"), part(r.choice((8, 9, 10)), b"x"), part(49, PEER),
        part(97, b"N"), part(58, b"x"), part(75, b"20240102"), part(tag, good_value(r, tag)), part(tag, b""),
        part(580, b"1"), part(112, b"x")))
    inside.insert(r.randint(1, len(inside)), intruder)


def cut_by_own_field(r, before, inside, behind):
    """A field of the report itself in the midst of its groups, which stands nowhere else."""
    at = r.randrange(1, len(before))
    inside.insert(r.randint(1, len(inside)), before.pop(at))


def second_side(r, before, inside, behind):
    inside += side(r)[1:] if chance(r, 0.6) else [part(54, r.choice((b"1", b"2", b"3", b"")))]
    if chance(r, 0.3):
        inside[0] = part(552, b"2")


def outer_count(r, before, inside, behind):
    inside[0] = part(552, r.choice((b"0", b"2", b"3", b"8", b"x", b"01", b"", b"1 ", b"4294967297", b"999999999")))


def outer_twice(r, before, inside, behind):
    r.choice((inside, behind, before)).extend(side(r) if chance(r, 0.6) else [part(552, b"1")])


def outer_gone(r, before, inside, behind):
    """Without its group, without the count alone, or with the count alone."""
    del inside[r.choice((0, 1)):r.choice((1, len(inside)))]


def side_not_first(r, before, inside, behind):
    """The side's first member gone or not in front."""
    first = inside.pop(1)
    inside.insert(r.randint(2, len(inside)) if len(inside) > 1 else 1, r.choice((first, part(1427, b"E"))))


def member_outside(r, before, inside, behind):
    tag = r.choice(MEMBERS)
    row = r.choice((before, behind))
    row.insert(r.randint(min(1, len(row)), len(row)), r.choice((
        part(tag, good_value(r, tag)), part(tag, edge_value(r, tag)))))


def cut_off(r, before, inside, behind):
    """The body ends in a group, or the group is cut and the rest goes on."""
    del inside[r.randint(1, len(inside)):]
    if chance(r, 0.5):
        behind.clear()


def own_field_in_group(r, before, inside, behind):
    tag = r.choice((64, 571, 828, 574))
    inside += field_or_group(r, tag, model.MESSAGES[b"AE"][tag]) + r.choice(([], [part(1427, b"E")], party(r)))


def nothing(r, before, inside, behind):
    """Clean, in any order of its fields."""


SIDE_FAULTS = (inner_count, inner_member_gone, inner_member_edge, inner_member_twice, inner_swapped, inner_first, inner_twice,
               inner_without_count, foreign_inside, foreign_inside, cut_by_own_field, second_side, outer_count, outer_twice,
               outer_gone, side_not_first, member_outside, cut_off, own_field_in_group, nothing)


def faulty_side(r, given=()):
    """The parts of a report with one fault in its groups, seldom two."""
    rows = in_three(r, given)
    for _ in range(r.choice((1, 1, 1, 1, 2))):
        if len(rows[1]) > 2:
            r.choice(SIDE_FAULTS)(r, *rows)
    return [piece for row in rows for piece in row]
