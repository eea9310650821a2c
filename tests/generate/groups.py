"""A message with a group, and one fault in it: members, count, instances, what interrupts them."""
import model

from .basics import PEER, TYPES, chance
from .bodies import MALFORMED, UNKNOWN_TAGS, group_block, header_parts, own_blocks, part, tag_of
from .values import edge_value, good_time, good_value


WITH_GROUP = ((b"F", 453), (b"AD", 453), (b"AD", 580)) + (((b"AE", 552),) if 1 in model.LANDED else ())


def with_group(r):
    """Parts of a clean message with a group, the places of its count and its end, and its group."""
    msg_type, count_tag = r.choice(WITH_GROUP)
    least, greatest = model.GROUP_RANGES[count_tag]
    front = [b"35=" + msg_type] + header_parts(r, {})
    blocks = own_blocks(r, msg_type, {count_tag: None})
    cut = r.randint(0, len(blocks))
    front += [piece for block in blocks[:cut] for piece in block]
    block = group_block(r, count_tag, r.randint(least, min(3, greatest)))
    behind = [piece for later in blocks[cut:] for piece in later]
    return front + block + behind, len(front), len(front) + len(block), model.GROUPS[count_tag]


def member_place(r, at, end):
    return r.randrange(at + 1, end)


def group_drop(r, parts, at, end, group):
    del parts[member_place(r, at, end)]


def group_double(r, parts, at, end, group):
    again = parts[member_place(r, at, end)]
    if chance(r, 0.4):
        again = part(tag_of(again), edge_value(r, tag_of(again)))
    parts.insert(member_place(r, at, end) + r.randint(0, 1), again)


def group_swap(r, parts, at, end, group):
    a, b = member_place(r, at, end), member_place(r, at, end)
    parts[a], parts[b] = parts[b], parts[a]


def group_count(r, parts, at, end, group):
    count = r.choice((b"0", b"1", b"2", b"3", b"4", b"8", b"9", b"01", b"x", b"", b"10000000000", b"000000000002",
                      b"0000000000002", b"999999999999", b"4294967297", b"4294967298"))
    parts[at] = part(group.count, count)


def group_empty(r, parts, at, end, group):
    where = member_place(r, at, end)
    parts[where] = part(tag_of(parts[where]), b"")


def group_empty_new_instance(r, parts, at, end, group):
    parts.insert(r.randint(at + 1, end), part(group.first, b""))


def group_edge(r, parts, at, end, group):
    where = member_place(r, at, end)
    parts[where] = part(tag_of(parts[where]), edge_value(r, tag_of(parts[where])))


def group_interrupted(r, parts, at, end, group):
    intruder = r.choice((
        r.choice(MALFORMED), part(r.choice(UNKNOWN_TAGS), b"x"), part(r.choice((8, 9, 10)), b"x"), part(49, PEER),
        part(97, b"N"), part(58, b""), part(112, b"x"), part(group.count, b"1"), part(75, b"20240102"), part(448, b"P"),
        part(447, b"D"), part(60, good_time(r)), part(453, b"1")))
    parts.insert(r.randint(at, end), intruder)


def group_member_elsewhere(r, parts, at, end, group):
    tag = r.choice(tuple(group.members))
    parts.insert(r.randint(1, len(parts)), part(tag, r.choice((good_value, edge_value))(r, tag)))


def group_cut_off(r, parts, at, end, group):
    del parts[r.randint(at, end):]


def group_more_instances(r, parts, at, end, group):
    parts[end:end] = parts[at + 1:end]


def group_moved_up(r, parts, at, end, group):
    block = parts[at:end]
    del parts[at:end]
    where = r.randint(1, len(parts))
    parts[where:where] = block


def group_of_the_other_message(r, parts, at, end, group):
    parts[0] = b"35=" + r.choice(TYPES)


GROUP_FAULTS = (group_drop, group_double, group_swap, group_count, group_empty, group_empty_new_instance,
                group_edge, group_interrupted, group_member_elsewhere, group_cut_off, group_more_instances,
                group_moved_up, group_of_the_other_message)
