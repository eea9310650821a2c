"""Messages as rows of parts without their `|`: header, own fields in any order, groups."""
import model

from .basics import OTHER_TYPES, OURS, PEER, TYPES, chance
from .values import good_time, good_value, written

DICTIONARY_TAGS = tuple(model.IN_DICTIONARY)
UNKNOWN_TAGS = (1, 6, 12, 33, 44, 55, 127, 128, 129, 255, 256, 447 + 65536, 453 - 256, 1129, 1138, 4096, 9999,
                10000, 65535, 65536 + 35, 99999)
MALFORMED = (b"", b"x", b"=", b"=x", b"0=x", b"01=x", b"035=0", b"123456=x", b"100000=x", b"58", b"5a=x", b"+5=x",
             b" 58=x", b"58 =x", b"-", b"00000=", b"4294967331=0", b"\x00=x", b"49", b"448")


def part(tag, value):
    return b"%d=%s" % (tag, value)


def tag_of(piece):
    """The tag of a part that has one, else 58."""
    tag, _ = model.cut(piece)
    return tag or 58


def group_block(r, count_tag, instances=None):
    """A count and its instances, with the groups that they hold."""
    group = model.GROUPS[count_tag]
    least, greatest = model.GROUP_RANGES[count_tag]
    times = instances or r.choice((least, greatest, r.randint(least, greatest), min(2, greatest)))
    block = [part(count_tag, written(r, times))]
    for _ in range(times):
        others = [tag for tag, entry in group.members.items() if entry.required or chance(r, 0.5)]
        others.remove(group.first)
        r.shuffle(others)
        for tag in (group.first, *others):
            block += field_or_group(r, tag, group.members[tag])
    return block


def field_or_group(r, tag, entry):
    return group_block(r, tag) if tag in model.GROUPS else [part(tag, good_value(r, tag, entry))]


def own_blocks(r, msg_type, given):
    """The message's own fields in any order, the optional by chance; `given` sets a tag's value, None drops it."""
    blocks = []
    for tag, entry in model.MESSAGES[msg_type].items():
        if tag in given:
            if given[tag] is not None:
                blocks.append([part(tag, given[tag])])
        elif entry.required or chance(r, 0.4):
            blocks.append(field_or_group(r, tag, entry))
    r.shuffle(blocks)
    return blocks


def header_parts(r, given):
    values = {49: PEER, 56: OURS, 34: good_value(r, 34), 52: good_time(r)}
    for tag in 43, 97, 122, 1128:
        if chance(r, 0.15):
            values[tag] = good_value(r, tag)
    values.update({tag: value for tag, value in given.items() if tag in model.HEADER})
    header = [part(tag, value) for tag, value in values.items() if value is not None]
    r.shuffle(header)
    return header


def message(r, msg_type, given=()):
    """The parts of a message of any type, clean if it is one of the dictionary and nothing else is given."""
    given = dict(given)
    parts = [b"35=" + msg_type] + header_parts(r, given)
    if msg_type not in model.MESSAGES:
        return parts
    for block in own_blocks(r, msg_type, given):
        parts += block
    if msg_type in model.ADMINISTRATIVE and chance(r, 0.1):
        parts.insert(r.randint(1, len(parts)), part(r.choice(UNKNOWN_TAGS), r.choice((b"", b"x"))))
    return parts


def any_type(r):
    return r.choice(OTHER_TYPES) if chance(r, 0.04) else r.choice(TYPES)
