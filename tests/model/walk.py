"""The verdict of document 01: the ten steps at a field, the end of a body. A finding is (reason, tag).

02: A group may hold groups, which hold fields again, down to three levels; count, first-member and missing-member
checks apply at each level, innermost first."""
from .dictionary import ADMINISTRATIVE, ENTRIES, FRAME_TAGS, GROUP_OF_MEMBER, GROUPS, HEADER, IN_DICTIONARY, MESSAGES
from .fields import cut, first_field, parts
from .kinds import bad_form, bad_value

SKIPPED = "skipped"


class OpenGroup:
    """A group that stands open, with what its count says."""

    def __init__(self, group, count):
        self.group = group
        self.count = count
        self.instances = 0              # how many of its instances began
        self.instance = set()           # the members met in the last one


class Walk:
    """What a walk over one body has met so far."""

    def __init__(self, msg_type):
        self.own = MESSAGES[msg_type]
        self.entries = ENTRIES[msg_type]
        self.group_of_member = GROUP_OF_MEMBER[msg_type]
        self.administrative = msg_type in ADMINISTRATIVE
        self.seen = set()               # the marks: tags met outside groups
        self.past_header = False        # a non-header tag has been met, "skipped ones apart"
        self.inside = []                # the groups that stand open, the innermost last


def missing_member(opened):
    """01: a required member missing from the last instance, if one began, reason 1 with that tag, first in group
    order"""
    if opened.instances == 0:
        return None
    for tag, entry in opened.group.members.items():
        if entry.required and tag not in opened.instance:
            return 1, tag
    return None


def end_of_group(opened):
    """A missing member, "then a wrong count, 16 with the count tag"."""
    finding = missing_member(opened)
    if finding:
        return finding
    return (16, opened.group.count) if opened.instances != opened.count else None


def end_of_groups(walk, tag):
    """Ends the open groups that have no such member, innermost first."""
    while walk.inside and tag not in walk.inside[-1].group.members:
        finding = end_of_group(walk.inside[-1])
        if finding:
            return finding
        walk.inside.pop()
    return None


def step_1(walk, tag, value):
    """1. It ends groups, or begins a new instance, which "runs the first of these two checks on the one before"."""
    if not walk.inside:
        return None
    finding = end_of_groups(walk, tag)
    if finding:
        return finding
    return missing_member(walk.inside[-1]) if walk.inside and tag == walk.inside[-1].group.first else None


def step_2(walk, tag, value):
    """2. no `=`, or a malformed tag: 0, tag reported 0"""
    return (0, 0) if tag is None else None


def step_3(walk, tag, value):
    """3. tag not in the dictionary (8, 9, 10 count as in it): skipped in an administrative message, 3 in AD and F; 02:
    AE .. walked as AD and F are"""
    if tag in IN_DICTIONARY or tag in FRAME_TAGS:
        return None
    return SKIPPED if walk.administrative else (3, tag)


def step_4(walk, tag, value):
    """4. empty value: 4"""
    return (4, tag) if value == b"" else None


def step_5(walk, tag, value):
    """5. tag 8, 9 or 10, or a tag outside groups seen before: 13"""
    return (13, tag) if tag in FRAME_TAGS or tag in walk.seen else None


def step_6(walk, tag, value):
    """6. not for this message: 2"""
    return None if tag in walk.entries else (2, tag)


def step_7(walk, tag, value):
    """7. header tag after a non-header tag (skipped ones apart): 14"""
    return (14, tag) if tag in HEADER and walk.past_header else None


def step_8(walk, tag, value):
    """8. a member outside its group, or a first instance that doesn't begin with the group's first member: 15. Another
    member twice in one instance: 13"""
    group = walk.group_of_member.get(tag)
    if group is None:
        return None
    opened = walk.inside[-1] if walk.inside else None
    if opened is None or opened.group is not group or (opened.instances == 0 and tag != group.first):
        return 15, tag
    return (13, tag) if tag != group.first and tag in opened.instance else None


def step_9(walk, tag, value):
    """9. bad form: 6"""
    return (6, tag) if bad_form(tag, value) else None


def step_10(walk, tag, value):
    """10. bad value: 5"""
    return (5, tag) if bad_value(walk.entries[tag], value) else None


STEPS = (step_1, step_2, step_3, step_4, step_5, step_6, step_7, step_8, step_9, step_10)


def take(walk, tag, value):
    """A field without a finding is noted: a member in its instance, any other tag by its mark."""
    walk.past_header = walk.past_header or tag not in HEADER
    if tag not in walk.group_of_member:
        walk.seen.add(tag)
    elif tag == walk.inside[-1].group.first:
        walk.inside[-1].instances += 1
        walk.inside[-1].instance = {tag}
    else:
        walk.inside[-1].instance.add(tag)
    if tag in GROUPS:
        walk.inside.append(OpenGroup(GROUPS[tag], int(value)))


def at_field(walk, tag, value):
    """The first of the ten steps that finds something at a field."""
    for step_of_walk in STEPS:
        finding = step_of_walk(walk, tag, value)
        if finding:
            return finding
    return take(walk, tag, value)


def at_end(walk):
    """01: At the end, after step 1: the first missing required tag, header first, in the order above: 1."""
    finding = end_of_groups(walk, None)
    if finding:
        return finding
    for table in HEADER, walk.own:
        for tag, entry in table.items():
            if entry.required and tag not in walk.seen:
                return 1, tag
    return None


def verdict(body):
    """The first finding in a body, or None for a clean one."""
    msg_type = first_field(body, 35)
    if msg_type not in MESSAGES:
        return 11, 35
    walk = Walk(msg_type)
    for part in parts(body):
        finding = at_field(walk, *cut(part))
        if finding and finding is not SKIPPED:
            return finding
    return at_end(walk)
