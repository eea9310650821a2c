"""The dictionary of document 01: header, messages and groups, read from its own lines, and which tags are of which kind.
The request Q-1 of document 02 adds a tenth message and a group that holds a group."""
import re
from collections import namedtuple

from .landed import LANDED

# The lines are document 01's own; its "once or twice" is written as 1 to 2.
HEADER_LINE = "35 Y, 49 Y, 56 Y, 34 Y, 52 Y, 43 N, 97 N, 122 N, 1128 {9} N"
MESSAGE_LINES = {
    b"0": "112 N",
    b"1": "112 Y",
    b"2": "7 Y, 16 Y",
    b"3": "45 Y, 371 N, 372 N, 373 N, 58 N",
    b"4": "36 Y, 123 N",
    b"5": "1409 N, 58 N",
    b"A": "98 {0} Y, 108 (1 to 60) Y, 1137 {9} Y, 141 N",
    b"F": "11 Y, 41 Y, 54 {1, 2} Y, 48 Y, 22 {8} Y, 60 Y, 453 group N",
    b"AD": "568 Y, 569 {0} Y, 263 {0} N, 828 {0, 54} N, 453 group N, 22 {8} Y, 48 Y, 580 group Y, 58 N, 1041 N",
}
GROUP_LINES = {
    453: ("1 to 8", "448 Y, 447 {D} Y, 452 {1, 3, 12, 17, 76} Y"),
    580: ("1 to 2", "75 Y, 60 N"),
}
# 02: The fields are 571, 828 {0, 54, 99}, 60, 32, 31, 64 optional, 574 {2, 4, 7, 22}, 48, 22 {8}, and group 552,
# exactly once, of 54 and, both optional, 1427 and group 453. 54 has the list that document 01 gives it.
if 1 in LANDED:
    MESSAGE_LINES[b"AE"] = ("571 Y, 828 {0, 54, 99} Y, 60 Y, 32 Y, 31 Y, 64 N, 574 {2, 4, 7, 22} Y, 48 Y, 22 {8} Y,"
                            " 552 group Y")
    GROUP_LINES[552] = ("1 to 1", "54 {1, 2} Y, 1427 N, 453 group N")
ADMINISTRATIVE = (b"0", b"1", b"2", b"3", b"4", b"5", b"A")

FROM_ONE = (7, 34, 36, 45)                              # "7, 34, 36, 45 are 1 to 999,999,999"
FROM_ZERO = (16, 108, 371, 373, 453, 552, 580, 1409)    # "16 also 0; the other numbers .. 0 to 999,999,999"; 02: 552
YES_OR_NO = (43, 97, 123, 141)
TIMES = (52, 60, 122)
DATES = (75, 64)                                        # 02: "64 is a date like 75"
DECIMALS = (31, 32)                                     # 02: "31 and 32 are decimals"
STRING_LENGTHS = {112: 64, 58: 256}                     # "Other values are strings of 1 to 32 bytes"
FRAME_TAGS = (8, 9, 10)                                 # "8, 9, 10 count as in it"

Entry = namedtuple("Entry", "tag values least greatest required")
Group = namedtuple("Group", "count first members")      # count: the count's tag; members: tag to Entry, in group order


def entries(line):
    """The entries of one of document 01's lines, tag to Entry, in the order of the line."""
    found = {}
    for tag, _, values, least, greatest, required in re.findall(
            r"(\d+)( group)?(?: \{([^}]*)\})?(?: \((\d+) to (\d+)\))? ([YN])", line):
        found[int(tag)] = Entry(
            int(tag), tuple(v.encode() for v in values.split(", ")) if values else None,
            int(least) if least else None, int(greatest) if greatest else None, required == "Y")
    return found


HEADER = entries(HEADER_LINE)
MESSAGES = {msg_type: entries(line) for msg_type, line in MESSAGE_LINES.items()}
GROUPS = {count: Group(count, next(iter(entries(line))), entries(line))
          for count, (_, line) in GROUP_LINES.items()}
GROUP_RANGES = {count: tuple(map(int, times.split(" to "))) for count, (times, _) in GROUP_LINES.items()}


def groups_of(table):
    """The groups whose counts a table lists, and those in them: 02: A group may hold groups, which hold fields again"""
    found = [GROUPS[tag] for tag in table if tag in GROUPS]
    return found + [inner for group in found for inner in groups_of(group.members)]


GROUP_OF_MEMBER = {msg_type: {tag: group for group in groups_of(own) for tag in group.members}
                   for msg_type, own in MESSAGES.items()}
ENTRIES = {msg_type: {**HEADER, **own, **{tag: group.members[tag] for tag, group in GROUP_OF_MEMBER[msg_type].items()}}
           for msg_type, own in MESSAGES.items()}       # all that a message may have, tag to Entry
IN_DICTIONARY = {}                                      # tag to the first Entry of it; 828 alone has two lists
for _table in (HEADER, *MESSAGES.values(), *(group.members for group in GROUPS.values())):
    IN_DICTIONARY.update({tag: entry for tag, entry in _table.items() if tag not in IN_DICTIONARY})
