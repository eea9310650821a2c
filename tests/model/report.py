"""The Trade Capture Report of document 02, Q-1: its values, what is written of them, and reading them back."""
from collections import namedtuple

from .decimals import Decimal, decimal_in, decimal_range, in_digits
from .dictionary import DECIMALS, ENTRIES
from .fields import cut, first_field, parts
from .kinds import of_its_kind
from .times import in_utc
from .writer import whole

MSG_TYPE = b"AE"
LONGEST_REPORT = 512            # 02: is at most 512 bytes

# 02: The fields are 571, 828, 60, 32, 31, 64 optional, 574, 48, 22, and group 552, exactly once, of 54 and, both
# optional, 1427 and group 453. The counts are no values.
OWN_TAGS = (571, 828, 60, 32, 31, 64, 574, 48, 22)
SIDE_TAGS = (54, 1427)
VALUE_TAGS = OWN_TAGS + SIDE_TAGS
PARTY_TAGS = (448, 447, 452)

# fields: tag to bytes or, for 31 and 32, a Decimal; a tag that is not there is absent. parties: 448, 447, 452 of each.
Values = namedtuple("Values", "fields parties")


def in_bytes(value):
    return in_digits(value) if isinstance(value, Decimal) else value


def given(values, tags):
    return [(tag, in_bytes(values.fields[tag])) for tag in tags if tag in values.fields]


def own_fields(values):
    """The report's own fields, tag and bytes, in the order in which they are listed."""
    fields = given(values, OWN_TAGS) + [(552, b"1")] + given(values, SIDE_TAGS)
    if values.parties:
        fields.append((453, b"%d" % len(values.parties)))
    return fields + [field for party in values.parties for field in zip(PARTY_TAGS, party)]


def dictionary_rejects(values):
    """01: a value to write that the dictionary would reject, a required one absent"""
    table = ENTRIES[MSG_TYPE]
    if any(tag not in VALUE_TAGS for tag in values.fields):
        return True
    if any(table[tag].required and tag not in values.fields for tag in VALUE_TAGS):
        return True
    if any(not decimal_range(values.fields[tag]) for tag in DECIMALS):
        return True
    return any(value == b"" or not of_its_kind(tag, value, table) for tag, value in own_fields(values))


def written(record, values, time):
    """The report with the next number out, header as a reply's: 35, 49, 56, 34, 52."""
    header = [(35, MSG_TYPE), (49, record.ours), (56, record.peer), (34, b"%d" % record.next_out), (52, in_utc(time))]
    return whole(header + own_fields(values))


def parties_in(body):
    """The instances of group 453: 448 begins each, the others follow in any order."""
    parties = []
    for tag, value in map(cut, parts(body)):
        if tag == PARTY_TAGS[0]:
            parties.append({})
        if tag in PARTY_TAGS:
            parties[-1][tag] = value
    return [tuple(party[tag] for tag in PARTY_TAGS) for party in parties]


def values_in(body):
    """The values of a clean report: the first field of each tag, and its parties in order."""
    found = {tag: first_field(body, tag) for tag in VALUE_TAGS}
    fields = {tag: decimal_in(value) if tag in DECIMALS else value for tag, value in found.items() if value is not None}
    return Values(fields, parties_in(body))
