"""The requests `fields` and `verdict`: bodies clean, with one fault, at an edge, by chance."""
import model

from .basics import BAR, TYPES, byte_mutated, chance, filler, hexed, joined, noise
from .bodies import DICTIONARY_TAGS, UNKNOWN_TAGS, any_type, header_parts, message, part, tag_of
from .faults import FIELD_FAULTS, faulty, replace_by_edge
from .groups import GROUP_FAULTS, with_group
from .values import edge_value, good_value


def asked(r, body):
    return r.choice(("verdict ", "verdict ", "verdict ", "fields ")) + hexed(body)


def verdict_clean(r):
    yield asked(r, joined(message(r, any_type(r))))


def verdict_faulty(r):
    yield asked(r, joined(faulty(r, message(r, any_type(r)), most=3)))


def verdict_edge(r):
    """One tag of a clean message at an edge of its kind."""
    parts = message(r, r.choice(TYPES))
    replace_by_edge(r, parts)
    yield asked(r, joined(parts))


def tags_of(msg_type):
    """Every tag that a message may have, its groups' members too."""
    return (*model.HEADER, *model.MESSAGES[msg_type], *model.GROUP_OF_MEMBER[msg_type])


def with_tag(r, msg_type, tag):
    """A clean message that has the tag, and the place of it."""
    parts = []
    while not any(tag_of(piece) == tag for piece in parts[1:]) and tag != 35:
        parts = message(r, msg_type)
    return parts or message(r, msg_type), next((at for at, piece in enumerate(parts) if tag_of(piece) == tag), 0)


def verdict_each_tag(r):
    """Every tag of every message alike: at an edge, dropped, empty or twice."""
    msg_type = r.choice(TYPES)
    tag = r.choice(tags_of(msg_type))
    parts, at = with_tag(r, msg_type, tag)
    change = r.randrange(10)
    if change < 6:
        parts[at] = part(tag, edge_value(r, tag))
    elif change < 8:
        parts = [piece for piece in parts if tag_of(piece) != tag or tag == 35]
    elif change < 9:
        parts[at] = part(tag, b"")
    else:
        parts.insert(r.randint(at, len(parts)), part(tag, edge_value(r, tag)))
    yield asked(r, joined(parts))


def verdict_missing(r):
    """One to three required tags that stand next to each other in the dictionary left out, or any."""
    msg_type = r.choice(TYPES + (b"AD", b"F", b"A"))
    tables = model.HEADER, model.MESSAGES[msg_type]
    required = [tag for table in tables for tag, entry in table.items() if entry.required and tag != 35]
    at = r.randrange(len(required))
    gone = required[at:at + r.choice((1, 2, 2, 3))] if chance(r, 0.8) else [tag for tag in required if chance(r, 0.3)]
    yield asked(r, joined(message(r, msg_type, {tag: None for tag in gone})))


def verdict_any_row(r):
    """A row of fields of any message, in any order."""
    msg_type = r.choice(TYPES)
    tags = tags_of(msg_type) if chance(r, 0.7) else DICTIONARY_TAGS + UNKNOWN_TAGS
    row = [part(tag, good_value(r, tag)) for tag in (r.choice(tags) for _ in range(r.randint(1, 8)))]
    header = header_parts(r, {}) if chance(r, 0.5) else []
    yield asked(r, joined([b"35=" + msg_type, *header, *row]))


def verdict_group(r):
    parts, at, end, group = with_group(r)
    r.choice(GROUP_FAULTS)(r, parts, at, end, group)
    if chance(r, 0.2) and len(parts) > 1:
        r.choice(FIELD_FAULTS)(r, parts)
    yield asked(r, joined(parts))


def verdict_byte(r):
    yield asked(r, byte_mutated(r, joined(message(r, r.choice(TYPES)))))


def verdict_noise(r):
    yield asked(r, b"35=" + r.choice(TYPES) + BAR + noise(r, r.choice((0, 1, 5, 40))) + r.choice((BAR, b"")))


def verdict_length(r):
    """Bytes at the limits of what a body is."""
    size = r.choice((0, 1, 4, 5, 6, 2047, 2048, 2049, 2050, 4096))
    body = (b"35=0\x01" + b"9999=" + filler(r, 4100))[:max(0, size - 1)] + BAR
    others = b"", b"35=\x01", b"35=\x01\x01", b"36=0\x01", b"35=0x", b"35=0\x01x"
    yield asked(r, body if chance(r, 0.6) else r.choice(others))


def verdict_many_fields(r):
    """Long bodies: all tags that a message has and many that are skipped, up to the greatest length."""
    parts = message(r, r.choice(TYPES))
    while len(joined(parts)) < r.choice((300, 1000, 2040)):
        parts.insert(r.randint(1, len(parts)), part(r.choice(UNKNOWN_TAGS), filler(r, r.randrange(40))))
    yield asked(r, joined(parts))


# How often each comes, beside the others of mixture.py.
WEIGHTS = {
    verdict_clean: 5, verdict_faulty: 10, verdict_edge: 8, verdict_group: 12, verdict_byte: 3, verdict_noise: 1,
    verdict_length: 0.5, verdict_many_fields: 0.5, verdict_each_tag: 10, verdict_missing: 4, verdict_any_row: 3,
}
