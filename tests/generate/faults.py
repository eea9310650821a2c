"""One fault in a row of parts: a field dropped, doubled, moved, emptied, put in or changed."""
from .bodies import DICTIONARY_TAGS, MALFORMED, UNKNOWN_TAGS, any_type, part, tag_of
from .values import edge_value, good_value


def place(r, parts):
    return r.randrange(1, len(parts)) if len(parts) > 1 else 0


def drop(r, parts):
    del parts[place(r, parts)]


def double(r, parts):
    parts.insert(r.randint(1, len(parts)), r.choice(parts))


def double_with_other_value(r, parts):
    tag = tag_of(r.choice(parts))
    parts.insert(r.randint(1, len(parts)), part(tag, edge_value(r, tag)))


def swap(r, parts):
    a, b = place(r, parts), place(r, parts)
    parts[a], parts[b] = parts[b], parts[a]


def move(r, parts):
    parts.insert(r.randint(1, len(parts)), parts.pop(place(r, parts)))


def replace_by_edge(r, parts):
    at = place(r, parts)
    tag = tag_of(parts[at])
    parts[at] = part(tag, edge_value(r, tag))


def empty(r, parts):
    at = place(r, parts)
    parts[at] = part(tag_of(parts[at]), b"")


def retag(r, parts):
    at = place(r, parts)
    parts[at] = part(r.choice(DICTIONARY_TAGS + UNKNOWN_TAGS), parts[at].partition(b"=")[2])


def put_in(r, parts):
    tag = r.choice(DICTIONARY_TAGS)
    parts.insert(r.randint(1, len(parts)), part(tag, r.choice((good_value, edge_value))(r, tag)))


def put_in_unknown(r, parts):
    parts.insert(r.randint(1, len(parts)), part(r.choice(UNKNOWN_TAGS), r.choice((b"", b"x"))))


def put_in_frame_tag(r, parts):
    parts.insert(r.randint(1, len(parts)), part(r.choice((8, 9, 10)), r.choice((b"", b"x", b"241"))))


def put_in_malformed(r, parts):
    parts.insert(r.randint(1, len(parts)), r.choice(MALFORMED))


def change_type(r, parts):
    parts[0] = b"35=" + any_type(r)


FIELD_FAULTS = (drop, double, double_with_other_value, swap, move, replace_by_edge, replace_by_edge,
                replace_by_edge, empty, retag, put_in, put_in, put_in_unknown, put_in_frame_tag, put_in_malformed,
                change_type)


def faulty(r, parts, most=2):
    for _ in range(r.randint(1, most)):
        if len(parts) > 1:
            r.choice(FIELD_FAULTS)(r, parts)
    return parts
