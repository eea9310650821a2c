"""The fields of a body in document 01: its parts, tag and value of each, and the first field of a tag."""
from .frame import BAR, GREATEST_BODY, LEAST_BODY, begins_and_ends_as_body


def is_body(body):
    """Refusal 10 "for bytes that aren't 5 to 2,048 long, beginning `35=` and ending with `|`"."""
    return LEAST_BODY <= len(body) <= GREATEST_BODY and begins_and_ends_as_body(body)


def parts(body):
    """The body cut behind each `|`, the parts without it."""
    return body.split(BAR)[:-1]


def cut(part):
    """(tag, value) of a field; (None, part) for any other part, which "comes out whole as malformed"."""
    tag, equals, value = part.partition(b"=")
    if not equals or not 1 <= len(tag) <= 5 or not tag.isdigit() or tag.startswith(b"0"):
        return None, part
    return int(tag), value


def first_field(body, tag):
    """01: cut the body behind each `|` and take the first part that begins with t and `=`. None if there is none."""
    front = b"%d=" % tag
    for part in parts(body):
        if part.startswith(front):
            return part[len(front):]
    return None
