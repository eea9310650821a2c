"""The writer call of document 01: one administrative message from its values, refusals 8 and 9."""
from .dictionary import ADMINISTRATIVE, HEADER, MESSAGES
from .frame import BAR, MARK, trailer
from .kinds import of_its_kind

# "Reply order: 35, 49, 56, 34, 43, 52, 122, then the message's fields as listed (type 4: 123, 36)."
HEADER_ORDER = (35, 49, 56, 34, 43, 52, 122)
ORDER = {msg_type: HEADER_ORDER + ((123, 36) if msg_type == b"4" else tuple(MESSAGES[msg_type]))
         for msg_type in ADMINISTRATIVE}
WRITER_TAGS = {tag for order in ORDER.values() for tag in order} - {35}


def in_bytes(value):
    """A value as it is written: "numbers as numbers, others as bytes"."""
    return b"%d" % value if isinstance(value, int) else value


def message(msg_type, values):
    """The whole message of this type with these values, tag to number or bytes; an absent tag isn't written."""
    values = {35: msg_type, **values}
    return whole((tag, in_bytes(values[tag])) for tag in ORDER[msg_type] if tag in values)


def whole(fields):
    """The frame around these fields, tag and bytes, in their order."""
    body = b"".join(b"%d=%s" % field + BAR for field in fields)
    front = MARK + b"%d" % len(body) + BAR + body
    return front + trailer(front)


def dictionary_rejects(msg_type, values):
    """01: a value to write that the dictionary would reject, a required one absent, another type"""
    if msg_type not in ORDER:
        return True
    if any(tag not in ORDER[msg_type] or tag == 35 for tag in values):
        return True
    if any(not in_bytes(value) or not of_its_kind(tag, in_bytes(value)) for tag, value in values.items()):
        return True
    required = [tag for table in (HEADER, MESSAGES[msg_type]) for tag, entry in table.items() if entry.required]
    return any(tag not in values for tag in required if tag != 35)


def write(room, msg_type, values):
    """01: Writer: 8, 9. (refusal, None) or (None, bytes)."""
    if dictionary_rejects(msg_type, values):
        return 8, None
    written = message(msg_type, values)
    return (9, None) if len(written) > room else (None, written)
