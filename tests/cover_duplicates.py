"""Classes of answers to frames below E with 43=Y (Q-6), for tests/cover.py: each Reject by its reason and tag, and of two good
times by which part, and which way, the one differs from the other."""
import model

PARTS = ("year", "month", "day", "hour", "minute", "second", "microsecond")


def classes_of_duplicate(line, words, answer):
    """The class of a step that came to rule 5 with 43=Y; none for another."""
    if not answer.startswith("ok") or model.rule_of(line) != 5:
        return
    frame = model.bytes_of(words[2])
    body = frame[slice(*model.good_frame(frame))]
    if model.first_field(body, 43) != b"Y":
        return
    sent, original = model.first_field(body, 52), model.first_field(body, 122)
    told = described(model.bytes_of(answer.split(" ")[2]))
    both = sent is not None and original is not None and model.is_time(sent) and model.is_time(original)
    yield f"duplicate, {told}" + (f": 122 {compared(original, sent)}" if both else "")


def described(reply):
    """Nothing, or a Reject with its reason and tag."""
    return "Reject %s, tag %s" % tuple(model.first_field(reply, tag).decode() for tag in (373, 371)) if reply else "nothing"


def compared(original, sent):
    """How 122 lies to 52, by the first part that differs; there second 60 is named, behind another second or before another
    minute."""
    one, other = model.moment(original), model.moment(sent)
    if one == other:
        return "equal" + (", in other decimals" if len(original) != len(sent) else "")
    part = next(name for name, a, b in zip(PARTS, one, other) if a != b)
    edge = {"second": max(one, other)[5], "minute": min(one, other)[5]}.get(part) == 60
    return f"{'later' if one > other else 'earlier'} by the {part}{', second 60' if edge else ''}"


EDGES = (*PARTS, "second, second 60", "minute, second 60")
WANTED = (
    *(f"duplicate, Reject {reason}, tag {tag}" for reason, tag in ((1, 122), (1, 52), (6, 52), (6, 122))),
    *(f"duplicate, Reject 10, tag 122: 122 later by the {edge}" for edge in EDGES),
    *(f"duplicate, nothing: 122 earlier by the {edge}" for edge in EDGES),
    "duplicate, nothing: 122 equal", "duplicate, nothing: 122 equal, in other decimals",
    "step rule 5: Reject 6", "step rule 5: Reject 10", "step rule 5, type AE: Reject 6", "step rule 5, type AE: Reject 10",
)
