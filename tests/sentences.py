"""The four sentences of document 02's Q-10 over calls that were made one behind the other: what each contributes to E, said
from the record that it met, its frame and its answer, by splitting them. It does not use the model.

    Nothing delivered twice, nothing stepped over. Take any sequence of steps, ticks and reconnects between two resets ..
"""
from collections import namedtuple

from laws import ACTIVE, WAITING, must
from messages import BAR, FRONT, first, framed, messages, readable

Made = namedtuple("Made", "word frame before answer")       # a call; its frame is None unless it is a step


def is_frame(data):
    """01: the good frame. Its body is what stands between the length and the trailer's seven bytes. 02: the body length up
    to 6 digits"""
    digits, _, rest = data[len(FRONT):].partition(BAR)
    body = rest[:-7]
    return (digits.isdigit() and len(digits) <= 6 and int(digits) == len(body) and 5 <= len(body) <= 2048
            and body.startswith(b"35=") and body.endswith(BAR) and data == framed(body, digits) and FRONT not in data[1:])


def number(made, tag):
    return readable(made.frame, tag)


def is_type(made, kind):
    return first(made.frame, 35) == kind


def is_gap_fill(made):
    return is_type(made, b"4") and first(made.frame, 123) == b"Y"


def says(made, kind):
    """Whether a message of that type is among the reply's."""
    return any(first(message, 35) == kind for message in messages(made.answer.reply))


def is_rejected(made):
    return says(made, b"3")


def is_accepted(made):
    """Neither refused nor answered by a Reject or a Logout."""
    return made.answer.refusal is None and not is_rejected(made) and not says(made, b"5")


def is_reset(made):
    """02: a reset is an accepted logon with 141=Y or a Sequence Reset that isn't a gap fill. A rejected one resets nothing."""
    if made.frame is None or not is_frame(made.frame) or not is_accepted(made):
        return False
    if made.before.status == ACTIVE:
        return is_type(made, b"4") and not is_gap_fill(made)
    logged_on = made.before.status == WAITING and made.answer.after.status == ACTIVE
    return logged_on and is_type(made, b"A") and first(made.frame, 141) == b"Y"


def is_duplicate(made):
    """A frame whose number is below E, or cannot be read."""
    return made.frame is not None and is_frame(made.frame) and (number(made, 34) or 0) < made.before.expected


def share(made):
    """The numbers that belong to a call, as the first of them and the one behind the last; None where there are none.

    02: plus one for each frame other than an accepted gap fill that came with N = E and moved it by one, plus, for each
    accepted gap fill, the distance that it skips."""
    expected = made.before.expected
    if made.frame is None or not is_frame(made.frame) or number(made, 34) != expected:
        return None
    if made.before.status == ACTIVE and is_gap_fill(made) and is_accepted(made):
        return expected, number(made, 36) or 0
    return (expected, expected + 1) if made.answer.after.expected == expected + 1 else None


def rise(calls):
    """02: The numbers of delivered application messages rise strictly. Each is one that counts."""
    delivered = [made for made in calls if made.answer.delivered]
    must(all(share(made) and not is_gap_fill(made) for made in delivered), "what is delivered is a frame that counts")
    numbers = [number(made, 34) for made in delivered]
    must(all(a < b for a, b in zip(numbers, numbers[1:])), f"the numbers of delivered messages rise strictly: {numbers}")


def adds_up(calls):
    """02: E at the end is E at the start, plus ..."""
    moved = sum(end - begin for begin, end in filter(None, map(share, calls)))
    begin, end = calls[0].before.expected, calls[-1].answer.after.expected
    must(end == begin + moved, f"E at the end, {end}, is E at the start, {begin}, plus what the calls contribute, {moved}")


def each_once(calls):
    """02: Every number from the first E up to the one before the last E belongs to exactly one of these. So what they
    contribute lies end to end, whichever contributed it."""
    at, last = calls[0].before.expected, calls[-1].answer.after.expected
    for begin, end in sorted(filter(None, map(share, calls))):
        must(at == begin < end, f"a call contributes {begin} up to {end}, where the next number without one is {at}")
        at = end
    must(at == last, f"each number up to {last} belongs to a call, and {at} is the first without one")


def is_numbered(made):
    """From our peer, and no Sequence Reset without 123=Y, of which the number plays no part."""
    sender, target = ((first(made.frame, tag) or b"").hex() for tag in (49, 56))
    return (sender, target) == (made.before.peer, made.before.ours) and (not is_type(made, b"4") or is_gap_fill(made))


def quiet(calls):
    """02: Refused steps and duplicates contribute nothing, and a rejected message is never delivered. Nor is it later: the same
    bytes are not, and its number is passed, so that it is not as a possible duplicate either."""
    rejected = set()
    for made in calls:
        stays = made.answer.after.expected == made.before.expected
        idle = share(made) is None and stays and not made.answer.delivered
        must(idle or made.answer.refusal is None, "a refused step contributes nothing")
        must(idle or not is_duplicate(made), "a duplicate contributes nothing")
        if is_rejected(made):
            must(made.frame is not None and is_frame(made.frame), "only a frame is rejected")
            must(not is_numbered(made) or (number(made, 34) or 0) < made.answer.after.expected, "what is rejected is passed")
            rejected.add(made.frame)
        must(not (made.answer.delivered and made.frame in rejected), "a rejected message is never delivered")


def hold(calls):
    """All four of a sequence of calls, each on the record that the one before left, with no reset among them."""
    for made, behind in zip(calls, calls[1:]):
        must(made.answer.after == behind.before, "each call is on the record that the one before left")
    for sentence in (rise, adds_up, each_once, quiet) if calls else ():
        sentence(calls)
