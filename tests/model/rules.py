"""The moves of document 01 while Active, "first rule that fits", and rule 6 by type. Each rule answers whether it fits."""
from .gap import asks, seen
from .landed import LANDED
from .serving import serve, unservable
from .times import is_later, is_time


def rule_1(move):
    """1. 34 unreadable: Logout."""
    if move.n is not None:
        return False
    move.log_out()
    return True


def rule_2(move):
    """2. 49 missing or not the peer's, or else 56 missing or not ours: Reject 9 with that tag, then Logout; E + 1 if
    N = E."""
    tag = move.wrong_comp_id()
    if tag is None:
        return False
    move.reject(9, tag)
    move.log_out()
    if move.n == move.record.expected:
        move.record.expected += 1
    return True


def rule_3(move):
    """3. Type 4 without 123=Y: a verdict gives Reject; 36 below E gives Reject 5, tag 36; E stays. Otherwise E becomes
    36. 02: E above the highest seen closes it, as do logon and any reset"""
    if move.msg_type != b"4" or move.first(123) == b"Y":
        return False
    finding = move.verdict()
    if finding:
        move.reject(*finding)
    elif int(move.first(36)) < move.record.expected:
        move.reject(5, 36)
    else:
        move.record.expected = int(move.first(36))
        move.close_gap()
    return True


def rule_4(move):
    """4. N > E: Resend Request 7=E, 16=0; E stays. An incoming Resend Request, if clean and not rejected below, is
    served first. 02: A too-high frame asks only if no gap is open, or E has moved since, or 10 seconds have passed"""
    if not move.n > move.record.expected:
        return False
    if move.msg_type == b"2" and not move.verdict() and not unservable(move):
        serve(move)
    if 5 in LANDED and not asks(move.record.gap, move.record.expected, move.time):
        move.record.gap = seen(move.record.gap, move.n)
    else:
        move.ask_from_expected()
    return True


def rule_5(move):
    """5. N < E: 43 not Y, Logout. 43=Y without 122, Reject 1, tag 122. Otherwise ignored. 02: All this follows the check for
    122; E stays."""
    if not move.n < move.record.expected:
        return False
    if move.first(43) != b"Y":
        move.log_out()
        return True
    finding = wrong_times(move.first(52), move.first(122))
    if finding:
        move.reject(*finding)
    return True


def wrong_times(sent, original):
    """Reason and tag of what is wrong with the 52 and 122 of a duplicate, or None.

    02: a frame with 43=Y and a 122 later than its 52 is now Reject 10, tag 122 .. equal times pass. A missing 52 is Reject 1,
    tag 52; a 52 or 122 that breaks its form or the calendar is Reject 6 with that tag, 52 first."""
    if original is None:
        return 1, 122
    if 6 not in LANDED:
        return None
    if sent is None:
        return 1, 52
    if not is_time(sent):
        return 6, 52
    if not is_time(original):
        return 6, 122
    return (10, 122) if is_later(original, sent) else None


def rule_6(move):
    """6. N = E: a verdict gives Reject, E + 1. Then by type; where not said here, E + 1."""
    move.record.expected = move.n + 1
    if 1 in LANDED and move.msg_type == b"AE":
        return report_in(move)
    finding = move.verdict()
    if finding:
        move.reject(*finding)
    else:
        IN_TURN[move.msg_type](move)
    return True


def report_in(move):
    """02: in rule 6 an AE from a member, whatever its verdict, is Reject 11, tag 35, no 372"""
    move.reject(11, 35, naming_type=False)
    return True


RULES = (rule_1, rule_2, rule_3, rule_4, rule_5, rule_6)


def test_request_in(move):
    """01: Type 1: Heartbeat with its 112."""
    move.send(b"0", {112: move.first(112)})


def resend_request_in(move):
    """01: Type 2: gap fill, below. 02: Demand 2's serving rule now reads this way"""
    tag = unservable(move)
    if tag:
        move.reject(5, tag)
    else:
        serve(move)


def gap_fill_in(move):
    """01: Gap fill: 36 not above N, Reject 5, tag 36, E + 1; else E becomes 36."""
    new = int(move.first(36))
    if not new > move.n:
        move.reject(5, 36)
    else:
        move.record.expected = new


def logout_in(move):
    """01: Type 5: Logout, Closed."""
    move.log_out(session_status=4)


def logon_in(move):
    """01: A: Reject 99, tag 35."""
    move.reject(99, 35)


def application_in(move):
    """01: AD, F: delivered."""
    move.delivered = True


def nothing(move):
    """01: 0, 3: nothing."""


IN_TURN = {b"0": nothing, b"1": test_request_in, b"2": resend_request_in, b"3": nothing, b"4": gap_fill_in,
           b"5": logout_in, b"A": logon_in, b"AD": application_in, b"F": application_in}
