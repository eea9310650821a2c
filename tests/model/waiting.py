"""The moves of document 01 while Waiting: refusals 3 and 4, a logon with a reset, a logon without."""
from .record import ACTIVE


def waiting(move):
    """The move of a step while Waiting: a refusal's number or None."""
    if move.msg_type != b"A":
        return 3
    if move.n is None or move.wrong_comp_id() or move.verdict():
        return 4
    if move.first(141) == b"Y":
        logon_with_reset(move)
    else:
        logon_without_reset(move)
    return None


def accept_logon(move, reset):
    """01: An accepted logon sets Active and the heartbeat; our Logon repeats its 98, 108 and 1137. 02: what we write has
    none (zeros in front of numbers). E above the highest seen closes it, as do logon and any reset"""
    values = {98: move.first(98), 108: b"%d" % int(move.first(108)), 1137: move.first(1137)}
    if reset:
        values[141] = b"Y"
    move.send(b"A", values)
    move.record.status = ACTIVE
    move.close_gap()
    move.record.heartbeat = int(move.first(108))


def logon_with_reset(move):
    """01: 141=Y: with N = 1, E is 2, our Logon with 141=Y goes out as number 1, and the next is 2; else Logout. 02: An
    accepted logon with 141=Y zeroes the store"""
    if move.n != 1:
        return move.log_out()
    move.zeroes_store = True
    move.record.expected = 2
    move.record.next_out = 1
    return accept_logon(move, reset=True)


def logon_without_reset(move):
    """01: N < E, Logout; N = E, Logon, E + 1; N > E, Logon, then Resend Request from E. 02: a logon above E opens one"""
    if move.n < move.record.expected:
        return move.log_out()
    accept_logon(move, reset=False)
    if move.n == move.record.expected:
        move.record.expected += 1
    else:
        move.ask_from_expected()
    return None
