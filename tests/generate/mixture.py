"""The mixture of all generators by their weights, behind the desk examples and the listed odd lines."""
import random

from model import LANDED, LEAST_REPLY_ROOM

from . import duplicates, frames, gaps, odd, records, replays, reports, reports_in, steps, verdicts, writes
from .basics import AT_REST, CALL_TIME, LENT, chance, framed, hexed

# In this order: a seed's requests depend on it. Those of the requests of document 02 behind the others.
PARTS = [frames, verdicts, records, steps, writes, odd] + ([reports, reports_in] if 1 in LANDED else []) \
    + ([replays] if 4 in LANDED else []) + ([gaps] if 5 in LANDED else []) + ([duplicates] if 6 in LANDED else [])
WEIGHTS = {generator: weight for part in PARTS for generator, weight in part.WEIGHTS.items()}


def desk_requests():
    """Document 01's desk examples that are a single call."""
    def whole(line):
        return line.replace("|", "\x01").encode()
    header = "49=MM|56=GW|34={}|52=20240102-09:30:00|"
    order = "35=F|" + header.format(5) + "11=a|41=b|54=1|48=c|22=8|60=20240102-09:30:00|"
    report = "35=AD|" + header.format(32768) + "568=a|569=0|22=8|48=c|580=1|75=20240102|"
    for line in ("8=FIXT.1.1|9=5|35=0|10=241|", "8=FIXT.1.1|9=5|35=0|10=242|", "8=FIXT.1.1|9=05|35=0|10=241|", "",
                 "8=FIXT.1.1|9=40|8=FIXT.1.1|9=5|35=0|10=241|"):
        yield "read " + hexed(whole(line))
    call, behind = f"{CALL_TIME} {LEAST_REPLY_ROOM}", AT_REST + LENT
    yield f"tick {call} 4757 4d4d 1 1 2 30 0{AT_REST}"
    yield f"step {call} {hexed(framed(whole(report)))} 4757 4d4d 1 32768 1 30 0{behind}"
    for body in ("35=0|" + header.format(7), "35=4|" + header.format(9) + "36=5|", "35=4|" + header.format(9) + "36=4|",
                 "35=4|" + header.format(5) + "36=5|123=Y|"):
        yield f"step {call} {hexed(framed(whole(body)))} 4757 4d4d 1 5 1 30 0{behind}"
    yield "verdict " + hexed(whole(order + "453=2|448=P|447=D|452=1|"))
    yield "verdict " + hexed(whole(order + "453=1|447=D|448=P|452=1|"))


def requests(seed):
    """Request lines without end, the same for the same seed; some begin with the edition's word."""
    yield from desk_requests()
    yield from odd.ODD_LINES
    r = random.Random(seed)
    generators, weights = tuple(WEIGHTS), tuple(WEIGHTS.values())
    while True:
        for line in r.choices(generators, weights)[0](r):
            yield "fixt " + line if chance(r, 0.02) else line
