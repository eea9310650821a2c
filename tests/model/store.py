"""The store of document 02, Q-4: its places, which report each of them holds, and where a new one goes.

02: Keep the last 64 reports of Q-1 in a store that the host lends, 512 bytes a place, zeros behind. A store is bytes, of
any length; a place that counts as empty is None, whatever bytes it has."""
import functools
from collections import namedtuple
from datetime import datetime, timedelta

from .fields import first_field
from .frame import TRAILER, good_frame
from .record import LAST_USABLE_NUMBER, Record
from .report import LONGEST_REPORT, MSG_TYPE, dictionary_rejects, values_in, written
from .times import TIME_SHAPE
from .walk import verdict

PLACES, PLACE = 64, 512
STORE = 32_768                  # 02: 14, store not of 32,768 bytes
EMPTY_STORE = bytes(STORE)      # 02: a host lends a new session a zeroed one

# A report that is kept: its number, its values and its first 52.
Kept = namedtuple("Kept", "number values time")


def microseconds(time):
    """The time of which a 52 was written, where there is one: from 1970 on, no second 60."""
    if len(time) != len("YYYYMMDD-HH:MM:SS.ssssss") or not TIME_SHAPE.fullmatch(time):
        return None
    try:
        at = datetime.strptime(time.decode(), "%Y%m%d-%H:%M:%S.%f")
    except ValueError:
        return None
    return (at - datetime(1970, 1, 1)) // timedelta(microseconds=1) if at.year >= 1970 else None


@functools.lru_cache(maxsize=4096)
def kept_in(ours, peer, place):
    """02: A place that doesn't hold one AE frame as our report call writes it counts as empty: what it holds is read, and
    must be what a report call of this session writes of these values, under this number, at this time."""
    found = good_frame(place)
    if not found:
        return None
    start, end = found
    body = place[start:end - TRAILER]
    if verdict(body) or first_field(body, 35) != MSG_TYPE:
        return None
    number, values, time = int(first_field(body, 34)), values_in(body), microseconds(first_field(body, 52))
    if number > LAST_USABLE_NUMBER or time is None or dictionary_rejects(values):
        return None
    frame = written(Record(ours, peer, next_out=number), values, time)
    if len(frame) > LONGEST_REPORT or frame + bytes(PLACE - len(frame)) != place:
        return None
    return Kept(number, values, time)


def kept(record, store):
    """What each place holds: 02: as does the second of two with one number"""
    found, met = [], set()
    for at in range(0, STORE, PLACE):
        report = kept_in(record.ours, record.peer, store[at:at + PLACE])
        found.append(report if report and report.number not in met else None)
        met.update({report.number} if report else ())
    return found


def keep(record, store, frame):
    """02: a new one takes the first empty place, else the lowest number's"""
    held = kept(record, store)
    place = held.index(None) if None in held else min(range(PLACES), key=lambda place: held[place].number)
    return store[:PLACE * place] + frame + bytes(PLACE - len(frame)) + store[PLACE * (place + 1):]
