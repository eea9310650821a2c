"""Stores as an enemy would fill them, each with what counts in it by the document's words: places changed byte by byte,
swapped, doubled, of another session, shifted, with numbers at the edges, full.

02: A place that doesn't hold one AE frame as our report call writes it counts as empty, as does the second of two with one
number."""
from messages import BAR, LAST_USABLE, OURS, PEER, PLACE, PLACES, fields, framed, report

SENT = 1_704_187_800_000_000
SHORT = "571=T1|828=0|60=20240102-09:29:59|32=100|31=12.50|574=4|48=133215|22=8|552=1|54=1|"
OTHER = SHORT.replace("T1", "T2").replace("12.50", "0.07")
FULL = ("571=T1|828=99|60=20240102-09:29:59.123456|32=0.05|31=0|64=20240104|574=22|48=133215|22=8|552=1|54=2|1427=DESK|453=2|"
        "448=ALPHA|447=D|452=1|448=B|447=D|452=76|")
LONG = FULL.replace("DESK", "D" * 32).replace("ALPHA", "ALPHA2").replace("453=2", "453=7") + f"448={'C' * 32}|447=D|452=12|" * 5
STRINGS = (b"571", b"48", b"1427", b"448")
NUMBER, BEHIND, NEXT = 21, 30, 40       # of the report that is looked for, of a good one behind it, the next number out
ALL, FEW = ("replay", "report", "resend", "logon"), ("replay", "report")


class Case:
    """A store, and what counts in it: the frames by their places, or several such where one of them must hold."""

    def __init__(self, what, places, *held, next_out=NEXT, begins=(NUMBER, NUMBER - 2), to=None, asks=ALL, ours=OURS,
                 peer=PEER):
        self.what, self.places, self.held = what, places, held
        self.next_out, self.begins, self.to = next_out, begins, to or next_out - 1
        self.asks, self.ours, self.peer = asks, ours, peer


def telling(byte):
    """What a byte is changed to: 0, the byte 1, one more, bit 7 flipped, a digit."""
    return {0, 1, (byte + 1) % 256, byte ^ 0x80, ord("0")} - {byte}


def with_byte(data, at, *new):
    return data[:at] + bytes(new) + data[at + 1:]


def beside(place):
    """A place that is looked at, with a good report behind it, and what counts if it counts as empty."""
    good = report(SHORT, BEHIND, SENT)
    return {0: place, 1: good}, {1: good}


def bytes_changed():
    """Any byte changed, the sum not: in the frame or in the zeros behind, the place counts as empty."""
    frame = report(FULL, NUMBER, SENT)
    place = frame + bytes(PLACE - len(frame))
    yield Case("unchanged", beside(place)[0], {0: frame, **beside(place)[1]})
    for at in range(PLACE):
        for new in sorted(telling(place[at])):
            yield Case(f"byte {at} is {new}", *beside(with_byte(place, at, new)), asks=FEW if (at + new) % 4 else ALL)
    longest = report(LONG, NUMBER, SENT)
    assert len(longest) == PLACE, len(longest)
    yield Case("the longest", beside(longest)[0], {0: longest, **beside(longest)[1]})
    for at in range(PLACE):
        yield Case(f"byte {at} of the longest", *beside(with_byte(longest, at, longest[at] ^ (1 << at % 8))), asks=FEW)


# ---- A byte of the body changed, length and sum mended ---------------------------------------------------------------

def spots(body):
    """Each byte of a body: where it stands, the tag of its field, and whether it is in the field's value."""
    at = 0
    for part in body.split(BAR)[:-1]:
        tag, _, value = part.partition(b"=")
        for place in range(len(part) + 1):
            yield at + place, tag, len(tag) < place < len(part), value
        at += len(part) + 1


def numbered(frame):
    """Whether 34 has the form of a number that a report can have."""
    text = dict(fields(frame)).get(b"34", b"")
    return text.isdigit() and len(text) < 10 and not text.startswith(b"0")


def may_count(frame, tag, in_value, new):
    """False and True for what the words leave no doubt of, None else. A string may hold any byte but the byte 1; what is no
    value is as the call writes it or not; CompIDs and MsgType are this session's and AE; the other kinds have no such bytes."""
    if not in_value or tag in (b"35", b"49", b"56") or new == 1:
        return False
    if tag in STRINGS:
        return True
    return None if ord(" ") < new < 128 and numbered(frame) else False


def mended(what, frame, counts):
    places, others = beside(frame)
    whole = {0: frame, **others}
    return Case(what, places, *{True: (whole,), False: (others,), None: (whole, others)}[counts],
                asks=FEW if len(what) % 4 else ALL)


def bodies_changed():
    """A byte of the body changed, left out or doubled, with BodyLength and CheckSum made right."""
    body = report(FULL, NUMBER, SENT)[len("8=FIXT.1.1|9=208|"):-len("10=253|")]
    for at, tag, in_value, value in spots(body):
        for new in sorted(telling(body[at])):
            frame = framed(with_byte(body, at, new))
            yield mended(f"byte {at} of the body is {new}", frame, may_count(frame, tag, in_value, new))
        if at < 3:                      # no body begins so, and what would stand there is no message to take apart
            continue
        less, more = framed(with_byte(body, at)), framed(with_byte(body, at, body[at], body[at]))
        yield mended(f"byte {at} is left out", less, may_count(less, tag, in_value and len(value) > 1, body[at]))
        is_more = in_value or tag in STRINGS and body[at] == ord("=")       # a second = is the first byte of the value
        yield mended(f"byte {at} is doubled", more, may_count(more, tag, is_more, body[at]))


# ---- Whole places ----------------------------------------------------------------------------------------------------

def swapped():
    """Two places swapped: it is the same store for a replay, whose bytes are the same."""
    frames = {place: report(OTHER if place % 2 else SHORT, 20 + place, SENT + place) for place in range(5)}
    for one in (0, 1, 4, 5, 63):
        for other in (1, 3, 17, 62, 63):
            places = {place: frames.get(place, b"") for place in (*frames, one, other)}
            places[one], places[other] = places[other], places[one]
            yield Case(f"{one} and {other} swapped", places, {place: data for place, data in places.items() if data},
                       begins=range(1, 30))


def doubled():
    """One number in two places: only the first of them counts, whatever the second holds."""
    frame, changed, good = report(SHORT, NUMBER, SENT), report(OTHER, NUMBER, SENT + 1), report(SHORT, BEHIND, SENT)
    for one, other in ((0, 1), (1, 0), (5, 6), (6, 5), (0, 63), (63, 0), (62, 63)):
        for what, second in ("twice", frame), ("with another", changed), ("of another time", report(SHORT, NUMBER, SENT + 7)):
            held = {min(one, other): frame if one < other else second, 9: good}
            yield Case(f"in {one} and {other} {what}", {one: frame, other: second, 9: good}, held)
    yield Case("three times", {0: frame, 1: changed, 2: frame, 3: good}, {0: frame, 3: good})
    yield Case("the first damaged", {0: frame[:-1], 1: changed, 2: frame, 3: good}, {1: changed, 3: good})


def of_another_session():
    """Another CompID, one longer or shorter, swapped, cut at another place: no report of this session."""
    strangers = ((b"GX", b"MM"), (b"GW", b"MX"), (b"MM", b"GW"), (b"G", b"MM"), (b"GW", b"M"), (b"GWW", b"MM"), (b"GW", b"MMM"),
                 (b"GWM", b"M"), (b"G", b"WMM"), (b"gw", b"MM"), (b"GW", b"GW"), (b"MM", b"MM"), (b"G" * 11, b"M" * 11),
                 (b"GW", b"MM="), (b"GW ", b"MM"), (b"GW\0", b"MM"))
    for ours, peer in strangers:
        theirs, our_frame = report(SHORT, NUMBER, SENT, ours, peer), report(SHORT, NUMBER, SENT)
        yield Case(f"from {ours} to {peer}", *beside(theirs))
        yield Case(f"ours, seen by {ours} and {peer}", {0: our_frame, 1: theirs}, {1: theirs}, ours=ours, peer=peer)


def beside_each_other():
    """A frame behind a frame in one place, or bytes of another kind: the place holds more than one frame."""
    frame, other = report(SHORT, NUMBER, SENT), report(SHORT, NUMBER + 1, SENT)
    zeros = bytes(PLACE - len(frame))
    for what, data in (("twice", frame + frame), ("two", frame + other), ("a zero between two", frame + b"\0" + other),
                       ("three", frame * 3), ("half of another", frame + other[:90]), ("a bar behind it", frame + BAR),
                       ("a bar at the end", frame + zeros[1:] + BAR), ("another at the end", frame + zeros[len(other):] + other)):
        yield Case(f"{what} in one place", *beside(data))


def shifted():
    """A frame that does not begin where a place does, in one place or across the border of two, behind zeros or other bytes."""
    frame, good = report(SHORT, NUMBER, SENT), report(SHORT, BEHIND, SENT)
    for by in range(1, PLACE):
        data = bytes(by) + frame
        places = {0: data[:PLACE], 1: data[PLACE:], 2: good}
        yield Case(f"{by} zeros before it", places, {2: good}, asks=ALL if by % 8 == 1 else FEW)
    for front in b"x", b"8", BAR, b"8=FIXT.1.1\x019=", b"\xff" * 7:
        yield Case(f"{front} before it", *beside(front + frame))
    yield Case("across the last border", {0: good, 62: (bytes(400) + frame)[:PLACE], 63: frame[PLACE - 400:]}, {0: good})


def numbers():
    """Numbers at and above the next out count like any other; what no call can have given, does not."""
    for out in (NEXT, LAST_USABLE - 1, LAST_USABLE):
        for kept in (out - 1, out, out + 1, out + 2, LAST_USABLE - 1, LAST_USABLE, LAST_USABLE + 1, 999_999_999):
            frame = report(SHORT, kept, SENT)
            held = {0: frame} if kept <= LAST_USABLE else {}
            yield Case(f"{kept} with next out {out}", {0: frame}, held, next_out=out, begins=(out - 1, out - 3))
    for kept in range(LAST_USABLE - 2, 1_000_000_000):
        frame = report(SHORT, kept, SENT)
        yield Case(f"{kept} at the end", {0: frame}, {0: frame} if kept <= LAST_USABLE else {}, next_out=999_999_999,
                   begins=(LAST_USABLE - 4, LAST_USABLE, min(kept, 999_999_998)), asks=("replay",))


def ends():
    """Reports around the last number that was asked for: one behind it ends nothing."""
    for kept in range(NUMBER, NUMBER + 9):
        frame = report(SHORT, kept, SENT)
        yield Case(f"{kept}, asked for up to 25", {0: frame}, {0: frame}, begins=range(NUMBER - 1, 26), to=25)


def full():
    """Every place holds a report: a new one takes the lowest number's. One damaged or doubled: it takes that place."""
    frames = {place: report(SHORT, 1 + (7 * place + 3) % PLACES, SENT) for place in range(PLACES)}
    yield Case("full", frames, frames, next_out=80, begins=range(1, 80))
    for place in range(PLACES):
        others = {at: frame for at, frame in frames.items() if at != place}
        lowest = {**frames, place: report(OTHER, 70, SENT)}
        damaged = {**frames, place: frames[place][:-1] + b"\2"}
        yield Case(f"full but for {place}", damaged, others, next_out=80, begins=(1, 30))
        yield Case(f"full, another in {place}", lowest, lowest, next_out=80, begins=(1, 60))
    for place in range(1, PLACES, 9):
        others = {at: frame for at, frame in frames.items() if at != place}
        yield Case(f"full, {place} doubled", {**frames, place: frames[0]}, others, next_out=80, begins=(1, 30))


def cases():
    for part in (bytes_changed, bodies_changed, swapped, doubled, of_another_session, beside_each_other, shifted, numbers, ends,
                 full):
        yield from part()
