"""Messages taken apart at the byte 1 and put together again, stores as words, the message that a replay must send, and what is
said of a duplicate's times: all of it from the document's words and without the model, for the tests that state what they
expect."""
import re
from datetime import datetime, timedelta

BAR = b"\x01"
FRONT = b"8=FIXT.1.1\x019="
PLACE, PLACES = 512, 64
LAST_USABLE = 999_999_990
DECIMALS = (b"31", b"32")
OURS, PEER = b"GW", b"MM"


def raw(text):
    return text.replace("|", "\x01").encode("latin-1")


def framed(body, digits=None):
    """The frame around a body, its length and its sum made right; the length in these digits on request."""
    front = FRONT + (digits or b"%d" % len(body)) + BAR + body
    return front + b"10=%03d" % (sum(front) % 256) + BAR


def messages(data):
    """The messages that stand in a reply behind each other."""
    return [FRONT + rest for rest in data.split(FRONT)[1:]]


def fields(frame):
    """Tag and value of each field of a message's body, in order; of a part without `=` all of it and nothing."""
    return [part.partition(b"=")[::2] for part in frame.split(BAR)[2:-2]]


def first(frame, tag):
    """01: the first part that begins with t and `=`; its value, or None."""
    label = b"%d=" % tag
    return next((part[len(label):] for part in frame.split(BAR)[2:-2] if part.startswith(label)), None)


def number(frame):
    return int(first(frame, 34))


def readable(frame, tag):
    """02: numbers have up to 12 digits; those read here are 1 to 999,999,999. None if it is not one."""
    value = first(frame, tag) or b""
    return int(value) if value.isdigit() and len(value) <= 12 and 1 <= int(value) <= 999_999_999 else None


def message(pairs):
    return framed(b"".join(tag + b"=" + value + BAR for tag, value in pairs))


def stamp(time):
    """A time in microseconds since 1970 as our messages carry it."""
    return (datetime(1970, 1, 1) + timedelta(microseconds=time)).strftime("%Y%m%d-%H:%M:%S.%f").encode()


def all_decimals(value):
    """A time with six decimals, of which those that it has not are zeros: text that sorts as times do, second 60 too."""
    return (value if b"." in value else value + b".").ljust(24, b"0")


def is_time(value):
    """Its shape, its day by the machine's own calendar, and its time of day; second 60 stands in any minute."""
    if not re.fullmatch(rb"\d{8}-([01]\d|2[0-3]):[0-5]\d:([0-5]\d|60)(\.\d{3}(\d{3})?)?", value):
        return False
    try:
        datetime.strptime(value[:8].decode(), "%Y%m%d")
    except ValueError:
        return False
    return True


def said_of_times(sent, original):
    """What is said of the 52 and 122 of a duplicate: reason and tag, None where it is ignored."""
    if original is None or sent is None:
        return b"1", b"122" if original is None else b"52"
    if not (is_time(sent) and is_time(original)):
        return b"6", b"122" if is_time(sent) else b"52"
    return (b"10", b"122") if all_decimals(original) > all_decimals(sent) else None


def report(own, number, time, ours=OURS, peer=PEER):
    """A Trade Capture Report as our call writes it, its own fields given as text."""
    head = b"35=AE\x0149=%s\x0156=%s\x0134=%d\x0152=%s\x01" % (ours, peer, number, stamp(time))
    return framed(head + raw(own))


def value_words(own):
    """A report's own fields as the words of the driver's VALUES; the counts are no values."""
    words = []
    for tag, value in (part.split(b"=", 1) for part in raw(own).split(BAR)[:-1]):
        if tag in DECIMALS:
            places = len(value.partition(b".")[2])
            words.append(f"{tag.decode()}=d{int(value.replace(b'.', b''))}.{places}")
        elif tag == b"448":
            words.append(f"party={value.hex()}")
        elif tag in (b"447", b"452"):
            words[-1] += f",{value.hex()}"
        elif tag not in (b"552", b"453"):
            words.append(f"{tag.decode()}=b{value.hex()}")
    return " ".join(words)


def store_word(places):
    """A store as a word, of the bytes in its places."""
    held = ((place, data.rstrip(b"\0")) for place, data in sorted(places.items()))
    return "32768" + "".join(f",{place}={data.hex()}" for place, data in held if data)


def again(frame, time):
    """02: each kept report goes out again under its old number with 43=Y, a new 52 and its first 52 as 122"""
    (kind, ours, peer, number, sent), own = fields(frame)[:5], fields(frame)[5:]
    return message([kind, ours, peer, number, (b"43", b"Y"), (b"52", stamp(time)), (b"122", sent[1]), *own])


def gap_fill(begin, end, time, ours=OURS, peer=PEER):
    """01: one message 4, 34=b, 43=Y, 122 equal to 52, 123=Y, 36 one above; in the order of our replies"""
    return message([(b"35", b"4"), (b"49", ours), (b"56", peer), (b"34", b"%d" % begin), (b"43", b"Y"), (b"52", stamp(time)),
                    (b"122", stamp(time)), (b"123", b"Y"), (b"36", b"%d" % (end + 1))])


def replayed(reports, at, to, time, ours=OURS, peer=PEER):
    """The message that a replay sends from one number on, and the last number that it covers, where these reports are kept
    by their numbers. 02: and each longest run of other numbers becomes one gap fill"""
    if at in reports:
        return again(reports[at], time), at
    end = min([to, *(kept - 1 for kept in reports if kept > at)])
    return gap_fill(at, end, time, ours, peer), end
