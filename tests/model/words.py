"""The words of a request line: numbers, bytes, records and the writer's pairs, and how an answer spells them.

The grammar of a request, where the driver's page leaves room:

  LINE     is what stands before a line feed; nothing is trimmed, so a carriage return makes it unreadable. A last line
           without a line feed is a line too, unless it is empty. There is no limit on the length of a line.
  words    are separated by exactly one space; a space at either end, two in a row or an empty line are `error`.
  `fixt`   may stand once before the request's own word and changes nothing.
  NUMBER   is `0`, or a digit 1 to 9 and further digits; no sign, no leading zero; at most 18446744073709551615.
  BYTES    is `-` for none, or one or more pairs of the digits 0-9 a-f.
  BUFLEN   is a NUMBER up to 1048576, so that the driver can always lend as much.
  RECORD   is BYTES BYTES and five NUMBERs, with Q-4 seven, with Q-5 eleven, each as large as a NUMBER can be, the status
           and the word for an open gap too. The answer's record repeats the request's words where the call left them
           alone: an overlong CompID stands in the answer whole, and so does a status above 2.
  STORE    (Q-4) is one word: its length, a NUMBER up to 1048576, then `,PLACE=BYTES` for any number of places of 512
           bytes, counted from 0, in any order, each at most once; the bytes of a place lie in it and in the length, and
           all others are zero. An answer has the places that are not all zero, rising, without the zeros at their ends.
  stream   takes any number of pieces, none too (`frames pending -`); each is BYTES, so an empty piece is `-`.
  write    BUFLEN TYPE PAIR..; TYPE is the MsgType in BYTES (`30` is a Heartbeat, `-` an empty type); PAIR is a NUMBER,
           `=`, then `n` NUMBER or `b` BYTES. The call has a place for 21 tags: 7 16 34 36 45 108 371 373 1409 are taken
           with `n` alone, 43 49 52 56 58 98 112 122 123 141 372 1137 with `b` alone. For one of these 21 the other
           letter is `error`, and so is giving it twice; this holds whatever the type. For any other tag both letters
           are readable, any number of times, and the answer is `refusal 8`.
  report   TIME BUFLEN RECORD VALUES.. (Q-1), with Q-4 a STORE behind the RECORD; the values in any order: a NUMBER, `=`, then `b` BYTES or `d` NUMBER `.`
           NUMBER; and `party=` with three BYTES and a comma between them, once for each party in order. The call has a
           place for eleven tags: 31 32 are taken with `d` alone, 22 48 54 60 64 571 574 828 1427 with `b` alone. For one
           of these the other letter is `error`, and so is giving it twice. For any other tag, also 552, 453 and those of
           a party, both letters are readable, any number of times, and the answer is `refusal 8` in its place.
  `error`  is also: an unknown word, too few or too many words. A line is read whole before any call is made, so
           `error` stands before every refusal.
"""
import re

from .decimals import Decimal
from .dictionary import DECIMALS, FROM_ONE, FROM_ZERO
from .gap import Gap
from .landed import LANDED
from .record import Record
from .report import PARTY_TAGS, VALUE_TAGS, Values
from .store import PLACE
from .writer import WRITER_TAGS

GREATEST_WORD = 2 ** 64 - 1
GREATEST_ROOM = 1_048_576
BASE_WORDS = 7                              # of a record; behind them the replay's two, and the gap's four
GAP_AT = BASE_WORDS + (2 if 4 in LANDED else 0)
RECORD_WORDS = GAP_AT + (4 if 5 in LANDED else 0)
NUMBER = re.compile(r"0|[1-9][0-9]{0,19}")
WRITER_NUMBERS = {tag for tag in WRITER_TAGS if tag in FROM_ONE or tag in FROM_ZERO}


class Unreadable(Exception):
    """The line is answered `error`."""


def number_of(word, greatest=GREATEST_WORD):
    if not NUMBER.fullmatch(word) or int(word) > greatest:
        raise Unreadable
    return int(word)


def bytes_of(word):
    if word == "-":
        return b""
    try:
        found = bytes.fromhex(word)
    except ValueError:
        raise Unreadable from None
    if not found or found.hex() != word:
        raise Unreadable
    return found


def record_of(words):
    numbers = [number_of(word) for word in words[2:GAP_AT]]
    gap = [Gap(*map(number_of, words[GAP_AT:]))] if 5 in LANDED else []
    return Record(bytes_of(words[0]), bytes_of(words[1]), *numbers, *gap)


def pair_of(word):
    """A tag with its number or bytes, out of `TAG=nNUMBER` or `TAG=bBYTES`."""
    tag, equals, value = word.partition("=")
    if not equals or value[:1] not in ("n", "b"):
        raise Unreadable
    return number_of(tag), number_of(value[1:]) if value[0] == "n" else bytes_of(value[1:])


def pairs_of(words):
    values = {}
    for tag, value in map(pair_of, words):
        if tag in WRITER_TAGS and (tag in values or isinstance(value, int) != (tag in WRITER_NUMBERS)):
            raise Unreadable
        values[tag] = value
    return values


def in_hex(value):
    return value.hex() or "-"


def in_words(record):
    words = [in_hex(record.ours), in_hex(record.peer), record.status, record.expected, record.next_out, record.heartbeat,
             record.last_sent]
    words += [record.at, record.to] if 4 in LANDED else []
    words += record.gap if 5 in LANDED else []
    return " ".join(map(str, words))


# ---- The store ------------------------------------------------------------------------------------------------------

def store_of(word):
    length, *places = word.split(",")
    store = bytearray(number_of(length, GREATEST_ROOM))
    met = set()
    for place in places:
        number, equals, value = place.partition("=")
        at, value = PLACE * number_of(number), bytes_of(value)
        if not equals or at in met or at >= len(store) or len(value) > min(PLACE, len(store) - at):
            raise Unreadable
        store[at:at + len(value)] = value
        met.add(at)
    return bytes(store)


def store_word(store):
    places = (store[at:at + PLACE].rstrip(b"\0") for at in range(0, len(store), PLACE))
    return ",".join([str(len(store)), *(f"{number}={place.hex()}" for number, place in enumerate(places) if place)])


# ---- The values of a report -----------------------------------------------------------------------------------------

def party_of(word):
    party = tuple(map(bytes_of, word.split(",")))
    if len(party) != len(PARTY_TAGS):
        raise Unreadable
    return party


def report_value_of(word):
    """A decimal out of `dWHOLE.PLACES`, bytes out of `bBYTES`."""
    if word[:1] == "b":
        return bytes_of(word[1:])
    whole, point, places = word[1:].partition(".")
    if word[:1] != "d" or not point:
        raise Unreadable
    return Decimal(number_of(whole), number_of(places))


def report_values_of(words):
    fields, parties = {}, []
    for name, equals, value in (word.partition("=") for word in words):
        if name == "party" and equals:
            parties.append(party_of(value))
            continue
        tag, value = number_of(name), report_value_of(value)
        if tag in VALUE_TAGS and (tag in fields or isinstance(value, Decimal) != (tag in DECIMALS)):
            raise Unreadable
        fields[tag] = value
    return Values(fields, parties)


def report_value_word(value):
    return f"d{value.whole}.{value.places}" if isinstance(value, Decimal) else f"b{in_hex(value)}"


def report_words(values):
    """A report's values in the order of the message."""
    fields = [f"{tag}={report_value_word(values.fields[tag])}" for tag in VALUE_TAGS if tag in values.fields]
    return " ".join(fields + ["party=" + ",".join(map(in_hex, party)) for party in values.parties])
