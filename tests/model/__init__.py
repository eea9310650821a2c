"""An independent model of document 01: frames, fields, dictionary, writer and session, written straight from its words.

It shares no code and no table with the library. `answer(request)` gives the driver's answer to one request line; run as
a program, `python3 tests/model`, it is a filter. What follows `01:`, and what stands behind a step's or rule's number,
is document 01's wording; `|` is the byte 1. There is a file for each section of the document:

  frame        the good frame, live positions, one reading, reading in pieces
  fields       the parts of a body, the first field of a tag
  dictionary   header, messages and groups, and which tags are of which kind
  kinds        form and value of one field; times: the shape and the calendar of times, the later of two, a reply's time;
               decimals
  walk         the verdict, ten steps at a field
  writer       the writer call
  record       the record and its ranges, new session, reconnect; gap: the gap in it
  moves        what a call on a session writes and reads; waiting, rules, serving: the moves themselves
  report       a Trade Capture Report: its values, what is written of them, reading them back
  store        the store: which report a place holds, where a new one goes; replay: what goes out of it again
  calls        step, tick, report and replay: refusals in order, then what they do
  words        the grammar of a request line; answers: the answer to each
  landed       which requests of document 02 are in

A request of document 02 stands in the files of its sections and, where it brings something new, in one of its own; its
wording follows `02:`. Q-1 decimals, dictionary, walk, rules, and the report; Q-3 frame, kinds; Q-4 record, serving, and
the store with its replay; Q-5 record, rules, waiting, and the gap; Q-6 times, rules; Q-7 and Q-8 the explanation; Q-9 the
settings, record; Q-11 frame, dictionary; Q-12 rules. Its request words go into answers. Users import names from here alone.
"""
from .answers import answer, rule_of, words_of
from .calls import replay, report, step, tick
from .decimals import Decimal, in_digits
from .dictionary import (ADMINISTRATIVE, DATES, DECIMALS, ENTRIES, FRAME_TAGS, FROM_ONE, FROM_ZERO, GROUP_OF_MEMBER,
                         GROUP_RANGES, GROUPS, HEADER, IN_DICTIONARY, MESSAGES, STRING_LENGTHS, TIMES, YES_OR_NO)
from .fields import cut, first_field, is_body, parts
from .frame import BAR, LONGEST_FRAME, MARK, TRAILER, good_frame, live, read, read_in_pieces
from .gap import NO_GAP, RE_ASK, Gap
from .kinds import number_range, of_its_kind
from .landed import LANDED
from .moves import Writing
from .record import (ACTIVE, CLOSED, END_OF_TIME, LEAST_REPLY_ROOM, WAITING, Record, in_range, is_running, new_session,
                     numbers_used_up, reconnect)
from .report import PARTY_TAGS, VALUE_TAGS, Values, values_in, written
from .store import EMPTY_STORE, PLACE, PLACES, STORE, keep, kept, kept_in
from .times import in_utc, is_time, moment
from .walk import verdict
from .words import RECORD_WORDS, bytes_of, record_of, report_values_of, store_of, store_word
from .writer import ORDER, WRITER_TAGS, write
