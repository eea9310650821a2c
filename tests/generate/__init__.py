"""Seeded requests for the comparison of the driver with the model: every generator is a small function that takes a
random source and gives request lines. `requests(seed)` mixes them by weight, without end. `|` is the byte 1.

  basics       bytes framed, joined, at random or damaged; values: good ones and edges of each kind
  bodies       messages as rows of parts; faults, groups: one fault in them
  frames       read and stream; verdicts: fields and verdict; records: new, reconnect and tick
  incoming     a message for a session; steps: step
  writes       write; odd: lines that make no sense
  sides        Trade Capture Reports, and one fault in their groups; reports: report; reports_in: verdict, report-values
               and step with them
  stores       what a place of a store may hold, and stores; replays: replay, report and step with them
  gaps         step on records with an open gap, and broken ones; duplicates: step with 52 and 122 around each other
  mixture      all of them, each file with its own weights

A request of document 02 brings its generators in a file of its own, with its weights, behind those that are there.
"""
from .basics import BAR, framed
from .frames import read_every_front, read_length, read_noise, read_one, read_soup
from .mixture import WEIGHTS, requests
from .records import any_session, any_store, call_time, room
from .steps import step_any, step_not_one_frame
from .verdicts import verdict_byte, verdict_faulty, verdict_length, verdict_noise
